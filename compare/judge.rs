//! judge THEIRS OURS [WITHOUT]: holds our answers against the crate's, answer by answer, and counts. THEIRS is what the oracle prints with
//! --added, OURS what `ours` prints of the same cases; WITHOUT names answers that are left out, joined by commas. Ends with 1 at a difference.
//!
//! What is compared is what document 01 says: every answer up to the first error. Outside the domain of the comparison an answer is left
//! out, if the reason touches it, and counted apart. A listing of imports or exports that the crate refuses gives only the refusal there.

use std::collections::{BTreeMap, BTreeSet};
use std::fs::File;
use std::io::{BufRead, BufReader};

/// The lines of one case, its name first; none at the end.
struct Blocks {
    lines: std::io::Lines<BufReader<File>>,
}

impl Blocks {
    fn open(path: &str) -> Blocks {
        Blocks { lines: BufReader::with_capacity(1 << 20, File::open(path).expect(path)).lines() }
    }

    fn next(&mut self) -> Vec<String> {
        let mut block = vec![];
        for line in self.lines.by_ref() {
            let line = line.expect("line");
            if line.is_empty() {
                break;
            }
            block.push(line);
        }
        block
    }
}

fn kind(line: &str) -> &str {
    line.split(' ').next().unwrap_or("")
}

/// The refusal in an answer, if there is one: its number.
fn refusal(line: &str) -> Option<u32> {
    let mut words = line.split(' ').skip_while(|w| *w != "error").skip(1);
    words.next()?.parse().ok()
}

/// Whether a reason to be outside the domain touches an answer of this kind.
fn touches(reason: &str, kind: &str) -> bool {
    match reason {
        "address" | "length4" => ["import", "resolve", "export", "exports", "lookup"].contains(&kind),
        "equalkeys" => ["order", "line", "sym"].contains(&kind),
        // The crate follows document 01's rule for padding; a lookup among unordered exports is 9 under --added.
        "padding" | "exportorder" => false,
        other => panic!("reason {other}"),
    }
}

#[derive(Default)]
struct Count {
    compared: u64,
    different: u64,
    outside: u64,
    outside_equal: u64,
    refused: BTreeMap<u32, u64>,
}

struct Judge {
    counts: BTreeMap<String, Count>,
    cases: u64,
    too_long: u64,
    /// The shortest case of each kind of answer that differs.
    worst: BTreeMap<String, (usize, String)>,
    without: BTreeSet<String>,
}

impl Judge {
    fn case(&mut self, theirs: &[String], ours: &[String]) {
        self.cases += 1;
        assert_eq!(theirs[0], ours[0], "the two sides answer different cases");
        let length: usize = theirs[0].split(' ').nth(3).and_then(|w| w.parse().ok()).expect("length");
        if length > 16_777_216 {
            // Outside the domain; document 01 says 11 to every call.
            self.too_long += 1;
            for line in &ours[1..] {
                self.answer(&theirs[0], length, kind(line), &[format!("{} error 11", call(line))], &[line.clone()]);
            }
            return;
        }
        let reasons: Vec<&str> = match theirs.get(1).map(|l| l.as_str()) {
            Some(l) if l.starts_with("domain no ") => l["domain no ".len()..].split(',').collect(),
            _ => vec![],
        };
        let theirs_by = by_call(&theirs[1..]);
        let ours_by = by_call(&ours[1..]);
        let calls: BTreeSet<&String> = theirs_by.keys().chain(ours_by.keys()).collect();
        for c in calls {
            let k = kind(c);
            if self.without.contains(k) {
                continue;
            }
            let t = theirs_by.get(c).map_or(&[][..], |v| v);
            let mut o = ours_by.get(c).map_or(&[][..], |v| v);
            if (k == "import" || k == "export") && t.len() == 1 && refusal(&t[0]).is_some() && !o.is_empty() {
                o = &o[o.len() - 1..];
            }
            if reasons.iter().any(|r| touches(r, k)) {
                let count = self.counts.entry(k.into()).or_default();
                count.outside += t.len() as u64;
                count.outside_equal += if t == o { t.len() as u64 } else { 0 };
                continue;
            }
            self.answer(&theirs[0], length, k, t, o);
        }
    }

    /// The answers of one call.
    fn answer(&mut self, case: &str, length: usize, kind: &str, theirs: &[String], ours: &[String]) {
        let count = self.counts.entry(kind.into()).or_default();
        count.compared += theirs.len().max(ours.len()) as u64;
        if let Some(n) = theirs.last().and_then(|l| refusal(l)) {
            *count.refused.entry(n).or_default() += 1;
        }
        if theirs == ours {
            return;
        }
        let at = (0..).find(|&i| theirs.get(i) != ours.get(i)).unwrap();
        count.different += theirs.len().max(ours.len()) as u64 - at as u64;
        let worst = self.worst.entry(kind.into()).or_insert((usize::MAX, String::new()));
        if length < worst.0 {
            let show = |l: Option<&String>| l.map_or("nothing".to_string(), |l| l.chars().take(300).collect());
            *worst = (length, format!("{case}\n    theirs: {}\n    ours:   {}", show(theirs.get(at)), show(ours.get(at))));
        }
    }

    fn print(&self) -> bool {
        let mut all = Count::default();
        for (kind, c) in &self.counts {
            let numbers: Vec<String> = c.refused.iter().map(|(n, k)| format!("{n}: {k}")).collect();
            let refused = if numbers.is_empty() { String::new() } else { format!("; refused {}", numbers.join(", ")) };
            let outside = if c.outside == 0 { String::new() } else { format!("; outside the domain {} ({} of them equal)", c.outside, c.outside_equal) };
            println!("{kind}: {} answers, {} different{refused}{outside}", c.compared, c.different);
            all.compared += c.compared;
            all.different += c.different;
            all.outside += c.outside;
        }
        for (kind, (_, text)) in &self.worst {
            println!("shortest difference of {kind}: {text}");
        }
        println!("{} cases ({} too long), {} answers compared, {} outside the domain, {} different", self.cases, self.too_long, all.compared, all.outside, all.different);
        all.different == 0
    }
}

/// The call that a line answers: its kind, and what was asked where the line repeats that.
fn call(line: &str) -> String {
    let asked = match kind(line) {
        "info" | "sym" | "resolve" | "lookup" | "name" | "block" => 2,
        _ => 1,
    };
    line.split(' ').take(asked).collect::<Vec<_>>().join(" ")
}

fn by_call(lines: &[String]) -> BTreeMap<String, Vec<String>> {
    let mut by: BTreeMap<String, Vec<String>> = BTreeMap::new();
    for line in lines {
        if kind(line) != "domain" {
            by.entry(call(line)).or_default().push(line.clone());
        }
    }
    by
}

fn main() {
    let args: Vec<String> = std::env::args().skip(1).collect();
    let (mut theirs, mut ours) = (Blocks::open(&args[0]), Blocks::open(&args[1]));
    let without = args.get(2).map_or(BTreeSet::new(), |w| w.split(',').map(|k| k.to_string()).collect());
    let mut judge = Judge { counts: BTreeMap::new(), cases: 0, too_long: 0, worst: BTreeMap::new(), without };
    loop {
        let (t, o) = (theirs.next(), ours.next());
        if t.is_empty() && o.is_empty() {
            break;
        }
        assert!(!t.is_empty() && !o.is_empty(), "one side answers fewer cases: {} {}", t.len(), o.len());
        judge.case(&t, &o);
    }
    let equal = judge.print();
    std::process::exit(if equal { 0 } else { 1 });
}
