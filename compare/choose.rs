//! choose thin < CASES | choose DIR [NUMBER CASES ANSWERS]..: makes the fixed list of cases that the program `replay` answers in the gate.
//!
//! thin: drops the cases that are too long for the list or at an odd address, and all but a few of what each case asks.
//! Else, of each file CASES, whose answers by the oracle (--added) are in ANSWERS, at most NUMBER cases are chosen: always the one that shows the
//! most pairs of kinds of answers and of limits in itself not seen so far, for its bytes. DIR/stdin becomes the list (its form stands at the head of
//! crates/replay/src/main.rt) and DIR/stdout what the crate answered: the oracle's lines, without those that are outside the domain of the
//! comparison (compare/README.md) and those that say nothing of an answer. The last line says what was made.

use std::collections::{BTreeMap, BTreeSet, BinaryHeap, HashMap, HashSet};
use std::io::{BufRead, BufReader, Write};

/// A case of the oracle's form.
struct Case {
    kind: String,
    keys: BTreeMap<String, String>,
}

/// The names of answers, in the order of the calls' numbers (crates/replay/src/main.rt). The second `import` is the call that shows only a refusal.
const NAMES: [&str; 17] = [
    "sub", "order", "file", "line", "inlinee", "import", "import", "export", "exports", "symbols", "program", "table", "info", "sym", "resolve", "lookup",
    "name",
];

/// The names of walks, closed by `end` or an error.
const WALKS: [&str; 7] = ["sub", "file", "line", "inlinee", "import", "export", "sym"];

/// The answers of a case, in the oracle's order.
const AREA: [&str; 2] = ["sub", "order"];
const MODULE: [&str; 2] = ["symbols", "program"];
const LINES: [&str; 4] = ["file", "line", "info", "sym"];
const TABLES: [&str; 6] = ["inlinee", "import", "resolve", "export", "exports", "lookup"];
const STRINGS: [&str; 2] = ["table", "name"];

/// The lists of what a case asks: the key, the name of the answers, whether the numbers are in hex.
const LISTS: [(&str, &str, bool); 5] =
    [("files", "info", false), ("syms", "sym", true), ("imports", "resolve", true), ("exports", "lookup", true), ("offs", "name", false)];

impl Case {
    fn parse(line: &str) -> Case {
        let mut words = line.split(' ');
        let kind = words.next().expect("kind").to_string();
        words.next();
        Case { kind, keys: words.map(|w| w.split_once('=').expect(w)).map(|(k, v)| (k.to_string(), v.to_string())).collect() }
    }

    fn text(&self, key: &str) -> &str {
        self.keys.get(key).map_or("", |v| v.as_str())
    }

    fn list(&self, key: &str) -> Vec<&str> {
        self.text(key).split(',').filter(|s| !s.is_empty()).collect()
    }

    fn bytes(&self) -> Vec<u8> {
        let hex = self.text("hex");
        let hex = if hex == "-" { "" } else { hex };
        (0..hex.len() / 2).map(|i| u8::from_str_radix(&hex[2 * i..2 * i + 2], 16).expect("hex")).collect()
    }

    /// The calls, in the order in which the oracle answers them. What a reason to be outside the domain touches is not called.
    fn calls(&self, reasons: &[&str]) -> Vec<Call> {
        let of: Vec<&[&'static str]> = match self.kind.as_str() {
            "area" => vec![&AREA, &LINES, &TABLES],
            "module" => vec![&MODULE, &LINES, &TABLES],
            _ => vec![&STRINGS],
        };
        let outside = |name: &str| {
            reasons.iter().any(|r| match *r {
                "address" | "length4" => TABLES[1..].contains(&name),
                "equalkeys" => ["order", "line", "sym"].contains(&name),
                _ => false,
            })
        };
        of.concat().into_iter().filter(|name| !outside(name)).flat_map(|name| Call::each(self, name)).collect()
    }
}

/// A call: its number, the name of its answers, and what is asked: a word, and of a symbol its section.
struct Call {
    number: u8,
    name: &'static str,
    argument: Option<(u32, u16)>,
}

impl Call {
    /// The calls of a name: one, or one for each member of its list.
    fn each(case: &Case, name: &'static str) -> Vec<Call> {
        let number = NAMES.iter().position(|n| *n == name).expect(name) as u8;
        let Some((key, _, hex)) = LISTS.iter().find(|l| l.1 == name) else {
            return vec![Call { number, name, argument: None }];
        };
        let parse = |s: &str| if *hex { u32::from_str_radix(s, 16) } else { s.parse() }.expect("number");
        let argument = |s: &str| match s.split_once(':') {
            Some((section, offset)) => (parse(offset), section.parse().expect("section")),
            None => (parse(s), 0),
        };
        case.list(key).iter().map(|s| Call { number, name, argument: Some(argument(s)) }).collect()
    }
}

/// A case with its answers.
struct Answered {
    case: String,
    input: Vec<u8>,
    length: String,
    lines: Vec<String>,
    /// The kinds of its answers, and the limits in itself.
    shows: Vec<u32>,
}

fn word(line: &str, i: usize) -> &str {
    line.split(' ').nth(i).unwrap_or("")
}

fn error(line: &str) -> Option<String> {
    line.split_once(" error ").map(|(_, e)| e.to_string())
}

fn some(n: usize, most: usize) -> usize {
    n.min(most)
}

/// What kind of answer a line is: a refusal, the number of records before it, which of its fields are at a limit.
fn shows(line: &str, before: usize) -> String {
    let name = word(line, 0);
    if let Some(e) = error(line) {
        let carried = if name == "sub" { word(&e, 1) } else { "" };
        return format!("{name} error {} {carried} {}", word(&e, 0), some(before, 2));
    }
    let last = line.rsplit(' ').next().unwrap_or("");
    let size = |s: &str| if s == "-" { 0 } else { s.len() / 2 };
    let members = |s: &str| if s == "-" { 0 } else { s.split(',').count() };
    let edge = |s: &str| if ["-", "0", "1", "65535", "16777215", "ffffffff", "4294967295"].contains(&s) { s.to_string() } else { String::new() };
    match name {
        _ if last == "end" => format!("{name} end {}", some(before, 3)),
        "sub" => format!("sub {} {}", word(line, 1), some(word(line, 3).parse().unwrap(), 5)),
        "order" => {
            let places: Vec<usize> = line.split(' ').skip(1).filter_map(|p| p.parse().ok()).collect();
            format!("order {} {}", some(places.len(), 4), places.windows(2).all(|p| p[0] < p[1]))
        }
        "file" => format!("file {} {}", word(line, 3), some(size(word(line, 4)), 33)),
        "info" => format!("info {} {}", word(line, 3), some(size(word(line, 4)), 4)),
        "line" | "sym" => {
            let at = if name == "line" { 2 } else { 3 };
            let fields: Vec<String> = [at, at + 2, at + 4, at + 5].iter().map(|i| edge(word(line, *i))).collect();
            format!("{name} {} {last}", fields.join(" "))
        }
        "inlinee" | "import" => format!("{name} {}", some(members(last), 3)),
        "resolve" => "resolve".into(),
        "export" => format!("export {} {}", word(line, 1), some(before, 3)),
        "exports" => format!("exports {}", some(last.parse().unwrap(), 9)),
        "name" => format!("name {}", some(size(last), 3)),
        _ => format!("{name} {}", if ["yes", "none"].contains(&last) { last } else { "" }),
    }
}

/// The word at a place, or 0.
fn word_at(bytes: &[u8], at: usize) -> i64 {
    bytes.get(at..at + 4).map_or(0, |b| u32::from_le_bytes(b.try_into().unwrap()) as i64)
}

/// What is at a limit in a case itself: a string table's version and its length, a module's sizes, the lengths of an area's bodies.
fn stands(case: &Case) -> Vec<String> {
    let bytes = case.bytes();
    let word = |at| word_at(&bytes, at);
    let over = |n: i64| (n - bytes.len() as i64).clamp(-2, 2);
    let size = |key: &str| case.text(key).parse::<i64>().expect(key);
    match case.kind.as_str() {
        "strings" => vec![
            format!("version {}", word(4).min(4)),
            format!("names {} {}", over(24 + word(8)), word(8).min(4)),
            format!("there {}", bytes.len().min(25)),
        ],
        "module" => vec![
            format!("parts {} {}", over(size("sym") + size("c13")), size("c11").min(2)),
            format!("symbols {} {} {}", size("sym").min(9), over(size("sym")), word(0).min(5)),
        ],
        _ => bodies(&bytes),
    }
}

/// The lengths of the bodies of an area, and how the first record of each ends, against the body's end or the block's.
fn bodies(area: &[u8]) -> Vec<String> {
    let word = |at| word_at(area, at);
    let ends = |at: i64, end: i64| (at - end).clamp(-4, 4);
    let (mut at, mut out) = (0, vec![]);
    while at + 8 <= area.len() {
        let (kind, length, body) = (word(at), word(at + 4) as usize, at + 8);
        out.push(format!("body {kind:x} {} {}", length.min(37), body + length > area.len()));
        let (here, end) = (body as i64, (body + length).min(area.len()) as i64);
        let entry = word(body + 4) & 0xff;
        out.push(match kind {
            0xf2 => {
                let (columns, count, size) = (word(body + 4) >> 16 & 1, word(body + 16), word(body + 20));
                format!("block {columns} {} {}", ends(12 + count * (8 + 4 * columns), size), ends(here + 12 + size, end))
            }
            0xf4 => format!("entry {} {} {}", word(body + 4) >> 8 & 0xff, entry % 4, ends(here + 6 + entry, end)),
            0xf6 => format!("inlinee {} {}", word(body).min(2), ends(here + 20 + 4 * word(body + 16), end)),
            0xf7 => format!("module {}", ends(here + 8 + 4 * word(body + 4), end)),
            _ => String::new(),
        });
        at = body + length;
    }
    out.push(format!("left {}", area.len() as i64 - at as i64));
    out
}

/// A case as the list has it. An area is the module of the sizes 0, 0 and its length.
fn listed(case: &Case, calls: &[Call]) -> Vec<u8> {
    let bytes = case.bytes();
    let mut out = vec![calls.len().try_into().expect("calls")];
    out.extend(u16::try_from(bytes.len()).expect("length").to_le_bytes());
    let sizes = match case.kind.as_str() {
        "area" => [0, 0, bytes.len() as u32],
        "module" => ["sym", "c11", "c13"].map(|key| case.text(key).parse().expect(key)),
        _ => [0; 3],
    };
    out.extend(sizes.iter().flat_map(|s| s.to_le_bytes()));
    out.extend(bytes);
    for call in calls {
        out.push(call.number);
        if let Some((word, section)) = call.argument {
            out.extend(word.to_le_bytes());
            out.extend(section.to_le_bytes());
        }
    }
    out
}

/// The answers that are kept, held against the calls: each call has its name on each of its lines, and a walk is closed. The crate collects
/// imports before it answers, so a listing that it refuses is its refusal alone, and is called by another number.
fn kept(calls: &mut [Call], answers: &[String], shown: &mut Vec<String>) -> Vec<String> {
    let names: BTreeSet<&str> = calls.iter().map(|c| c.name).collect();
    let mut lines = answers.iter().filter(|l| names.contains(word(l, 0)));
    let mut out = vec![];
    for call in calls {
        let mut before = 0;
        loop {
            let line = lines.next().expect("a call without an answer");
            assert!(word(line, 0) == call.name && !line.contains("panic") && !line.contains("other"), "{line}");
            shown.push(shows(line, before));
            // A refusal says what it carries, or 0.
            out.push(match error(line) {
                Some(e) if e.contains("0x") => line.replace("0x", ""),
                Some(_) => format!("{line} 0"),
                None => line.clone(),
            });
            before += 1;
            if call.name == "import" && error(line).is_some() {
                call.number = 6;
            }
            if !WALKS.contains(&call.name) || line.ends_with(" end") || error(line).is_some() {
                break;
            }
        }
    }
    assert!(lines.next().is_none(), "an answer without a call");
    out
}

fn read(cases: &str, answers: &str, names: &mut HashMap<String, u32>) -> Vec<Answered> {
    let cases = BufReader::new(std::fs::File::open(cases).expect(cases)).lines();
    let mut answers = BufReader::new(std::fs::File::open(answers).expect(answers)).lines().map(|l| l.expect("line"));
    cases
        .map(|line| {
            let line = line.expect("line");
            let case = Case::parse(&line);
            let block: Vec<String> = answers.by_ref().take_while(|l| !l.is_empty()).collect();
            let domain = block.iter().find_map(|l| l.strip_prefix("domain no ")).unwrap_or("");
            let mut calls = case.calls(&domain.split(',').collect::<Vec<_>>());
            let mut shown = stands(&case);
            let lines = kept(&mut calls, &block[1..], &mut shown);
            let mut shows: Vec<u32> = shown
                .into_iter()
                .map(|s| {
                    let n = names.len() as u32;
                    *names.entry(s).or_insert(n)
                })
                .collect();
            shows.sort_unstable();
            shows.dedup();
            // Its name is left out: two cases may differ in that alone.
            let text = line.splitn(3, ' ').last().unwrap().into();
            Answered { case: text, input: listed(&case, &calls), length: word(&block[0], 3).into(), lines, shows }
        })
        .collect()
}

impl Answered {
    /// The pairs of its kinds of answers that are not in `seen`.
    fn new_pairs<'a>(&'a self, seen: &'a HashSet<(u32, u32)>) -> impl Iterator<Item = (u32, u32)> + 'a {
        self.shows.iter().flat_map(|a| self.shows.iter().map(|b| (*a, *b))).filter(|(a, b)| a <= b).filter(|p| !seen.contains(p))
    }

    /// How much it shows for its bytes; among equals the earlier one is first.
    fn worth(&self, seen: &HashSet<(u32, u32)>) -> u64 {
        let cost = 60 + self.input.len() + self.lines.iter().map(|l| l.len()).sum::<usize>() / 4;
        1_000_000 * self.new_pairs(seen).count() as u64 / cost as u64
    }
}

/// At most `number` of the cases, each the one of the greatest worth when it is taken.
fn choose(number: usize, from: Vec<Answered>, seen: &mut HashSet<(u32, u32)>, taken: &mut HashSet<String>) -> Vec<Answered> {
    let mut from: Vec<Option<Answered>> = from.into_iter().map(Some).collect();
    let mut heap: BinaryHeap<(u64, usize)> = from.iter().enumerate().map(|(i, a)| (a.as_ref().unwrap().worth(seen), usize::MAX - i)).collect();
    let mut chosen = vec![];
    while chosen.len() < number {
        let Some((worth, at)) = heap.pop() else { break };
        let i = usize::MAX - at;
        let now = from[i].as_ref().unwrap().worth(seen);
        if now == 0 {
            continue;
        }
        if now < worth {
            heap.push((now, at));
            continue;
        }
        let one = from[i].take().unwrap();
        let new: Vec<(u32, u32)> = one.new_pairs(seen).collect();
        seen.extend(new);
        if taken.insert(one.case.clone()) {
            chosen.push((i, one));
        }
    }
    chosen.sort_by_key(|c| c.0);
    chosen.into_iter().map(|c| c.1).collect()
}

fn thin() {
    for line in std::io::stdin().lines() {
        let line = line.expect("line");
        let mut case = Case::parse(&line);
        if case.keys.contains_key("at") || case.text("hex").len() > 2 * 700 {
            continue;
        }
        for (key, _, _) in LISTS {
            let all = case.list(key).join(",");
            let all: Vec<&str> = all.split(',').filter(|s| !s.is_empty()).collect();
            let most = if key == "offs" { 8 } else { 4 };
            if all.len() > most {
                let some: Vec<&str> = (0..most).map(|i| all[i * (all.len() - 1) / (most - 1)]).collect();
                case.keys.insert(key.into(), some.join(","));
            }
        }
        let keys: Vec<String> = case.keys.iter().map(|(k, v)| format!("{k}={v}")).collect();
        println!("{} {} {}", case.kind, word(&line, 1), keys.join(" "));
    }
}

fn main() {
    let args: Vec<String> = std::env::args().skip(1).collect();
    if args[0] == "thin" {
        return thin();
    }
    let (mut names, mut seen, mut taken) = (HashMap::new(), HashSet::new(), HashSet::new());
    let mut chosen = vec![];
    for group in args[1..].chunks_exact(3) {
        let cases = read(&group[1], &group[2], &mut names);
        let of = cases.len();
        let some = choose(group[0].parse().expect("number"), cases, &mut seen, &mut taken);
        println!("{}: {} of {of} cases", group[1], some.len());
        chosen.extend(some);
    }
    let mut list = (chosen.len() as u32).to_le_bytes().to_vec();
    let (mut text, mut answers) = (String::new(), 0);
    let mut numbers: BTreeMap<u32, usize> = BTreeMap::new();
    for (i, one) in chosen.iter().enumerate() {
        list.extend(&one.input);
        text += &format!("case {} {}\n{}\n\n", i + 1, one.length, one.lines.join("\n"));
        answers += one.lines.len();
        for e in one.lines.iter().filter_map(|l| error(l)) {
            *numbers.entry(word(&e, 0).parse().expect("number")).or_default() += 1;
        }
    }
    text += &format!("read {} {1} {1}\n", chosen.len(), list.len());
    std::fs::File::create(format!("{}/stdin", args[0])).and_then(|mut f| f.write_all(&list)).expect("stdin");
    std::fs::File::create(format!("{}/stdout", args[0])).and_then(|mut f| f.write_all(text.as_bytes())).expect("stdout");
    let numbers: Vec<String> = numbers.iter().map(|(n, k)| format!("{n}: {k}")).collect();
    println!("refusals {}", numbers.join(", "));
    println!("{} cases, {answers} answers; {} bytes of cases, {} of answers", chosen.len(), list.len(), text.len());
}
