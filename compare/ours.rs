//! ours < CASES: answers cases through the static library of the crate `c13`, in the oracle's form (oracle/README.md). Lines and files are asked one a
//! call and again many a call, lines also with other body lists than the area's, and lookups again in what was found once; an answer that is another one
//! then is written out, and so differs from the crate's.

use c13::calls::{self, RecordWord, END_LINES_CRATE, FILE_RECORD, GIVEN, LAST, LINE_STATE, NONE, RECORD, REFUSED, SUB_STATE, TABLE_STATE};
use std::collections::HashMap;
use std::fmt::Write as _;
use std::io::{BufRead, BufReader, BufWriter, Write};

/// The words lent to a call: a walk's state in front, and the answer.
struct Words([u64; MOST]);

/// The most that a call asks for.
const MOST: usize = LINE_STATE + RECORD;

/// What a call answered.
enum Said {
    None,
    Given,
    /// Given, and nothing comes behind it.
    Last,
    Refused(String),
}

impl Words {
    /// A walk at its start. All zeros is also the crate's reading of end lines, which is the one that is compared.
    fn new() -> Words {
        Words([0; MOST])
    }

    /// The same state again.
    fn again(&self) -> Words {
        Words(self.0)
    }

    /// `state` is the number of words of a walk's state, behind which a refusal stands.
    fn said(&self, state: usize, status: u32) -> Said {
        match status {
            NONE => Said::None,
            GIVEN => Said::Given,
            LAST => Said::Last,
            REFUSED => {
                let (number, carried) = (self.0[state], self.0[state + 1]);
                Said::Refused(if [2, 3, 5, 6, 18].contains(&number) { format!("error {number} {carried:#x}") } else { format!("error {number}") })
            }
            other => panic!("status {other}"),
        }
    }
}

/// A call that gives many records: the words lent for them, and the others.
struct Many<'a> {
    /// The words of one record.
    size: usize,
    /// By how much more room is lent than for 1, 2 and 7 records in turn.
    times: usize,
    call: &'a dyn Fn(&mut [RecordWord], &mut Words) -> u32,
}

/// What stands in words that nothing is put into.
const FREE: u32 = 0xdead_beef;

struct Block {
    text: String,
}

impl Block {
    fn put(&mut self, line: &str) {
        self.text.push_str(line);
        self.text.push('\n');
    }

    /// A walk from its start to its end or its refusal, whose state is the first `state` words; then the same again.
    fn walk(&mut self, name: &str, state: usize, step: impl FnMut(&mut Words) -> u32, show: impl FnMut(&[u64]) -> String) {
        self.walk_from(Words::new(), name, state, step, show);
    }

    fn walk_from(&mut self, mut words: Words, name: &str, state: usize, mut step: impl FnMut(&mut Words) -> u32, mut show: impl FnMut(&[u64]) -> String) {
        loop {
            let status = step(&mut words);
            let last = match words.said(state, status) {
                Said::Given => {
                    let shown = show(&words.0[state..]);
                    writeln!(self.text, "{name} {shown}").unwrap();
                    continue;
                }
                Said::None => "end".to_string(),
                Said::Last => "a last one of one".to_string(),
                Said::Refused(why) => why,
            };
            writeln!(self.text, "{name} {last}").unwrap();
            let status = step(&mut words);
            let again = match words.said(state, status) {
                Said::Given | Said::Last => "a record".to_string(),
                Said::None => "end".to_string(),
                Said::Refused(why) => why,
            };
            if again != last {
                writeln!(self.text, "{name} ANOTHER-ANSWER-AGAIN {again}").unwrap();
            }
            return;
        }
    }

    /// The walk that was written last, again in calls that give many records; `stepped` are the words of its records. It must give the same.
    fn walk_many(&mut self, mut words: Words, name: &str, state: usize, many: Many, stepped: &[u64]) {
        let mut left = stepped;
        let mut records = vec![0; 7 * many.times * many.size];
        let mut rooms = [1, 2, 7].into_iter().cycle();
        let mut told = false;
        let said = loop {
            let room = rooms.next().unwrap_or(1) * many.times * many.size;
            let lent = &mut records[..room];
            lent.fill(FREE);
            let status = (many.call)(lent, &mut words);
            let said = words.said(state, status);
            let n = if let Said::Given | Said::Last = said { many.size * words.0[state] as usize } else { 0 };
            let same = n <= left.len() && n <= room && lent[..n].iter().zip(left).all(|(w, x)| u64::from(*w) == *x);
            if !same || lent[n..].iter().any(|w| *w != FREE) {
                break "other records".to_string();
            }
            left = &left[n..];
            match said {
                Said::Given | Said::Last if n == 0 => break "no record".into(),
                Said::Given | Said::Last if told => break "a record behind the last".into(),
                Said::Given => {}
                Said::Last => told = true,
                Said::None if !told && !stepped.is_empty() => break "an end that was not told".into(),
                Said::None => break "end".into(),
                Said::Refused(why) => break why,
            }
        };
        if !left.is_empty() || !self.text.ends_with(&format!("{name} {said}\n")) {
            // A kind of answer that the crate does not have, so that it counts outside the domain too.
            writeln!(self.text, "many {name} {said}").unwrap();
        }
    }

    /// One answer.
    fn one(&mut self, name: &str, call: impl FnOnce(&mut Words) -> u32, show: impl FnOnce(&[u64]) -> String, none: &str) {
        let said = one_said(call, show, none);
        writeln!(self.text, "{name} {said}").unwrap();
    }

    /// One answer, and the same by another call.
    fn one_by_two(&mut self, name: &str, calls: [&dyn Fn(&mut Words) -> u32; 2], show: impl Fn(&[u64]) -> String, none: &str) {
        let [said, again] = calls.map(|call| one_said(call, &show, none));
        writeln!(self.text, "{name} {said}").unwrap();
        if said != again {
            writeln!(self.text, "prepared {name} {again}").unwrap();
        }
    }
}

/// One answer as text.
fn one_said(call: impl FnOnce(&mut Words) -> u32, show: impl FnOnce(&[u64]) -> String, none: &str) -> String {
    let mut words = Words::new();
    let status = call(&mut words);
    match words.said(0, status) {
        Said::Given => show(&words.0),
        Said::Last => "a last one of one".to_string(),
        Said::None => none.to_string(),
        Said::Refused(why) => why,
    }
}

/// A lookup in the part of an area that a call finds, which comes first and may be refused.
fn in_part(area: &[u8], w: &mut Words, find: fn(&[u8], &mut [u64]) -> u32, look: impl Fn(&[u8], &mut [u64]) -> u32) -> (usize, u32) {
    let status = find(area, &mut w.0);
    if status != GIVEN {
        return (0, status);
    }
    let (start, length) = (w.0[0] as usize, w.0[1] as usize);
    (start, look(&area[start..start + length], &mut w.0))
}

/// What c13_file_at answers, by c13_checksums and c13_file_in, whose places count from the part's start.
fn file_in(area: &[u8], index: u32, w: &mut Words) -> u32 {
    let (start, status) = in_part(area, w, calls::c13_checksums, |data, out| calls::c13_file_in(data, index, out));
    if status == GIVEN {
        w.0[2] += start as u64;
    }
    status
}

/// What c13_resolve_import answers, by c13_import_list and c13_resolve_listed.
fn resolve_listed(area: &[u8], index: u32, w: &mut Words) -> u32 {
    let mut places = vec![FREE; area.len() / 8];
    let status = calls::c13_import_list(area, &mut places, &mut w.0);
    if status != GIVEN {
        return status;
    }
    calls::c13_resolve_listed(area, &places[..w.0[0] as usize], index, &mut w.0)
}

/// What c13_resolve_export answers, by c13_export_body and c13_export_in.
fn export_in(area: &[u8], local: u32, w: &mut Words) -> u32 {
    in_part(area, w, calls::c13_export_body, |body, out| calls::c13_export_in(body, local, out)).1
}

struct Case<'a> {
    kind: &'a str,
    id: &'a str,
    keys: HashMap<&'a str, &'a str>,
}

impl<'a> Case<'a> {
    fn parse(line: &'a str) -> Option<Case<'a>> {
        let mut words = line.split_ascii_whitespace();
        let kind = words.next().filter(|k| !k.starts_with('#'))?;
        let id = words.next().unwrap_or("?");
        Some(Case { kind, id, keys: words.map(|w| w.split_once('=').unwrap_or((w, ""))).collect() })
    }

    fn text(&self, key: &str) -> &'a str {
        self.keys.get(key).copied().unwrap_or("")
    }

    fn list(&self, key: &str) -> impl Iterator<Item = &'a str> {
        self.text(key).split(',').filter(|s| !s.is_empty())
    }

    /// The bytes, behind as many others as the case asks for, so that their address is any.
    fn bytes(&self) -> Held {
        let hex = self.text("hex").as_bytes();
        let digit = |d: u8| if d < b'a' { d - b'0' } else { d - b'a' + 10 };
        let data: Vec<u8> = if hex == b"-" { vec![] } else { hex.chunks_exact(2).map(|p| digit(p[0]) << 4 | digit(p[1])).collect() };
        let at: usize = if self.text("at").is_empty() { 0 } else { self.text("at").parse().expect("at") };
        let mut held = vec![0u64; (at + data.len()) / 8 + 1];
        let whole = unsafe { std::slice::from_raw_parts_mut(held.as_mut_ptr() as *mut u8, held.len() * 8) };
        whole[at..at + data.len()].copy_from_slice(&data);
        Held { held, at, len: data.len() }
    }
}

/// Bytes at an address divisible by 8, plus `at`.
struct Held {
    held: Vec<u64>,
    at: usize,
    len: usize,
}

impl Held {
    fn bytes(&self) -> &[u8] {
        let whole = unsafe { std::slice::from_raw_parts(self.held.as_ptr() as *const u8, self.held.len() * 8) };
        &whole[self.at..self.at + self.len]
    }
}

fn hex(bytes: &[u8]) -> String {
    if bytes.is_empty() {
        return "-".into();
    }
    bytes.iter().map(|b| format!("{b:02x}")).collect()
}

/// The words of a record, by their place and number, each through the call that hands out one of them.
fn words_of(area: &[u8], place: u64, count: u64, show: impl Fn(u64) -> String) -> String {
    if count == 0 {
        return "-".into();
    }
    let word = |i: u64| {
        let mut w = Words::new();
        let status = calls::c13_word(area, place as usize, count as usize, i as usize, &mut w.0);
        assert!(status == 1, "word {i} of {count} at {place}: status {status}");
        show(w.0[0])
    };
    (0..count).map(word).collect::<Vec<_>>().join(",")
}

/// Name, checksum kind, place and length of the bytes.
fn file_text(area: &[u8], r: &[u64]) -> String {
    let kind = ["none", "md5", "sha1", "sha256"][r[1] as usize];
    format!("{} {kind} {}", r[0], hex(&area[r[2] as usize..(r[2] + r[3]) as usize]))
}

/// A list of an area's line subsections, or its refusal. The slots that it does not take must stay.
fn list(area: &[u8], call: fn(&[u8], &mut [u32], &mut [u64]) -> u32) -> Result<Vec<u32>, String> {
    // A line subsection has at least 20 bytes, so these slots suffice.
    let mut slots = vec![FREE; area.len() / 20 + 1];
    let mut words = Words::new();
    let status = call(area, &mut slots, &mut words.0);
    let said = match words.said(0, status) {
        Said::Given => Ok(words.0[0] as usize),
        Said::None | Said::Last => panic!("no list"),
        Said::Refused(why) => Err(why),
    };
    let taken = *said.as_ref().unwrap_or(&0);
    if slots[taken..].iter().any(|s| *s != FREE) {
        return Err("A-SLOT-CHANGED".into());
    }
    slots.truncate(taken);
    said.map(|_| slots)
}

/// The order list of an area, or its refusal.
fn order(area: &[u8]) -> Result<Vec<u32>, String> {
    list(area, calls::c13_order_list)
}

/// What is lent beside the order list, on which no answer may depend: the body list, which must be the order list sorted by place; none; and where that
/// is not long, for then a walk without its list is slow, lists that are wrong.
fn body_lists(area: &[u8], slots: &[u32]) -> Result<Vec<Vec<u32>>, String> {
    let own = list(area, calls::c13_body_list)?;
    let mut sorted = slots.to_vec();
    sorted.sort_unstable();
    if own != sorted {
        return Err("ANOTHER-BODY-LIST".into());
    }
    let mut lists = vec![own.clone()];
    if own.len() <= 64 {
        lists.push(vec![]);
        lists.push(own.iter().map(|body| body + 4).collect());
        lists.push(own[..own.len().saturating_sub(1)].to_vec());
        lists.push([&own[..], &[FREE]].concat());
    }
    Ok(lists)
}

/// The words of a line record that the crate has, too: section, offset, length, file, lines, columns and kind, where a 0 in front of a number says that
/// there is none. The last word, the position of the body that it was read from, the crate does not tell.
fn line_text(r: &[u64]) -> String {
    let maybe = |at: usize| if r[at] == 0 { "-".into() } else { r[at + 1].to_string() };
    format!(
        "{}:{:x} {} {} {} {} {} {} {}",
        r[0],
        r[1],
        maybe(2),
        r[4],
        r[5],
        r[6],
        maybe(7),
        maybe(9),
        ["ex", "st"][r[11] as usize]
    )
}

/// A line record, kept and as text.
fn kept_line(records: &mut Vec<u64>, r: &[u64]) -> String {
    records.extend_from_slice(&r[..RECORD]);
    line_text(r)
}

/// Whether the last words of the records of a walk are positions that the slots name, in their order, each of a body of the record's section that begins no
/// later than the record.
fn in_their_bodies(area: &[u8], slots: &[u32], records: &[u64]) -> bool {
    let word = |at: usize| u64::from(u32::from_le_bytes(area[at..at + 4].try_into().expect("four")));
    let mut left = slots;
    records.chunks_exact(RECORD).all(|r| {
        while left.first().map_or(false, |slot| u64::from(*slot) != r[RECORD - 1]) {
            left = &left[1..];
        }
        left.first().map_or(false, |slot| word(*slot as usize + 4) & 0xffff == r[0] && word(*slot as usize) <= r[1])
    })
}

/// The walk from a state on, one record a call with one of the body lists, and many a call with each of them.
fn line_walk(b: &mut Block, words: Words, name: &str, area: &[u8], slots: &[u32], lists: &[Vec<u32>]) {
    let one = &lists[area.len() / 4 % lists.len()];
    let mut stepped = vec![];
    b.walk_from(words.again(), name, LINE_STATE, |w| calls::c13_next_line(area, slots, one, &mut w.0), |r| kept_line(&mut stepped, r));
    for bodies in lists {
        // In each call a list that goes back often is held against the area, so a long one is asked in fewer.
        let call = |records: &mut [RecordWord], w: &mut Words| calls::c13_lines(area, slots, bodies, records, &mut w.0);
        b.walk_many(words.again(), name, LINE_STATE, Many { size: RECORD, times: 1 + slots.len() / 16, call: &call }, &stepped);
    }
    if !in_their_bodies(area, slots, &stepped) {
        // A kind of answer that the crate does not have, so that it counts as different.
        b.put(&format!("body {name}"));
    }
}

/// The lines of a symbol: where the walk starts, with each of the body lists, and the walk.
fn symbol_lines(b: &mut Block, symbol: &str, area: &[u8], slots: &[u32], lists: &[Vec<u32>]) {
    let (section, offset) = symbol.split_once(':').expect("section:offset");
    let (section, offset) = (section.parse().expect("section"), u32::from_str_radix(offset, 16).expect("offset in hex"));
    let asked = |bodies: &[u32]| {
        let mut words = Words::new();
        let status = calls::c13_lines_for_symbol(area, slots, bodies, section, offset, END_LINES_CRATE, &mut words.0);
        (status, words)
    };
    let (status, words) = asked(&lists[0]);
    for bodies in &lists[1..] {
        let (another, others) = asked(bodies);
        if (another, others.0) != (status, words.0) {
            b.put(&format!("sym {symbol} BY-THE-BODY-LIST"));
        }
    }
    match words.said(0, status) {
        Said::Given => line_walk(b, words, &format!("sym {symbol}"), area, slots, lists),
        Said::None | Said::Last => panic!("no walk"),
        Said::Refused(why) => b.put(&format!("sym {symbol} {why}")),
    }
}

/// Files and lines.
fn lines(b: &mut Block, case: &Case, area: &[u8]) {
    match order(area).and_then(|slots| Ok((body_lists(area, &slots)?, slots))) {
        Ok((lists, slots)) => {
            line_walk(b, Words::new(), "line", area, &slots, &lists);
            case.list("syms").for_each(|symbol| symbol_lines(b, symbol, area, &slots, &lists));
        }
        // There is no list: the walk repeats its tests, with any slots.
        Err(why) => {
            if list(area, calls::c13_body_list) != Err(why) {
                b.put("line ANOTHER-BODY-LIST");
            }
            line_walk(b, Words::new(), "line", area, &[], &[vec![], vec![8]]);
            for symbol in case.list("syms") {
                let mut words = Words::new();
                let status = calls::c13_lines_for_symbol(area, &[], &[], 1, 0, END_LINES_CRATE, &mut words.0);
                match words.said(0, status) {
                    Said::Refused(why) => b.put(&format!("sym {symbol} {why}")),
                    _ => b.put(&format!("sym {symbol} NOT-REFUSED")),
                }
            }
        }
    }
    let call = |records: &mut [RecordWord], w: &mut Words| calls::c13_files(area, records, &mut w.0);
    let mut stepped = vec![];
    b.walk("file", TABLE_STATE, |w| calls::c13_next_file(area, &mut w.0), |r| {
        stepped.extend_from_slice(&r[..FILE_RECORD]);
        format!("{} {}", r[0], file_text(area, &r[1..]))
    });
    b.walk_many(Words::new(), "file", TABLE_STATE, Many { size: FILE_RECORD, times: 1, call: &call }, &stepped);
    for index in case.list("files") {
        let i: u32 = index.parse().expect("index");
        let calls: [&dyn Fn(&mut Words) -> u32; 2] = [&|w| calls::c13_file_at(area, i, &mut w.0), &|w| file_in(area, i, w)];
        b.one_by_two(&format!("info {index}"), calls, |r| file_text(area, r), "");
    }
}

/// Inlinees, imports and exports.
fn tables(b: &mut Block, case: &Case, area: &[u8]) {
    b.walk("inlinee", TABLE_STATE, |w| calls::c13_next_inlinee(area, &mut w.0), |r| {
        format!("{} {} {} {}", r[0], r[1], r[2], words_of(area, r[3], r[4], |w| w.to_string()))
    });
    b.walk("import", TABLE_STATE, |w| calls::c13_next_import(area, &mut w.0), |r| {
        format!("{} {}", r[0], words_of(area, r[1], r[2], |w| format!("{w:x}")))
    });
    for index in case.list("imports") {
        let i = u32::from_str_radix(index, 16).expect("index in hex");
        let calls: [&dyn Fn(&mut Words) -> u32; 2] = [&|w| calls::c13_resolve_import(area, i, &mut w.0), &|w| resolve_listed(area, i, w)];
        b.one_by_two(&format!("resolve {index}"), calls, |r| format!("{} {:x}", r[0], r[1]), "");
    }
    b.walk("export", TABLE_STATE, |w| calls::c13_next_export(area, &mut w.0), |r| {
        format!("{} {:x} {:x}", ["type", "id"][r[0] as usize], r[1], r[2])
    });
    b.one("exports", |w| calls::c13_export_count(area, &mut w.0), |r| r[0].to_string(), "");
    for index in case.list("exports") {
        let local = u32::from_str_radix(index, 16).expect("index in hex");
        let calls: [&dyn Fn(&mut Words) -> u32; 2] = [&|w| calls::c13_resolve_export(area, local, &mut w.0), &|w| export_in(area, local, w)];
        b.one_by_two(&format!("lookup {index}"), calls, |r| format!("{:x}", r[0]), "none");
    }
}

fn area_case(b: &mut Block, case: &Case) {
    let held = case.bytes();
    let area = held.bytes();
    b.put(&format!("case {} area {}", case.id, area.len()));
    b.walk("sub", SUB_STATE, |w| calls::c13_next_sub(area, &mut w.0), |r| format!("{:x} {} {}", r[0], r[1], r[2]));
    let order = match order(area) {
        Ok(slots) if slots.is_empty() => "-".to_string(),
        Ok(slots) => slots.iter().map(|s| s.to_string()).collect::<Vec<_>>().join(" "),
        Err(why) => why,
    };
    b.put(&format!("order {order}"));
    lines(b, case, area);
    tables(b, case, area);
}

/// What refuses a module's part refuses every call on it.
fn refused(b: &mut Block, case: &Case, why: &str, walks: &[&str], lists: &[(&str, &str)]) {
    for walk in walks {
        b.put(&format!("{walk} {why}"));
    }
    for (key, name) in lists {
        for asked in case.list(key) {
            b.put(&format!("{name} {asked} {why}"));
        }
    }
}

fn module_case(b: &mut Block, case: &Case) {
    let held = case.bytes();
    let stream = held.bytes();
    let size = |key: &str| if case.text(key).is_empty() { 0 } else { case.text(key).parse::<u32>().expect("size") };
    let (symbols, c11, c13) = (size("sym"), size("c11"), size("c13"));
    b.put(&format!("case {} module {} {symbols} {c11} {c13}", case.id, stream.len()));
    b.one("symbols", |w| calls::c13_module_symbols(stream, symbols, c11, c13, &mut w.0), |_| "yes".into(), "");
    let part = |call: fn(&[u8], u32, u32, u32, &mut [u64]) -> u32| {
        let mut w = Words::new();
        let status = call(stream, symbols, c11, c13, &mut w.0);
        match w.said(0, status) {
            Said::Given => Ok(&stream[w.0[0] as usize..(w.0[0] + w.0[1]) as usize]),
            Said::None | Said::Last => panic!("no part"),
            Said::Refused(why) => Err(why),
        }
    };
    match part(calls::c13_lines_part) {
        Ok(area) => {
            b.put(&format!("program {}", order(area).map_or_else(|why| why, |_| "yes".into())));
            lines(b, case, area);
        }
        Err(why) => refused(b, case, &why, &["program", "file", "line"], &[("files", "info"), ("syms", "sym")]),
    }
    match part(calls::c13_tables_part) {
        Ok(area) => tables(b, case, area),
        Err(why) => refused(b, case, &why, &["inlinee", "import", "export", "exports"], &[("imports", "resolve"), ("exports", "lookup")]),
    }
}

fn string_case(b: &mut Block, case: &Case) {
    let held = case.bytes();
    let stream = held.bytes();
    b.put(&format!("case {} strings {}", case.id, stream.len()));
    b.one("table", |w| calls::c13_string_table(stream, &mut w.0), |_| "yes".into(), "");
    for offset in case.list("offs") {
        let at: u32 = offset.parse().expect("offset");
        b.one(
            &format!("name {offset}"),
            |w| calls::c13_name(stream, at, &mut w.0),
            |r| hex(&stream[r[0] as usize..r[0] as usize + r[1] as usize]),
            "",
        );
    }
}

fn main() {
    let mut out = BufWriter::with_capacity(1 << 20, std::io::stdout());
    for line in BufReader::with_capacity(1 << 20, std::io::stdin()).lines() {
        let line = line.expect("line");
        let Some(case) = Case::parse(&line) else { continue };
        let mut b = Block { text: String::new() };
        match case.kind {
            "area" => area_case(&mut b, &case),
            "module" => module_case(&mut b, &case),
            "strings" => string_case(&mut b, &case),
            other => panic!("case kind {other}"),
        }
        b.put("");
        out.write_all(b.text.as_bytes()).expect("write");
    }
}
