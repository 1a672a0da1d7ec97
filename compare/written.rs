//! written SEED COUNT CASES EXPECTED: makes areas by sequences of the library's writer calls, some of them refused, and writes them to CASES as cases for
//! the oracle, and to EXPECTED what was accepted, in the form in which the crate's reading shows it. A refused call that changes the buffer ends it.

use c13::calls::{self, GIVEN, REFUSED};
use std::fmt::Write as _;

/// SplitMix64.
struct Rng(u64);

impl Rng {
    fn next(&mut self) -> u64 {
        self.0 = self.0.wrapping_add(0x9e37_79b9_7f4a_7c15);
        let mut z = self.0;
        z = (z ^ (z >> 30)).wrapping_mul(0xbf58_476d_1ce4_e5b9);
        z = (z ^ (z >> 27)).wrapping_mul(0x94d0_49bb_1331_11eb);
        z ^ (z >> 31)
    }

    fn below(&mut self, n: usize) -> usize {
        (self.next() % n as u64) as usize
    }

    fn word(&mut self) -> u32 {
        let edges = [0, 1, 7, 0xf00f00, 0xfeefee, 0xffffff, 0x80000000, 0x8000000a, 0xffffffff];
        if self.below(2) == 0 { edges[self.below(edges.len())] } else { self.next() as u32 }
    }

    fn words(&mut self, n: usize) -> Vec<u32> {
        (0..n).map(|_| self.word()).collect()
    }
}

/// A writer's call.
#[derive(Clone)]
enum Call {
    OpenLines(u32, u16, u16, u32),
    Block(u32, Vec<u32>, Vec<u32>),
    OpenChecksums,
    Entry(u32, u8, Vec<u8>),
    OpenInlinees(u32),
    Inlinee(u32, u32, u32, Vec<u32>),
    OpenImports,
    Module(u32, Vec<u32>),
    OpenExports,
    Pair(u32, u32),
    Opaque(u32, Vec<u8>),
}

/// A call that often fits the subsection that is open; `wrong` spoils it now and then.
fn call(r: &mut Rng, open: usize, columns: bool, local: u32) -> Call {
    let wrong = r.below(8) == 0;
    match if r.below(3) == 0 { r.below(11) } else { open } {
        0 => Call::OpenLines(r.word(), r.next() as u16, r.below(4) as u16, r.word()),
        1 => {
            let n = r.below(4);
            let lines = r.words(2 * n + wrong as usize);
            let columns = r.words(if columns != wrong { n } else { 0 });
            Call::Block(r.word(), lines, columns)
        }
        2 => Call::OpenChecksums,
        3 => {
            let kind = r.below(4 + wrong as usize) as u8;
            let size = [0, 16, 20, 32, 5][kind as usize] + wrong as usize;
            Call::Entry(r.word(), kind, (0..size).map(|_| r.next() as u8).collect())
        }
        4 => Call::OpenInlinees(r.below(2 + wrong as usize) as u32),
        5 => {
            let n = r.below(3);
            Call::Inlinee(r.word(), r.word(), r.word(), r.words(n))
        }
        6 => Call::OpenImports,
        7 => {
            let n = r.below(4);
            Call::Module(r.word(), r.words(n))
        }
        8 => Call::OpenExports,
        9 => Call::Pair(if wrong { r.word() } else { local.saturating_add(r.below(9) as u32) }, r.word()),
        _ => {
            let kinds = [0xf1, 0xf3, 0xf5, 0xf9, 0xfa, 0xfb, 0xfc, 0xfd, 0xf2, 0xf7, 0xfe];
            let n = 4 * r.below(4) + wrong as usize;
            Call::Opaque(kinds[r.below(kinds.len())], (0..n).map(|_| r.next() as u8).collect())
        }
    }
}

/// The status, and the next place.
fn make(c: &Call, buf: &mut [u8], at: usize) -> (u32, usize) {
    let mut out = [0; 2];
    let status = match c {
        Call::OpenLines(offset, section, flags, code) => calls::c13_open_lines(buf, at, *offset, *section, *flags, *code, &mut out),
        Call::Block(file, lines, columns) => calls::c13_add_block(buf, at, *file, lines, columns, &mut out),
        Call::OpenChecksums => calls::c13_open_checksums(buf, at, &mut out),
        Call::Entry(name, kind, bytes) => calls::c13_add_entry(buf, at, *name, *kind, bytes, &mut out),
        Call::OpenInlinees(signature) => calls::c13_open_inlinees(buf, at, *signature, &mut out),
        Call::Inlinee(inlinee, file, line, extra) => calls::c13_add_inlinee(buf, at, *inlinee, *file, *line, extra, &mut out),
        Call::OpenImports => calls::c13_open_imports(buf, at, &mut out),
        Call::Module(name, words) => calls::c13_add_module(buf, at, *name, words, &mut out),
        Call::OpenExports => calls::c13_open_exports(buf, at, &mut out),
        Call::Pair(local, global) => calls::c13_add_pair(buf, at, *local, *global, &mut out),
        Call::Opaque(kind, body) => calls::c13_add_opaque(buf, at, *kind, body, &mut out),
    };
    (status, out[0] as usize)
}

fn hex(bytes: impl IntoIterator<Item = u8>) -> String {
    let s: String = bytes.into_iter().map(|b| format!("{b:02x}")).collect();
    if s.is_empty() { "-".into() } else { s }
}

fn list(words: &[u32], show: impl Fn(u32) -> String) -> String {
    if words.is_empty() { "-".into() } else { words.iter().map(|w| show(*w)).collect::<Vec<_>>().join(",") }
}

fn bytes_of(words: &[u32]) -> impl Iterator<Item = u8> + '_ {
    words.iter().flat_map(|w| w.to_le_bytes())
}

/// A subsection of the accepted calls: kind, where its body starts, its length, and the lines that tell its records.
struct Sub {
    kind: u32,
    start: usize,
    len: usize,
    lines: Vec<String>,
}

/// What the crate should read: every subsection and every block; of the tables the first of their kind, of checksums the last.
fn expected(id: usize, accepted: &[Call], size: usize) -> String {
    let mut subs: Vec<Sub> = vec![];
    let mut at = 0;
    for c in accepted {
        let (kind, len) = match c {
            Call::OpenLines(..) => (0xf2, 12),
            Call::OpenChecksums => (0xf4, 0),
            Call::OpenInlinees(_) => (0xf6, 4),
            Call::OpenImports => (0xf7, 0),
            Call::OpenExports => (0xf8, 0),
            Call::Opaque(kind, body) => (*kind, body.len()),
            entry => {
                let s = subs.last_mut().expect("an entry has a subsection");
                let (line, len) = match entry {
                    Call::Block(file, lines, columns) => {
                        let size = 12 + 4 * (lines.len() + columns.len());
                        (format!("block {} {file} {} {size} {} {}", s.start, lines.len() / 2, hex(bytes_of(lines)), hex(bytes_of(columns))), size)
                    }
                    Call::Entry(name, kind, bytes) => {
                        let kind = ["none", "md5", "sha1", "sha256"][*kind as usize];
                        (format!("file {} {name} {kind} {}", s.len, hex(bytes.iter().copied())), (6 + bytes.len()).next_multiple_of(4))
                    }
                    Call::Inlinee(inlinee, file, line, extra) => {
                        let more = if s.lines.first().is_some_and(|l| l == "signature 1") { 4 + 4 * extra.len() } else { 0 };
                        (format!("inlinee {inlinee} {file} {line} {}", list(extra, |w| w.to_string())), 12 + more)
                    }
                    Call::Module(name, words) => (format!("import {name} {}", list(words, |w| format!("{w:x}"))), 8 + 4 * words.len()),
                    Call::Pair(local, global) => (format!("export {} {local:x} {global:x}", if local >> 31 == 0 { "type" } else { "id" }), 8),
                    _ => unreachable!(),
                };
                s.lines.push(line);
                s.len += len;
                at += len;
                continue;
            }
        };
        subs.push(Sub { kind, start: at + 8, len, lines: if let Call::OpenInlinees(s) = c { vec![format!("signature {s}")] } else { vec![] } });
        at += 8 + len;
    }
    let mut text = format!("case {id} area {size}\n");
    subs.iter().for_each(|s| writeln!(text, "sub {:x} {} {}", s.kind, s.start, s.len).unwrap());
    text.push_str("sub end\n");
    for s in subs.iter().filter(|s| s.kind == 0xf2) {
        s.lines.iter().for_each(|l| writeln!(text, "{l}").unwrap());
        writeln!(text, "block {} end", s.start).unwrap();
    }
    let mut table = |name: &str, sub: Option<&Sub>| {
        sub.iter().flat_map(|s| &s.lines).filter(|l| !l.starts_with("signature")).for_each(|l| writeln!(text, "{l}").unwrap());
        writeln!(text, "{name} end").unwrap();
    };
    table("file", subs.iter().rev().find(|s| s.kind == 0xf4));
    table("inlinee", subs.iter().find(|s| s.kind == 0xf6));
    table("import", subs.iter().find(|s| s.kind == 0xf7));
    table("export", subs.iter().find(|s| s.kind == 0xf8));
    text
}

fn main() {
    let words: Vec<String> = std::env::args().collect();
    let [_, seed, count, cases, told] = &words[..] else { panic!("usage: written SEED COUNT CASES EXPECTED") };
    let mut r = Rng(seed.parse().expect("seed"));
    let (mut case_text, mut told_text, mut made, mut refused) = (String::new(), String::new(), 0, [0; 20]);
    for id in 0..count.parse().expect("count") {
        let mut buf: Vec<u8> = (0..64 + r.below(900)).map(|_| r.next() as u8).collect();
        let (mut at, mut accepted, mut open, mut columns, mut local) = (0, vec![], r.below(11), false, 0);
        for _ in 0..1 + r.below(30) {
            let c = call(&mut r, open, columns, local);
            let before = buf.clone();
            let (status, next) = make(&c, &mut buf, at);
            match status {
                GIVEN => {
                    assert!(buf[next..] == before[next..], "case {id}: a byte behind what was written changed");
                    match &c {
                        Call::OpenLines(_, _, flags, _) => (open, columns) = (1, flags % 2 == 1),
                        Call::OpenChecksums => open = 3,
                        Call::OpenInlinees(_) => open = 5,
                        Call::OpenImports => open = 7,
                        Call::OpenExports => (open, local) = (9, 0),
                        Call::Pair(l, _) => local = l.saturating_add(1),
                        Call::Opaque(..) => open = r.below(11),
                        _ => {}
                    }
                    (at, made) = (next, made + 1);
                    accepted.push(c);
                }
                REFUSED => {
                    assert!(buf == before, "case {id}: a refused call changed the buffer");
                    refused[next] += 1;
                }
                other => panic!("status {other}"),
            }
        }
        writeln!(case_text, "area {id} hex={} blocks=1", hex(buf[..at].iter().copied())).unwrap();
        told_text.push_str(&expected(id, &accepted, at));
    }
    std::fs::write(cases, case_text).expect("cases");
    std::fs::write(told, told_text).expect("expected");
    println!("written: {count} areas, {made} calls accepted, {} refused with 16, {} with 17, {} with 10", refused[16], refused[17], refused[10]);
}
