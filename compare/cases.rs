//! cases short | corpus DIR | random SEED COUNT: prints cases for the oracle and for ours, one a line (the form is in oracle/README.md).
//!
//! short: every input of some small families. corpus: the real areas, streams and string tables of corpus/, and damaged copies of them.
//! random: areas, modules and string tables built around the boundaries of every rule, and damaged copies of them. The same words print
//! the same cases.

use std::fmt::Write as _;
use std::io::Write as _;

/// SplitMix64.
struct Rng(u64);

impl Rng {
    fn next(&mut self) -> u64 {
        self.0 = self.0.wrapping_add(0x9e37_79b9_7f4a_7c15);
        let mut z = self.0;
        z = (z ^ (z >> 30)).wrapping_mul(0xbf58_476d_1ce4_e5b9);
        z = (z ^ (z >> 27)).wrapping_mul(0x94d0_49bb_1331_11eb);
        z ^ (z >> 31)
    }

    fn below(&mut self, n: usize) -> usize {
        (self.next() % n as u64) as usize
    }

    fn pick<T: Copy>(&mut self, from: &[T]) -> T {
        from[self.below(from.len())]
    }

    /// True once in n.
    fn once_in(&mut self, n: usize) -> bool {
        self.below(n) == 0
    }

    fn bytes(&mut self, n: usize) -> Vec<u8> {
        (0..n).map(|_| self.next() as u8).collect()
    }
}

/// Numbers at which some rule turns.
const EDGES: [u32; 44] = [
    0, 1, 2, 3, 4, 5, 6, 7, 8, 9, 11, 12, 13, 16, 19, 20, 21, 24, 32, 0x7f, 0x80, 0xf0, 0xf1, 0xfd, 0xfe, 0xff, 0x100, 0xffff, 0x1_0000, 0xf0_0f00,
    0xfe_efee, 0xff_ffff, 0x100_0000, 0x1fff_ffff, 0x2000_0000, 0x3fff_ffff, 0x4000_0000, 0x7fff_ffff, 0x8000_0000, 0x8000_0001, 0xeffe_effe,
    0xffff_fff4, 0xffff_fffc, 0xffff_ffff,
];

fn words(ws: &[u32]) -> Vec<u8> {
    ws.iter().flat_map(|w| w.to_le_bytes()).collect()
}

fn sub(kind: u32, body: &[u8]) -> Vec<u8> {
    let mut s = words(&[kind, body.len() as u32]);
    s.extend_from_slice(body);
    s
}

fn word(b: &[u8], at: usize) -> u32 {
    u32::from_le_bytes([b[at], b[at + 1], b[at + 2], b[at + 3]])
}

/// What is asked about an area beside its listings.
#[derive(Default, Clone)]
struct Asked {
    files: Vec<u32>,
    syms: Vec<(u16, u32)>,
    imports: Vec<u32>,
    exports: Vec<u32>,
}

impl Asked {
    /// At most n of each, so that an answer stays short.
    fn cut(&mut self, rng: &mut Rng, n: usize) {
        fn some<T: Copy>(rng: &mut Rng, from: &mut Vec<T>, n: usize) {
            while from.len() > n {
                let i = rng.below(from.len());
                from.swap_remove(i);
            }
        }
        some(rng, &mut self.files, n);
        some(rng, &mut self.syms, n);
        some(rng, &mut self.imports, n);
        some(rng, &mut self.exports, n);
    }

    fn text(&self) -> String {
        fn list(out: &mut String, key: &str, items: Vec<String>) {
            if !items.is_empty() {
                write!(out, " {key}={}", items.join(",")).unwrap();
            }
        }
        let mut out = String::new();
        list(&mut out, "files", self.files.iter().map(|f| f.to_string()).collect());
        list(&mut out, "syms", self.syms.iter().map(|(s, o)| format!("{s}:{o:x}")).collect());
        list(&mut out, "imports", self.imports.iter().map(|i| format!("{i:x}")).collect());
        list(&mut out, "exports", self.exports.iter().map(|i| format!("{i:x}")).collect());
        out
    }

    /// Questions that the bytes of an area suggest: what stands there, and what is next to it.
    fn about(area: &[u8]) -> Asked {
        let mut asked = Asked { files: vec![0, 1], syms: vec![(1, 0x1000)], imports: vec![0x8000_0000, 1], exports: vec![0] };
        let mut p = 0;
        while area.len() - p >= 8 {
            let (kind, len) = (word(area, p), word(area, p + 4) as usize);
            p += 8;
            if area.len() - p < len {
                break;
            }
            asked.about_body(kind, &area[p..p + len]);
            p += len;
        }
        asked
    }

    fn about_body(&mut self, kind: u32, body: &[u8]) {
        match kind {
            0xf2 if body.len() >= 12 => {
                let (section, offset) = (word(body, 4) as u16, word(body, 0));
                for o in [offset, offset.wrapping_add(1), offset.wrapping_sub(1)] {
                    self.syms.push((section, o));
                }
                self.syms.push((section.wrapping_add(1), offset));
            }
            0xf4 => {
                let mut q = 0;
                while body.len() - q >= 6 && self.files.len() < 40 {
                    self.files.extend([q as u32, q as u32 + 1]);
                    let end = (q + 6 + body[q + 4] as usize + 3) / 4 * 4;
                    if end > body.len() {
                        break;
                    }
                    q = end;
                }
                self.files.extend([body.len() as u32, body.len() as u32 + 1, u32::MAX]);
            }
            0xf7 => {
                let (mut q, mut module) = (0, 0u32);
                while body.len() - q >= 8 {
                    let count = word(body, q + 4);
                    for i in [0, count.wrapping_sub(1), count] {
                        self.imports.push(0x8000_0000 | module << 20 | (i & 0xf_ffff));
                    }
                    let Some(next) = (count as usize).checked_mul(4).map(|n| q + 8 + n) else { break };
                    if next > body.len() {
                        break;
                    }
                    (q, module) = (next, (module + 1) & 0x7ff);
                }
                self.imports.push(0x8000_0000 | module << 20);
            }
            0xf8 => {
                for pair in body.chunks_exact(8).take(40) {
                    let local = word(pair, 0);
                    self.exports.extend([local, local.wrapping_add(1)]);
                }
            }
            _ => {}
        }
    }
}

struct Out {
    out: std::io::BufWriter<std::io::Stdout>,
    count: u64,
    part: String,
}

impl Out {
    fn put(&mut self, kind: &str, bytes: &[u8], rest: &str) {
        let mut hex = String::with_capacity(bytes.len() * 2 + 1);
        const DIGITS: &[u8; 16] = b"0123456789abcdef";
        for b in bytes {
            hex.push(DIGITS[(b >> 4) as usize] as char);
            hex.push(DIGITS[(b & 15) as usize] as char);
        }
        if hex.is_empty() {
            hex.push('-');
        }
        self.count += 1;
        writeln!(self.out, "{kind} {}{} hex={hex}{rest}", self.part, self.count).unwrap();
    }

    fn area(&mut self, area: &[u8]) {
        let asked = Asked::about(area);
        self.put("area", area, &asked.text());
    }
}

// ---- families whose every member is a case

/// Every list of at most n words of an alphabet.
fn each_words(alphabet: &[u32], n: usize, f: &mut impl FnMut(&[u32])) {
    fn go(alphabet: &[u32], n: usize, so_far: &mut Vec<u32>, f: &mut impl FnMut(&[u32])) {
        f(so_far);
        if n > 0 {
            for &w in alphabet {
                so_far.push(w);
                go(alphabet, n - 1, so_far, f);
                so_far.pop();
            }
        }
    }
    go(alphabet, n, &mut vec![], f);
}

fn short(out: &mut Out) {
    // Areas too short for a header, and headers with more, fewer or as many bytes behind them as they say.
    for n in 0..=9 {
        for fill in [0u8, 0xf2, 0xff] {
            out.area(&vec![fill; n]);
        }
    }
    let kinds = [
        0, 1, 0xf0, 0xf1, 0xf2, 0xf3, 0xf4, 0xf5, 0xf6, 0xf7, 0xf8, 0xf9, 0xfa, 0xfb, 0xfc, 0xfd, 0xfe, 0xff, 0x100, 0x1f2, 0xf200, 0x7fff_ffff,
        0x8000_0000, 0x8000_0001, 0x8000_00f2, 0x8000_0100, 0xffff_ff00, 0xffff_fff2, 0xffff_ffff,
    ];
    for kind in kinds {
        for length in [0u32, 1, 2, 3, 4, 5, 7, 8, 9, 12, 13, 0x7fff_ffff, 0x8000_0000, 0xffff_fff7, 0xffff_fff8, 0xffff_ffff] {
            for there in [0usize, 1, 3, 4, 5, 7, 8, 9, 11, 12, 13, 16, 20] {
                let mut a = words(&[kind, length]);
                a.extend(std::iter::repeat(0).take(there));
                out.area(&a);
            }
        }
    }
    // Two subsections and what is between and behind them.
    for first in [0xf0, 0xf1, 0xf2, 0xf4, 0xf6, 0xf7, 0xf8, 0x8000_0000] {
        for second in kinds {
            for tail in [0usize, 1, 7] {
                let mut a = sub(first, &[0; 12]);
                a.extend(sub(second, &[0; 16]));
                a.extend(vec![0; tail]);
                out.area(&a);
            }
        }
    }
    // Bodies of few words, and of a few bytes more.
    let alphabets: [(u32, &[u32], usize); 4] = [
        (0xf4, &[0, 1, 0x0000_0101, 0x0000_0402, 0x0102_0100, 0x0300_0400, 0xff, 0xffff_ffff], 4),
        (0xf6, &[0, 1, 2, 3, 0x3fff_ffff, 0x4000_0000, 0xffff_ffff], 5),
        (0xf7, &[0, 1, 2, 3, 0x3fff_ffff, 0x4000_0000, 0xffff_ffff], 5),
        (0xf8, &[0, 1, 2, 0x7fff_ffff, 0x8000_0000, 0x8000_0001, 0xffff_ffff], 4),
    ];
    for (kind, alphabet, n) in alphabets {
        each_words(alphabet, n, &mut |ws| out.area(&sub(kind, &words(ws))));
        each_words(alphabet, n - 2, &mut |ws| {
            for more in 1..4 {
                let mut body = words(ws);
                body.extend(vec![1; more]);
                out.area(&sub(kind, &body));
                // The same body, cut off by the end of the area.
                let mut whole = sub(kind, &body);
                whole.pop();
                out.area(&whole);
            }
        });
    }
    short_sums(out);
    short_lines(out);
    short_strings(out);
    short_modules(out);
}

/// One checksum entry and the head of a second: sizes, kinds and what is there.
fn short_sums(out: &mut Out) {
    for size in 0..=9u8 {
        for kind in 0..=5u8 {
            for there in 0..=14usize {
                let mut body = words(&[7]);
                body.extend([size, kind]);
                body.extend((0..there).map(|i| i as u8 + 1));
                out.area(&sub(0xf4, &body));
            }
        }
    }
}

fn line_header(section: u16, offset: u32, flags: u16, size: u32) -> Vec<u8> {
    let mut h = words(&[offset]);
    h.extend(section.to_le_bytes());
    h.extend(flags.to_le_bytes());
    h.extend(words(&[size]));
    h
}

fn short_lines(out: &mut Out) {
    // A block of some lines: its count, its size, and the bytes that are there.
    for flags in [0u16, 1, 2, 3, 0xffff] {
        for count in [0u32, 1, 2, 3, 0x1555_5555, 0x2000_0000, 0xffff_ffff] {
            for size in [0u32, 11, 12, 13, 19, 20, 21, 23, 24, 28, 35, 36, 37, 48, 0xffff_ffff] {
                for there in [0usize, 7, 8, 11, 12, 16, 24, 36] {
                    let mut body = line_header(1, 0x1000, flags, 0x20);
                    body.extend(words(&[0, count, size]));
                    body.extend((0..there).map(|i| if i % 8 == 0 { i as u8 / 2 } else if i % 8 == 4 { 10 } else { 0 }));
                    out.area(&sub(0xf2, &body));
                }
            }
        }
    }
    // One line: section offset, line offset, code size and flags word around their limits.
    for offset in [0u32, 1, 0x1000, 0x7fff_ffff, 0xffff_fffe, 0xffff_ffff] {
        for at in [0u32, 1, 2, 0x1f, 0x20, 0x21, 0x8000_0000, 0xffff_fffe, 0xffff_ffff] {
            for size in [0u32, 1, 0x20, 0x8000_0000, 0xffff_fffe, 0xffff_ffff] {
                for flags in [0u32, 10, 0x0c00_000a, 0x8000_000a, 0xff00_0001, 0x00fe_efee, 0x80fe_efee, 0x00f0_0f00, 0xfff0_0f00, 0xfffe_efef, u32::MAX] {
                    let mut body = line_header(1, offset, 0, size);
                    body.extend(words(&[8, 1, 20, at, flags]));
                    out.area(&sub(0xf2, &body));
                }
            }
        }
    }
    // Two line subsections of one line or none each: sections, offsets, code sizes.
    let lines = |section, offset, size, at: Option<u32>| {
        let mut body = line_header(section, offset, 0, size);
        if let Some(at) = at {
            body.extend(words(&[0, 1, 20, at, 5]));
        }
        sub(0xf2, &body)
    };
    let ones = [(1u16, 0u32), (1, 8), (1, 0x20), (2, 0), (2, 8), (0, 0xffff_ffff), (0xffff, 0)];
    for (s, o) in ones {
        for (t, p) in ones {
            for size in [0u32, 4, 8, 0x10, 0x40] {
                for a in [None, Some(0), Some(6), Some(0x30)] {
                    for b in [None, Some(0), Some(6)] {
                        let mut area = lines(s, o, size, a);
                        area.extend(lines(t, p, 8, b));
                        out.area(&area);
                    }
                }
            }
        }
    }
    // Columns and markers: each of four entries a line or a marker.
    for marks in 0..81u32 {
        for flags in [0u16, 1] {
            let kinds = (0..4).map(|i| marks / 3u32.pow(i) % 3);
            let mut body = line_header(1, 0x10, flags, 0x40);
            body.extend(words(&[0, 4, 12 + 32 + 16 * flags as u32]));
            for (i, k) in kinds.enumerate() {
                body.extend(words(&[4 * i as u32, [100 + i as u32, 0xfeefee, 0x80f0_0f00][k as usize]]));
            }
            if flags == 1 {
                body.extend(words(&[0x0002_0001, 0x0004_0003, 0x0006_0005, 0xffff_0007]));
            }
            out.area(&sub(0xf2, &body));
        }
    }
}

fn short_strings(out: &mut Out) {
    let put = |out: &mut Out, s: &[u8], size: u32| {
        let mut offs: Vec<u32> = (0..size.min(6) + 2).collect();
        offs.extend([size.wrapping_sub(1), size, 0xffff_fff3, 0xffff_fff4, u32::MAX]);
        let offs: Vec<String> = offs.iter().map(|o| o.to_string()).collect();
        out.put("strings", s, &format!(" offs={}", offs.join(",")));
    };
    for n in 0..=12 {
        put(out, &words(&[0xeffe_effe, 1, 0])[..n], 0);
        put(out, &vec![0; n], 0);
    }
    for signature in [0u32, 0xeffe_effe, 0xeffe_efff, 0xfeef_feef, 0x6ffe_effe] {
        for version in [0u32, 1, 2, 3, 0x101, 0x8000_0001] {
            for size in [0u32, 1, 2, 3, 5, 0xffff_ffe7, 0xffff_ffe8, 0xffff_fff3, 0xffff_fff4, 0xffff_ffff] {
                for there in 0..=20usize {
                    let mut s = words(&[signature, version, size]);
                    s.extend((0..there).map(|i| if i % 3 == 2 { 0 } else { b'a' + i as u8 }));
                    put(out, &s, size);
                }
            }
        }
    }
    // Every names part of at most 5 bytes of "a" and zero.
    for size in 0..=5usize {
        for bits in 0..1u32 << size {
            for tail in [11usize, 12, 13] {
                let mut s = words(&[0xeffe_effe, 1, size as u32]);
                s.extend((0..size).map(|i| if bits >> i & 1 == 1 { b'a' } else { 0 }));
                s.extend(vec![0; tail]);
                put(out, &s, size as u32);
            }
        }
    }
}

fn short_modules(out: &mut Out) {
    let area = {
        let mut body = line_header(1, 0x1000, 0, 0x20);
        body.extend(words(&[0, 1, 20, 0, 0x8000_000a]));
        sub(0xf2, &body)
    };
    for head in [4u32, 0, 5, 0x104] {
        for fill in [&[][..], &area] {
            let mut s = words(&[head]);
            s.extend(fill);
            for symbols in [0usize, 1, 3, 4, 5, 8, s.len() - 1, s.len(), s.len() + 1, 0x7fff_ffff, 0xffff_fffc, 0xffff_ffff] {
                for c11 in [0u32, 1, 0xffff_ffff] {
                    for c13 in [0usize, 1, 4, 8, area.len() - 1, area.len(), area.len() + 1, 0x8000_0000, 0xffff_fffb, 0xffff_ffff] {
                        let asked = Asked::about(&area).text();
                        out.put("module", &s, &format!(" sym={symbols} c11={c11} c13={c13}{asked}"));
                    }
                }
            }
            for n in 0..=8usize.min(s.len()) {
                for symbols in 0..=9 {
                    out.put("module", &s[..n], &format!(" sym={symbols} c11=0 c13=0"));
                }
            }
        }
    }
}

// ---- areas built at random around the boundaries

fn some_word(rng: &mut Rng) -> u32 {
    match rng.below(4) {
        0 => rng.pick(&EDGES),
        1 => rng.below(64) as u32,
        2 => rng.pick(&EDGES).wrapping_add(rng.below(5) as u32).wrapping_sub(2),
        _ => rng.next() as u32,
    }
}

fn line_word(rng: &mut Rng) -> u32 {
    let start = match rng.below(8) {
        0 => 0xfe_efee,
        1 => 0xf0_0f00,
        2 => rng.pick(&[0, 1, 0xff_ffff, 0xfe_efed, 0xfe_efef, 0xf0_0eff, 0xf0_0f01]),
        _ => 1 + rng.below(300) as u32,
    };
    let delta = if rng.once_in(2) { 0 } else { (rng.below(128) as u32) << 24 };
    start | delta | (rng.below(2) as u32) << 31
}

/// A block: right, or with a size or a count that is not.
fn block(rng: &mut Rng, columns: bool, places: &mut dyn FnMut(&mut Rng) -> u32) -> Vec<u8> {
    let n = rng.pick(&[0usize, 1, 1, 2, 2, 3, 4, 6]);
    let mut data = vec![];
    for _ in 0..n {
        data.extend(words(&[places(rng), line_word(rng)]));
    }
    if columns {
        for _ in 0..n {
            data.extend(words(&[if rng.once_in(4) { some_word(rng) } else { rng.below(80) as u32 | (rng.below(90) as u32) << 16 }]));
        }
    }
    let over = if rng.once_in(8) { rng.below(9) } else { 0 };
    data.extend(rng.bytes(over));
    let mut count = n as u32;
    let mut size = 12 + data.len() as u32;
    if rng.once_in(40) {
        count = some_word(rng);
    }
    if rng.once_in(40) {
        size = if rng.once_in(2) { some_word(rng) } else { size.wrapping_add(rng.below(17) as u32).wrapping_sub(8) };
    }
    let mut b = words(&[if rng.once_in(3) { some_word(rng) } else { 8 * rng.below(5) as u32 }, count, size]);
    b.extend(data);
    b
}

fn lines_body(rng: &mut Rng) -> Vec<u8> {
    let near_top = rng.once_in(8);
    let offset = if near_top { 0xffff_ffffu32 - rng.below(64) as u32 } else { rng.pick(&[0u32, 8, 0x10, 0x20, 0x1000, 0x1010, 0x2000]) + rng.pick(&[0u32, 0, 0, 1, 4]) };
    let section = rng.pick(&[1u16, 1, 1, 1, 2, 2, 3, 0, 0xffff]);
    let flags = if rng.once_in(10) { rng.next() as u16 } else { rng.below(2) as u16 };
    let room = 0xffff_ffff - offset;
    let size = match rng.below(8) {
        0 => some_word(rng),
        1 => room.wrapping_add(rng.below(3) as u32).wrapping_sub(1),
        _ => rng.pick(&[0u32, 4, 0x10, 0x20, 0x40, 0x1000]),
    };
    let mut body = line_header(section, offset, flags, size);
    let mut at = rng.pick(&[0u32, 0, 0, 1, 4]);
    for _ in 0..rng.pick(&[0usize, 1, 1, 1, 2, 2, 3]) {
        let mut places = |rng: &mut Rng| {
            let here = at;
            at = match rng.below(16) {
                0 => some_word(rng),
                1 => room.wrapping_add(rng.below(3) as u32).wrapping_sub(1),
                2 => at,
                3 => at.wrapping_sub(rng.below(9) as u32),
                _ => at.wrapping_add(rng.pick(&[1u32, 2, 4, 8, 0x10])),
            };
            here
        };
        body.extend(block(rng, flags & 1 == 1, &mut places));
    }
    if rng.once_in(30) {
        let n = rng.below(13);
        body.extend(rng.bytes(n));
    }
    body
}

fn sums_body(rng: &mut Rng) -> Vec<u8> {
    let mut body = vec![];
    let n = rng.pick(&[0usize, 1, 1, 2, 3, 5]);
    for i in 0..n {
        let kind = if rng.once_in(30) { rng.pick(&[4u8, 5, 0x80, 0xff]) } else { rng.below(4) as u8 };
        let size = if rng.once_in(3) { rng.pick(&[0usize, 1, 2, 3, 4, 5, 6, 7, 15, 17, 33, 255]) } else { [0, 16, 20, 32][kind as usize & 3] };
        body.extend(words(&[if rng.once_in(4) { some_word(rng) } else { rng.below(200) as u32 }]));
        body.extend([size as u8, kind]);
        let data = rng.bytes(size);
        body.extend(data);
        let pad = (4 - body.len() % 4) % 4;
        let pad = if i + 1 == n && rng.once_in(6) { rng.below(pad + 1) } else { pad };
        let filled = if rng.once_in(4) { rng.bytes(pad) } else { vec![0; pad] };
        body.extend(filled);
    }
    body
}

fn inlinees_body(rng: &mut Rng) -> Vec<u8> {
    let signature = if rng.once_in(12) { some_word(rng) } else { rng.below(2) as u32 };
    let mut body = words(&[signature]);
    for _ in 0..rng.pick(&[0usize, 1, 2, 3]) {
        body.extend(words(&[some_word(rng), 8 * rng.below(4) as u32, some_word(rng)]));
        if signature == 1 {
            let n = rng.pick(&[0usize, 0, 1, 2, 3]);
            let count = if rng.once_in(12) { some_word(rng) } else { n as u32 };
            body.extend(words(&[count]));
            for _ in 0..n {
                body.extend(words(&[some_word(rng)]));
            }
        }
    }
    body
}

fn imports_body(rng: &mut Rng) -> Vec<u8> {
    let mut body = vec![];
    for _ in 0..rng.pick(&[0usize, 1, 1, 2, 3]) {
        let n = rng.pick(&[0usize, 1, 2, 3]);
        let count = if rng.once_in(12) { some_word(rng) } else { n as u32 };
        body.extend(words(&[some_word(rng), count]));
        for _ in 0..n {
            body.extend(words(&[some_word(rng)]));
        }
    }
    body
}

fn exports_body(rng: &mut Rng) -> Vec<u8> {
    let n = rng.pick(&[0usize, 1, 2, 3, 4, 8, 9]);
    let mut locals: Vec<u32> = (0..n).map(|_| if rng.once_in(2) { some_word(rng) } else { 0x1000 + rng.below(16) as u32 | (rng.below(2) as u32) << 31 }).collect();
    if !rng.once_in(4) {
        locals.sort_unstable();
        locals.dedup();
    }
    let mut body = vec![];
    for l in locals {
        body.extend(words(&[l, some_word(rng)]));
    }
    if rng.once_in(16) {
        body.extend(words(&[9]));
    }
    body
}

fn some_area(rng: &mut Rng) -> Vec<u8> {
    let mut area = vec![];
    let theme = rng.below(8);
    for _ in 0..rng.pick(&[0usize, 1, 1, 2, 2, 3, 4, 6]) {
        let kind = if rng.once_in(2) {
            [0xf2, 0xf2, 0xf2, 0xf2, 0xf4, 0xf6, 0xf7, 0xf8][theme]
        } else {
            rng.pick(&[0xf2u32, 0xf2, 0xf4, 0xf4, 0xf6, 0xf7, 0xf8, 0xf1, 0xf3, 0xf5, 0xfd, 0x8000_0000])
        };
        let mut body = match kind {
            0xf2 => lines_body(rng),
            0xf4 => sums_body(rng),
            0xf6 => inlinees_body(rng),
            0xf7 => imports_body(rng),
            0xf8 => exports_body(rng),
            _ => {
                let n = 4 * rng.below(4);
                rng.bytes(n)
            }
        };
        if rng.once_in(40) {
            let n = 1 + rng.below(3);
            body.extend(vec![0; n]);
        }
        let kind = if rng.once_in(50) { rng.pick(&[0u32, 0xf0, 0xfe, 0x8000_00f2, 0xffff_ffff]) } else { kind };
        area.extend(sub(kind, &body));
    }
    if rng.once_in(25) {
        let n = 1 + rng.below(9);
        area.extend(rng.bytes(n));
    }
    area
}

/// Some change to some bytes.
fn damage(rng: &mut Rng, bytes: &mut Vec<u8>) {
    for _ in 0..1 + rng.below(3) {
        if bytes.is_empty() {
            return;
        }
        let at = rng.below(bytes.len());
        match rng.below(7) {
            0 => bytes[at] = rng.next() as u8,
            1 => bytes[at] ^= 1 << rng.below(8),
            2 if bytes.len() >= 4 => {
                let at = at.min(bytes.len() - 4) / 4 * 4;
                let w = some_word(rng).to_le_bytes();
                bytes[at..at + 4].copy_from_slice(&w);
            }
            3 if bytes.len() >= 4 => {
                let at = at.min(bytes.len() - 4) / 4 * 4;
                let w = word(bytes, at).wrapping_add(rng.pick(&[1, 4, 8, u32::MAX, u32::MAX - 3, u32::MAX - 7])).to_le_bytes();
                bytes[at..at + 4].copy_from_slice(&w);
            }
            4 => bytes.truncate(at),
            5 => {
                let end = (at + 4 * (1 + rng.below(4))).min(bytes.len());
                bytes.drain(at..end);
            }
            _ => {
                let n = 4 * (1 + rng.below(3));
                let more = rng.bytes(n);
                let at = at / 4 * 4;
                bytes.splice(at..at, more);
            }
        }
    }
}

fn some_module(rng: &mut Rng, out: &mut Out, area: &[u8], asked: &str) {
    let n = rng.pick(&[0usize, 4, 4, 4, 8, 12, 16, 1, 2, 3, 6]);
    let mut stream = words(&[if rng.once_in(12) { some_word(rng) } else { 4 }]);
    stream.resize(n.max(4), 7);
    stream.truncate(n);
    stream.extend_from_slice(area);
    let tail = rng.pick(&[0usize, 0, 4, 1]);
    stream.extend(vec![9; tail]);
    let mut sizes = [n as u32, 0, area.len() as u32];
    if rng.once_in(10) {
        sizes[1] = rng.pick(&[1, 4, 0xffff_ffff]);
    }
    if rng.once_in(6) {
        let i = rng.pick(&[0, 2]);
        sizes[i] = if rng.once_in(2) { some_word(rng) } else { sizes[i].wrapping_add(rng.pick(&[1, 4, 8, u32::MAX, u32::MAX - 3])) };
    }
    let [symbols, c11, c13] = sizes;
    out.put("module", &stream, &format!(" sym={symbols} c11={c11} c13={c13}{asked}"));
}

fn some_strings(rng: &mut Rng, out: &mut Out) {
    let size = rng.pick(&[0usize, 1, 2, 3, 8, 20, 40]);
    let names: Vec<u8> = (0..size).map(|_| if rng.once_in(4) { 0 } else { 1 + rng.below(255) as u8 }).collect();
    let mut s = words(&[
        if rng.once_in(12) { some_word(rng) } else { 0xeffe_effe },
        if rng.once_in(12) { some_word(rng) } else { 1 + rng.below(2) as u32 },
        if rng.once_in(12) { some_word(rng) } else { size as u32 },
    ]);
    s.extend(&names);
    let tail = rng.pick(&[12usize, 12, 16, 11, 13, 0, 40]);
    let tail = rng.bytes(tail);
    s.extend(tail);
    if rng.once_in(4) {
        damage(rng, &mut s);
    }
    let mut offs: Vec<u32> = (0..4).map(|_| rng.below(size + 3) as u32).collect();
    offs.push(some_word(rng));
    let offs: Vec<String> = offs.iter().map(|o| o.to_string()).collect();
    out.put("strings", &s, &format!(" offs={}", offs.join(",")));
}

fn random(out: &mut Out, seed: u64, count: u64) {
    let mut rng = Rng(seed);
    while out.count < count {
        if rng.once_in(8) {
            some_strings(&mut rng, out);
            continue;
        }
        let mut area = some_area(&mut rng);
        let mut asked = Asked::about(&area);
        if rng.once_in(3) {
            damage(&mut rng, &mut area);
        }
        asked.files.push(some_word(&mut rng));
        asked.syms.push((rng.below(4) as u16, some_word(&mut rng)));
        asked.imports.push(some_word(&mut rng));
        asked.exports.push(some_word(&mut rng));
        asked.cut(&mut rng, 5);
        if rng.once_in(6) {
            some_module(&mut rng, out, &area, &asked.text());
        } else if rng.once_in(30) {
            let shift = 1 + rng.below(7);
            out.put("area", &area, &format!("{} at={shift}", asked.text()));
        } else {
            out.put("area", &area, &asked.text());
        }
    }
}

// ---- the corpus

fn files(dir: &str, end: &str) -> Vec<(String, Vec<u8>)> {
    let mut found: Vec<_> = std::fs::read_dir(dir)
        .expect(dir)
        .map(|e| e.expect("entry").path())
        .filter(|p| p.to_str().is_some_and(|p| p.ends_with(end)))
        .collect();
    found.sort();
    found
        .into_iter()
        .map(|p| (p.file_name().unwrap().to_str().unwrap().trim_end_matches(end).to_string(), std::fs::read(&p).expect("read")))
        .collect()
}

fn strings_case(out: &mut Out, s: &[u8]) {
    let size = if s.len() < 12 { 0 } else { word(s, 8) };
    let offs: Vec<String> = (0..size.min(1200)).chain([size, size.wrapping_add(1)]).map(|o| o.to_string()).collect();
    out.put("strings", s, &format!(" offs={}", offs.join(",")));
}

fn corpus(out: &mut Out, dir: &str, copies: usize) {
    let mut rng = Rng(0xc13);
    for (_, area) in files(&format!("{dir}/areas"), ".c13") {
        out.area(&area);
        if area.len() < 3000 {
            for _ in 0..copies {
                let mut copy = area.clone();
                damage(&mut rng, &mut copy);
                let mut asked = Asked::about(&copy);
                asked.cut(&mut rng, 5);
                out.put("area", &copy, &asked.text());
            }
        }
    }
    let mut tables: Vec<Vec<u8>> = files(&format!("{dir}/names"), ".names").into_iter().map(|f| f.1).collect();
    // The names of an object file stand in a subsection; a stream is made of them.
    for (_, names) in files(&format!("{dir}/names"), ".f3") {
        let mut table = words(&[0xeffe_effe, 1, names.len() as u32]);
        table.extend(names);
        table.extend([0; 12]);
        tables.push(table);
    }
    for table in tables {
        strings_case(out, &table);
        for _ in 0..copies / 10 {
            let mut copy = table.clone();
            damage(&mut rng, &mut copy);
            strings_case(out, &copy);
        }
    }
    let sizes = std::fs::read_to_string(format!("{dir}/sizes.txt")).expect("sizes");
    let streams = files(&format!("{dir}/streams"), ".mod");
    for line in sizes.lines().filter(|l| !l.starts_with('#')) {
        let w: Vec<&str> = line.split(' ').collect();
        let stream = &streams.iter().find(|(name, _)| name == w[0]).expect(w[0]).1;
        let (symbols, c13): (usize, usize) = (w[1].parse().unwrap(), w[3].parse().unwrap());
        let asked = Asked::about(&stream[symbols..symbols + c13]).text();
        for (more, c11) in [(0, w[2]), (1, w[2]), (0, "8")] {
            out.put("module", stream, &format!(" sym={symbols} c11={c11} c13={}{asked}", c13 + more * stream.len()));
        }
    }
}

/// Areas and a stream of the greatest length that is read, and of one byte more (refusal 11).
fn large(out: &mut Out, path: &str) {
    let area = std::fs::read(path).expect(path);
    let mut asked = Asked::about(&area);
    asked.cut(&mut Rng(1), 20);
    out.put("area", &area, &asked.text());
    for over in [0usize, 1] {
        let top = 16_777_216 + over;
        let mut a = sub(0xf8, &words(&[5, 6]));
        let fill = vec![0; top - a.len() - 8];
        a.extend(sub(0xf1, &fill));
        out.area(&a);
        let mut s = words(&[0xeffe_effe, 1, (top - 24) as u32]);
        s.resize(top, 0);
        out.put("strings", &s, " offs=0,16777192,16777191");
    }
}

fn main() {
    let args: Vec<String> = std::env::args().skip(1).collect();
    let args: Vec<&str> = args.iter().map(|a| a.as_str()).collect();
    let part = |p: String| Out { out: std::io::BufWriter::with_capacity(1 << 20, std::io::stdout()), count: 0, part: p };
    match args[..] {
        ["short"] => short(&mut part("s".into())),
        ["corpus", dir, copies] => corpus(&mut part("c".into()), dir, copies.parse().expect("copies")),
        ["large", path] => large(&mut part("l".into()), path),
        ["random", seed, count] => random(&mut part(format!("r{seed}.")), seed.parse().expect("seed"), count.parse().expect("count")),
        _ => panic!("usage: cases short | corpus DIR COPIES | large FILE | random SEED COUNT"),
    }
}
