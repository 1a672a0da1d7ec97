//! What is measured over: a file, or an area that is made.

use c13::calls::{self, GIVEN, LINE_STATE, RECORD, TABLE_STATE};
use pdb::{oracle_module, ModuleInfo};

/// The lists of an area's line subsections: in the order of their code, and in that of the area.
#[derive(Clone, Default)]
pub struct Lists {
    pub slots: Vec<u32>,
    pub bodies: Vec<u32>,
}

impl Lists {
    /// The lists of an area, if it is not refused.
    pub fn of(area: &[u8]) -> Option<Lists> {
        let (mut slots, mut out) = (vec![0; area.len() / 20], [0; 2]);
        if calls::c13_order_list(area, &mut slots, &mut out) != GIVEN {
            return None;
        }
        slots.truncate(out[0] as usize);
        let mut bodies = vec![0; slots.len()];
        (calls::c13_body_list(area, &mut bodies, &mut out) == GIVEN).then_some(Lists { slots, bodies })
    }
}

/// An input, and what is asked of it, all made before anything is measured.
pub struct Input {
    pub bytes: Vec<u8>,
    pub module: Option<ModuleInfo<'static>>,
    pub lists: Lists,
    /// How many line records the area has.
    pub records: usize,
    pub symbols: Vec<(u16, u32)>,
    pub indices: Vec<u32>,
    pub locals: Vec<u32>,
    pub references: Vec<u32>,
    pub offsets: Vec<u32>,
}

pub fn word(bytes: &[u8], at: usize) -> u32 {
    u32::from_le_bytes(bytes[at..at + 4].try_into().expect("four bytes"))
}

/// Little-endian words.
pub fn bytes_of(words: impl IntoIterator<Item = u32>) -> Vec<u8> {
    words.into_iter().flat_map(u32::to_le_bytes).collect()
}

/// A subsection.
pub fn subsection(kind: u32, body: &[u8]) -> Vec<u8> {
    let mut bytes = bytes_of([kind, body.len() as u32]);
    bytes.extend_from_slice(body);
    bytes
}

/// An area of line subsections of two lines each, of 32 bytes of code, that take these places.
fn line_area(places: impl IntoIterator<Item = u32>) -> Vec<u8> {
    let lines = |place| subsection(0xf2, &bytes_of([0x1000 + 32 * place, 1, 32, 0, 2, 28, 0, 0x8000_000a, 16, 0x8000_000b]));
    places.into_iter().flat_map(lines).collect()
}

/// An input that is made: n of a thing.
fn made(thing: &str, n: u32) -> Vec<u8> {
    match thing {
        "sorted" => line_area(0..n),
        "reversed" => line_area((0..n).rev()),
        "random" => line_area(shuffled(n)),
        "exports" => subsection(0xf8, &bytes_of((0..n).flat_map(|i| [0x1000 + 2 * i, 0x2000 + i]))),
        // modules of 16 words
        "imports" => subsection(0xf7, &bytes_of((0..n / 16).flat_map(|m| [5 + m, 16].into_iter().chain((0..16).map(move |i| 0x1000 + 16 * m + i))))),
        "names" => {
            let names: Vec<u8> = (0..n).flat_map(|i| format!("c:\\project\\source\\file{i:06}.cpp\0").into_bytes()).collect();
            [bytes_of([0xeffe_effe, 1, names.len() as u32]), names, vec![0; 12]].concat()
        }
        _ => panic!("no input is made of {thing}: sorted, reversed, random, exports, imports, names"),
    }
}

/// The numbers below n in an order without order: each is drawn from those that are left.
pub fn shuffled(n: u32) -> Vec<u32> {
    let mut all: Vec<u32> = (0..n).collect();
    let mut state = 1u64;
    for i in (1..all.len()).rev() {
        state = state.wrapping_mul(6_364_136_223_846_793_005).wrapping_add(1_442_695_040_888_963_407);
        all.swap(i, ((state >> 33) % (i as u64 + 1)) as usize);
    }
    all
}

/// At most `most` of the given, spread evenly.
fn some<T: Copy>(all: &[T], most: usize) -> Vec<T> {
    let step = (all.len() + most - 1) / most.max(1);
    all.iter().copied().step_by(step.max(1)).collect()
}

/// The middle one.
pub fn middle<T>(all: &[T]) -> &[T] {
    let at = all.len() / 2;
    &all[at..(at + 1).min(all.len())]
}

impl Input {
    /// None where the area is refused: an area without refusals is measured.
    pub fn new(name: &str) -> Option<Input> {
        let bytes = match name.split_once(':') {
            Some((thing, n)) => made(thing, n.parse().expect("how many")),
            None => std::fs::read(name).unwrap_or_else(|why| panic!("{name}: {why}")),
        };
        let mut input = Input {
            bytes,
            module: None,
            lists: Lists::default(),
            records: 0,
            symbols: vec![],
            indices: vec![],
            locals: vec![],
            references: vec![],
            offsets: vec![],
        };
        if name.ends_with(".names") || name.starts_with("names:") {
            input.names();
            return Some(input);
        }
        input.area().map(|()| input)
    }

    pub fn module(&self) -> &ModuleInfo<'static> {
        self.module.as_ref().expect("an area")
    }

    fn names(&mut self) {
        let names = &self.bytes[12..12 + word(&self.bytes, 8) as usize];
        let starts: Vec<u32> = (0..names.len()).filter(|i| *i == 0 || names[i - 1] == 0).map(|i| i as u32).collect();
        self.offsets = some(&starts, 64);
    }

    fn area(&mut self) -> Option<()> {
        let area = &self.bytes;
        self.module = oracle_module(area, 0, 0, 0, area.len() as u32).ok();
        self.lists = Lists::of(area)?;
        let symbol = |slot: &u32| (word(area, *slot as usize + 4) as u16, word(area, *slot as usize));
        self.symbols = some(&self.lists.bodies.iter().map(symbol).collect::<Vec<_>>(), 16);
        self.records = c13::Area::new(area).line_program().ok()?.lines().collect::<Result<Vec<_>, _>>().ok()?.len();
        let (mut files, mut out) = (vec![], [0; LINE_STATE + RECORD]);
        while calls::c13_next_file(area, &mut out) == GIVEN {
            files.push(out[TABLE_STATE] as u32);
        }
        self.indices = some(&files, 16);
        let (mut bodies, mut out) = (vec![], [0; 4]);
        while calls::c13_next_sub(area, &mut out) == GIVEN {
            bodies.push((out[1], out[2] as usize, out[3] as usize));
        }
        let first = |kind: u64| bodies.iter().find(|b| b.0 == kind);
        if let Some((_, at, len)) = first(0xf8) {
            let locals: Vec<u32> = (0..len / 8).map(|i| word(area, at + 8 * i)).collect();
            self.locals = some(&locals, 16);
        }
        if let Some((_, at, len)) = first(0xf7) {
            self.references = some(&references(&area[*at..at + len]), 16);
        }
        Some(())
    }
}

/// All cross-module references of an import table.
fn references(table: &[u8]) -> Vec<u32> {
    let (mut p, mut module, mut all) = (0, 0, vec![]);
    while p < table.len() {
        let count = word(table, p + 4);
        (0..count).for_each(|i| all.push(0x8000_0000 | module << 20 | i));
        p += 8 + 4 * count as usize;
        module += 1;
    }
    all
}
