//! bodies AREA..: the subsection of each line record of each area, by the position of its body. There a line subsection stands: the 8 bytes before are its
//! header, its body ends in the area, it is of the record's section and begins no later than the record. And it is the right one: the records are just the
//! lines that are no markers, as they are read here from the bytes, subsection by subsection in the order of their code. Prints how many there were; anything
//! else ends it with a panic.

use c13::{Area, LineInfo};

const MARKERS: [u32; 2] = [0xfe_efee, 0xf0_0f00];

fn word(area: &[u8], at: usize) -> u32 {
    u32::from_le_bytes(area[at..at + 4].try_into().expect("four"))
}

/// The place of the code that a line subsection is of.
fn code(area: &[u8], body: usize) -> (u16, u32) {
    (word(area, body + 4) as u16, word(area, body))
}

/// Where the bodies of the line subsections start, in the order of their code, and of the area where that is the same.
fn line_bodies(area: &[u8]) -> Vec<usize> {
    let (mut at, mut bodies) = (0, vec![]);
    while at < area.len() {
        if word(area, at) == 0xf2 {
            bodies.push(at + 8);
        }
        at += 8 + word(area, at + 4) as usize;
    }
    bodies.sort_by_key(|body| code(area, *body));
    bodies
}

/// The lines of a subsection that are no markers: its body, their offsets and their start lines.
fn lines_of(area: &[u8], body: usize) -> Vec<(u32, u32, u32)> {
    let (mut block, end, mut lines) = (body + 12, body + word(area, body - 4) as usize, vec![]);
    while block < end {
        let entries = (0..word(area, block + 4) as usize).map(|i| block + 12 + 8 * i);
        let read = entries.map(|at| (body as u32, word(area, body) + word(area, at), word(area, at + 4) & 0xff_ffff));
        lines.extend(read.filter(|(_, _, start)| !MARKERS.contains(start)));
        block += word(area, block + 8) as usize;
    }
    lines
}

#[derive(Default)]
struct Counts {
    areas: usize,
    refused: usize,
    subsections: usize,
    /// Those that start at the same place of the code as the one before them.
    alike: usize,
    records: usize,
}

impl Counts {
    fn hold(&mut self, area: &[u8], records: &[LineInfo]) {
        for record in records {
            let body = record.body as usize;
            assert!(word(area, body - 8) == 0xf2 && word(area, body - 4) as usize <= area.len() - body, "{record:?}");
            let (section, offset) = code(area, body);
            assert!(section == record.offset.section && offset <= record.offset.offset, "{record:?}");
        }
        let bodies = line_bodies(area);
        let told = records.iter().map(|r| (r.body, r.offset.offset, r.line_start));
        assert!(told.eq(bodies.iter().flat_map(|body| lines_of(area, *body))), "the records are not the lines of their subsections");
        self.subsections += bodies.len();
        self.alike += bodies.windows(2).filter(|pair| code(area, pair[0]) == code(area, pair[1])).count();
        self.records += records.len();
    }
}

fn main() {
    let mut counts = Counts::default();
    for path in std::env::args_os().skip(1) {
        eprintln!("{}", path.to_string_lossy());
        let area = std::fs::read(&path).expect("an area");
        counts.areas += 1;
        match Area::new(&area).line_program() {
            Ok(program) => counts.hold(&area, &program.lines().collect::<Result<Vec<_>, _>>().expect("lines")),
            Err(_) => counts.refused += 1,
        }
    }
    let Counts { areas, refused, subsections, alike, records } = counts;
    assert!(records > 0 && alike > 0, "{records} records, {alike} subsections that start where another does");
    println!("{areas} areas, {refused} of them refused, {records} records of {subsections} subsections, {alike} of which start where another does");
}
