//! end_lines AREA..: walks the lines of each area by each reading of end lines: all of them and those of symbols, many records a call and, where there are not
//! too many, one a call. By each there are as many records as by the crate's, each the same but for its end line, and behind them is the same end or the same
//! refusal, told by the same statuses. By the crate's reading the end line is the start line; by low bits and by delta it is one of the 128 lines from there on, and both tell the same
//! seven bits: by low bits they are the lowest of the end line, by delta the lines between. Prints how many there were; anything else ends it with a panic.

use c13::calls::{self, RecordWord, END_LINES_CRATE, END_LINES_DELTA, END_LINES_LOW_BITS};
use c13::calls::{GIVEN, LAST, LINE_STATE, NONE, RECORD, REFUSED, STATE_END_LINES};

const READINGS: [u32; 3] = [END_LINES_CRATE, END_LINES_LOW_BITS, END_LINES_DELTA];
const START: usize = 5;
const END: usize = 6;
/// The words lent to a call.
type Out = [u64; LINE_STATE + RECORD];
type Record = [u64; RECORD];
/// The records of a walk, and what is behind them: none, or a refusal and what it carries.
type Walk = (Vec<Record>, Option<[u64; 2]>);

/// An area with its two lists; where it is refused they are empty, and a walk tells why.
struct Area {
    bytes: Vec<u8>,
    slots: Vec<u32>,
    bodies: Vec<u32>,
}

impl Area {
    fn of(bytes: Vec<u8>) -> Area {
        let list = |call: fn(&[u8], &mut [u32], &mut [u64]) -> u32| {
            let (mut slots, mut out) = (vec![0; bytes.len() / 20], [0; 2]);
            let given = call(&bytes, &mut slots, &mut out) == GIVEN;
            slots.truncate(if given { out[0] as usize } else { 0 });
            slots
        };
        let (slots, bodies) = (list(calls::c13_order_list), list(calls::c13_body_list));
        Area { bytes, slots, bodies }
    }

    /// The place of the code that a line subsection is of.
    fn symbol(&self, slot: u32) -> (u16, u32) {
        let word = |at: usize| u32::from_le_bytes(self.bytes[at..at + 4].try_into().expect("four"));
        (word(slot as usize + 4) as u16, word(slot as usize))
    }

    /// The walk from a state on, many records a call; and the status of each call.
    fn many(&self, mut out: Out) -> (Walk, Vec<u32>) {
        let (mut given, mut statuses, mut room) = (vec![], vec![], vec![0; 1000 * RECORD]);
        let reading = out[STATE_END_LINES];
        loop {
            let call = |records: &mut [RecordWord], out: &mut Out| calls::c13_lines(&self.bytes, &self.slots, &self.bodies, records, out);
            let status = call(&mut room, &mut out);
            assert_eq!(out[STATE_END_LINES], reading, "the choice is kept");
            statuses.push(status);
            match status {
                GIVEN | LAST => {
                    let taken = room.chunks_exact(RECORD).take(out[LINE_STATE] as usize);
                    given.extend(taken.map(|record| -> Record { std::array::from_fn(|i| record[i].into()) }));
                }
                NONE => return ((given, None), statuses),
                REFUSED => return ((given, Some([out[LINE_STATE], out[LINE_STATE + 1]])), statuses),
                other => panic!("status {other}"),
            }
        }
    }

    /// The same, one record a call.
    fn single(&self, mut out: Out) -> Walk {
        let mut given = vec![];
        let reading = out[STATE_END_LINES];
        loop {
            let status = calls::c13_next_line(&self.bytes, &self.slots, &self.bodies, &mut out);
            assert_eq!(out[STATE_END_LINES], reading, "the choice is kept");
            match status {
                GIVEN => given.push(std::array::from_fn(|i| out[LINE_STATE + i])),
                NONE => return (given, None),
                REFUSED => return (given, Some([out[LINE_STATE], out[LINE_STATE + 1]])),
                other => panic!("status {other}"),
            }
        }
    }

    /// Where the walk over the lines of a symbol begins. An area whose lists are given refuses no symbol.
    fn begin(&self, (section, offset): (u16, u32), reading: u32) -> Out {
        let mut out = [0; LINE_STATE + RECORD];
        assert_eq!(calls::c13_lines_for_symbol(&self.bytes, &self.slots, &self.bodies, section, offset, reading, &mut out), GIVEN);
        out
    }
}

#[derive(Default)]
struct Counts {
    walks: usize,
    refused: usize,
    records: usize,
    /// Those that by low bits, and by delta, end on another line than by the crate's reading.
    low_bits: usize,
    delta: usize,
}

impl Counts {
    /// Holds the walks by low bits and by delta against the one by the crate's reading, and the statuses of their calls.
    fn hold(&mut self, [(by_crate, statuses), (by_low_bits, low_statuses), (by_delta, delta_statuses)]: [(Walk, Vec<u32>); 3]) {
        for (other, told) in [(&by_low_bits, low_statuses), (&by_delta, delta_statuses)] {
            assert_eq!((by_crate.0.len(), by_crate.1), (other.0.len(), other.1), "records, and what is behind them");
            assert_eq!(statuses, told, "the statuses");
        }
        self.walks += 1;
        self.refused += usize::from(by_crate.1.is_some());
        for ((one, low), delta) in by_crate.0.into_iter().zip(by_low_bits.0).zip(by_delta.0) {
            for mut other in [low, delta] {
                other[END] = one[END];
                assert_eq!(one, other);
            }
            let start = one[START];
            assert!(one[END] == start && (start..start + 128).contains(&low[END]), "{one:?} {low:?}");
            assert!(delta[END] >= start && delta[END] - start <= 127, "{one:?} {delta:?}");
            assert_eq!(low[END] & 127, delta[END] - start, "the seven bits: {low:?} {delta:?}");
            self.records += 1;
            self.low_bits += usize::from(low[END] != one[END]);
            self.delta += usize::from(delta[END] != one[END]);
        }
    }

    /// Prints the counts. Where a reading has no end line of its own, it was not told apart from the crate's.
    fn print(self, of: &str) {
        let Counts { walks, refused, records, low_bits, delta } = self;
        assert!(low_bits > 0 && delta > 0, "{of}: {low_bits} end on another line by low bits, {delta} by delta");
        println!("{walks} {of}, {refused} of them refused, {records} records, of which {low_bits} end on another line by low bits, {delta} by delta");
    }
}

/// All lines, and those of up to 64 symbols.
fn walked(area: &Area, whole: &mut Counts, symbols: &mut Counts) {
    let new = |reading: u32| {
        let mut out = [0; LINE_STATE + RECORD];
        out[STATE_END_LINES] = reading.into();
        out
    };
    let walks = READINGS.map(|reading| area.many(new(reading)));
    if area.slots.len() <= 1000 {
        for (reading, (walk, _)) in READINGS.iter().zip(&walks) {
            assert_eq!(&area.single(new(*reading)), walk);
        }
    }
    whole.hold(walks);
    for slot in area.slots.iter().step_by(1 + area.slots.len() / 64) {
        symbols.hold(READINGS.map(|reading| area.many(area.begin(area.symbol(*slot), reading))));
    }
}

fn main() {
    let (mut whole, mut symbols) = (Counts::default(), Counts::default());
    for path in std::env::args_os().skip(1) {
        eprintln!("{}", path.to_string_lossy());
        walked(&Area::of(std::fs::read(&path).expect("an area")), &mut whole, &mut symbols);
    }
    whole.print("areas");
    symbols.print("symbols");
}
