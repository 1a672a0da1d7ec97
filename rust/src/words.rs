//! What the calls leave in the lent words, taken out of them without a panic.

use crate::calls::{RecordWord, GIVEN, LAST, NONE, REFUSED};
use crate::Refusal;

/// A word of an answer or of a record. One that is not there is 0.
pub(crate) fn word<W: Copy + Into<u64>>(words: &[W], i: usize) -> u64 {
    words.get(i).copied().map_or(0, W::into)
}

/// A word that holds a u32.
pub(crate) fn word32<W: Copy + Into<u64>>(words: &[W], i: usize) -> u32 {
    word(words, i) as u32
}

/// A word that holds a place or a length.
pub(crate) fn size<W: Copy + Into<u64>>(words: &[W], i: usize) -> usize {
    word(words, i) as usize
}

/// A number, or none, in two words of a record.
pub(crate) fn optional(has: RecordWord, number: RecordWord) -> Option<u32> {
    (has != 0).then_some(number)
}

/// The part of the bytes whose start and length are the words at i.
#[inline]
pub(crate) fn part<'a, W: Copy + Into<u64>>(bytes: &'a [u8], words: &[W], i: usize) -> &'a [u8] {
    within(bytes, size(words, i), size(words, i + 1)).unwrap_or_else(empty)
}

/// The part of the bytes at a place, if it lies in them.
#[inline]
pub(crate) fn within(bytes: &[u8], start: usize, length: usize) -> Option<&[u8]> {
    bytes.get(start..).and_then(|rest| rest.get(..length))
}

#[cold]
fn empty<'a>() -> &'a [u8] {
    &[]
}

/// Why a call of this status gave no answer: the refusal whose words these are.
#[cold]
fn refused(status: u32, words: &[u64]) -> Refusal {
    match status {
        REFUSED => Refusal::of(word(words, 0), word(words, 1)),
        // The words lent are always enough; a choice is a case of an enum; "none" and the last of many are told before, and calls that `one` asks do not answer
        // them. So this does not come.
        _ => Refusal::of(0, u64::from(status)),
    }
}

/// What a call answered whose status this is: the words from `state` on, or nothing, or the refusal that stands there.
#[inline]
pub(crate) fn answer(status: u32, out: &[u64], state: usize) -> Result<Option<&[u64]>, Refusal> {
    let words = out.get(state..).unwrap_or(&[]);
    match status {
        NONE => Ok(None),
        GIVEN | LAST => Ok(Some(words)),
        _ => Err(refused(status, words)),
    }
}

/// What a lookup whose status this is found, as `told` takes it out of the words; or nothing. No lookup answers `LAST`.
#[inline]
pub(crate) fn found<T>(status: u32, out: &[u64], told: impl FnOnce(&[u64]) -> T) -> Result<Option<T>, Refusal> {
    if status == GIVEN {
        return Ok(Some(told(out)));
    }
    nothing(status, out)?;
    Ok(None)
}

/// That a lookup found nothing, or why it is refused.
#[cold]
fn nothing(status: u32, out: &[u64]) -> Result<(), Refusal> {
    match status {
        NONE => Ok(()),
        _ => Err(refused(status, out)),
    }
}

/// The answer of a call that is no walk and never answers "none".
#[inline]
pub(crate) fn one<const N: usize>(call: impl FnOnce(&mut [u64]) -> u32) -> Result<[u64; N], Refusal> {
    let mut out = [0; N];
    match call(&mut out) {
        GIVEN => Ok(out),
        status => Err(refused(status, &out)),
    }
}

/// A walk: the words that are lent to its steps, and whether it is over.
#[derive(Clone, Debug)]
pub(crate) struct Walk<const N: usize> {
    out: [u64; N],
    over: bool,
}

impl<const N: usize> Walk<N> {
    /// A new walk.
    pub(crate) fn new() -> Self {
        Walk { out: [0; N], over: false }
    }

    /// A walk whose state is the first words.
    pub(crate) fn from(out: [u64; N]) -> Self {
        Walk { out, over: false }
    }

    /// The next record's words. A walk that ended or was refused is over, and so is one behind whose records nothing comes.
    pub(crate) fn next(&mut self, state: usize, call: impl FnOnce(&mut [u64]) -> u32) -> Option<Result<&[u64], Refusal>> {
        if self.over {
            return None;
        }
        let status = call(&mut self.out);
        let answer = answer(status, &self.out, state);
        self.over = status == LAST || !matches!(answer, Ok(Some(_)));
        answer.transpose()
    }

    /// How many records it can still give at most, a refusal counted as one, where each takes LEAST bytes or more of the area.
    pub(crate) fn at_most<const LEAST: usize>(&self, area: &[u8]) -> usize {
        let records = area.len().checked_div(LEAST).unwrap_or(usize::MAX);
        if self.over {
            0
        } else {
            records.saturating_add(1)
        }
    }
}

/// A walk whose calls give many records at once, of R words each: the records of the last call, and which of their words were taken.
#[derive(Clone, Debug)]
pub(crate) struct Many<const N: usize, const R: usize> {
    walk: Walk<N>,
    records: Vec<RecordWord>,
    /// How many records the next call is asked for.
    room: usize,
    /// Where the words of the next record begin, and where those of the last one end.
    next: usize,
    end: usize,
}

/// How many records a call is asked for at least and at most, and how many times as many as the last one: what a call tests before its first record is
/// then tested seldom, and who takes few records lends little.
const LEAST_ROOM: usize = 32;
const MOST_ROOM: usize = 1 << 16;
const GROWTH: usize = 4;

impl<const N: usize, const R: usize> Many<N, R> {
    /// The records that a walk gives. The first call is asked for `room` of them, within the limits.
    pub(crate) fn of(walk: Walk<N>, room: usize) -> Self {
        Many { walk, records: vec![], room, next: 0, end: 0 }
    }

    /// The next record's words; where those of the last call are taken, `call` gives more.
    #[inline]
    pub(crate) fn next(
        &mut self,
        state: usize,
        call: impl FnOnce(&mut [RecordWord], &mut [u64]) -> u32,
    ) -> Option<Result<&[RecordWord; R], Refusal>> {
        if self.next >= self.end {
            if let Err(why) = self.more(state, call)? {
                return Some(Err(why));
            }
        }
        let words = self.records.get(self.next..)?.get(..R)?;
        self.next += R;
        words.try_into().ok().map(Ok)
    }

    /// The records of one more call, in the place of those that are taken.
    #[inline(never)]
    fn more(&mut self, state: usize, call: impl FnOnce(&mut [RecordWord], &mut [u64]) -> u32) -> Option<Result<(), Refusal>> {
        if self.walk.over {
            return None;
        }
        let room = self.room.clamp(LEAST_ROOM, MOST_ROOM);
        self.room = room.saturating_mul(GROWTH);
        if self.records.len() != room.saturating_mul(R) {
            self.records = vec![0; room.saturating_mul(R)];
        }
        let records = &mut self.records;
        let count = match self.walk.next(state, |out| call(records, out))? {
            Ok(count) => size(count, 0),
            Err(why) => return Some(Err(why)),
        };
        self.next = 0;
        self.end = count.saturating_mul(R);
        Some(Ok(()))
    }

    /// How many records there are still, at least and at most, a refusal counted as one, where each takes LEAST bytes or more of the area.
    pub(crate) fn size_hint<const LEAST: usize>(&self, area: &[u8]) -> (usize, Option<usize>) {
        let held = self.end.saturating_sub(self.next) / R;
        (held, Some(held.saturating_add(self.walk.at_most::<LEAST>(area))))
    }
}
