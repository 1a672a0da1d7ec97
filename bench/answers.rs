//! Answers of either side, as the numbers that both sides must agree on, and what is done with them.

use c13::calls::RECORD;
use pdb::{CrossModuleExport, FileChecksum, FileInfo, LineInfo, LineInfoKind};
use std::hint::black_box;

/// An answer as numbers.
pub trait Numbers {
    fn numbers(&self, add: &mut impl FnMut(u64));
}

impl Numbers for [u64] {
    fn numbers(&self, add: &mut impl FnMut(u64)) {
        self.iter().for_each(|w| add(*w));
    }
}

impl Numbers for [u32] {
    fn numbers(&self, add: &mut impl FnMut(u64)) {
        self.iter().for_each(|w| add(u64::from(*w)));
    }
}

impl Numbers for [u8] {
    fn numbers(&self, add: &mut impl FnMut(u64)) {
        add(self.len() as u64);
        self.iter().for_each(|b| add(u64::from(*b)));
    }
}

/// How many words of a record the crate has, too: all but the last, the position of the body that it was read from.
pub const SHARED: usize = RECORD - 1;

/// A line of either crate, in these words: both name their fields alike.
macro_rules! line_numbers {
    ($line:ty, $kind:ty) => {
        impl Numbers for $line {
            fn numbers(&self, add: &mut impl FnMut(u64)) {
                let number = |n: Option<u32>| (n.is_some() as u32, n.unwrap_or(0));
                let ((a, length), (b, start), (c, end)) = (number(self.length), number(self.column_start), number(self.column_end));
                let (at, statement) = (self.offset, matches!(self.kind, <$kind>::Statement) as u32);
                let (first, last) = (self.line_start, self.line_end);
                let words: [u32; SHARED] = [at.section.into(), at.offset, a, length, self.file_index.0, first, last, b, start, c, end, statement];
                words[..].numbers(add);
            }
        }
    };
}
line_numbers!(LineInfo, LineInfoKind);
line_numbers!(c13::LineInfo, c13::LineInfoKind);

impl Numbers for FileInfo<'_> {
    fn numbers(&self, add: &mut impl FnMut(u64)) {
        let (kind, bytes): (u64, &[u8]) = match self.checksum {
            FileChecksum::None => (0, &[]),
            FileChecksum::Md5(b) => (1, b),
            FileChecksum::Sha1(b) => (2, b),
            FileChecksum::Sha256(b) => (3, b),
        };
        [u64::from(self.name.0), kind].numbers(add);
        bytes.numbers(add);
    }
}

impl Numbers for c13::FileInfo<'_> {
    fn numbers(&self, add: &mut impl FnMut(u64)) {
        let kind = match self.checksum {
            c13::FileChecksum::None => 0,
            c13::FileChecksum::Md5(_) => 1,
            c13::FileChecksum::Sha1(_) => 2,
            c13::FileChecksum::Sha256(_) => 3,
        };
        [u64::from(self.name.0), kind].numbers(add);
        self.checksum.bytes().numbers(add);
    }
}

/// The same in the library's words: name, kind, and the bytes that the other two words name.
pub struct FileWords<'a, W>(pub &'a [W], pub &'a [u8]);

impl<W: Copy + Into<u64>> Numbers for FileWords<'_, W> {
    fn numbers(&self, add: &mut impl FnMut(u64)) {
        self.0.iter().take(2).for_each(|w| add((*w).into()));
        self.1.numbers(add);
    }
}

impl Numbers for CrossModuleExport {
    fn numbers(&self, add: &mut impl FnMut(u64)) {
        match self {
            CrossModuleExport::Type(local, global) => [0, u64::from(local.0 .0), u64::from(global.0)].numbers(add),
            CrossModuleExport::Id(local, global) => [1, u64::from(local.0 .0), u64::from(global.0)].numbers(add),
        }
    }
}

/// What is done with the answers of a case.
pub trait Taker {
    fn take<T: Numbers + ?Sized>(&mut self, answer: &T);
}

/// Handed over: the optimiser must have each answer in memory.
pub struct Handed;

impl Taker for Handed {
    #[inline(always)]
    fn take<T: Numbers + ?Sized>(&mut self, answer: &T) {
        black_box(answer);
    }
}

/// The number of the answers, and a checksum over all their numbers in order.
#[derive(Clone, Copy, Debug, Default, PartialEq)]
pub struct Summed {
    pub answers: u64,
    pub sum: u64,
}

impl Taker for Summed {
    fn take<T: Numbers + ?Sized>(&mut self, answer: &T) {
        self.answers += 1;
        let sum = &mut self.sum;
        answer.numbers(&mut |n| *sum = (sum.rotate_left(5) ^ n).wrapping_mul(0x9e37_79b9_7f4a_7c15));
    }
}
