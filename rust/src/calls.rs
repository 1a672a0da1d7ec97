//! The calls of the static library, on slices. This is the only module with unsafe code.
//!
//! Each answers a status and puts words into `out`: what they are is written at each call in `include/c13.h`. A slice is two C parameters: the
//! pointer and the length. What the words mean is read in `words.rs` alone, so that a change of a call's words is one of these two files.

/// Nothing to answer: a walk is at its end, a lookup found nothing.
pub const NONE: u32 = 0;
/// An answer, in the words of `out`.
pub const GIVEN: u32 = 1;
/// A refusal: its number and what it carries.
pub const REFUSED: u32 = 2;
/// `out` is too short for the answer; nothing was put.
pub const TOO_SHORT: u32 = 3;
/// An answer as [`GIVEN`], and nothing comes behind it.
pub const LAST: u32 = 4;
/// What was chosen, in the state or as a parameter, is none of the choices; nothing was put.
pub const NO_SUCH_CHOICE: u32 = 5;

/// How many words the state of a walk takes at the front of `out`: of the subsections, of a table, of the lines.
pub const SUB_STATE: usize = 1;
pub const TABLE_STATE: usize = 4;
pub const LINE_STATE: usize = 30;
/// The word of the lines' state that is the reading of end lines, and its numbers: the crate's, low bits, and delta. The same numbers are a
/// parameter of `c13_lines_for_symbol`.
pub const STATE_END_LINES: usize = 29;
pub const END_LINES_CRATE: u32 = 0;
pub const END_LINES_LOW_BITS: u32 = 1;
pub const END_LINES_DELTA: u32 = 2;
/// The words of a line record, and of a file of `c13_files`.
pub const RECORD: usize = 13;
pub const FILE_RECORD: usize = 5;
/// A word of the records that `c13_lines` and `c13_files` give.
pub type RecordWord = u32;

/// Declares a call and wraps it. In its list of parameters a slice is written `[name: element]`, one that is written to `[mut name: element]`, and a
/// number `(name: type)`. Sound: each pointer is valid for its length and aligned, and what is written to is no part of anything else, since slices
/// are so; the library asks for nothing more.
macro_rules! call {
    // taken apart, one parameter at a time: the C parameters, the Rust ones, the arguments
    (@ $name:ident [$($c:tt)*] [$($r:tt)*] [$($a:tt)*] [$s:ident: $e:ty] $($rest:tt)*) => {
        call!(@ $name [$($c)* $s: *const $e, _: usize,] [$($r)* $s: &[$e],] [$($a)* $s.as_ptr(), $s.len(),] $($rest)*);
    };
    (@ $name:ident [$($c:tt)*] [$($r:tt)*] [$($a:tt)*] [mut $s:ident: $e:ty] $($rest:tt)*) => {
        call!(@ $name [$($c)* $s: *mut $e, _: usize,] [$($r)* $s: &mut [$e],] [$($a)* $s.as_mut_ptr(), $s.len(),] $($rest)*);
    };
    (@ $name:ident [$($c:tt)*] [$($r:tt)*] [$($a:tt)*] ($n:ident: $t:ty) $($rest:tt)*) => {
        call!(@ $name [$($c)* $n: $t,] [$($r)* $n: $t,] [$($a)* $n,] $($rest)*);
    };
    (@ $name:ident [$($c:tt)*] [$($r:tt)*] [$($a:tt)*]) => {
        #[inline]
        pub fn $name($($r)*) -> u32 {
            extern "C" {
                fn $name($($c)*) -> u32;
            }
            unsafe { $name($($a)*) }
        }
    };
    ($name:ident $($parameters:tt)*) => {
        call!(@ $name [] [] [] $($parameters)* [mut out: u64]);
    };
}

macro_rules! calls {
    ($($name:ident($($parameters:tt)*);)*) => { $(call!($name $($parameters)*);)* };
}

calls! {
    c13_next_sub([area: u8]);
    c13_order_list([area: u8] [mut slots: u32]);
    c13_body_list([area: u8] [mut bodies: u32]);
    c13_next_line([area: u8] [slots: u32] [bodies: u32]);
    c13_lines([area: u8] [slots: u32] [bodies: u32] [mut records: RecordWord]);
    c13_lines_for_symbol([area: u8] [slots: u32] [bodies: u32] (section: u16) (offset: u32) (end_lines: u32));
    c13_next_file([area: u8]);
    c13_files([area: u8] [mut records: RecordWord]);
    c13_file_at([area: u8] (index: u32));
    c13_checksums([area: u8]);
    c13_file_in([data: u8] (index: u32));
    c13_next_inlinee([area: u8]);
    c13_next_import([area: u8]);
    c13_word([area: u8] (place: usize) (count: usize) (i: usize));
    c13_resolve_import([area: u8] (index: u32));
    c13_import_list([area: u8] [mut places: u32]);
    c13_resolve_listed([area: u8] [places: u32] (index: u32));
    c13_next_export([area: u8]);
    c13_export_count([area: u8]);
    c13_resolve_export([area: u8] (local: u32));
    c13_export_body([area: u8]);
    c13_export_at([body: u8] (i: usize));
    c13_export_in([body: u8] (local: u32));
    c13_string_table([stream: u8]);
    c13_name([stream: u8] (offset: u32));
    c13_module_symbols([stream: u8] (symbols: u32) (c11: u32) (c13: u32));
    c13_lines_part([stream: u8] (symbols: u32) (c11: u32) (c13: u32));
    c13_tables_part([stream: u8] (symbols: u32) (c11: u32) (c13: u32));
    c13_plain([area: u8]);
    c13_open_lines([mut buf: u8] (place: usize) (offset: u32) (section: u16) (flags: u16) (code: u32));
    c13_add_block([mut buf: u8] (place: usize) (file: u32) [lines: u32] [columns: u32]);
    c13_open_checksums([mut buf: u8] (place: usize));
    c13_add_entry([mut buf: u8] (place: usize) (name: u32) (kind: u8) [bytes: u8]);
    c13_open_inlinees([mut buf: u8] (place: usize) (signature: u32));
    c13_add_inlinee([mut buf: u8] (place: usize) (inlinee: u32) (file: u32) (line: u32) [extra: u32]);
    c13_open_imports([mut buf: u8] (place: usize));
    c13_add_module([mut buf: u8] (place: usize) (name: u32) [words: u32]);
    c13_open_exports([mut buf: u8] (place: usize));
    c13_add_pair([mut buf: u8] (place: usize) (local: u32) (global: u32));
    c13_add_opaque([mut buf: u8] (place: usize) (kind: u32) [body: u8]);
}
