//! Splits of a word into blocks: a safe interface to a proved library.
//!
//! A *word* is a slice of symbols, at most [`LIMIT`] of them, all bytes (`u8`) or all 16-bit codes
//! (`u16`), as [`Symbol`] says; any value is a symbol, and positions count from 1. The *unit* of a
//! part is the smallest distance at which no two of its symbols differ. A *block* is a part at
//! least twice as long as its unit in edition 1, and at least three times as long in edition 2, and
//! its unit has at most [`UNIT_MEMORY`] symbols; a function that tests for blocks or nodes is told
//! the [`Edition`]. A *run* is a part at least twice as long as its unit, of a unit of any length,
//! that cannot be lengthened; runs and their numbers are the same in both editions. A *split* of a
//! word is a series of blocks that join up to it, given by the positions of their ends. The field
//! calls a block a repetition, its unit its smallest period, and a split a repetition
//! factorization. A *square* is a non-empty word of any length twice over; [`best_squares_into`]
//! and [`judge_squares`] split into squares instead of blocks, and are told no edition.
//!
//! ```
//! # #[cfg(feature = "alloc")] {
//! use cegridom::{best_split, best_squares, part, Choice, Edition, Refusal};
//!
//! let word = b"aabaabaa";
//! assert_eq!(best_split(word, Edition::One, Choice::Fewest), Ok(vec![8]));
//! assert_eq!(best_split(word, Edition::One, Choice::Most), Ok(vec![2, 8]));
//! assert_eq!(best_split(word, Edition::Two, Choice::Fewest), Err(Refusal::NoSplit));
//! assert_eq!(best_split(b"aaaaaa", Edition::Two, Choice::Most), Ok(vec![3, 6]));
//! assert_eq!(best_squares(word, Choice::Fewest), Ok(vec![2, 8]));
//! assert_eq!(part(word, Edition::One, 3, 8).unwrap().unit, 3);
//!
//! let codes: [u16; 8] = [300, 300, 7, 300, 300, 7, 300, 300];
//! assert_eq!(best_split(&codes, Edition::One, Choice::Most), Ok(vec![2, 8]));
//! # }
//! ```
//!
//! # Answers
//!
//! Every input gets an answer: `Ok`, or the first [`Refusal`] whose condition is met, in the order
//! that the function's text lists them, by their numbers. An accepted answer changes only the front
//! of a lent table; a refusal changes none of it. A working table is the exception, as the text of
//! each function that has one says. [`first_block_into`] alone refuses nothing: it gives an empty
//! part where [`which_first_into`] refuses.
//!
//! # Memory and threads
//!
//! [`judge_split`], [`judge_squares`], [`judge_path`], [`version`] and the functions named
//! `.._into`, which work in tables that the caller lends, allocate nothing. The others allocate
//! their tables; they come with the feature `alloc`, which is on by default. Without it the crate
//! needs `core` alone. The archive needs the C library's `memset` and nothing else.
//!
//! How large a lent table must be is known before a call: [`most_runs`], [`most_ends`],
//! [`work_places`], [`page_bytes`], [`line_bytes`] and [`line_ends`] give sizes that suffice.
//!
//! No call keeps state, so any number of threads may call at once. What the archive takes of the
//! stack for the longest words is said in the text of each function; where nothing is said, it is
//! under 1 KiB. No function takes more than 108 KiB for up to 4,096 symbols, and 16 KiB for up to 64.
//! None takes more than 1.5 MiB but those that write a best split, into blocks or squares, which take
//! 48 bytes a block: 1.7 MB for 35,000 blocks, the most that there are. A thread of 2 MiB, which is
//! what the standard library gives one, is enough for every call. The figures are of bytes; 16-bit
//! codes take as much or less.
//!
//! # What is proved
//!
//! The contracts of the library stand on its own source, and are proved. This crate is outside the
//! proof, and tested. The archive is for x86-64 Linux.

#![no_std]
#![deny(missing_docs, unsafe_op_in_unsafe_fn)]
#![warn(
    missing_debug_implementations,
    unreachable_pub,
    clippy::undocumented_unsafe_blocks
)]

#[cfg(feature = "alloc")]
extern crate alloc;

mod lent;
#[cfg(feature = "alloc")]
mod owned;
pub mod raw;
mod refusal;
mod symbol;

pub use lent::{
    best_split_into, best_squares_into, first_block_into, judge_path, judge_split, judge_squares,
    nodes_into, part_into, path_of_split_into, read_plan_into, runs_into, version,
    which_first_into, write_page_into, write_plan_into, Choice, Edition, Part, Run, Step, Which,
};
#[cfg(feature = "alloc")]
pub use owned::{
    best_sizes, best_split, best_squares, best_squares_sizes, first_block, nodes, part,
    path_of_split, read_plan, runs, units, which_first, write_page, write_plan, Plan,
};
pub use refusal::Refusal;
pub use symbol::Symbol;

/// The longest word that the library takes.
pub const LIMIT: usize = 70_000;

/// The longest word that a plan line of four digits a number is for; the line of a longer one has six
/// digits a number.
pub const LINE_LIMIT: usize = 4096;

/// The longest unit of a block, in both editions: what unit memory holds.
pub const UNIT_MEMORY: u32 = 256;

/// What the working tables of [`best_split_into`] and [`best_squares_into`] hold for a leading part
/// that has no split.
pub const NONE: u32 = 4_294_967_295;

/// The places that a working table needs for a word of `n` symbols; of two words, for the longer.
///
/// ```
/// assert_eq!(cegridom::work_places(8), 36);
/// ```
pub const fn work_places(n: usize) -> usize {
    n.saturating_add(1).saturating_mul(4)
}

/// Runs that suffice for every word of `n` symbols: `n - 1`, and none for the empty word. It is
/// proved that a word has fewer runs than symbols and the empty word none. So many runs in the table
/// lent to [`runs_into`], and so many numbers in that of [`nodes_into`], never get refusal 7.
///
/// ```
/// use cegridom::{most_runs, runs_into, Run};
///
/// assert_eq!((most_runs(0), most_runs(1), most_runs(8)), (0, 0, 7));
///
/// let mut table = [Run::default(); most_runs(2)];
/// assert_eq!(runs_into(b"aa", &mut table), Ok(1));
/// assert_eq!(runs_into(b"ab", &mut table), Ok(0));
/// ```
pub const fn most_runs(n: usize) -> usize {
    n.saturating_sub(1)
}

/// The most ends that a split of a word of `n` symbols has: half of `n`, rounded down. It is proved
/// that no split, of either edition or into squares, has more. So many places for the ends in
/// [`best_split_into`] and [`best_squares_into`], and in the table of [`path_of_split_into`], never
/// get refusal 7.
///
/// ```
/// assert_eq!(cegridom::most_ends(5), 2);
/// ```
pub const fn most_ends(n: usize) -> usize {
    n / 2
}

/// The bytes of a page of so many blocks.
///
/// ```
/// assert_eq!(cegridom::page_bytes(2), 122);
/// ```
pub const fn page_bytes(blocks: usize) -> usize {
    blocks.saturating_mul(raw::PAGE_LINE_BYTES)
}

/// The bytes of a plan line of four digits a number with `k` ends, the line of a word of at most
/// [`LINE_LIMIT`] symbols.
///
/// ```
/// assert_eq!(cegridom::plan_bytes(2), b"plan,0008,0002,0002,0008\n".len());
/// ```
pub const fn plan_bytes(k: usize) -> usize {
    k.saturating_mul(5).saturating_add(15)
}

/// The bytes of a plan line of six digits a number with `k` ends, the line of a word of more than
/// [`LINE_LIMIT`] symbols. So many are enough for a line of either kind.
///
/// ```
/// assert_eq!(cegridom::long_bytes(1), b"long,068000,000001,068000\n".len());
/// ```
pub const fn long_bytes(k: usize) -> usize {
    k.saturating_mul(7).saturating_add(19)
}

/// The bytes of the plan line with `k` ends of a word of `n` symbols: [`plan_bytes`] up to
/// [`LINE_LIMIT`] symbols, [`long_bytes`] above.
///
/// ```
/// use cegridom::{line_bytes, long_bytes, plan_bytes};
///
/// assert_eq!(line_bytes(4096, 3), plan_bytes(3));
/// assert_eq!(line_bytes(4097, 3), long_bytes(3));
/// ```
pub const fn line_bytes(n: usize, k: usize) -> usize {
    if n > LINE_LIMIT {
        long_bytes(k)
    } else {
        plan_bytes(k)
    }
}

/// Ends that suffice for every plan line of so many bytes, of either kind: no such line has more.
/// [`LIMIT`] of them suffice for every line.
///
/// ```
/// use cegridom::{line_ends, long_bytes, plan_bytes};
///
/// assert_eq!(line_ends(plan_bytes(2)), 2);
/// assert!(line_ends(long_bytes(2)) >= 2);
/// assert_eq!(line_ends(3), 0);
/// ```
pub const fn line_ends(bytes: usize) -> usize {
    // A line of four digits has the more ends for its bytes.
    bytes.saturating_sub(plan_bytes(0)) / (plan_bytes(1) - plan_bytes(0))
}

#[cfg(all(doctest, feature = "alloc"))]
#[doc = include_str!("../README.md")]
struct Readme;
