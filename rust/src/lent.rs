//! The calls that allocate nothing.
//!
//! Safety of the calls into the archive: every pointer handed over comes from a slice, with that
//! slice's own count of elements, or from a variable of the wrapper, and is valid for the whole
//! call. Whatever is written comes from a `&mut` of its own, so that nothing overlaps it; two words
//! that are only read may overlap. A word goes to the function that is declared for its kind of
//! symbol, which the types of `Symbol::CALLS` demand.

use crate::raw::{self, RUN_PLACES, STEP_PLACES};
use crate::{Refusal, Symbol};

/// The edition of the winder's controller, which says how long a block is at least.
#[derive(Clone, Copy, Debug, PartialEq, Eq, Hash)]
pub enum Edition {
    /// The old winders: a block is at least twice as long as its unit. Edition 1.
    One,
    /// The new winder: a block is at least three times as long as its unit. Edition 2.
    Two,
}

impl Edition {
    /// The number of the edition, which the functions in [`raw`] take.
    pub const fn number(self) -> u32 {
        match self {
            Edition::One => 1,
            Edition::Two => 2,
        }
    }
}

/// Whether the split with the fewest or with the most blocks or squares is wanted.
#[derive(Clone, Copy, Debug, PartialEq, Eq, Hash)]
pub enum Choice {
    /// The fewest: choice 1.
    Fewest,
    /// The most: choice 2.
    Most,
}

impl Choice {
    /// The number of the choice, which the functions in [`raw`] take.
    pub const fn number(self) -> u32 {
        match self {
            Choice::Fewest => 1,
            Choice::Most => 2,
        }
    }
}

/// Which of two words comes first.
#[derive(Clone, Copy, Debug, PartialEq, Eq, Hash)]
pub enum Which {
    /// The first of the two: answer 1.
    First,
    /// The second of the two: answer 2.
    Second,
}

impl Which {
    /// The number of the answer, which the functions in [`raw`] give.
    pub const fn number(self) -> u32 {
        match self {
            Which::First => 1,
            Which::Second => 2,
        }
    }
}

/// What [`part_into`] says of a part of a word.
#[derive(Clone, Copy, Debug, PartialEq, Eq, Hash)]
pub struct Part {
    /// The smallest distance at which no two symbols of the part differ; the length, where they do
    /// at every smaller one.
    pub unit: u32,
    /// The length divided by the unit, rounded down.
    pub turns: u32,
    /// The remainder of that division.
    pub rest: u32,
    /// Whether the part is a block of the edition.
    pub block: bool,
}

/// A run: a part at least twice as long as its unit that cannot be lengthened. Positions count from
/// 1.
#[derive(Clone, Copy, Debug, Default, PartialEq, Eq, Hash)]
#[repr(C)]
pub struct Run {
    /// The position of its first symbol.
    pub first: u32,
    /// The position of its last symbol.
    pub last: u32,
    /// Its unit.
    pub unit: u32,
    /// The position from `first` to `first + unit - 1` where the `unit` symbols starting there come
    /// first in order of symbol code, from 0 up; there is just one. Two runs wind the same unit,
    /// perhaps from different starting symbols, exactly where their units are equal and the `unit`
    /// symbols starting at their roots are the same.
    pub root: u32,
}

/// One block of a path.
#[derive(Clone, Copy, Debug, Default, PartialEq, Eq, Hash)]
#[repr(C)]
pub struct Step {
    /// The number of the run that the block lies in, from 1.
    pub run: u32,
    /// The position of the block's end.
    pub end: u32,
}

// A run and a step are handed over as so many numbers each.
const _: () = assert!(size_of::<Run>() == RUN_PLACES * size_of::<u32>());
const _: () = assert!(size_of::<Step>() == STEP_PLACES * size_of::<u32>());

/// The values that a call hands over by pointer, or its refusal.
fn values<const N: usize>(
    call: impl FnOnce(&mut [u32; N], &mut u32) -> u32,
) -> Result<[u32; N], Refusal> {
    let (mut values, mut index) = ([0; N], 0);
    let result = call(&mut values, &mut index);
    Refusal::check(result, index).map(|()| values)
}

/// The one value that a call hands over, a count, or its refusal.
fn count(call: impl FnOnce(&mut u32, &mut u32) -> u32) -> Result<usize, Refusal> {
    values(|[count], index| call(count, index)).map(|[count]| count as usize)
}

/// The version of the archive, major and minor. It is the crate's own where the two belong together;
/// nothing else checks that the declarations in [`raw`] fit.
///
/// ```
/// let (major, minor) = cegridom::version();
/// println!("libcegridom {major}.{minor}");
/// ```
pub fn version() -> (u32, u32) {
    // SAFETY: the function takes nothing and answers always.
    let number = unsafe { raw::cegridom_version() };
    (number / raw::MAJOR, number % raw::MAJOR)
}

/// Writes the unit of every leading part, but the empty one, of the symbols at the positions `first`
/// to `last`, and gives the unit, the turns and the rest of them all, and whether they are a block.
/// Only the last depends on the edition. Place `i` of the table has the unit of the first `i + 1`
/// symbols, so the last place written has the unit that is given.
///
/// Refusals: 1, 6, 7. The table needs `last - first + 1` places. Time linear in the part's length.
///
/// ```
/// use cegridom::{part_into, Edition, Refusal};
///
/// let mut units = [9; 6];
/// let p = part_into(b"ababa", Edition::One, 1, 5, &mut units).unwrap();
/// assert_eq!((p.unit, p.turns, p.rest, p.block), (2, 2, 1, true));
/// assert_eq!(units, [1, 2, 2, 2, 2, 9]);
///
/// let short = part_into(b"aabaabaa", Edition::One, 1, 8, &mut units);
/// assert_eq!(short, Err(Refusal::TooFewPlaces));
/// assert_eq!(units, [1, 2, 2, 2, 2, 9]);
/// ```
pub fn part_into<S: Symbol>(
    word: &[S],
    edition: Edition,
    first: u32,
    last: u32,
    units: &mut [u32],
) -> Result<Part, Refusal> {
    let (n, word) = (word.len(), word.as_ptr());
    let edition = edition.number();
    let (unit_places, units) = (units.len(), units.as_mut_ptr());
    values(|[unit, turns, rest, block], index| {
        // SAFETY: as said at the head of this file.
        unsafe {
            (S::CALLS.part)(
                word,
                n,
                edition,
                first,
                last,
                units,
                unit_places,
                unit,
                turns,
                rest,
                block,
                index,
            )
        }
    })
    .map(|[unit, turns, rest, block]| Part {
        unit,
        turns,
        rest,
        block: block == 1,
    })
}

/// Writes the runs of a word, by first and then by unit, and gives how many there are. The run at
/// place `i` of the table has the number `i + 1`.
///
/// Refusals: 1, 7. A table of [`most_runs`](crate::most_runs) runs never gets 7. Time at most
/// n log n in the length n, with one more logarithm on powers; 1,235 KiB of stack.
///
/// ```
/// use cegridom::{runs_into, Run};
///
/// let mut table = [Run::default(); 3];
/// assert_eq!(runs_into(b"aabb", &mut table), Ok(2));
/// assert_eq!(table[0], Run { first: 1, last: 2, unit: 1, root: 1 });
/// assert_eq!(table[1], Run { first: 3, last: 4, unit: 1, root: 3 });
/// assert_eq!(table[2], Run::default());
/// ```
pub fn runs_into<S: Symbol>(word: &[S], table: &mut [Run]) -> Result<usize, Refusal> {
    let (n, word) = (word.len(), word.as_ptr());
    let (places, table) = (RUN_PLACES * table.len(), table.as_mut_ptr().cast());
    // SAFETY: as said at the head of this file; a run is `RUN_PLACES` numbers.
    count(|count, index| unsafe { (S::CALLS.runs)(word, n, table, places, count, index) })
}

/// Writes the numbers of the runs that have a white node at a position, rising, and gives how many
/// there are. A run has one at each position from `first + 2 * unit - 1` to `last`; in edition 2,
/// from `first + 3 * unit - 1`. A run whose unit is above
/// [`UNIT_MEMORY`](crate::UNIT_MEMORY) has none.
///
/// Refusals: 1, 6, 7. A table of [`most_runs`](crate::most_runs) numbers never gets 7. Time that of
/// [`runs_into`]; 1,509 KiB of stack.
///
/// ```
/// use cegridom::{nodes_into, Edition};
///
/// let mut table = [0; 3];
/// assert_eq!(nodes_into(b"aabaabaa", Edition::One, 8, &mut table), Ok(2));
/// assert_eq!(table, [2, 4, 0]);
/// assert_eq!(nodes_into(b"aabaabaa", Edition::Two, 8, &mut table), Ok(0));
/// ```
pub fn nodes_into<S: Symbol>(
    word: &[S],
    edition: Edition,
    position: u32,
    table: &mut [u32],
) -> Result<usize, Refusal> {
    let (n, word) = (word.len(), word.as_ptr());
    let edition = edition.number();
    let (places, table) = (table.len(), table.as_mut_ptr());
    // SAFETY: as said at the head of this file.
    count(|count, index| unsafe {
        (S::CALLS.nodes)(word, n, edition, position, table, places, count, index)
    })
}

/// Writes the ends of the split with the fewest or the most blocks, and gives its size, the number
/// of its blocks. Of the splits of that size it is the one whose last block is longest, then the
/// one before it, and so on.
///
/// Refusals: 1, 9, 2, 7. [`most_ends`](crate::most_ends) places for the ends never get 7. Time at
/// most proportional to the length times 512, in edition 2 times 768; 48 bytes of stack a block of
/// the split, 1.7 MB at most.
///
/// The working table needs [`work_places`](crate::work_places) places, and those past them never
/// change. After an answer, and after 2 and 7 too, its first `n + 1` places hold the best size of
/// each leading part of 0 to `n` symbols, [`NONE`](crate::NONE) where it has no split, and the next
/// `3 * (n + 1)` hold 0. After 1 and 9 it keeps its contents.
///
/// ```
/// use cegridom::{best_split_into, work_places, Choice, Edition, NONE};
///
/// let mut ends = [9; 3];
/// let mut work = [9; work_places(4)];
/// assert_eq!(best_split_into(b"aaaa", Edition::One, Choice::Most, &mut ends, &mut work), Ok(2));
/// assert_eq!(ends, [2, 4, 9]);
/// assert_eq!(work[..5], [0, NONE, 1, 1, 2]);
///
/// assert_eq!(best_split_into(b"aaaa", Edition::Two, Choice::Most, &mut ends, &mut work), Ok(1));
/// assert_eq!(ends, [4, 4, 9]);
/// assert_eq!(work[..5], [0, NONE, NONE, 1, 1]);
/// ```
pub fn best_split_into<S: Symbol>(
    word: &[S],
    edition: Edition,
    choice: Choice,
    ends: &mut [u32],
    work: &mut [u32],
) -> Result<usize, Refusal> {
    let (n, word) = (word.len(), word.as_ptr());
    let (edition, choice) = (edition.number(), choice.number());
    let (end_places, ends) = (ends.len(), ends.as_mut_ptr());
    let (work_places, work) = (work.len(), work.as_mut_ptr());
    // SAFETY: as said at the head of this file.
    count(|size, index| unsafe {
        (S::CALLS.best_split)(
            word,
            n,
            edition,
            choice,
            ends,
            end_places,
            work,
            work_places,
            size,
            index,
        )
    })
}

/// Writes the ends of the split into squares with the fewest or the most of them, and gives its size,
/// the number of its squares. The half of a square need not be primitive: `aaaa` is one. Of the
/// splits of that size it is the one whose last square is longest, then the one before it, and so
/// on. A word of odd length has none.
///
/// Refusals: 1, 9, 2, 7. [`most_ends`](crate::most_ends) places for the ends never get 7. Time
/// that of [`runs_into`], and a step for each run and each symbol in it; 1,235 KiB of stack, or 48
/// bytes a square of the split where that is more, 1.7 MB at most.
///
/// The working table needs [`work_places`](crate::work_places) places, and those past them never
/// change. After an answer, and after 2 and 7 too, its first `n + 1` places hold the best size of
/// each leading part of 0 to `n` symbols, [`NONE`](crate::NONE) where it has no split into squares,
/// and the next `3 * (n + 1)` hold 0. After 1 and 9 it keeps its contents.
///
/// ```
/// use cegridom::{best_squares_into, work_places, Choice, Refusal, NONE};
///
/// let mut ends = [9; 3];
/// let mut work = [9; work_places(4)];
/// assert_eq!(best_squares_into(b"aaaa", Choice::Fewest, &mut ends, &mut work), Ok(1));
/// assert_eq!(ends, [4, 9, 9]);
/// assert_eq!(work[..5], [0, NONE, 1, NONE, 1]);
///
/// assert_eq!(best_squares_into(b"aaaa", Choice::Most, &mut ends, &mut work), Ok(2));
/// assert_eq!(ends, [2, 4, 9]);
/// assert_eq!(work[..5], [0, NONE, 1, NONE, 2]);
///
/// let odd = best_squares_into(b"aaa", Choice::Most, &mut ends, &mut work);
/// assert_eq!(odd, Err(Refusal::NoSplit));
/// assert_eq!(ends, [2, 4, 9]);
/// assert_eq!(work[..4], [0, NONE, 1, NONE]);
/// ```
pub fn best_squares_into<S: Symbol>(
    word: &[S],
    choice: Choice,
    ends: &mut [u32],
    work: &mut [u32],
) -> Result<usize, Refusal> {
    let (n, word) = (word.len(), word.as_ptr());
    let choice = choice.number();
    let (end_places, ends) = (ends.len(), ends.as_mut_ptr());
    let (work_places, work) = (work.len(), work.as_mut_ptr());
    // SAFETY: as said at the head of this file.
    count(|size, index| unsafe {
        (S::CALLS.best_squares)(
            word,
            n,
            choice,
            ends,
            end_places,
            work,
            work_places,
            size,
            index,
        )
    })
}

/// Which of two words has fewer blocks in its fewest split. The first wins a tie; if only one can
/// be split it is that one. The two may overlap or be the same.
///
/// Refusals: 1 for either; 9 for the longer; 2 if neither can be split. Time that of two fewest
/// splits.
///
/// The working table needs the [`work_places`](crate::work_places) of the longer word, and those
/// past them never change. After an answer, and after 2 too, its first so many places hold 0. After
/// 1 and 9 it keeps its contents.
///
/// ```
/// use cegridom::{which_first_into, work_places, Edition, Refusal, Which};
///
/// let one = Edition::One;
/// let mut work = [9; work_places(8) + 1];
/// assert_eq!(which_first_into(b"aabb", b"aabaabaa", one, &mut work), Ok(Which::Second));
/// assert_eq!(work[..work_places(8)], [0; work_places(8)]);
/// assert_eq!(work[work_places(8)], 9);
///
/// assert_eq!(which_first_into(b"aabb", b"ab", one, &mut work), Ok(Which::First));
/// assert_eq!(which_first_into(b"ba", b"ab", one, &mut work), Err(Refusal::NoSplit));
/// assert_eq!(which_first_into(b"aa", b"aaaaaaaaa", one, &mut work), Err(Refusal::ShortTable));
/// ```
pub fn which_first_into<S: Symbol>(
    a: &[S],
    b: &[S],
    edition: Edition,
    work: &mut [u32],
) -> Result<Which, Refusal> {
    let (a_n, a) = (a.len(), a.as_ptr());
    let (b_n, b) = (b.len(), b.as_ptr());
    let edition = edition.number();
    let (work_places, work) = (work.len(), work.as_mut_ptr());
    values(|[which], index| {
        // SAFETY: as said at the head of this file.
        unsafe { (S::CALLS.which_first)(a, a_n, b, b_n, edition, work, work_places, which, index) }
    })
    .map(|[which]| match which {
        1 => Which::First,
        _ => Which::Second,
    })
}

/// The first block of the word that [`which_first_into`] gives, in its fewest split, the one that
/// [`best_split_into`] writes: a part of the caller's own symbols, from that word's first to the
/// first end. It is empty where that word is empty, and where [`which_first_into`] refuses; that
/// function tells the two apart.
///
/// The working table is used and left as by [`which_first_into`], also where that refuses. Time that
/// of two fewest splits.
///
/// ```
/// use cegridom::{first_block_into, work_places, Edition};
///
/// let one = Edition::One;
/// let mut work = [9; work_places(21)];
/// let (short, long) = (b"aabb", b"abaabaababaabaabababa");
/// // Both have two blocks, and the first wins a tie.
/// assert_eq!(first_block_into(short, long, one, &mut work), b"aa");
/// assert_eq!(first_block_into(long, short, one, &mut work), b"abaabaababaabaab");
/// assert_eq!(first_block_into(short, b"aabaabaa", one, &mut work), b"aabaabaa");
/// assert_eq!(first_block_into(short, b"", one, &mut work), b"");
/// assert_eq!(first_block_into(b"ba", b"ab", one, &mut work), b"");
/// ```
pub fn first_block_into<'a, S: Symbol>(
    a: &'a [S],
    b: &'a [S],
    edition: Edition,
    work: &mut [u32],
) -> &'a [S] {
    let edition = edition.number();
    let (work_places, work) = (work.len(), work.as_mut_ptr());
    let [which, length] = values(|[which, length], _| {
        // SAFETY: as said at the head of this file.
        unsafe {
            (S::CALLS.first_block)(
                a.as_ptr(),
                a.len(),
                b.as_ptr(),
                b.len(),
                edition,
                work,
                work_places,
                which,
                length,
            )
        }
    })
    .unwrap_or_default();
    // The call refuses nothing and gives no more than the word's length: the two defaults only make
    // this total. A length of 0 is the empty part of either word.
    let word = if which == 2 { b } else { a };
    word.get(..length as usize).unwrap_or_default()
}

/// Judges a split, given by its ends: the number of its blocks, or what is wrong with it.
///
/// Refusals: 1; then for each end in turn 3, 4; then 5. Time at most proportional to the length times
/// [`UNIT_MEMORY`](crate::UNIT_MEMORY).
///
/// ```
/// use cegridom::{judge_split, Edition, Refusal};
///
/// let (word, one) = (b"aabaabaa", Edition::One);
/// assert_eq!(judge_split(word, one, &[2, 8]), Ok(2));
/// assert_eq!(judge_split(word, one, &[3, 8]), Err(Refusal::NotBlock { index: 1 }));
/// assert_eq!(judge_split(word, one, &[2, 2, 8]), Err(Refusal::BadEnd { index: 2 }));
/// assert_eq!(judge_split(word, one, &[]), Err(Refusal::Unfinished));
/// assert_eq!(judge_split(word, Edition::Two, &[8]), Err(Refusal::NotBlock { index: 1 }));
/// ```
pub fn judge_split<S: Symbol>(
    word: &[S],
    edition: Edition,
    ends: &[u32],
) -> Result<usize, Refusal> {
    let (n, word) = (word.len(), word.as_ptr());
    let edition = edition.number();
    let (end_count, ends) = (ends.len(), ends.as_ptr());
    // SAFETY: as said at the head of this file.
    count(|blocks, index| unsafe {
        (S::CALLS.judge_split)(word, n, edition, ends, end_count, blocks, index)
    })
}

/// Judges a split into squares, given by its ends: the number of its squares, or what is wrong with
/// it.
///
/// Refusals: 1; then for each end in turn 3, 4; then 5. Time linear in the length.
///
/// ```
/// use cegridom::{judge_squares, judge_split, Edition, Refusal};
///
/// let word = b"aabaabaa";
/// assert_eq!(judge_squares(word, &[2, 8]), Ok(2));
/// assert_eq!(judge_squares(word, &[6, 8]), Ok(2));
/// assert_eq!(judge_squares(word, &[2, 2, 8]), Err(Refusal::BadEnd { index: 2 }));
/// assert_eq!(judge_squares(word, &[2]), Err(Refusal::Unfinished));
///
/// // The whole word is a block, with a rest of two, and not a square.
/// assert_eq!(judge_split(word, Edition::One, &[8]), Ok(1));
/// assert_eq!(judge_squares(word, &[8]), Err(Refusal::NotBlock { index: 1 }));
/// ```
pub fn judge_squares<S: Symbol>(word: &[S], ends: &[u32]) -> Result<usize, Refusal> {
    let (n, word) = (word.len(), word.as_ptr());
    let (end_count, ends) = (ends.len(), ends.as_ptr());
    // SAFETY: as said at the head of this file.
    count(|blocks, index| unsafe {
        (S::CALLS.judge_squares)(word, n, ends, end_count, blocks, index)
    })
}

/// Writes the run number of each block of a split, and gives how many there are. It is that of the
/// one run that encloses the block and has its unit.
///
/// Refusals: 1; then for each end in turn 3, 4; then 5; then 7. A table of
/// [`most_ends`](crate::most_ends) numbers never gets 7. Time that of [`runs_into`] and of
/// [`judge_split`]; 1,510 KiB of stack.
///
/// ```
/// use cegridom::{path_of_split_into, Edition};
///
/// let mut table = [9; 3];
/// assert_eq!(path_of_split_into(b"aabaabaa", Edition::One, &[2, 8], &mut table), Ok(2));
/// assert_eq!(table, [1, 2, 9]);
/// ```
pub fn path_of_split_into<S: Symbol>(
    word: &[S],
    edition: Edition,
    ends: &[u32],
    table: &mut [u32],
) -> Result<usize, Refusal> {
    let (n, word) = (word.len(), word.as_ptr());
    let edition = edition.number();
    let (end_count, ends) = (ends.len(), ends.as_ptr());
    let (places, table) = (table.len(), table.as_mut_ptr());
    // SAFETY: as said at the head of this file.
    count(|blocks, index| unsafe {
        (S::CALLS.path_of_split)(
            word, n, edition, ends, end_count, table, places, blocks, index,
        )
    })
}

/// Judges a path in the edition's graph of the runs: the number of its blocks, or what is wrong with
/// it.
///
/// Refusals: 1; then for each end in turn 3, 4; then 5. Time that of [`runs_into`] and of
/// [`judge_split`]; 1,510 KiB of stack.
///
/// ```
/// use cegridom::{judge_path, Edition, Refusal, Step};
///
/// let (word, one) = (b"aabaabaa", Edition::One);
/// let first = Step { run: 1, end: 2 };
/// assert_eq!(judge_path(word, one, &[first, Step { run: 2, end: 8 }]), Ok(2));
/// assert_eq!(
///     judge_path(word, one, &[first, Step { run: 4, end: 8 }]),
///     Err(Refusal::NotBlock { index: 2 })
/// );
/// assert_eq!(judge_path(word, one, &[first]), Err(Refusal::Unfinished));
/// assert_eq!(judge_path(word, Edition::Two, &[first]), Err(Refusal::NotBlock { index: 1 }));
/// ```
pub fn judge_path<S: Symbol>(
    word: &[S],
    edition: Edition,
    path: &[Step],
) -> Result<usize, Refusal> {
    let (n, word) = (word.len(), word.as_ptr());
    let edition = edition.number();
    let (number_count, numbers) = (STEP_PLACES * path.len(), path.as_ptr().cast());
    // SAFETY: as said at the head of this file; a step is `STEP_PLACES` numbers.
    count(|blocks, index| unsafe {
        (S::CALLS.judge_path)(word, n, edition, numbers, number_count, blocks, index)
    })
}

/// Writes the page of a split, and gives its count of bytes, [`page_bytes`](crate::page_bytes). Each
/// block becomes one line of 60 characters and byte 10. Its number from 1, first, last, unit, turns,
/// rest and run number take six characters each, right-aligned and filled with spaces; the run
/// number is that of [`path_of_split_into`]. The other eighteen show the first symbols of the unit in
/// lower-case hexadecimal digits, at most nine bytes of two digits each or four 16-bit symbols of
/// four digits each, and then spaces.
///
/// Refusals: 1; then for each end in turn 3, 4; then 5; then 7. Time that of
/// [`path_of_split_into`], and linear in the bytes; 1,510 KiB of stack.
///
/// ```
/// use cegridom::{page_bytes, write_page_into, Edition};
///
/// let mut out = [b'.'; page_bytes(2) + 1];
/// assert_eq!(write_page_into(b"aabaabaa", Edition::One, &[2, 8], &mut out), Ok(122));
/// let lines = [
///     &b"     1     1     2     1     2     0     161                \n"[..],
///     b"     2     3     8     3     2     0     2626161            \n",
/// ];
/// assert_eq!(out[..122], lines.concat());
/// assert_eq!(out[122], b'.');
///
/// let word = [0x1234u16, 0xff, 3, 4, 5].repeat(2);
/// assert_eq!(write_page_into(&word, Edition::One, &[10], &mut out), Ok(61));
/// let line = b"     1     1    10     5     2     0     1123400ff00030004  \n";
/// assert_eq!(out[..61], line[..]);
/// ```
pub fn write_page_into<S: Symbol>(
    word: &[S],
    edition: Edition,
    ends: &[u32],
    out: &mut [u8],
) -> Result<usize, Refusal> {
    let (n, word) = (word.len(), word.as_ptr());
    let edition = edition.number();
    let (end_count, ends) = (ends.len(), ends.as_ptr());
    let (room, out) = (out.len(), out.as_mut_ptr());
    // SAFETY: as said at the head of this file.
    count(|bytes, index| unsafe {
        (S::CALLS.write_page)(word, n, edition, ends, end_count, out, room, bytes, index)
    })
}

/// Writes the plan line of a word's length and the ends of a split, and gives its count of bytes,
/// [`line_bytes`](crate::line_bytes). Up to [`LINE_LIMIT`](crate::LINE_LIMIT) symbols the line begins
/// with `plan` and has four digits a number, above with `long` and six. It carries no symbols, so it
/// is not asked whether the pieces are blocks.
///
/// Refusals: 1, also where `n` is more than 32 bits hold; 3 for each end; 5; 7. Time linear in the
/// line.
///
/// ```
/// let mut out = [b'.'; 27];
/// assert_eq!(cegridom::write_plan_into(8, &[2, 8], &mut out), Ok(25));
/// assert_eq!(&out, b"plan,0008,0002,0002,0008\n..");
///
/// assert_eq!(cegridom::write_plan_into(68_000, &[68_000], &mut out), Ok(26));
/// assert_eq!(&out, b"long,068000,000001,068000\n.");
/// ```
pub fn write_plan_into(n: usize, ends: &[u32], out: &mut [u8]) -> Result<usize, Refusal> {
    // What does not fit is too long, and so is the greatest number that does.
    let n = u32::try_from(n).unwrap_or(u32::MAX);
    let (end_count, ends) = (ends.len(), ends.as_ptr());
    let (room, out) = (out.len(), out.as_mut_ptr());
    // SAFETY: as said at the head of this file.
    count(|bytes, index| unsafe {
        raw::cegridom_write_plan(n, ends, end_count, out, room, bytes, index)
    })
}

/// Reads a plan line of either kind: writes the ends, and gives the word's length and how many ends
/// there are. Each plan has one line: one of six digits a number whose length is
/// [`LINE_LIMIT`](crate::LINE_LIMIT) or less is none, which is 11, and one of four digits whose
/// length is above it gives 1.
///
/// Refusals: 11; then 1; 3 for each end; 5; 7. [`line_ends`](crate::line_ends) places for the ends
/// never get 7. Time linear in the line.
///
/// ```
/// use cegridom::{read_plan_into, Refusal};
///
/// let mut table = [9; 3];
/// let line = b"plan,0008,0002,0002,0008\n";
/// assert_eq!(read_plan_into(line, &mut table), Ok((8, 2)));
/// assert_eq!(table, [2, 8, 9]);
///
/// assert_eq!(read_plan_into(b"long,068000,000001,068000\n", &mut table), Ok((68_000, 1)));
/// assert_eq!(table, [68_000, 8, 9]);
/// let needless = read_plan_into(b"long,000008,000001,000008\n", &mut table);
/// assert_eq!(needless, Err(Refusal::NotPlan));
/// ```
pub fn read_plan_into(line: &[u8], table: &mut [u32]) -> Result<(usize, usize), Refusal> {
    let (length, line) = (line.len(), line.as_ptr());
    let (places, table) = (table.len(), table.as_mut_ptr());
    values(|[n, count], index| {
        // SAFETY: as said at the head of this file.
        unsafe { raw::cegridom_read_plan(line, length, table, places, n, count, index) }
    })
    .map(|[n, count]| (n as usize, count as usize))
}
