//! The calls that allocate their tables.

use crate::{
    best_split_into, best_squares_into, first_block_into, line_bytes, line_ends, most_ends,
    most_runs, nodes_into, page_bytes, part_into, path_of_split_into, read_plan_into, runs_into,
    which_first_into, work_places, write_page_into, write_plan_into, Choice, Edition, Part,
    Refusal, Run, Symbol, Which, LIMIT, NONE,
};
use alloc::vec;
use alloc::vec::Vec;

/// What a plan line holds.
#[derive(Clone, Debug, PartialEq, Eq, Hash)]
pub struct Plan {
    /// The length of the word.
    pub n: usize,
    /// The ends of the split.
    pub ends: Vec<u32>,
}

/// The length to allocate for: a word that is too long is refused whatever is lent.
fn allowed(n: usize) -> usize {
    if n > LIMIT {
        0
    } else {
        n
    }
}

/// The number of blocks to allocate for: more ends than a split has are refused whatever is lent.
fn blocks_within(n: usize, ends: &[u32]) -> usize {
    ends.len().min(most_ends(allowed(n)))
}

/// The front of a table, in no more memory than it needs.
fn front<T>(mut table: Vec<T>, count: usize) -> Vec<T> {
    table.truncate(count);
    table.shrink_to_fit();
    table
}

/// A table for the units of a part, of the part's length, in a word of `n` symbols. Positions outside
/// the word are refused whatever is lent: for them it has no more places than the word has symbols.
fn unit_table(n: usize, first: u32, last: u32) -> Vec<u32> {
    let before = (first as usize).saturating_sub(1);
    let end = allowed(n).min(last as usize);
    vec![0; end.saturating_sub(before)]
}

/// The ends that a call on a word of `n` symbols writes, which is lent a table for them and a working
/// table.
fn written(
    n: usize,
    call: impl FnOnce(&mut [u32], &mut [u32]) -> Result<usize, Refusal>,
) -> Result<Vec<u32>, Refusal> {
    let n = allowed(n);
    let mut ends = vec![0; most_ends(n)];
    let mut work = vec![0; work_places(n)];
    let size = call(&mut ends, &mut work)?;
    Ok(front(ends, size))
}

/// The sizes that a call on a word of `n` symbols leaves in its working table, which is lent no places
/// for ends: 7 and 2 leave that table as an answer does.
fn sizes(
    n: usize,
    call: impl FnOnce(&mut [u32], &mut [u32]) -> Result<usize, Refusal>,
) -> Result<Vec<Option<u32>>, Refusal> {
    let n = allowed(n);
    let mut work = vec![0; work_places(n)];
    match call(&mut [], &mut work) {
        Ok(_) | Err(Refusal::TooFewPlaces | Refusal::NoSplit) => {
            let known = |&size: &u32| (size != NONE).then_some(size);
            Ok(work.iter().take(n + 1).map(known).collect())
        }
        Err(refusal) => Err(refusal),
    }
}

/// A working table for two words.
fn work_table<S>(a: &[S], b: &[S]) -> Vec<u32> {
    vec![0; work_places(allowed(a.len().max(b.len())))]
}

/// The unit, the turns and the rest of the symbols at the positions `first` to `last`, and whether
/// they are a block. Only the last depends on the edition.
///
/// Refusals: 1, 6. Time linear in the part's length. Allocates a number for each symbol of the part
/// while it works.
///
/// ```
/// use cegridom::{part, Edition, Refusal};
///
/// let p = part(b"ababa", Edition::One, 1, 5).unwrap();
/// assert_eq!((p.unit, p.turns, p.rest, p.block), (2, 2, 1, true));
/// let p = part(b"ababa", Edition::Two, 1, 5).unwrap();
/// assert_eq!((p.unit, p.turns, p.rest, p.block), (2, 2, 1, false));
/// assert_eq!(part(b"ababa", Edition::One, 2, 6), Err(Refusal::BadPosition));
/// ```
pub fn part<S: Symbol>(
    word: &[S],
    edition: Edition,
    first: u32,
    last: u32,
) -> Result<Part, Refusal> {
    let mut table = unit_table(word.len(), first, last);
    part_into(word, edition, first, last, &mut table)
}

/// The unit of every leading part, but the empty one, of the symbols at the positions `first` to
/// `last`: how the unit changes as the part grows. That of the first `i` symbols is at place
/// `i - 1`. Units are the same in both editions.
///
/// Refusals: 1, 6. Time linear in the part's length. Allocates its answer.
///
/// ```
/// use cegridom::{units, Refusal};
///
/// assert_eq!(units(b"aabaabaa", 1, 8), Ok(vec![1, 1, 3, 3, 3, 3, 3, 3]));
/// assert_eq!(units(b"ababa", 1, 5), Ok(vec![1, 2, 2, 2, 2]));
/// assert_eq!(units(b"ababa", 2, 3), Ok(vec![1, 2]));
/// assert_eq!(units(b"ababa", 2, 6), Err(Refusal::BadPosition));
/// ```
pub fn units<S: Symbol>(word: &[S], first: u32, last: u32) -> Result<Vec<u32>, Refusal> {
    let mut table = unit_table(word.len(), first, last);
    part_into(word, Edition::One, first, last, &mut table)?;
    Ok(table)
}

/// The runs of a word, by first and then by unit; run number `i` is at place `i - 1`.
///
/// Refusal: 1. Allocates [`most_runs`] runs while it works; 1,235 KiB of stack.
///
/// ```
/// let runs = cegridom::runs(b"aabaabaa").unwrap();
/// let seen: Vec<_> = runs.iter().map(|r| (r.first, r.last, r.unit, r.root)).collect();
/// assert_eq!(seen, [(1, 2, 1, 1), (1, 8, 3, 1), (4, 5, 1, 4), (7, 8, 1, 7)]);
///
/// // The first and the last run wind the unit `ab`, the last from its second symbol on.
/// let word = b"ababbaba";
/// let runs = cegridom::runs(word).unwrap();
/// let unit = |i: usize| &word[runs[i].root as usize - 1..][..runs[i].unit as usize];
/// assert_eq!((runs[0].first, runs[0].root, unit(0)), (1, 1, &b"ab"[..]));
/// assert_eq!((runs[3].first, runs[3].root, unit(3)), (5, 6, &b"ab"[..]));
///
/// // Of 16-bit symbols the whole number counts: 0x0101 comes before 0x0200.
/// let runs = cegridom::runs(&[0x0200u16, 0x0101].repeat(2)).unwrap();
/// assert_eq!(runs[0].root, 2);
/// ```
pub fn runs<S: Symbol>(word: &[S]) -> Result<Vec<Run>, Refusal> {
    // Enough: the library proves that a word has fewer runs than symbols.
    let mut table = vec![Run::default(); most_runs(allowed(word.len()))];
    let count = runs_into(word, &mut table)?;
    Ok(front(table, count))
}

/// The numbers of the runs that have a white node at a position, rising: those that reach it and
/// have two whole turns (in edition 2, three) up to it, of a unit of at most
/// [`UNIT_MEMORY`](crate::UNIT_MEMORY) symbols.
///
/// Refusals: 1, 6. Allocates [`most_runs`] numbers while it works; 1,509 KiB of stack.
///
/// ```
/// use cegridom::{nodes, Edition, Refusal};
///
/// assert_eq!(nodes(b"aabaabaa", Edition::One, 8), Ok(vec![2, 4]));
/// assert_eq!(nodes(b"aabaabaab", Edition::Two, 9), Ok(vec![2]));
/// assert_eq!(nodes(b"aabaabaa", Edition::One, 0), Err(Refusal::BadPosition));
/// ```
pub fn nodes<S: Symbol>(word: &[S], edition: Edition, position: u32) -> Result<Vec<u32>, Refusal> {
    let mut table = vec![0; most_runs(allowed(word.len()))];
    let count = nodes_into(word, edition, position, &mut table)?;
    Ok(front(table, count))
}

/// The ends of the split with the fewest or the most blocks. Of the splits of that size it is the
/// one whose last block is longest, then the one before it, and so on.
///
/// Refusals: 1, 2. Allocates [`most_ends`] and [`work_places`] numbers while it works; 48 bytes of
/// stack a block of the split, 1.7 MB at most.
///
/// ```
/// use cegridom::{best_split, Choice, Edition, Refusal};
///
/// let word = b"abaabaababaabaabababa";
/// assert_eq!(best_split(word, Edition::One, Choice::Fewest), Ok(vec![16, 21]));
/// assert_eq!(best_split(word, Edition::One, Choice::Most), Ok(vec![6, 10, 16, 21]));
/// assert_eq!(best_split(b"ab", Edition::One, Choice::Most), Err(Refusal::NoSplit));
///
/// assert_eq!(best_split(b"aaaaaa", Edition::Two, Choice::Fewest), Ok(vec![6]));
/// assert_eq!(best_split(b"aaaaaa", Edition::Two, Choice::Most), Ok(vec![3, 6]));
/// assert_eq!(best_split(word, Edition::Two, Choice::Fewest), Err(Refusal::NoSplit));
/// ```
pub fn best_split<S: Symbol>(
    word: &[S],
    edition: Edition,
    choice: Choice,
) -> Result<Vec<u32>, Refusal> {
    written(word.len(), |ends, work| {
        best_split_into(word, edition, choice, ends, work)
    })
}

/// The size of the best split of each leading part, from the empty one to the whole word; `None`
/// where it has no split.
///
/// Refusal: 1. Allocates [`work_places`] numbers while it works, and its answer.
///
/// ```
/// use cegridom::{best_sizes, Choice, Edition};
///
/// assert_eq!(
///     best_sizes(b"aabb", Edition::One, Choice::Fewest),
///     Ok(vec![Some(0), None, Some(1), None, Some(2)])
/// );
/// ```
pub fn best_sizes<S: Symbol>(
    word: &[S],
    edition: Edition,
    choice: Choice,
) -> Result<Vec<Option<u32>>, Refusal> {
    sizes(word.len(), |ends, work| {
        best_split_into(word, edition, choice, ends, work)
    })
}

/// The ends of the split into squares with the fewest or the most of them. The half of a square need
/// not be primitive. Of the splits of that size it is the one whose last square is longest, then the
/// one before it, and so on. A word of odd length has none.
///
/// Refusals: 1, 2. Allocates [`most_ends`] and [`work_places`] numbers while it works; 1,235
/// KiB of stack, or 48 bytes a square of the split where that is more, 1.7 MB at most.
///
/// ```
/// use cegridom::{best_squares, Choice, Refusal};
///
/// assert_eq!(best_squares(b"aaaa", Choice::Fewest), Ok(vec![4]));
/// assert_eq!(best_squares(b"aaaa", Choice::Most), Ok(vec![2, 4]));
/// assert_eq!(best_squares(b"aabaabaa", Choice::Fewest), Ok(vec![2, 8]));
/// assert_eq!(best_squares(b"aabaabaa", Choice::Most), Ok(vec![2, 8]));
/// assert_eq!(best_squares(b"ababa", Choice::Most), Err(Refusal::NoSplit));
///
/// let word = b"abaababaabbbaabbbb";
/// assert_eq!(best_squares(word, Choice::Fewest), Ok(vec![6, 16, 18]));
/// assert_eq!(best_squares(word, Choice::Most), Ok(vec![10, 12, 14, 16, 18]));
/// ```
pub fn best_squares<S: Symbol>(word: &[S], choice: Choice) -> Result<Vec<u32>, Refusal> {
    written(word.len(), |ends, work| {
        best_squares_into(word, choice, ends, work)
    })
}

/// The size of the best split into squares of each leading part, from the empty one to the whole
/// word; `None` where it has no such split.
///
/// Refusal: 1. Allocates [`work_places`] numbers while it works, and its answer.
///
/// ```
/// use cegridom::{best_squares_sizes, Choice};
///
/// assert_eq!(
///     best_squares_sizes(b"aaaa", Choice::Most),
///     Ok(vec![Some(0), None, Some(1), None, Some(2)])
/// );
/// ```
pub fn best_squares_sizes<S: Symbol>(
    word: &[S],
    choice: Choice,
) -> Result<Vec<Option<u32>>, Refusal> {
    sizes(word.len(), |ends, work| {
        best_squares_into(word, choice, ends, work)
    })
}

/// Which of two words has fewer blocks in its fewest split. The first wins a tie; if only one can
/// be split it is that one.
///
/// Refusals: 1 for either; 2 if neither can be split. Allocates the [`work_places`] of the longer
/// word while it works.
///
/// ```
/// use cegridom::{which_first, Edition, Refusal, Which};
///
/// let one = Edition::One;
/// assert_eq!(which_first(b"aabb", b"aabaabaa", one), Ok(Which::Second));
/// assert_eq!(which_first(b"aabaabaa", b"aabb", one), Ok(Which::First));
/// assert_eq!(which_first(b"aabb", b"abaabaababaabaabababa", one), Ok(Which::First));
/// assert_eq!(which_first(b"ab", b"aabb", one), Ok(Which::Second));
/// assert_eq!(which_first(b"ab", b"baa", one), Err(Refusal::NoSplit));
///
/// // Only the second has blocks of three turns.
/// assert_eq!(which_first(b"aabaabaa", b"aaabbb", Edition::Two), Ok(Which::Second));
/// ```
pub fn which_first<S: Symbol>(a: &[S], b: &[S], edition: Edition) -> Result<Which, Refusal> {
    which_first_into(a, b, edition, &mut work_table(a, b))
}

/// The first block of the word that [`which_first`] gives, in its fewest split, the one that
/// [`best_split`] gives: a part of the caller's own symbols. It is empty where that word is empty, and
/// where [`which_first`] refuses; that function tells the two apart.
///
/// Allocates the [`work_places`] of the longer word while it works.
///
/// ```
/// use cegridom::{first_block, Edition};
///
/// let one = Edition::One;
/// assert_eq!(first_block(b"aabb", b"aabaabaa", one), b"aabaabaa");
/// assert_eq!(first_block(b"aabb", b"abaabaababaabaabababa", one), b"aa");
/// assert_eq!(first_block(b"abaabaababaabaabababa", b"aabb", one), b"abaabaababaabaab");
/// assert_eq!(first_block(b"aabb", b"", one), b"");
/// assert_eq!(first_block(b"ab", b"baa", one), b"");
/// assert_eq!(first_block(b"aabaabaa", b"aaabbb", Edition::Two), b"aaa");
/// ```
pub fn first_block<'a, S: Symbol>(a: &'a [S], b: &'a [S], edition: Edition) -> &'a [S] {
    first_block_into(a, b, edition, &mut work_table(a, b))
}

/// The run number of each block of a split: that of the one run that encloses the block and has its
/// unit.
///
/// Refusals: 1; then for each end in turn 3, 4; then 5. Allocates its answer; 1,510 KiB of stack.
///
/// ```
/// use cegridom::{judge_path, path_of_split, Edition, Step};
///
/// let (word, ends) = (b"aabaabaa", [2, 8]);
/// let runs = path_of_split(word, Edition::One, &ends).unwrap();
/// assert_eq!(runs, [1, 2]);
///
/// let path: Vec<Step> = runs.into_iter().zip(ends).map(|(run, end)| Step { run, end }).collect();
/// assert_eq!(judge_path(word, Edition::One, &path), Ok(2));
/// ```
pub fn path_of_split<S: Symbol>(
    word: &[S],
    edition: Edition,
    ends: &[u32],
) -> Result<Vec<u32>, Refusal> {
    let mut table = vec![0; blocks_within(word.len(), ends)];
    let count = path_of_split_into(word, edition, ends, &mut table)?;
    Ok(front(table, count))
}

/// The page of a split: for each block a line of 60 characters and byte 10, with its number from 1,
/// first, last, unit, turns, rest, run number, and the first symbols of its unit in hexadecimal
/// digits, nine bytes or four 16-bit symbols. The text of [`write_page_into`] says how a line is laid
/// out.
///
/// Refusals: 1; then for each end in turn 3, 4; then 5. Allocates its answer; 1,510 KiB of stack.
///
/// ```
/// use cegridom::{write_page, Edition, Refusal};
///
/// let page = write_page(b"ababa", Edition::One, &[5]).unwrap();
/// assert_eq!(page, b"     1     1     5     2     2     1     16162              \n");
///
/// let page = write_page(b"aabaabaa", Edition::One, &[2, 8]).unwrap();
/// let lines: Vec<_> = page.split_inclusive(|&byte| byte == b'\n').collect();
/// assert_eq!(lines[0], b"     1     1     2     1     2     0     161                \n");
/// assert_eq!(lines[1], b"     2     3     8     3     2     0     2626161            \n");
///
/// let page = write_page(&[0x61u16, 0xff00].repeat(2), Edition::One, &[4]).unwrap();
/// assert_eq!(page, b"     1     1     4     2     2     0     10061ff00          \n");
///
/// assert_eq!(write_page(b"ababa", Edition::Two, &[5]), Err(Refusal::NotBlock { index: 1 }));
/// ```
pub fn write_page<S: Symbol>(
    word: &[S],
    edition: Edition,
    ends: &[u32],
) -> Result<Vec<u8>, Refusal> {
    let mut out = vec![0; page_bytes(blocks_within(word.len(), ends))];
    let bytes = write_page_into(word, edition, ends, &mut out)?;
    Ok(front(out, bytes))
}

/// The plan line of a word's length and the ends of a split. Up to [`LINE_LIMIT`](crate::LINE_LIMIT)
/// symbols it begins with `plan` and has four digits a number, above with `long` and six. The line
/// carries no symbols, so it is not asked whether the pieces are blocks.
///
/// Refusals: 1, also where `n` is more than 32 bits hold; 3 for each end; 5. Allocates its answer.
///
/// ```
/// use cegridom::{write_plan, Refusal};
///
/// assert_eq!(write_plan(8, &[2, 8]).unwrap(), b"plan,0008,0002,0002,0008\n");
/// assert_eq!(write_plan(8, &[2]), Err(Refusal::Unfinished));
///
/// let mast = write_plan(68_000, &[4096, 68_000]).unwrap();
/// assert_eq!(mast, b"long,068000,000002,004096,068000\n");
/// assert_eq!(write_plan(70_001, &[70_001]), Err(Refusal::TooLong));
/// ```
pub fn write_plan(n: usize, ends: &[u32]) -> Result<Vec<u8>, Refusal> {
    // Ends that rise to n are at most n of them; more are refused whatever is lent.
    let mut out = vec![0; line_bytes(allowed(n), ends.len().min(allowed(n)))];
    let bytes = write_plan_into(n, ends, &mut out)?;
    Ok(front(out, bytes))
}

/// Reads a plan line of either kind. Each plan has one line: one of six digits a number whose length
/// is [`LINE_LIMIT`](crate::LINE_LIMIT) or less is none, which is 11, and one of four digits whose
/// length is above it gives 1.
///
/// Refusals: 11; then 1; 3 for each end; 5. Allocates its answer.
///
/// ```
/// use cegridom::{read_plan, Refusal};
///
/// let plan = read_plan(b"plan,0008,0002,0002,0008\n").unwrap();
/// assert_eq!((plan.n, plan.ends), (8, vec![2, 8]));
/// assert_eq!(read_plan(b"plan,8,0\n"), Err(Refusal::NotPlan));
///
/// let mast = read_plan(b"long,068000,000002,004096,068000\n").unwrap();
/// assert_eq!((mast.n, mast.ends), (68_000, vec![4096, 68_000]));
/// assert_eq!(read_plan(b"long,004096,000001,004096\n"), Err(Refusal::NotPlan));
/// assert_eq!(read_plan(b"plan,4097,0001,4097\n"), Err(Refusal::TooLong));
/// assert_eq!(read_plan(b"long,070001,000001,070001\n"), Err(Refusal::TooLong));
/// ```
pub fn read_plan(line: &[u8]) -> Result<Plan, Refusal> {
    let mut ends = vec![0; line_ends(line.len()).min(LIMIT)];
    let (n, count) = read_plan_into(line, &mut ends)?;
    Ok(Plan {
        n,
        ends: front(ends, count),
    })
}
