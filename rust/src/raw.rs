//! The exported functions as they are, over numbers, for a caller that wants them without the
//! wrappers.
//!
//! The declarations are those of `include/cegridom.h`; nothing checks them against the source of
//! the library. A slice passes as a pointer and its count of elements. The result is 0 for
//! accepted, else the refusal's number; `*index` is that of refusals 3 and 4, else 0; the other
//! values are 0 after a refusal. [`Refusal::check`](crate::Refusal::check) turns result and index
//! into an error. [`cegridom_first_block`] alone refuses nothing and has no index. An edition is 1
//! or 2, else the refusal is 12. The cost and the stack of a call are those of its wrapper.
//!
//! A function that takes a word has two forms: its name alone is for words of bytes, its name with
//! `_16` for words of 16-bit symbols. All else is the same, the text of a page apart.
//!
//! # Safety
//!
//! Every pointer is valid for what it points to, for the whole call; no two of them overlap unless
//! both are `*const`. A pointer with count 0 may be anything.
//!
//! ```
//! use cegridom::{raw, Refusal};
//!
//! let word = b"aabb";
//! let mut table = [0; 2 * raw::RUN_PLACES];
//! let (mut count, mut index) = (0, 0);
//! // SAFETY: the pointers come from slices and variables of this program, and none overlaps.
//! let result = unsafe {
//!     raw::cegridom_runs(
//!         word.as_ptr(),
//!         word.len(),
//!         table.as_mut_ptr(),
//!         table.len(),
//!         &mut count,
//!         &mut index,
//!     )
//! };
//! assert_eq!(Refusal::check(result, index), Ok(()));
//! assert_eq!((count, table), (2, [1, 2, 1, 1, 3, 4, 1, 3]));
//! ```

/// The places of one run in a table: first, last, unit, root.
pub const RUN_PLACES: usize = 4;

/// The numbers of one block in a path: the run number, the end.
pub const STEP_PLACES: usize = 2;

/// The bytes of one block in a page: a line of 60 characters and byte 10.
pub const PAGE_LINE_BYTES: usize = 61;

/// What the major version is multiplied by in [`cegridom_version`].
pub const MAJOR: u32 = 1000;

extern "C" {
    /// Behind [`version`](crate::version): [`MAJOR`] times the major version of the archive, plus
    /// the minor one.
    pub fn cegridom_version() -> u32;

    /// Behind [`part_into`](crate::part_into). `*block` is 1 for a block, else 0.
    /// Refusals: 1, 12, 6, 7.
    pub fn cegridom_part(
        word: *const u8,
        n: usize,
        edition: u32,
        first: u32,
        last: u32,
        units: *mut u32,
        unit_places: usize,
        unit: *mut u32,
        turns: *mut u32,
        rest: *mut u32,
        block: *mut u32,
        index: *mut u32,
    ) -> u32;

    /// [`cegridom_part`] for a word of 16-bit symbols.
    pub fn cegridom_part_16(
        word: *const u16,
        n: usize,
        edition: u32,
        first: u32,
        last: u32,
        units: *mut u32,
        unit_places: usize,
        unit: *mut u32,
        turns: *mut u32,
        rest: *mut u32,
        block: *mut u32,
        index: *mut u32,
    ) -> u32;

    /// Behind [`runs_into`](crate::runs_into). A run takes [`RUN_PLACES`] places of the table, and
    /// `n` times so many never get 7. Refusals: 1, 7.
    pub fn cegridom_runs(
        word: *const u8,
        n: usize,
        table: *mut u32,
        places: usize,
        count: *mut u32,
        index: *mut u32,
    ) -> u32;

    /// [`cegridom_runs`] for a word of 16-bit symbols.
    pub fn cegridom_runs_16(
        word: *const u16,
        n: usize,
        table: *mut u32,
        places: usize,
        count: *mut u32,
        index: *mut u32,
    ) -> u32;

    /// Behind [`nodes_into`](crate::nodes_into). Refusals: 1, 12, 6, 7.
    pub fn cegridom_nodes(
        word: *const u8,
        n: usize,
        edition: u32,
        position: u32,
        table: *mut u32,
        places: usize,
        count: *mut u32,
        index: *mut u32,
    ) -> u32;

    /// [`cegridom_nodes`] for a word of 16-bit symbols.
    pub fn cegridom_nodes_16(
        word: *const u16,
        n: usize,
        edition: u32,
        position: u32,
        table: *mut u32,
        places: usize,
        count: *mut u32,
        index: *mut u32,
    ) -> u32;

    /// Behind [`best_split_into`](crate::best_split_into). The choice is 1 for the fewest blocks, 2
    /// for the most. Refusals: 1, 12, 8, 9, 2, 7. After 12 and 8 the working table keeps its
    /// contents, as after 1 and 9.
    pub fn cegridom_best_split(
        word: *const u8,
        n: usize,
        edition: u32,
        choice: u32,
        ends: *mut u32,
        end_places: usize,
        work: *mut u32,
        work_places: usize,
        size: *mut u32,
        index: *mut u32,
    ) -> u32;

    /// [`cegridom_best_split`] for a word of 16-bit symbols.
    pub fn cegridom_best_split_16(
        word: *const u16,
        n: usize,
        edition: u32,
        choice: u32,
        ends: *mut u32,
        end_places: usize,
        work: *mut u32,
        work_places: usize,
        size: *mut u32,
        index: *mut u32,
    ) -> u32;

    /// Behind [`best_squares_into`](crate::best_squares_into). The choice is 1 for the fewest
    /// squares, 2 for the most. Refusals: 1, 8, 9, 2, 7. After 8 the working table keeps its
    /// contents, as after 1 and 9.
    pub fn cegridom_best_squares(
        word: *const u8,
        n: usize,
        choice: u32,
        ends: *mut u32,
        end_places: usize,
        work: *mut u32,
        work_places: usize,
        size: *mut u32,
        index: *mut u32,
    ) -> u32;

    /// [`cegridom_best_squares`] for a word of 16-bit symbols.
    pub fn cegridom_best_squares_16(
        word: *const u16,
        n: usize,
        choice: u32,
        ends: *mut u32,
        end_places: usize,
        work: *mut u32,
        work_places: usize,
        size: *mut u32,
        index: *mut u32,
    ) -> u32;

    /// Behind [`which_first_into`](crate::which_first_into). `*which` is 1 for `a`, 2 for `b`.
    /// Refusals: 1 for either; 12; 9 for the longer; 2 if neither can be split. After 12 the working
    /// table keeps its contents, as after 1 and 9.
    pub fn cegridom_which_first(
        a: *const u8,
        a_n: usize,
        b: *const u8,
        b_n: usize,
        edition: u32,
        work: *mut u32,
        work_places: usize,
        which: *mut u32,
        index: *mut u32,
    ) -> u32;

    /// [`cegridom_which_first`] for words of 16-bit symbols.
    pub fn cegridom_which_first_16(
        a: *const u16,
        a_n: usize,
        b: *const u16,
        b_n: usize,
        edition: u32,
        work: *mut u32,
        work_places: usize,
        which: *mut u32,
        index: *mut u32,
    ) -> u32;

    /// Behind [`first_block_into`](crate::first_block_into). `*which` is as
    /// [`cegridom_which_first`] gives it, and the block is the first `*length` symbols of that word.
    /// It refuses nothing: the result is 0 always, and where that call refuses both values are 0.
    pub fn cegridom_first_block(
        a: *const u8,
        a_n: usize,
        b: *const u8,
        b_n: usize,
        edition: u32,
        work: *mut u32,
        work_places: usize,
        which: *mut u32,
        length: *mut u32,
    ) -> u32;

    /// [`cegridom_first_block`] for words of 16-bit symbols.
    pub fn cegridom_first_block_16(
        a: *const u16,
        a_n: usize,
        b: *const u16,
        b_n: usize,
        edition: u32,
        work: *mut u32,
        work_places: usize,
        which: *mut u32,
        length: *mut u32,
    ) -> u32;

    /// Behind [`judge_split`](crate::judge_split). Refusals: 1; 12; for each end in turn 3, 4; 5.
    pub fn cegridom_judge_split(
        word: *const u8,
        n: usize,
        edition: u32,
        ends: *const u32,
        end_count: usize,
        blocks: *mut u32,
        index: *mut u32,
    ) -> u32;

    /// [`cegridom_judge_split`] for a word of 16-bit symbols.
    pub fn cegridom_judge_split_16(
        word: *const u16,
        n: usize,
        edition: u32,
        ends: *const u32,
        end_count: usize,
        blocks: *mut u32,
        index: *mut u32,
    ) -> u32;

    /// Behind [`judge_squares`](crate::judge_squares). Refusals: 1; for each end in turn 3, 4; 5.
    pub fn cegridom_judge_squares(
        word: *const u8,
        n: usize,
        ends: *const u32,
        end_count: usize,
        blocks: *mut u32,
        index: *mut u32,
    ) -> u32;

    /// [`cegridom_judge_squares`] for a word of 16-bit symbols.
    pub fn cegridom_judge_squares_16(
        word: *const u16,
        n: usize,
        ends: *const u32,
        end_count: usize,
        blocks: *mut u32,
        index: *mut u32,
    ) -> u32;

    /// Behind [`path_of_split_into`](crate::path_of_split_into). Refusals: 1; 12; for each end in
    /// turn 3, 4; 5; 7.
    pub fn cegridom_path_of_split(
        word: *const u8,
        n: usize,
        edition: u32,
        ends: *const u32,
        end_count: usize,
        table: *mut u32,
        places: usize,
        blocks: *mut u32,
        index: *mut u32,
    ) -> u32;

    /// [`cegridom_path_of_split`] for a word of 16-bit symbols.
    pub fn cegridom_path_of_split_16(
        word: *const u16,
        n: usize,
        edition: u32,
        ends: *const u32,
        end_count: usize,
        table: *mut u32,
        places: usize,
        blocks: *mut u32,
        index: *mut u32,
    ) -> u32;

    /// Behind [`judge_path`](crate::judge_path). A block takes [`STEP_PLACES`] of the numbers.
    /// Refusals: 1; 12; 10; for each end in turn 3, 4; 5.
    pub fn cegridom_judge_path(
        word: *const u8,
        n: usize,
        edition: u32,
        numbers: *const u32,
        number_count: usize,
        blocks: *mut u32,
        index: *mut u32,
    ) -> u32;

    /// [`cegridom_judge_path`] for a word of 16-bit symbols.
    pub fn cegridom_judge_path_16(
        word: *const u16,
        n: usize,
        edition: u32,
        numbers: *const u32,
        number_count: usize,
        blocks: *mut u32,
        index: *mut u32,
    ) -> u32;

    /// Behind [`write_page_into`](crate::write_page_into). A block takes [`PAGE_LINE_BYTES`] bytes.
    /// Refusals: 1; 12; for each end in turn 3, 4; 5; 7.
    pub fn cegridom_write_page(
        word: *const u8,
        n: usize,
        edition: u32,
        ends: *const u32,
        end_count: usize,
        out: *mut u8,
        room: usize,
        bytes: *mut u32,
        index: *mut u32,
    ) -> u32;

    /// [`cegridom_write_page`] for a word of 16-bit symbols.
    pub fn cegridom_write_page_16(
        word: *const u16,
        n: usize,
        edition: u32,
        ends: *const u32,
        end_count: usize,
        out: *mut u8,
        room: usize,
        bytes: *mut u32,
        index: *mut u32,
    ) -> u32;

    /// Behind [`write_plan_into`](crate::write_plan_into). Refusals: 1; 3 for each end; 5; 7.
    pub fn cegridom_write_plan(
        n: u32,
        ends: *const u32,
        end_count: usize,
        out: *mut u8,
        room: usize,
        bytes: *mut u32,
        index: *mut u32,
    ) -> u32;

    /// Behind [`read_plan_into`](crate::read_plan_into). Refusals: 11; 1; 3 for each end; 5; 7.
    pub fn cegridom_read_plan(
        line: *const u8,
        length: usize,
        table: *mut u32,
        places: usize,
        n: *mut u32,
        count: *mut u32,
        index: *mut u32,
    ) -> u32;
}
