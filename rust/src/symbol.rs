//! The symbols that a word may have.

use crate::raw;

/// A symbol of a word: a byte, `u8`, or a code of 16 bits, `u16`. A function that takes a word takes
/// it of either kind, and two words of the same kind.
///
/// The same numbers get the same answers and tables, whichever their kind, but for the text of a
/// page: [`write_page_into`](crate::write_page_into) shows nine bytes or four 16-bit symbols.
///
/// ```
/// # #[cfg(feature = "alloc")] {
/// use cegridom::{best_split, Choice, Edition, Refusal, Symbol};
///
/// fn fewest<S: Symbol>(word: &[S]) -> Result<Vec<u32>, Refusal> {
///     best_split(word, Edition::One, Choice::Fewest)
/// }
///
/// assert_eq!(fewest(b"aabb"), Ok(vec![2, 4]));
/// assert_eq!(fewest(&[7u16, 7, 40_000, 40_000]), Ok(vec![2, 4]));
/// // The low bytes alone would make a block.
/// assert_eq!(fewest(&[0x0107u16, 0x0207]), Err(Refusal::NoSplit));
/// # }
/// ```
///
/// No other type is a symbol, nor can a caller make it one:
///
/// ```compile_fail,E0277
/// cegridom::judge_squares(&[7u32, 7], &[2]);
/// ```
pub trait Symbol: Copy + Ord + sealed::Sealed {
    /// The functions in [`raw`](crate::raw) over words of these symbols. Callers do without: it may
    /// change with any version.
    #[doc(hidden)]
    const CALLS: Calls<Self>;
}

mod sealed {
    pub trait Sealed {}

    impl Sealed for u8 {}
    impl Sealed for u16 {}
}

/// Makes the table of the calls, and both kinds of symbol with theirs: each call by its name, that for
/// bytes, that for 16-bit symbols, and the type that both have but for the symbol `S`.
macro_rules! calls {
    ($($name:ident: $bytes:ident, $codes:ident fn($($parameter:ty),*);)*) => {
        /// The exported functions over words of one kind of symbol.
        #[doc(hidden)]
        #[derive(Clone, Copy, Debug)]
        #[allow(clippy::type_complexity)]
        pub struct Calls<S> {
            $(pub $name: unsafe extern "C" fn($($parameter),*) -> u32,)*
        }

        impl Symbol for u8 {
            const CALLS: Calls<u8> = Calls { $($name: raw::$bytes),* };
        }

        impl Symbol for u16 {
            const CALLS: Calls<u16> = Calls { $($name: raw::$codes),* };
        }
    };
}

calls! {
    part: cegridom_part, cegridom_part_16
        fn(*const S, usize, u32, u32, u32, *mut u32, usize, *mut u32, *mut u32, *mut u32, *mut u32,
           *mut u32);
    runs: cegridom_runs, cegridom_runs_16
        fn(*const S, usize, *mut u32, usize, *mut u32, *mut u32);
    nodes: cegridom_nodes, cegridom_nodes_16
        fn(*const S, usize, u32, u32, *mut u32, usize, *mut u32, *mut u32);
    best_split: cegridom_best_split, cegridom_best_split_16
        fn(*const S, usize, u32, u32, *mut u32, usize, *mut u32, usize, *mut u32, *mut u32);
    best_squares: cegridom_best_squares, cegridom_best_squares_16
        fn(*const S, usize, u32, *mut u32, usize, *mut u32, usize, *mut u32, *mut u32);
    which_first: cegridom_which_first, cegridom_which_first_16
        fn(*const S, usize, *const S, usize, u32, *mut u32, usize, *mut u32, *mut u32);
    first_block: cegridom_first_block, cegridom_first_block_16
        fn(*const S, usize, *const S, usize, u32, *mut u32, usize, *mut u32, *mut u32);
    judge_split: cegridom_judge_split, cegridom_judge_split_16
        fn(*const S, usize, u32, *const u32, usize, *mut u32, *mut u32);
    judge_squares: cegridom_judge_squares, cegridom_judge_squares_16
        fn(*const S, usize, *const u32, usize, *mut u32, *mut u32);
    path_of_split: cegridom_path_of_split, cegridom_path_of_split_16
        fn(*const S, usize, u32, *const u32, usize, *mut u32, usize, *mut u32, *mut u32);
    judge_path: cegridom_judge_path, cegridom_judge_path_16
        fn(*const S, usize, u32, *const u32, usize, *mut u32, *mut u32);
    write_page: cegridom_write_page, cegridom_write_page_16
        fn(*const S, usize, u32, *const u32, usize, *mut u8, usize, *mut u32, *mut u32);
}
