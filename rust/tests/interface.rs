//! What the types of the crate promise: refusals and their numbers, lengths that do not fit, runs with
//! their roots, the squares of the documents, a page byte for byte, the first block as a part of the
//! caller's symbols, words of 16-bit symbols, what the units of a part, runs, nodes, squares, a page
//! and the calls on two words take of memory, and the example `fewest`.

use cegridom::{raw, Choice, Edition, Refusal, Run, Symbol, Which, LIMIT, LINE_LIMIT};
use std::alloc::{GlobalAlloc, Layout, System};
use std::cell::Cell;
use std::error::Error;
use std::io::{self, Read};

#[path = "../examples/fewest.rs"]
#[allow(dead_code)]
mod fewest;

/// The refusals that the documents list, in the order of their numbers, with an index of 7.
const KNOWN: [Refusal; 12] = [
    Refusal::TooLong,
    Refusal::NoSplit,
    Refusal::BadEnd { index: 7 },
    Refusal::NotBlock { index: 7 },
    Refusal::Unfinished,
    Refusal::BadPosition,
    Refusal::TooFewPlaces,
    Refusal::BadChoice,
    Refusal::ShortTable,
    Refusal::OddPath,
    Refusal::NotPlan,
    Refusal::BadEdition,
];

#[test]
fn refusals_have_their_numbers() {
    for (number, refusal) in (1..).zip(KNOWN) {
        assert_eq!(Refusal::check(number, 7), Err(refusal));
        assert_eq!(refusal.number(), number);
        let indexed = number == 3 || number == 4;
        assert_eq!(refusal.index(), indexed.then_some(7));
        assert!(!refusal.to_string().is_empty());
    }
    assert_eq!(Refusal::check(0, 0), Ok(()));
}

#[test]
fn an_unknown_number_is_an_error() {
    for number in (13..1000).chain([u32::MAX - 1, u32::MAX]) {
        for index in [0, 1, u32::MAX] {
            let refusal = Refusal::check(number, index).unwrap_err();
            assert!(matches!(refusal, Refusal::Unknown { .. }));
            assert_eq!(refusal.number(), number);
            assert_eq!(refusal.index(), (index > 0).then_some(index));
            assert!(!KNOWN.contains(&refusal));
            assert!(refusal.to_string().contains(&number.to_string()));
        }
    }
}

#[test]
fn a_refusal_is_an_error_that_threads_can_share() {
    let error: Box<dyn Error + Send + Sync> = Refusal::NoSplit.into();
    assert_eq!(error.to_string(), "no split exists");
}

#[test]
fn editions_have_their_numbers() {
    assert_eq!(Edition::One.number(), 1);
    assert_eq!(Edition::Two.number(), 2);
}

#[test]
fn choices_have_their_numbers() {
    assert_eq!(Choice::Fewest.number(), 1);
    assert_eq!(Choice::Most.number(), 2);
}

#[test]
fn the_words_of_a_pair_have_their_numbers() {
    assert_eq!(Which::First.number(), 1);
    assert_eq!(Which::Second.number(), 2);
}

#[test]
fn a_length_over_32_bits_is_too_long() {
    let n = (1 << 32) + 8;
    let mut out = [b'.'; 100];
    for ends in [&[2, 8][..], &[], &[0], &[8]] {
        assert_eq!(cegridom::write_plan(n, ends), Err(Refusal::TooLong));
        assert_eq!(
            cegridom::write_plan_into(n, ends, &mut out),
            Err(Refusal::TooLong)
        );
    }
    assert_eq!(out, [b'.'; 100]);
    assert!(cegridom::write_plan(8, &[2, 8]).is_ok());
}

#[test]
fn sizes_do_not_overflow() {
    assert_eq!(cegridom::UNIT_MEMORY, 256);
    assert_eq!(cegridom::work_places(LIMIT), 4 * (LIMIT + 1));
    assert_eq!(cegridom::work_places(usize::MAX), usize::MAX);
    assert_eq!(cegridom::page_bytes(usize::MAX), usize::MAX);
    assert_eq!(cegridom::plan_bytes(usize::MAX), usize::MAX);
    assert_eq!(cegridom::long_bytes(usize::MAX), usize::MAX);
    assert_eq!(cegridom::line_bytes(usize::MAX, usize::MAX), usize::MAX);
    assert_eq!(cegridom::line_ends(usize::MAX), (usize::MAX - 15) / 5);
    assert_eq!((LIMIT, LINE_LIMIT), (70_000, 4096));
    assert_eq!(cegridom::most_ends(usize::MAX), usize::MAX / 2);
    assert_eq!([0, 1, 2, 8].map(cegridom::most_runs), [0, 0, 1, 7]);
    assert_eq!(cegridom::most_runs(usize::MAX), usize::MAX - 1);
}

#[test]
fn a_plan_has_one_line() {
    for n in [1, 4095, 4096, 4097, 9999, 10_000, 65_536, 70_000] {
        for ends in [vec![n], (1..=n).collect(), (2..=n).step_by(3).collect()] {
            let Ok(line) = cegridom::write_plan(n as usize, &ends) else {
                assert_ne!(ends.last(), Some(&n));
                continue;
            };
            let bytes = cegridom::line_bytes(n as usize, ends.len());
            assert_eq!(line.len(), bytes);
            assert!(cegridom::line_ends(bytes) >= ends.len());
            assert_eq!(line.starts_with(b"long,"), n > 4096);
            let plan = cegridom::read_plan(&line).unwrap();
            assert_eq!((plan.n, &plan.ends), (n as usize, &ends));
            // The other kind, with the same numbers, is refused.
            let (digits, begins, refusal) = match n > 4096 {
                true => (4, "plan", Refusal::TooLong),
                false => (6, "long", Refusal::NotPlan),
            };
            let mut other = format!("{begins},{n:0digits$},{:0digits$}", ends.len());
            for end in &ends {
                other += &format!(",{end:0digits$}");
            }
            // Five digits are none of four.
            let refusal = match n > 9999 {
                true => Refusal::NotPlan,
                false => refusal,
            };
            assert_eq!(cegridom::read_plan((other + "\n").as_bytes()), Err(refusal));
        }
    }
    let over = cegridom::write_plan(70_001, &[70_001]);
    assert_eq!(over, Err(Refusal::TooLong));
}

#[test]
fn a_plan_allocates_its_bytes() {
    for n in [8, LINE_LIMIT, LINE_LIMIT + 1, LIMIT] {
        let ends: Vec<u32> = (1..=n as u32).collect();
        let (bytes, line) = bytes_allocated(|| cegridom::write_plan(n, &ends).unwrap());
        assert_eq!((bytes, line.len()), (cegridom::line_bytes(n, n), bytes));
        // The answer may be moved to a table of its own size.
        let (numbers, plan) = numbers_allocated(|| cegridom::read_plan(&line).unwrap());
        let places = cegridom::line_ends(line.len()).min(LIMIT);
        assert!((places..=places + n).contains(&numbers), "{numbers}");
        assert_eq!(plan.ends, ends);
    }
    // More ends than a plan has, and a line of more bytes.
    let many = vec![8; 1_000_000];
    let (bytes, refused) = bytes_allocated(|| cegridom::write_plan(8, &many));
    assert_eq!(refused, Err(Refusal::BadEnd { index: 2 }));
    assert_eq!(bytes, cegridom::plan_bytes(8));
    let (numbers, refused) = numbers_allocated(|| cegridom::read_plan(&[b'0'; 1_000_000]));
    assert_eq!((numbers, refused), (LIMIT, Err(Refusal::NotPlan)));
}

#[test]
fn the_archive_has_the_version_of_the_crate() {
    let (major, minor) = cegridom::version();
    let number = |text: &str| text.parse::<u32>().unwrap();
    assert_eq!(major, number(env!("CARGO_PKG_VERSION_MAJOR")));
    assert_eq!(minor, number(env!("CARGO_PKG_VERSION_MINOR")));
}

fn runs_are<S: Symbol>(word: &[S], expected: &[[u32; 4]]) {
    let run = |&[first, last, unit, root]: &[u32; 4]| Run {
        first,
        last,
        unit,
        root,
    };
    let expected: Vec<Run> = expected.iter().map(run).collect();
    assert_eq!(cegridom::runs(word).as_ref(), Ok(&expected));
    // Just the places that they need, and one fewer.
    let mut table = vec![Run::default(); expected.len()];
    assert_eq!(cegridom::runs_into(word, &mut table), Ok(expected.len()));
    assert_eq!(table, expected);
    if let Some(fewer) = expected.len().checked_sub(1) {
        let mut table = vec![Run::default(); fewer];
        let refused = cegridom::runs_into(word, &mut table);
        assert_eq!(refused, Err(Refusal::TooFewPlaces));
        assert_eq!(table, vec![Run::default(); fewer]);
    }
}

#[test]
fn runs_have_roots() {
    runs_are(b"", &[]);
    runs_are(b"ab", &[]);
    let rows = [[1, 2, 1, 1], [1, 8, 3, 1], [4, 5, 1, 4], [7, 8, 1, 7]];
    runs_are(b"aabaabaa", &rows);
    // The first and the last wind one unit from different starts.
    let rows = [[1, 4, 2, 1], [2, 7, 3, 3], [4, 5, 1, 4], [5, 8, 2, 6]];
    runs_are(b"ababbaba", &rows);
    runs_are(b"cabcabca", &[[1, 8, 3, 2]]);
    runs_are(b"abacabacab", &[[1, 10, 4, 1]]);
    // Symbols above 127 come after the others.
    runs_are(b"\x80\x01\x80\x01", &[[1, 4, 2, 2]]);
    runs_are(b"\x7f\x80\x7f\x80", &[[1, 4, 2, 1]]);
    runs_are(b"\xc8\x64\xc8\x64\xc8", &[[1, 5, 2, 2]]);
    runs_are(b"\x80\xff\x80\x7f\x80\xff\x80\x7f", &[[1, 8, 4, 4]]);
    runs_are(&vec![b'a'; LIMIT], &[[1, LIMIT as u32, 1, 1]]);
}

#[test]
fn squares_of_the_documents() {
    let both = |word| [Choice::Fewest, Choice::Most].map(|c| cegridom::best_squares(word, c));
    assert_eq!(both(b"aaaa"), [Ok(vec![4]), Ok(vec![2, 4])]);
    assert_eq!(both(b"aabaabaa"), [Ok(vec![2, 8]), Ok(vec![2, 8])]);
    assert_eq!(
        both(b"abaababaabbbaabbbb"),
        [Ok(vec![6, 16, 18]), Ok(vec![10, 12, 14, 16, 18])]
    );
    // Odd lengths, though of equal symbols or of two turns and a rest, and halves that differ.
    for word in [&b"a"[..], b"aaa", b"ababa", b"aabaabaab", b"ab", b"abba"] {
        assert_eq!(both(word), [Err(Refusal::NoSplit), Err(Refusal::NoSplit)]);
    }
    // The empty word has one split, of no squares.
    assert_eq!(both(b""), [Ok(vec![]), Ok(vec![])]);
    assert_eq!(cegridom::judge_squares(b"", &[]), Ok(0));
    let mut work = [9; 5];
    let empty = cegridom::best_squares_into(b"", Choice::Fewest, &mut [], &mut work);
    assert_eq!((empty, work), (Ok(0), [0, 0, 0, 0, 9]));
    // Of the tables only that to work in is changed by a refusal, and by 2 and 7 alone.
    let (none, choice) = (cegridom::NONE, Choice::Most);
    let (mut ends, mut work) = ([9; 1], [9; 21]);
    let few = cegridom::best_squares_into(b"aaaa", choice, &mut ends, &mut work);
    assert_eq!((few, ends), (Err(Refusal::TooFewPlaces), [9]));
    assert_eq!(work[..5], [0, none, 1, none, 2]);
    assert_eq!(work[5..], [[0; 15].as_slice(), &[9]].concat());
    let short = cegridom::best_squares_into(b"aaaa", choice, &mut ends, &mut work[..19]);
    assert_eq!((short, ends), (Err(Refusal::ShortTable), [9]));
    assert_eq!(work[..5], [0, none, 1, none, 2]);
    let odd = cegridom::best_squares_into(b"aba", choice, &mut ends, &mut work);
    assert_eq!((odd, ends), (Err(Refusal::NoSplit), [9]));
    assert_eq!(work[..4], [0, none, none, none]);
    assert_eq!(work[4..], [[0; 16].as_slice(), &[9]].concat());
}

#[test]
fn a_page_has_a_line_a_block() {
    // Byte 10 is a symbol too, and no line is broken at it; a unit shows nine symbols at most.
    let word = b"\0\t\n\xff\0\t\n\xffzzabcdefghijabcdefghijabc";
    let lines = [
        &b"     1     1     8     4     2     0     100090aff          \n"[..],
        b"     2     9    10     1     2     0     27a                \n",
        b"     3    11    33    10     2     3     3616263646566676869\n",
    ];
    let page = cegridom::write_page(word, Edition::One, &[8, 10, 33]).unwrap();
    assert_eq!(page, lines.concat());
    let page = cegridom::write_page(b"aaaaaaabababa", Edition::Two, &[6, 13]).unwrap();
    let lines = [
        &b"     1     1     6     1     6     0     161                \n"[..],
        b"     2     7    13     2     3     1     26162              \n",
    ];
    assert_eq!(page, lines.concat());
    assert_eq!(cegridom::write_page(b"", Edition::Two, &[]), Ok(vec![]));
    let mut out = [b'.'; 62];
    let refused = cegridom::write_page_into(b"aabb", Edition::One, &[2, 4], &mut out);
    assert_eq!(refused, Err(Refusal::TooFewPlaces));
    assert_eq!(out, [b'.'; 62]);
}

#[test]
fn the_first_block_is_a_part_of_the_callers_bytes() {
    let bytes = b"abaabaababaabaabababa aabb aabaabaa".to_vec();
    let [long, two, one] = [&bytes[..21], &bytes[22..26], &bytes[27..]];
    let edition = Edition::One;
    // The part lives as long as the words do, and longer than the table.
    let block = {
        let mut work = vec![9; cegridom::work_places(21)];
        cegridom::first_block_into(long, two, edition, &mut work)
    };
    assert_eq!(block.as_ptr_range(), bytes[..16].as_ptr_range());
    let range = |a, b| cegridom::first_block(a, b, edition).as_ptr_range();
    assert_eq!(range(two, long), bytes[22..24].as_ptr_range());
    assert_eq!(range(two, one), bytes[27..35].as_ptr_range());
    assert_eq!(range(one, two), bytes[27..35].as_ptr_range());
    // Of two equal words that overlap, the first; and of one word given twice.
    let equal = [b'\xff'; 5];
    assert_eq!(range(&equal[1..], &equal[..4]), equal[1..].as_ptr_range());
    assert_eq!(range(&equal, &equal), equal.as_ptr_range());
    // An empty word has fewer blocks than any other; neither of ab and ba has a split.
    let empty = &bytes[26..26];
    assert_eq!(
        cegridom::which_first(one, empty, edition),
        Ok(Which::Second)
    );
    assert_eq!(range(one, empty), empty.as_ptr_range());
    assert_eq!(
        cegridom::which_first(b"ab", b"ba", edition),
        Err(Refusal::NoSplit)
    );
    assert!(cegridom::first_block(b"ab", b"ba", edition).is_empty());
}

// ---- words of 16-bit symbols

/// The words of the documents, in codes of which the low bytes alone are equal: a, b and c.
fn in_codes(word: &[u8]) -> Vec<u16> {
    let code = |letter| 0x0161 + 0x7f00 * u16::from(letter - b'a');
    word.iter().map(|&letter| code(letter)).collect()
}

#[test]
fn words_of_the_documents_in_codes() {
    assert_eq!(in_codes(b"abc"), [0x0161, 0x8061, 0xff61]);
    let split = |word, edition, choice| cegridom::best_split(&in_codes(word), edition, choice);
    let one = |word| [Choice::Fewest, Choice::Most].map(|c| split(word, Edition::One, c));
    let none = [Err(Refusal::NoSplit), Err(Refusal::NoSplit)];
    assert_eq!(one(b""), [Ok(vec![]), Ok(vec![])]);
    for word in [&b"a"[..], b"ab", b"baa"] {
        assert_eq!(one(word), none);
    }
    assert_eq!(one(b"aa"), [Ok(vec![2]), Ok(vec![2])]);
    assert_eq!(one(b"aaaa"), [Ok(vec![4]), Ok(vec![2, 4])]);
    assert_eq!(one(b"aaaaa"), [Ok(vec![5]), Ok(vec![2, 5])]);
    assert_eq!(one(b"ababa"), [Ok(vec![5]), Ok(vec![5])]);
    assert_eq!(one(b"aabb"), [Ok(vec![2, 4]), Ok(vec![2, 4])]);
    assert_eq!(one(b"aabaabaa"), [Ok(vec![8]), Ok(vec![2, 8])]);
    assert_eq!(
        one(b"abaabaababaabaabababa"),
        [Ok(vec![16, 21]), Ok(vec![6, 10, 16, 21])]
    );
    assert_eq!(
        one(b"aabaabaacbbcbbcbb"),
        [Ok(vec![8, 17]), Ok(vec![2, 8, 15, 17])]
    );
    let most = split(b"aaaaaa", Edition::Two, Choice::Most);
    assert_eq!(most, Ok(vec![3, 6]));
    assert_eq!(
        split(b"aabaabaa", Edition::Two, Choice::Most),
        Err(Refusal::NoSplit)
    );
    let word = in_codes(b"aabaabaa");
    let judged = |ends: &[u32]| cegridom::judge_split(&word, Edition::One, ends);
    assert_eq!(judged(&[3, 8]), Err(Refusal::NotBlock { index: 1 }));
    assert_eq!(judged(&[2, 2, 8]), Err(Refusal::BadEnd { index: 2 }));
    assert_eq!(judged(&[2, 9]), Err(Refusal::BadEnd { index: 2 }));
    assert_eq!(judged(&[]), Err(Refusal::Unfinished));
    assert_eq!(judged(&[2, 8]), Ok(2));
    assert_eq!(cegridom::nodes(&word, Edition::One, 8), Ok(vec![2, 4]));
    assert_eq!(
        cegridom::units(&word, 1, 8),
        Ok(vec![1, 1, 3, 3, 3, 3, 3, 3])
    );
    let path = cegridom::path_of_split(&word, Edition::One, &[2, 8]);
    assert_eq!(path, Ok(vec![1, 2]));
    let squares = in_codes(b"abaababaabbbaabbbb");
    assert_eq!(
        [Choice::Fewest, Choice::Most].map(|c| cegridom::best_squares(&squares, c)),
        [Ok(vec![6, 16, 18]), Ok(vec![10, 12, 14, 16, 18])]
    );
    let equal = vec![0xffffu16; LIMIT + 1];
    let whole = cegridom::best_split(&equal[1..], Edition::One, Choice::Fewest);
    assert_eq!(whole, Ok(vec![LIMIT as u32]));
    let over = cegridom::best_split(&equal, Edition::One, Choice::Fewest);
    assert_eq!(over, Err(Refusal::TooLong));
}

#[test]
fn runs_of_codes_have_roots() {
    let rows = [[1, 2, 1, 1], [1, 8, 3, 1], [4, 5, 1, 4], [7, 8, 1, 7]];
    runs_are(&in_codes(b"aabaabaa"), &rows);
    let rows = [[1, 4, 2, 1], [2, 7, 3, 3], [4, 5, 1, 4], [5, 8, 2, 6]];
    runs_are(&in_codes(b"ababbaba"), &rows);
    runs_are(&in_codes(b"cabcabca"), &[[1, 8, 3, 2]]);
    // The high byte decides, against the low one; codes from 0x8000 on come after the others.
    runs_are(&[0x0200u16, 0x01ff, 0x0200, 0x01ff], &[[1, 4, 2, 2]]);
    runs_are(&[256u16, 255, 256, 255], &[[1, 4, 2, 2]]);
    runs_are(&[0x8000u16, 0x7fff, 0x8000, 0x7fff], &[[1, 4, 2, 2]]);
    runs_are(&[65_535u16, 0, 65_535, 0, 65_535], &[[1, 5, 2, 2]]);
    // Codes that only the high byte tells apart are no run.
    runs_are(&[1u16, 257], &[]);
    runs_are(&[1u16, 257, 1, 257], &[[1, 4, 2, 1]]);
    runs_are(&vec![300u16; LIMIT], &[[1, LIMIT as u32, 1, 1]]);
}

#[test]
fn a_page_of_codes_shows_four() {
    let page = |word: &[u16], ends: &[u32]| cegridom::write_page(word, Edition::One, ends);
    let line = |front: &str, shown: &str| format!("{front}{shown:<18}\n").into_bytes();
    for (unit, shown) in [
        (&[0x000au16][..], "000a"),
        (&[0xffff, 0], "ffff0000"),
        (&[255, 256, 257], "00ff01000101"),
        (&[0xabcd, 1, 2, 3], "abcd000100020003"),
        (&[0xabcd, 1, 2, 3, 4], "abcd000100020003"),
        (&[9, 8, 7, 6, 5, 4, 3, 2, 1, 0], "0009000800070006"),
    ] {
        let word = unit.repeat(2);
        let (n, p) = (word.len(), unit.len());
        let front = format!("     1     1{n:>6}{p:>6}     2     0     1");
        assert_eq!(page(&word, &[n as u32]), Ok(line(&front, shown)));
    }
    let bytes = b"abababzz";
    let word = bytes.map(u16::from);
    let lines = [
        &b"     1     1     6     2     3     0     100610062          \n"[..],
        b"     2     7     8     1     2     0     2007a              \n",
    ];
    assert_eq!(page(&word, &[6, 8]), Ok(lines.concat()));
    // The page of the same numbers as bytes differs in the last column alone.
    let of_bytes = cegridom::write_page(bytes, Edition::One, &[6, 8]).unwrap();
    for (line, of_bytes) in lines.iter().zip(of_bytes.chunks(61)) {
        assert_eq!(line[..42], of_bytes[..42]);
        assert_ne!(line[42..], of_bytes[42..]);
    }
    let mut out = [b'.'; 62];
    let refused = cegridom::write_page_into(&word, Edition::One, &[6, 8], &mut out);
    assert_eq!((refused, out), (Err(Refusal::TooFewPlaces), [b'.'; 62]));
}

#[test]
fn the_first_block_is_a_part_of_the_callers_codes() {
    let codes = in_codes(b"abaabaababaabaabababaaabbaabaabaa");
    let [long, two, one] = [&codes[..21], &codes[21..25], &codes[25..]];
    let edition = Edition::One;
    let block = {
        let mut work = vec![9; cegridom::work_places(21)];
        cegridom::first_block_into(long, two, edition, &mut work)
    };
    assert_eq!(block.as_ptr_range(), codes[..16].as_ptr_range());
    let range = |a, b| cegridom::first_block(a, b, edition).as_ptr_range();
    assert_eq!(range(two, long), codes[21..23].as_ptr_range());
    assert_eq!(range(two, one), codes[25..].as_ptr_range());
    assert_eq!(range(one, two), codes[25..].as_ptr_range());
    assert_eq!(cegridom::which_first(two, one, edition), Ok(Which::Second));
    assert_eq!(cegridom::which_first(two, long, edition), Ok(Which::First));
    // Of two equal words that overlap, the first; and of one word given twice.
    let equal = [0xffffu16; 5];
    assert_eq!(range(&equal[1..], &equal[..4]), equal[1..].as_ptr_range());
    assert_eq!(range(&equal, &equal), equal.as_ptr_range());
    let empty = &codes[25..25];
    assert_eq!(range(one, empty), empty.as_ptr_range());
    // Only the high bytes differ, so neither has a split.
    let (a, b) = ([7u16, 263], [263u16, 7]);
    let refused = cegridom::which_first(&a, &b, edition);
    assert_eq!(refused, Err(Refusal::NoSplit));
    assert!(cegridom::first_block(&a, &b, edition).is_empty());
}

/// What each function that allocates takes for a word, or for it twice, in bytes.
fn allocations<S: Symbol>(word: &[S]) -> [usize; 12] {
    let (one, most, n) = (Edition::One, Choice::Most, word.len() as u32);
    [
        bytes_allocated(|| cegridom::part(word, one, 1, n).is_ok()).0,
        bytes_allocated(|| cegridom::units(word, 1, n).is_ok()).0,
        bytes_allocated(|| cegridom::runs(word).is_ok()).0,
        bytes_allocated(|| cegridom::nodes(word, one, n).is_ok()).0,
        bytes_allocated(|| cegridom::best_split(word, one, most).is_ok()).0,
        bytes_allocated(|| cegridom::best_sizes(word, one, most).is_ok()).0,
        bytes_allocated(|| cegridom::best_squares(word, most).is_ok()).0,
        bytes_allocated(|| cegridom::best_squares_sizes(word, most).is_ok()).0,
        bytes_allocated(|| cegridom::path_of_split(word, one, &[n]).is_ok()).0,
        bytes_allocated(|| cegridom::write_page(word, one, &[n]).is_ok()).0,
        bytes_allocated(|| cegridom::which_first(word, word, one).is_ok()).0,
        bytes_allocated(|| cegridom::first_block(word, word, one).len()).0,
    ]
}

#[test]
fn codes_allocate_as_bytes_do() {
    let (longest, too_long) = (vec![b'a'; LIMIT], vec![b'a'; 1_000_000]);
    for word in [&b"aabaabaa"[..], b"ab", b"", &longest, &too_long] {
        let codes: Vec<u16> = word.iter().map(|&symbol| symbol.into()).collect();
        assert_eq!(allocations(&codes), allocations(word));
    }
}

// ---- memory

thread_local! {
    /// The bytes that this thread has allocated.
    static ALLOCATED: Cell<usize> = const { Cell::new(0) };
}

/// The system's allocator, counting.
struct Counting;

// SAFETY: every request goes to the system's allocator as it is; counting allocates nothing.
unsafe impl GlobalAlloc for Counting {
    unsafe fn alloc(&self, layout: Layout) -> *mut u8 {
        ALLOCATED.set(ALLOCATED.get().saturating_add(layout.size()));
        unsafe { System.alloc(layout) }
    }

    unsafe fn dealloc(&self, place: *mut u8, layout: Layout) {
        unsafe { System.dealloc(place, layout) }
    }
}

#[global_allocator]
static COUNTING: Counting = Counting;

/// How many bytes a call allocated, and what it answered.
fn bytes_allocated<T>(call: impl FnOnce() -> T) -> (usize, T) {
    let before = ALLOCATED.get();
    let answer = call();
    (ALLOCATED.get() - before, answer)
}

/// The same in numbers of 32 bits.
fn numbers_allocated<T>(call: impl FnOnce() -> T) -> (usize, T) {
    let (bytes, answer) = bytes_allocated(call);
    (bytes.div_ceil(size_of::<u32>()), answer)
}

/// What the functions on a part allocate, and their refusals.
fn part_allocations(word: &[u8], first: u32, last: u32) -> ([usize; 3], [Option<Refusal>; 3]) {
    let mut lent = vec![0; LIMIT];
    let (part, a) = numbers_allocated(|| cegridom::part(word, Edition::Two, first, last));
    let (units, b) = numbers_allocated(|| cegridom::units(word, first, last));
    let (into, c) =
        numbers_allocated(|| cegridom::part_into(word, Edition::Two, first, last, &mut lent));
    ([part, units, into], [a.err(), b.err(), c.err()])
}

#[test]
fn a_part_allocates_a_number_a_symbol() {
    for (first, last, length) in [(1, 8, 8), (3, 7, 5), (8, 8, 1)] {
        let said = part_allocations(b"aabaabaa", first, last);
        assert_eq!(said, ([length, length, 0], [None; 3]));
    }
    let longest = vec![b'a'; LIMIT];
    let said = part_allocations(&longest, 1, LIMIT as u32);
    assert_eq!(said, ([LIMIT, LIMIT, 0], [None; 3]));
}

#[test]
fn a_refused_part_allocates_no_more_than_the_word() {
    let outside = [
        (0, 8),
        (1, 9),
        (5, 4),
        (9, 9),
        (1, u32::MAX),
        (u32::MAX, 1),
        (0, u32::MAX),
    ];
    for (first, last) in outside {
        let (allocated, refusals) = part_allocations(b"aabaabaa", first, last);
        assert!(
            allocated.iter().all(|&numbers| numbers <= 8),
            "{allocated:?}"
        );
        assert_eq!(refusals, [Some(Refusal::BadPosition); 3]);
    }
    let too_long = vec![b'a'; LIMIT + 1];
    for (first, last) in [(1, LIMIT as u32), (1, LIMIT as u32 + 1), (1, u32::MAX)] {
        let said = part_allocations(&too_long, first, last);
        assert_eq!(said, ([0; 3], [Some(Refusal::TooLong); 3]));
    }
}

#[test]
fn runs_and_nodes_allocate_for_the_most_runs() {
    let longest = vec![b'a'; LIMIT];
    for word in [&b"aabaabaa"[..], b"aa", b"ab", b"a", b"", &longest] {
        let most = cegridom::most_runs(word.len());
        let places = raw::RUN_PLACES * most;
        let (numbers, runs) = numbers_allocated(|| cegridom::runs(word));
        // The answer may be moved to a table of its own size.
        let answer = raw::RUN_PLACES * runs.unwrap().len();
        assert!((places..=places + answer).contains(&numbers), "{numbers}");
        let last = word.len() as u32;
        let (numbers, nodes) = numbers_allocated(|| cegridom::nodes(word, Edition::One, last));
        let answer = nodes.map_or(0, |nodes| nodes.len());
        assert!((most..=most + answer).contains(&numbers), "{numbers}");
    }
    let mut table = [Run::default(); 4];
    let said = numbers_allocated(|| cegridom::runs_into(b"aabaabaa", &mut table));
    assert_eq!(said, (0, Ok(4)));
    // Nothing, where the word is too long.
    let too_long = vec![b'a'; LIMIT + 1];
    let said = numbers_allocated(|| cegridom::runs(&too_long));
    assert_eq!(said, (0, Err(Refusal::TooLong)));
    let said = numbers_allocated(|| cegridom::nodes(&too_long, Edition::One, 1));
    assert_eq!(said, (0, Err(Refusal::TooLong)));
}

#[test]
fn squares_allocate_the_ends_and_a_working_table() {
    let longest = vec![b'a'; LIMIT];
    let (mut ends, mut work) = (vec![0; LIMIT / 2], vec![0; cegridom::work_places(LIMIT)]);
    for word in [&b"aabaabaa"[..], b"ababa", b"", &longest] {
        let n = word.len();
        let places = cegridom::most_ends(n) + cegridom::work_places(n);
        // The answer may be moved to a table of its own size.
        let answer = cegridom::best_squares(word, Choice::Most).map_or(0, |ends| ends.len());
        let (numbers, _) = numbers_allocated(|| cegridom::best_squares(word, Choice::Most));
        assert!((places..=places + answer).contains(&numbers), "{numbers}");
        let (numbers, _) = numbers_allocated(|| {
            let size = cegridom::best_squares_into(word, Choice::Most, &mut ends, &mut work);
            cegridom::judge_squares(word, &ends[..size.unwrap_or(0)])
        });
        assert_eq!(numbers, 0);
    }
    // No more than for the empty word, where the word is too long.
    let too_long = vec![b'a'; 1_000_000];
    let said = numbers_allocated(|| cegridom::best_squares(&too_long, Choice::Most));
    assert_eq!(said, (cegridom::work_places(0), Err(Refusal::TooLong)));
}

#[test]
fn a_page_allocates_its_bytes() {
    let page = |word: &[u8], ends: &[u32]| {
        let (bytes, answer) = bytes_allocated(|| cegridom::write_page(word, Edition::One, ends));
        (bytes, answer.map(|page| page.len()))
    };
    assert_eq!(page(b"aabaabaa", &[2, 8]), (122, Ok(122)));
    assert_eq!(page(b"", &[]), (0, Ok(0)));
    let ends: Vec<u32> = (1..=LIMIT as u32 / 2).map(|k| 2 * k).collect();
    let most = cegridom::page_bytes(ends.len());
    assert_eq!(page(&vec![b'a'; LIMIT], &ends), (most, Ok(most)));
    // More ends than a split has, and a word that is too long.
    let many = vec![8; 1_000_000];
    let (bytes, refused) = page(b"aabaabaa", &many);
    assert!(bytes <= cegridom::page_bytes(4), "{bytes}");
    assert_eq!(refused, Err(Refusal::BadEnd { index: 2 }));
    let refused = page(&vec![b'a'; LIMIT + 1], &many);
    assert_eq!(refused, (0, Err(Refusal::TooLong)));
    let (bytes, _) = bytes_allocated(|| {
        let mut out = [0; 122];
        cegridom::write_page_into(b"aabaabaa", Edition::One, &[2, 8], &mut out)
    });
    assert_eq!(bytes, 0);
}

/// What the functions on two words allocate, with tables of their own and with lent ones.
fn pair_allocations(a: &[u8], b: &[u8]) -> [usize; 4] {
    let mut work = vec![0; cegridom::work_places(LIMIT)];
    let one = Edition::One;
    [
        numbers_allocated(|| cegridom::which_first(a, b, one).is_ok()).0,
        numbers_allocated(|| cegridom::first_block(a, b, one).len()).0,
        numbers_allocated(|| cegridom::which_first_into(a, b, one, &mut work).is_ok()).0,
        numbers_allocated(|| cegridom::first_block_into(a, b, one, &mut work).len()).0,
    ]
}

#[test]
fn two_words_allocate_a_working_table() {
    let longest = vec![b'a'; LIMIT];
    for (a, b) in [
        (&b"aabaabaa"[..], &b"aabb"[..]),
        (b"aabb", b"aabaabaa"),
        (b"ab", b"baa"),
        (b"", b""),
        (&longest, b"aa"),
        (b"aa", &longest),
    ] {
        let places = cegridom::work_places(a.len().max(b.len()));
        assert_eq!(pair_allocations(a, b), [places, places, 0, 0]);
    }
    // No more than for empty words, where either is too long.
    let too_long = vec![b'a'; 1_000_000];
    let least = cegridom::work_places(0);
    for (a, b) in [
        (&too_long[..], &b"aa"[..]),
        (b"aa", &too_long),
        (&too_long, &too_long),
        (&too_long[..LIMIT + 1], &longest),
    ] {
        assert_eq!(pair_allocations(a, b), [least, least, 0, 0]);
        let refused = cegridom::which_first(a, b, Edition::One);
        assert_eq!(refused, Err(Refusal::TooLong));
    }
}

// ---- the example

/// What the example prints for some bytes on standard input.
fn printed(input: &[u8]) -> String {
    let mut output = Vec::new();
    fewest::run(input, &mut output).unwrap();
    String::from_utf8(output).unwrap()
}

#[test]
fn fewest_prints_the_size_and_the_ends() {
    assert_eq!(printed(b"abaabaababaabaabababa\n"), "2\n16\n21\n");
    assert_eq!(printed(b"aabaabaa"), "1\n8\n");
    assert_eq!(printed(b"aa\nbaa\n"), "1\n2\n");
    assert_eq!(printed(b""), "0\n");
    assert_eq!(printed(b"baa\n"), "no split\n");
}

#[test]
fn fewest_takes_words_up_to_the_limit() {
    let longest = vec![b'a'; LIMIT];
    assert_eq!(printed(&longest), "1\n70000\n");
    assert_eq!(printed(&[&longest[..], b"\n"].concat()), "1\n70000\n");
    let error = fewest::run(&[&longest[..], b"a\n"].concat()[..], io::sink()).unwrap_err();
    assert_eq!(error.to_string(), Refusal::TooLong.to_string());
}

#[test]
fn fewest_reports_a_read_error() {
    struct Broken;
    impl Read for Broken {
        fn read(&mut self, _: &mut [u8]) -> io::Result<usize> {
            Err(io::Error::other("broken"))
        }
    }
    let error = fewest::run(io::BufReader::new(Broken), io::sink()).unwrap_err();
    assert_eq!(error.to_string(), "broken");
}
