//! Words about the lengths at which something changes: above 4,096 symbols a plan line has six digits
//! a number, above 65,535 a position takes more than 16 bits, and above 70,000 every call refuses.
//!
//! Every test here runs on a thread of 2 MiB, which is enough for every call: a call that takes more
//! ends the test program.

use super::*;
use reference::long;
use std::thread;

/// The lengths that are taken; the one above is in `words_over_the_limit`.
const LENGTHS: [usize; 7] = [
    LINE_LIMIT,
    LINE_LIMIT + 1,
    65_535,
    65_536,
    65_537,
    LIMIT - 1,
    LIMIT,
];

const STACK: usize = 2 << 20;

/// Runs a test on a thread of just so much stack.
fn on_a_small_stack(test: impl FnOnce() + Send + 'static) {
    let thread = thread::Builder::new().stack_size(STACK).spawn(test);
    if let Err(panic) = thread.unwrap().join() {
        std::panic::resume_unwind(panic);
    }
}

// ---- the reference for long words against the other

/// Everything that `long` gives.
fn long_agrees<S: Kind>(w: &[S], memories: &[usize]) -> u64 {
    let runs = reference::runs(w);
    assert_eq!(long::runs(w), runs, "{w:?}");
    for &memory in memories {
        let bests = reference::bests(w, memory);
        assert_eq!(long::bests(w, memory), bests, "{w:?}");
        for best in bests.iter().flatten() {
            if let Some(ends) = &best.1 {
                let numbers = reference::run_numbers(w, &runs, ends);
                assert_eq!(long::run_numbers(w, &runs, ends), numbers);
            }
        }
    }
    let squares = reference::best_squares(w);
    assert_eq!(long::best_squares(w.len(), &runs), squares, "{w:?}");
    2 + memories.len() as u64
}

#[test]
fn reference_for_long_words_follows_the_other() {
    let mut made = 0;
    every_word(2, 12, |w| made += long_agrees(w, &[1, 2, UNIT_MEMORY]));
    every_word(3, 8, |w| made += long_agrees(w, &[1, 3, UNIT_MEMORY]));
    let mut numbers = Numbers(3_202_034_522);
    for turn in 0..600 {
        let n = 2 + numbers.below(200);
        let symbols = [2, 3, 256][numbers.below(3)];
        let w = match turn % 4 {
            0 => numbers.word(n, symbols),
            1 => numbers.joined(n, 2 + turn % 2, 12),
            2 => numbers.squares(n, 9, symbols).0,
            _ => numbers.nested(n),
        };
        made += long_agrees(&w, &[4, UNIT_MEMORY]);
        made += long_agrees(&spelt(&w, SPELLINGS[turn % 6]), &[9]);
    }
    for n in [255, 600, 1100] {
        for w in long_words(n) {
            made += long_agrees(&w, &[UNIT_MEMORY]);
        }
    }
    println!("the reference for long words against the other: {made} comparisons");
}

// ---- words

/// A unit of 256 symbols, a²⁵⁵b, again and again.
fn longest_unit(n: usize) -> Vec<u8> {
    wound(&last_differs(UNIT_MEMORY), n)
}

/// Equal symbols but for few: long blocks from nearly every boundary, of many units.
fn rare(n: usize) -> Vec<u8> {
    let differs = |i: usize| (i.wrapping_mul(2_654_435_761) >> 7) % 97 == 0;
    (0..n).map(|i| b'a' + differs(i) as u8).collect()
}

/// Words of a length with structure of many kinds.
fn long_words(n: usize) -> Vec<Vec<u8>> {
    let mut numbers = Numbers(0x2545_f491_4f6c_dd1d ^ n as u64);
    let twice = last_differs(n / 2).repeat(2);
    let (squares, _) = numbers.squares(n, 40, 2);
    let nested = numbers.nested(n);
    let mut words = structured(n);
    words.extend([
        longest_unit(n),
        rare(n),
        run_rich(n),
        [vec![b'a'; n - twice.len()], twice].concat(),
        [vec![b'a'; n - squares.len()], squares].concat(),
        [vec![b'a'; n - nested.len()], nested].concat(),
    ]);
    assert!(words.iter().all(|w| w.len() == n));
    words
}

// ---- every call

/// Every call on one word, with tables of just the sizes that the answers need.
fn checked<S: Kind>(checker: &mut Checker, numbers: &mut Numbers, w: &[S]) {
    let (n, all) = (w.len(), w.len() as u32);
    let known = Known::of(w);
    let squared = Squared {
        word: w,
        bests: match n {
            0..=PLAIN => reference::best_squares(w),
            _ => long::best_squares(n, &known.runs),
        },
    };
    let work = 4 * (n + 1);
    let size = |best: &Best| best.1.as_ref().map_or(0, Vec::len);
    checker.runs(&known, RUN_PLACES * known.runs.len());
    checker.part(w, 1, 1, all, n);
    checker.part(w, 2, 1 + numbers.below(n) as u32, all, n);
    for edition in EDITIONS {
        // Near the end, where positions and numbers are great.
        let position = n - numbers.below(n.min(3000));
        let rule = Rule::of(edition).unwrap();
        let exact = reference::white(&known.runs, rule, position).len();
        checker.nodes(&known, edition, position as u32, exact);
        for choice in [1, 2] {
            let places = size(known.best(edition, choice));
            checker.best_split(&known, edition, choice, places, work);
        }
    }
    for choice in [1, 2] {
        checker.best_squares(&squared, choice, size(squared.best(choice)), work);
        if let Some(ends) = &squared.best(choice).1 {
            checker.judge_squares(w, ends);
            checker.judge_squares(w, &numbers.damaged(ends));
        }
    }
    checker.judge_squares(w, &[all]);
    checker.judge_split(w, 1, &[all]);
    for (edition, choice) in [(1, 2), (2, 1)] {
        if let Some(ends) = &known.best(edition, choice).1 {
            checked_split(checker, numbers, &known, edition, ends);
        }
    }
}

/// The calls on a split, on what is near it, and on its plan.
fn checked_split<S: Kind>(
    checker: &mut Checker,
    numbers: &mut Numbers,
    known: &Known<S>,
    edition: u32,
    ends: &[u32],
) {
    let (w, n) = (known.word, known.word.len() as u32);
    checker.judge_split(w, edition, ends);
    checker.judge_split(w, edition, &ends[..ends.len() - 1]);
    checker.judge_split(w, edition, &numbers.damaged(ends));
    checker.path_of_split(known, edition, ends, ends.len());
    checker.path_of_split(known, edition, &numbers.damaged(ends), ends.len());
    checker.write_page(known, edition, ends, page_bytes(ends));
    checker.write_page(known, edition, &numbers.damaged(ends), page_bytes(ends));
    let path = known.path(edition, ends);
    checker.judge_path(known, edition, &path);
    checker.judge_path(known, edition, &numbers.damaged(&path));
    let line = reference::line(n, ends);
    checker.write_plan(n, ends, line.len());
    checker.read_plan(&line, ends.len());
}

/// Every call on some of the words of a length: of all, those whose number leaves a remainder.
fn checked_length(name: &str, n: usize, of: usize, remainder: usize) {
    let mut checker = Checker::default();
    let mut numbers = Numbers(88_172_645_463_325_252 ^ n as u64);
    let words = long_words(n).into_iter().enumerate();
    for (_, w) in words.filter(|(i, _)| i % of == remainder % of) {
        checked(&mut checker, &mut numbers, &w);
    }
    checker.report(&format!("{name}, {n} symbols"));
}

#[test]
fn lengths_about_4096() {
    on_a_small_stack(|| {
        for n in &LENGTHS[..2] {
            checked_length("every call", *n, 1, 0);
        }
    });
}

#[test]
fn lengths_about_65536() {
    on_a_small_stack(|| {
        for (turn, n) in LENGTHS[2..5].iter().enumerate() {
            checked_length("every call", *n, 3, turn);
        }
    });
}

#[test]
fn lengths_below_the_limit() {
    on_a_small_stack(|| checked_length("every call", LIMIT - 1, 3, 1));
}

#[test]
fn lengths_at_the_limit() {
    on_a_small_stack(|| checked_length("every call", LIMIT, 2, 0));
}

#[test]
fn lengths_at_the_limit_other_words() {
    on_a_small_stack(|| checked_length("every call, other words", LIMIT, 2, 1));
}

/// Symbols of which both bytes count.
#[test]
fn lengths_of_codes() {
    on_a_small_stack(|| {
        let mut checker = Checker::default();
        let mut numbers = Numbers(2_654_435_761);
        for (turn, n) in LENGTHS.into_iter().enumerate() {
            let words = long_words(n).into_iter().enumerate();
            for (i, w) in words.filter(|(i, _)| i % 7 == turn) {
                let w = spelt(&w, SPELLINGS[(i + turn) % SPELLINGS.len()]);
                checked(&mut checker, &mut numbers, &w);
            }
        }
        checker.report("every call on codes of long words");
    });
}

/// Which first and first block: long words beside each other, beside shorter ones and beside none.
#[test]
fn lengths_in_pairs() {
    on_a_small_stack(|| {
        let mut checker = Checker::default();
        let mut numbers = Numbers(123_456_789);
        for (turn, n) in LENGTHS.into_iter().enumerate() {
            let edition = 1 + turn as u32 % 2;
            let turns = reference::turns(edition).unwrap();
            let words = [
                fibonacci(n),
                numbers.split(n, turns, 40, 3).0,
                longest_unit(n),
                numbers.word(n, 2),
            ];
            let known = all_known(&words);
            let work = 4 * (n + 1);
            for (a, b) in [(0, 1), (1, 2), (2, 3), (3, 1)] {
                checker.two(&known[a], &known[b], edition, work);
            }
            // The longer one says how large the working table is.
            let longer = known[2].word.len().max(known[1].word.len());
            checker.two(&known[1], &known[2], edition, 4 * (longer + 1) - 1);
            checker.two(&known[2], &known[1], edition, 4 * (longer + 1) + 9);
        }
        checker.report("pairs of long words");
    });
}

/// Every output table and working table one place too small, just large enough and larger.
#[test]
fn lengths_and_tables() {
    on_a_small_stack(|| {
        let mut checker = Checker::default();
        let mut numbers = Numbers(1_442_695_040);
        for (n, edition) in [(65_536, 2), (LIMIT, 1)] {
            let turns = reference::turns(edition).unwrap();
            let (mut w, mut ends) = numbers.split(n - turns, turns, 30, 4);
            w.resize(n, 7);
            ends.push(n as u32);
            tables(&mut checker, &w, edition, &ends);
            tables(&mut checker, &spelt(&w, in_high_byte_first), edition, &ends);
        }
        checker.report("tables of long words");
    });
}

fn tables<S: Kind>(checker: &mut Checker, w: &[S], edition: u32, ends: &[u32]) {
    let (n, all) = (w.len(), w.len() as u32);
    let known = Known::of(w);
    let squared = Squared::of(w);
    let about = |exact: usize| [exact - 1, exact, exact + 9];
    let work = 4 * (n + 1);
    for places in about(n) {
        checker.part(w, edition, 1, all, places);
    }
    for places in about(RUN_PLACES * known.runs.len()) {
        checker.runs(&known, places);
    }
    let rule = Rule::of(edition).unwrap();
    let white = reference::white(&known.runs, rule, n);
    assert!(!white.is_empty());
    for places in about(white.len()) {
        checker.nodes(&known, edition, all, places);
    }
    for choice in [1, 2] {
        let size = known.best(edition, choice).1.as_ref().unwrap().len();
        for places in about(size) {
            checker.best_split(&known, edition, choice, places, work);
        }
        checker.best_split(&known, edition, choice, size, work - 1);
        checker.best_split(&known, edition, choice, size, work + 9);
        let size = squared.best(choice).1.as_ref().map_or(1, Vec::len);
        for places in about(size) {
            checker.best_squares(&squared, choice, places, work);
        }
        checker.best_squares(&squared, choice, size, work - 1);
        checker.best_squares(&squared, choice, size, work + 9);
    }
    for places in about(ends.len()) {
        checker.path_of_split(&known, edition, ends, places);
    }
    for room in about(page_bytes(ends)) {
        checker.write_page(&known, edition, ends, room);
    }
    let line = reference::line(all, ends);
    for room in about(line.len()) {
        checker.write_plan(all, ends, room);
    }
    for places in about(ends.len()) {
        checker.read_plan(&line, places);
    }
}

/// The crate's own functions, which allocate their tables.
#[test]
fn lengths_of_wrappers() {
    on_a_small_stack(|| {
        let mut wrappers = Wrappers::default();
        for n in [LINE_LIMIT + 1, 65_537, LIMIT] {
            let w = wound(b"aab", n);
            let known = Known::of(&w);
            let numbers = 1..=n as u32;
            wrappers.runs(&known);
            wrappers.part(&w, Edition::One, 1, n as u32);
            wrappers.nodes(&known, Edition::Two, n as u32);
            let ends = wrappers.best_split(&known, Edition::One, Choice::Most);
            let path = wrappers.path_of_split(&known, Edition::One, &ends);
            wrappers.judges(&known, Edition::One, &ends, &path);
            wrappers.write_page(&known, Edition::One, &ends);
            wrappers.plans(n, &ends);
            wrappers.plans(n, &numbers.clone().collect::<Vec<u32>>());
            wrappers.plans(n, &numbers.step_by(2).collect::<Vec<u32>>());
            wrappers.best_squares(&Squared::of(&w), Choice::Most);
            wrappers.two(&known, &known, Edition::One);
        }
        println!("the wrappers on long words: {} comparisons", wrappers.made);
    });
}

// ---- answers that are known without a reference

/// A line of a page with the run number 1 and the symbol a.
fn page_line<S: Kind>(number: usize, first: usize, last: usize) -> String {
    let (turns, shown) = (last + 1 - first, &"0061"[4 - S::DIGITS..]);
    format!("{number:>6}{first:>6}{last:>6}     1{turns:>6}     0     1{shown:<18}\n")
}

/// Equal symbols: one run, the whole as one block, and as blocks of so many.
fn equal_symbols<S: Kind>(symbol: S, n: usize) -> u64 {
    let (w, all) = (vec![symbol; n], n as u32);
    let run = cegridom::Run {
        first: 1,
        last: all,
        unit: 1,
        root: 1,
    };
    assert_eq!(cegridom::runs(&w), Ok(vec![run]));
    assert_eq!(cegridom::units(&w, 1, all), Ok(vec![1; n]));
    for (edition, turns) in [(Edition::One, 2), (Edition::Two, 3)] {
        let part = cegridom::Part {
            unit: 1,
            turns: all,
            rest: 0,
            block: true,
        };
        assert_eq!(cegridom::part(&w, edition, 1, all), Ok(part));
        assert_eq!(cegridom::nodes(&w, edition, all), Ok(vec![1]));
        let split = |choice| cegridom::best_split(&w, edition, choice);
        assert_eq!(split(Choice::Fewest), Ok(vec![all]));
        let mut ends: Vec<u32> = (1..=all / turns).map(|k| turns * k).collect();
        *ends.last_mut().unwrap() = all;
        assert_eq!(split(Choice::Most), Ok(ends.clone()));
        let best = |choice| cegridom::best_sizes(&w, edition, choice).unwrap();
        let sizes = |size: &dyn Fn(u32) -> u32| -> Vec<Option<u32>> {
            let of_part = |m| (m == 0 || m >= turns).then(|| size(m));
            (0..=all).map(of_part).collect()
        };
        assert_eq!(best(Choice::Fewest), sizes(&|m| m.min(1)));
        assert_eq!(best(Choice::Most), sizes(&|m| m / turns));
        assert_eq!(cegridom::judge_split(&w, edition, &ends), Ok(ends.len()));
        let path = vec![1; ends.len()];
        assert_eq!(
            cegridom::path_of_split(&w, edition, &ends),
            Ok(path.clone())
        );
        let steps = as_steps(&path, &ends);
        assert_eq!(cegridom::judge_path(&w, edition, &steps), Ok(ends.len()));
        let befores = [0].iter().chain(&ends);
        let pieces = befores
            .zip(&ends)
            .map(|(&i, &j)| (i as usize + 1, j as usize));
        let lines = (1..).zip(pieces);
        let page: String = lines.map(|(k, (i, j))| page_line::<S>(k, i, j)).collect();
        assert_eq!(
            cegridom::write_page(&w, edition, &ends),
            Ok(page.into_bytes())
        );
        let (which, block) = (
            cegridom::which_first(&w[1..], &w, edition),
            cegridom::first_block(&w[1..], &w, edition),
        );
        assert_eq!((which, block.len()), (Ok(Which::First), n - 1));
    }
    let squares = |choice| cegridom::best_squares(&w, choice);
    let twos: Vec<u32> = (1..=all / 2).map(|k| 2 * k).collect();
    if n % 2 == 0 {
        assert_eq!(squares(Choice::Fewest), Ok(vec![all]));
        assert_eq!(squares(Choice::Most), Ok(twos.clone()));
        assert_eq!(cegridom::judge_squares(&w, &twos), Ok(n / 2));
    } else {
        assert_eq!(squares(Choice::Fewest), Err(Refusal::NoSplit));
        assert_eq!(squares(Choice::Most), Err(Refusal::NoSplit));
        assert_eq!(cegridom::judge_squares(&w, &twos), Err(Refusal::Unfinished));
    }
    31
}

/// A last symbol that differs: no split, though every leading part but one symbol has one.
fn last_symbol_differs<S: Kind>([a, b]: [S; 2], n: usize) -> u64 {
    let mut w = vec![a; n];
    w[n - 1] = b;
    let all = n as u32;
    let run = cegridom::Run {
        first: 1,
        last: all - 1,
        unit: 1,
        root: 1,
    };
    assert_eq!(cegridom::runs(&w), Ok(vec![run]));
    let mut units = vec![1; n];
    units[n - 1] = all;
    assert_eq!(cegridom::units(&w, 1, all), Ok(units));
    let mut sizes = vec![Some(1); n + 1];
    (sizes[0], sizes[1], sizes[n]) = (Some(0), None, None);
    let fewest = cegridom::best_sizes(&w, Edition::One, Choice::Fewest);
    assert_eq!(fewest, Ok(sizes));
    for choice in [Choice::Fewest, Choice::Most] {
        let split = cegridom::best_split(&w, Edition::One, choice);
        assert_eq!(split, Err(Refusal::NoSplit));
        let squares = cegridom::best_squares(&w, choice);
        assert_eq!(squares, Err(Refusal::NoSplit));
    }
    let judged = cegridom::judge_split(&w, Edition::One, &[all]);
    assert_eq!(judged, Err(Refusal::NotBlock { index: 1 }));
    8
}

/// A unit that memory holds, and one that it does not, as often as there is room.
fn whole_units<S: Kind>([a, b]: [S; 2], n: usize) -> u64 {
    for length in [2, 255, 256, 257, 300] {
        let unit: Vec<S> = (0..length)
            .map(|i| if i + 1 < length { a } else { b })
            .collect();
        let w: Vec<S> = unit.iter().copied().cycle().take(n).collect();
        let (all, length) = (n as u32, length as u32);
        let held = length <= 256;
        for (edition, number) in [(Edition::One, 1), (Edition::Two, 2)] {
            let part = cegridom::part(&w, edition, 1, all).unwrap();
            assert_eq!((part.unit, part.turns), (length, all / length));
            assert_eq!((part.rest, part.block), (all % length, held));
            let expected = match held {
                true => Ok(1),
                false => Err(Refusal::NotBlock { index: 1 }),
            };
            assert_eq!(cegridom::judge_split(&w, edition, &[all]), expected);
            if held {
                let split = cegridom::best_split(&w, edition, Choice::Fewest);
                assert_eq!(split, Ok(vec![all]), "edition {number}");
            }
        }
    }
    24
}

/// Codes that are all different, each twice: as many runs as blocks, each of two symbols.
fn different_pairs(n: usize) -> u64 {
    let pairs = n as u32 / 2;
    let w: Vec<u16> = (0..2 * pairs).map(|i| (40_503 * (i / 2)) as u16).collect();
    let run = |k: u32| cegridom::Run {
        first: 2 * k - 1,
        last: 2 * k,
        unit: 1,
        root: 2 * k - 1,
    };
    assert_eq!(cegridom::runs(&w), Ok((1..=pairs).map(run).collect()));
    let ends: Vec<u32> = (1..=pairs).map(|k| 2 * k).collect();
    for choice in [Choice::Fewest, Choice::Most] {
        let split = cegridom::best_split(&w, Edition::One, choice);
        assert_eq!(split, Ok(ends.clone()));
        assert_eq!(cegridom::best_squares(&w, choice), Ok(ends.clone()));
    }
    let path: Vec<u32> = (1..=pairs).collect();
    let found = cegridom::path_of_split(&w, Edition::One, &ends);
    assert_eq!(found, Ok(path.clone()));
    let steps = as_steps(&path, &ends);
    let judged = cegridom::judge_path(&w, Edition::One, &steps);
    assert_eq!(judged, Ok(pairs as usize));
    let nodes = cegridom::nodes(&w, Edition::One, 2 * pairs);
    assert_eq!(nodes, Ok(vec![pairs]));
    let none = cegridom::best_split(&w, Edition::Two, Choice::Fewest);
    assert_eq!(none, Err(Refusal::NoSplit));
    9
}

/// Different codes, and all of them again: one square, one run and no block.
fn one_square(n: usize) -> u64 {
    let half = n as u32 / 2;
    let codes: Vec<u16> = (0..half).map(|i| (40_503 * (i + 9)) as u16).collect();
    let least = codes.iter().min();
    let root = codes.iter().position(|code| Some(code) == least).unwrap();
    let w = codes.repeat(2);
    let run = cegridom::Run {
        first: 1,
        last: 2 * half,
        unit: half,
        root: root as u32 + 1,
    };
    assert_eq!(cegridom::runs(&w), Ok(vec![run]));
    for choice in [Choice::Fewest, Choice::Most] {
        assert_eq!(cegridom::best_squares(&w, choice), Ok(vec![2 * half]));
        let split = cegridom::best_split(&w, Edition::One, choice);
        assert_eq!(split, Err(Refusal::NoSplit));
    }
    assert_eq!(cegridom::nodes(&w, Edition::One, 2 * half), Ok(vec![]));
    let mut units: Vec<u32> = (1..=half).collect();
    units.resize(2 * half as usize, half);
    assert_eq!(cegridom::units(&w, 1, 2 * half), Ok(units));
    7
}

#[test]
fn lengths_with_known_answers() {
    on_a_small_stack(|| {
        let mut made = 0;
        for n in LENGTHS {
            made += equal_symbols(b'a', n) + equal_symbols(0x61u16, n);
            made += last_symbol_differs([7u8, 8], n);
            made += last_symbol_differs([0x0107u16, 0x0207], n);
            made += different_pairs(n) + one_square(n);
        }
        for n in [LINE_LIMIT + 1, LIMIT] {
            made += whole_units([b'a', b'b'], n) + whole_units([0x0161u16, 0x0261], n);
        }
        let over = vec![0u8; LIMIT + 1];
        assert_eq!(cegridom::runs(&over), Err(Refusal::TooLong));
        println!("known answers of long words: {} comparisons", made + 1);
    });
}

/// Numbers above 65,535 stand in every table that may have them: runs and their numbers, nodes, ends,
/// units, paths, pages and plans.
#[test]
fn numbers_above_16_bits() {
    on_a_small_stack(|| {
        let mut checker = Checker::default();
        let above = |number: &u32| *number > 65_535;
        let w = run_rich(LIMIT);
        let known = Known::of(&w);
        assert_eq!(known.runs.len(), 66_095);
        assert!(known.runs.iter().any(|&(first, ..)| first > 65_536));
        let ends = known.best(1, 2).1.as_ref().unwrap();
        let (_, numbers) = reference::path_call(&w, 1, &known.runs, ends, ends.len());
        assert!(numbers.iter().any(above) && ends.iter().any(above));
        checker.path_of_split(&known, 1, ends, ends.len());
        checker.write_page(&known, 1, ends, page_bytes(ends));
        checker.judge_path(&known, 1, &encoded(&numbers, ends));
        // A number that 16 bits would take for the right one.
        let at = numbers.iter().position(&above).unwrap();
        let mut near = numbers.clone();
        near[at] -= 65_536;
        checker.judge_path(&known, 1, &encoded(&near, ends));
        let rule = Rule::of(1).unwrap();
        let white = reference::white(&known.runs, rule, LIMIT);
        assert!(white.iter().any(above));
        checker.nodes(&known, 1, LIMIT as u32, white.len());
        // A unit of 65,537 symbols, of which the first alone stands again.
        let mut w = vec![0u8; 65_538];
        (w[0], w[65_537]) = (9, 9);
        let (outcome, units) = reference::part_call(&w, 1, 1, 65_538, w.len());
        assert_eq!(outcome, Accepted(vec![65_537, 1, 1, 0]));
        assert!(units.iter().any(above));
        checker.part(&w, 1, 1, 65_538, w.len());
        // Positions that 16 bits would take for others.
        let known = Known::unsplit(&w);
        checker.part(&w, 1, 65_537, 65_538, 2);
        checker.part(&w, 1, 65_536 + 2, 3, 2);
        checker.nodes(&known, 1, 65_537, 2);
        checker.nodes(&known, 1, 65_536, 2);
        checker.nodes(&known, 1, 65_536 + 65_536, 2);
        checker.report("numbers above 16 bits");
    });
}
