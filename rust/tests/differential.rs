//! Every call of the library against the independent implementation in `reference`: the result, the
//! index, every value, and every place of every lent table and of what lies beside it.
//!
//! Every call on bytes is made again on the same numbers as 16-bit symbols, and all of that must be
//! the same, but for the text of a page, which has its own form.
//!
//! One comparison is one call with all of that. Each test prints how many it made.

mod lengths;
mod reference;
mod words;

use cegridom::{raw, Choice, Edition, Refusal, Step, Symbol, Which};
use reference::Outcome::{self, Accepted, Refused};
use reference::{
    Best, Code, Rule, Run, EDITIONS, LIMIT, LINE_LIMIT, NONE, PLAIN, RUN_PLACES, UNIT_MEMORY,
};
use words::{every_word, fibonacci, last_differs, thue_morse};

/// What stands in a value before a call, and beside a table.
const GUARD: u32 = 0xdead_beef;
/// From this length on fewer comparisons are made of a word, since each takes its time.
const LONG: usize = 1000;
/// How many places beside a table are watched.
const MARGIN: usize = 3;
/// Numbers that are no edition.
const NO_EDITIONS: [u32; 3] = [0, 3, u32::MAX];
/// More places than any answer needs.
const MANY: usize = 61 * LIMIT;

/// A kind of symbol.
trait Kind: Symbol + Code {
    /// The same numbers as 16-bit symbols, of a word of bytes.
    fn widened(word: &[Self]) -> Option<Vec<u16>>;
}

impl Kind for u8 {
    fn widened(word: &[u8]) -> Option<Vec<u16>> {
        Some(wide(word))
    }
}

impl Kind for u16 {
    fn widened(_: &[u16]) -> Option<Vec<u16>> {
        None
    }
}

fn wide(word: &[u8]) -> Vec<u16> {
    word.iter().map(|&symbol| symbol.into()).collect()
}

/// Makes a call on words, by the function for their kind of symbol; of bytes then once more on the
/// same numbers as 16-bit symbols, by the function for those.
macro_rules! in_each_width {
    ($kind:ident, $name:ident as $call:ident, [$($word:ident),+], $body:block) => {
        let $call = $kind::CALLS.$name;
        $body
        if let ($(Some($word),)+) = ($($kind::widened($word),)+) {
            let $call = u16::CALLS.$name;
            $(let $word = &$word[..];)+
            $body
        }
    };
}

/// A table of some places, of known contents, between guards.
struct Lent<T> {
    places: Vec<T>,
    before: Vec<T>,
}

impl<T: Copy + PartialEq + std::fmt::Debug + TryFrom<u64>> Lent<T> {
    fn new(count: usize) -> Lent<T> {
        let places: Vec<T> = (0..count + 2 * MARGIN)
            // never 0, which calls write
            .map(|i| T::try_from((7 * i as u64 + 3) % 250 + 1).ok().unwrap())
            .collect();
        Lent {
            before: places.clone(),
            places,
        }
    }

    fn table(&mut self) -> &mut [T] {
        let end = self.places.len() - MARGIN;
        &mut self.places[MARGIN..end]
    }

    /// Only the front of the table changed, to these.
    fn changed_to(&self, front: &[T], what: &str) {
        let end = MARGIN + front.len();
        assert_eq!(self.places[..MARGIN], self.before[..MARGIN], "{what}");
        assert_eq!(&self.places[MARGIN..end], front, "{what}");
        assert_eq!(self.places[end..], self.before[end..], "{what}");
    }
}

/// Compares what a call handed over with an outcome of so many values.
fn compare(result: u32, index: u32, values: &[u32], expected: &Outcome, what: &str) {
    match expected {
        Accepted(wanted) => {
            assert_eq!((result, index), (0, 0), "{what}");
            assert_eq!(values, wanted, "{what}");
        }
        Refused(number, at) => {
            assert_eq!((result, index), (*number, *at), "{what}");
            assert!(values.iter().all(|&v| v == 0), "{what}: {values:?}");
        }
    }
}

/// Makes the comparisons and counts them.
#[derive(Default)]
struct Checker {
    made: u64,
    /// How often each refusal was met, in both widths together once; place 0 is for accepted.
    met: [u64; 13],
}

/// A word and what is known of it.
struct Known<'a, S = u8> {
    word: &'a [S],
    runs: Vec<Run>,
    /// By edition and choice.
    bests: [[Best; 2]; 2],
}

impl<'a, S: Kind> Known<'a, S> {
    fn of(word: &'a [S]) -> Known<'a, S> {
        if word.len() > LIMIT {
            return Known {
                word,
                runs: vec![],
                bests: Default::default(),
            };
        }
        let bests = match word.len() {
            0..=PLAIN => reference::bests(word, UNIT_MEMORY),
            _ => reference::long::bests(word, UNIT_MEMORY),
        };
        Known {
            bests,
            ..Known::unsplit(word)
        }
    }

    /// Without best splits, for a word that no call is to split.
    fn unsplit(word: &'a [S]) -> Known<'a, S> {
        let runs = match word.len() {
            0..=PLAIN => reference::runs(word),
            _ => reference::long::runs(word),
        };
        Known {
            word,
            runs,
            bests: Default::default(),
        }
    }

    /// Any, where the edition or the choice is none: the call then refuses without it.
    fn best(&self, edition: u32, choice: u32) -> &Best {
        &self.bests[(edition == 2) as usize][(choice == 2) as usize]
    }

    /// The path of a split: run number and end of each block.
    fn path(&self, edition: u32, ends: &[u32]) -> Vec<u32> {
        let (_, runs) = reference::path_call(self.word, edition, &self.runs, ends, ends.len());
        encoded(&runs, ends)
    }
}

/// A word and its best splits into squares, by choice.
struct Squared<'a, S = u8> {
    word: &'a [S],
    bests: [Best; 2],
}

impl<'a, S: Kind> Squared<'a, S> {
    fn of(word: &'a [S]) -> Squared<'a, S> {
        let bests = match word.len() {
            0..=PLAIN => reference::best_squares(word),
            n @ ..=LIMIT => reference::long::best_squares(n, &reference::long::runs(word)),
            _ => Default::default(),
        };
        Squared { word, bests }
    }

    /// Any, where the choice is none: the call then refuses without it.
    fn best(&self, choice: u32) -> &Best {
        &self.bests[(choice == 2) as usize]
    }
}

impl Checker {
    fn meet(&mut self, outcome: &Outcome) {
        self.met[match outcome {
            Accepted(_) => 0,
            Refused(number, _) => *number as usize,
        }] += 1;
    }

    fn part<S: Kind>(&mut self, w: &[S], edition: u32, first: u32, last: u32, places: usize) {
        let (expected, front) = reference::part_call(w, edition, first, last, places);
        in_each_width!(S, part as call, [w], {
            let mut lent = Lent::new(places);
            let mut values = [GUARD; 4];
            let mut index = GUARD;
            let units = lent.table();
            let [unit, turns, rest, block] = &mut values;
            let result = unsafe {
                call(
                    w.as_ptr(),
                    w.len(),
                    edition,
                    first,
                    last,
                    units.as_mut_ptr(),
                    units.len(),
                    unit,
                    turns,
                    rest,
                    block,
                    &mut index,
                )
            };
            compare(result, index, &values, &expected, "part");
            lent.changed_to(&front, "part");
            self.made += 1;
        });
        self.meet(&expected);
    }

    fn runs<S: Kind>(&mut self, known: &Known<S>, places: usize) {
        let w = known.word;
        let (expected, front) = reference::runs_call(w, &known.runs, places);
        in_each_width!(S, runs as call, [w], {
            let mut lent = Lent::new(places);
            let (mut count, mut index) = (GUARD, GUARD);
            let table = lent.table();
            let result = unsafe {
                call(
                    w.as_ptr(),
                    w.len(),
                    table.as_mut_ptr(),
                    table.len(),
                    &mut count,
                    &mut index,
                )
            };
            compare(result, index, &[count], &expected, "runs");
            lent.changed_to(&front, "runs");
            self.made += 1;
        });
        self.meet(&expected);
    }

    fn nodes<S: Kind>(&mut self, known: &Known<S>, edition: u32, position: u32, places: usize) {
        let w = known.word;
        let (expected, front) = reference::nodes_call(w, edition, &known.runs, position, places);
        in_each_width!(S, nodes as call, [w], {
            let mut lent = Lent::new(places);
            let (mut count, mut index) = (GUARD, GUARD);
            let table = lent.table();
            let result = unsafe {
                call(
                    w.as_ptr(),
                    w.len(),
                    edition,
                    position,
                    table.as_mut_ptr(),
                    table.len(),
                    &mut count,
                    &mut index,
                )
            };
            compare(result, index, &[count], &expected, "nodes");
            lent.changed_to(&front, "nodes");
            self.made += 1;
        });
        self.meet(&expected);
    }

    fn best_split<S: Kind>(
        &mut self,
        known: &Known<S>,
        edition: u32,
        choice: u32,
        places: usize,
        work_places: usize,
    ) {
        let w = known.word;
        let best = known.best(edition, choice);
        let (expected, front, work_front) =
            reference::best_call(w, edition, choice, best, places, work_places);
        in_each_width!(S, best_split as call, [w], {
            let mut ends = Lent::new(places);
            let mut work = Lent::new(work_places);
            let (mut size, mut index) = (GUARD, GUARD);
            let (e, t) = (ends.table(), work.table());
            let result = unsafe {
                call(
                    w.as_ptr(),
                    w.len(),
                    edition,
                    choice,
                    e.as_mut_ptr(),
                    e.len(),
                    t.as_mut_ptr(),
                    t.len(),
                    &mut size,
                    &mut index,
                )
            };
            compare(result, index, &[size], &expected, "best split");
            ends.changed_to(&front, "the ends of best split");
            work.changed_to(&work_front, "the working table of best split");
            self.made += 1;
        });
        self.meet(&expected);
    }

    fn best_squares<S: Kind>(
        &mut self,
        known: &Squared<S>,
        choice: u32,
        places: usize,
        work_places: usize,
    ) {
        let w = known.word;
        let (expected, front, work_front) =
            reference::best_squares_call(w, choice, known.best(choice), places, work_places);
        in_each_width!(S, best_squares as call, [w], {
            let mut ends = Lent::new(places);
            let mut work = Lent::new(work_places);
            let (mut size, mut index) = (GUARD, GUARD);
            let (e, t) = (ends.table(), work.table());
            let result = unsafe {
                call(
                    w.as_ptr(),
                    w.len(),
                    choice,
                    e.as_mut_ptr(),
                    e.len(),
                    t.as_mut_ptr(),
                    t.len(),
                    &mut size,
                    &mut index,
                )
            };
            compare(result, index, &[size], &expected, "best squares");
            ends.changed_to(&front, "the ends of best squares");
            work.changed_to(&work_front, "the working table of best squares");
            self.made += 1;
        });
        self.meet(&expected);
    }

    fn which_first<S: Kind>(
        &mut self,
        a: &Known<S>,
        b: &Known<S>,
        edition: u32,
        work_places: usize,
    ) {
        let (words, fewest) = pair(a, b, edition);
        let (expected, front) = reference::which_call(words, edition, fewest, work_places);
        let [a, b] = words;
        in_each_width!(S, which_first as call, [a, b], {
            let mut work = Lent::new(work_places);
            let (mut which, mut index) = (GUARD, GUARD);
            let t = work.table();
            let result = unsafe {
                call(
                    a.as_ptr(),
                    a.len(),
                    b.as_ptr(),
                    b.len(),
                    edition,
                    t.as_mut_ptr(),
                    t.len(),
                    &mut which,
                    &mut index,
                )
            };
            compare(result, index, &[which], &expected, "which first");
            work.changed_to(&front, "the working table of which first");
            self.made += 1;
        });
        self.meet(&expected);
    }

    fn first_block<S: Kind>(
        &mut self,
        a: &Known<S>,
        b: &Known<S>,
        edition: u32,
        work_places: usize,
    ) {
        let (words, fewest) = pair(a, b, edition);
        let (expected, front) = reference::first_block_call(words, edition, fewest, work_places);
        let [a, b] = words;
        in_each_width!(S, first_block as call, [a, b], {
            let mut work = Lent::new(work_places);
            let mut values = [GUARD; 2];
            let t = work.table();
            let [which, length] = &mut values;
            let result = unsafe {
                call(
                    a.as_ptr(),
                    a.len(),
                    b.as_ptr(),
                    b.len(),
                    edition,
                    t.as_mut_ptr(),
                    t.len(),
                    which,
                    length,
                )
            };
            compare(result, 0, &values, &expected, "first block");
            work.changed_to(&front, "the working table of first block");
            self.made += 1;
        });
        self.meet(&expected);
    }

    fn judge_split<S: Kind>(&mut self, w: &[S], edition: u32, ends: &[u32]) {
        let expected = reference::judge_split_call(w, edition, ends);
        in_each_width!(S, judge_split as call, [w], {
            let (mut blocks, mut index) = (GUARD, GUARD);
            let result = unsafe {
                call(
                    w.as_ptr(),
                    w.len(),
                    edition,
                    ends.as_ptr(),
                    ends.len(),
                    &mut blocks,
                    &mut index,
                )
            };
            compare(result, index, &[blocks], &expected, "judge a split");
            self.made += 1;
        });
        self.meet(&expected);
    }

    fn judge_squares<S: Kind>(&mut self, w: &[S], ends: &[u32]) {
        let expected = reference::judge_squares_call(w, ends);
        in_each_width!(S, judge_squares as call, [w], {
            let (mut blocks, mut index) = (GUARD, GUARD);
            let result = unsafe {
                call(
                    w.as_ptr(),
                    w.len(),
                    ends.as_ptr(),
                    ends.len(),
                    &mut blocks,
                    &mut index,
                )
            };
            compare(result, index, &[blocks], &expected, "judge squares");
            self.made += 1;
        });
        self.meet(&expected);
    }

    fn path_of_split<S: Kind>(
        &mut self,
        known: &Known<S>,
        edition: u32,
        ends: &[u32],
        places: usize,
    ) {
        let w = known.word;
        let (expected, front) = reference::path_call(w, edition, &known.runs, ends, places);
        in_each_width!(S, path_of_split as call, [w], {
            let mut lent = Lent::new(places);
            let (mut blocks, mut index) = (GUARD, GUARD);
            let table = lent.table();
            let result = unsafe {
                call(
                    w.as_ptr(),
                    w.len(),
                    edition,
                    ends.as_ptr(),
                    ends.len(),
                    table.as_mut_ptr(),
                    table.len(),
                    &mut blocks,
                    &mut index,
                )
            };
            compare(result, index, &[blocks], &expected, "path of a split");
            lent.changed_to(&front, "path of a split");
            self.made += 1;
        });
        self.meet(&expected);
    }

    fn judge_path<S: Kind>(&mut self, known: &Known<S>, edition: u32, numbers: &[u32]) {
        let w = known.word;
        let expected = reference::judge_path_call(w, edition, &known.runs, numbers);
        in_each_width!(S, judge_path as call, [w], {
            let (mut blocks, mut index) = (GUARD, GUARD);
            let result = unsafe {
                call(
                    w.as_ptr(),
                    w.len(),
                    edition,
                    numbers.as_ptr(),
                    numbers.len(),
                    &mut blocks,
                    &mut index,
                )
            };
            compare(result, index, &[blocks], &expected, "judge a path");
            self.made += 1;
        });
        self.meet(&expected);
    }

    fn write_page<S: Kind>(&mut self, known: &Known<S>, edition: u32, ends: &[u32], room: usize) {
        let w = known.word;
        let mut met = None;
        in_each_width!(S, write_page as call, [w], {
            let mut lent = Lent::new(room);
            let (mut bytes, mut index) = (GUARD, GUARD);
            let out = lent.table();
            let result = unsafe {
                call(
                    w.as_ptr(),
                    w.len(),
                    edition,
                    ends.as_ptr(),
                    ends.len(),
                    out.as_mut_ptr(),
                    out.len(),
                    &mut bytes,
                    &mut index,
                )
            };
            let (expected, front) = reference::page_call(w, edition, &known.runs, ends, room);
            compare(result, index, &[bytes], &expected, "write a page");
            lent.changed_to(&front, "write a page");
            met.get_or_insert(expected);
            self.made += 1;
        });
        self.meet(&met.unwrap());
    }

    fn write_plan(&mut self, n: u32, ends: &[u32], places: usize) {
        let mut lent = Lent::new(places);
        let (mut bytes, mut index) = (GUARD, GUARD);
        let out = lent.table();
        let result = unsafe {
            raw::cegridom_write_plan(
                n,
                ends.as_ptr(),
                ends.len(),
                out.as_mut_ptr(),
                out.len(),
                &mut bytes,
                &mut index,
            )
        };
        let (expected, front) = reference::write_call(n, ends, places);
        compare(result, index, &[bytes], &expected, "write a plan");
        lent.changed_to(&front, "write a plan");
        self.made += 1;
        self.meet(&expected);
    }

    fn read_plan(&mut self, line: &[u8], places: usize) {
        let mut lent = Lent::new(places);
        let (mut n, mut count, mut index) = (GUARD, GUARD, GUARD);
        let table = lent.table();
        let result = unsafe {
            raw::cegridom_read_plan(
                line.as_ptr(),
                line.len(),
                table.as_mut_ptr(),
                table.len(),
                &mut n,
                &mut count,
                &mut index,
            )
        };
        let (expected, front) = reference::read_call(line, places);
        let what = || format!("read a plan {:?}", String::from_utf8_lossy(line));
        compare(result, index, &[n, count], &expected, &what());
        lent.changed_to(&front, "read a plan");
        self.made += 1;
        self.meet(&expected);
    }

    // ---- one call with every size of table

    fn part_sizes<S: Kind>(&mut self, w: &[S], edition: u32, first: u32, last: u32) {
        let n = w.len();
        let length = (last as usize + 1).saturating_sub(first as usize);
        // A part longer than the word is refused, whatever is lent.
        for places in around_in(edition, length.min(n + 1), n) {
            self.part(w, edition, first, last, places);
        }
    }

    fn runs_sizes<S: Kind>(&mut self, known: &Known<S>) {
        let count = known.runs.len();
        for places in around(RUN_PLACES * count, known.word.len()) {
            self.runs(known, places);
        }
        // Three numbers a run are too few.
        self.runs(known, 3 * count);
    }

    fn nodes_sizes<S: Kind>(&mut self, known: &Known<S>, edition: u32, position: u32) {
        let rule = Rule::of(edition).unwrap();
        let exact = reference::white(&known.runs, rule, position as usize).len();
        for places in around_in(edition, exact, known.word.len()) {
            self.nodes(known, edition, position, places);
        }
    }

    fn best_sizes<S: Kind>(&mut self, known: &Known<S>, edition: u32, choice: u32) {
        let n = known.word.len();
        let size = known.best(edition, choice).1.as_ref().map_or(0, Vec::len);
        let work = 4 * (n + 1);
        for places in around_in(edition, size, n) {
            self.best_split(known, edition, choice, places, work);
        }
        let others = around_in(edition, work, n).into_iter();
        for work_places in others.filter(|&places| places != work) {
            self.best_split(known, edition, choice, size, work_places);
        }
    }

    fn squares_sizes<S: Kind>(&mut self, known: &Squared<S>, choice: u32) {
        let n = known.word.len();
        let size = known.best(choice).1.as_ref().map_or(0, Vec::len);
        let work = 4 * (n + 1);
        for places in around(size, n) {
            self.best_squares(known, choice, places, work);
        }
        let others = around(work, n).into_iter();
        for work_places in others.filter(|&places| places != work) {
            self.best_squares(known, choice, size, work_places);
        }
        // Too few places of both tables.
        self.best_squares(known, choice, 0, work - 1);
        self.best_squares(known, choice, 0, 0);
    }

    fn two<S: Kind>(&mut self, a: &Known<S>, b: &Known<S>, edition: u32, work_places: usize) {
        self.which_first(a, b, edition, work_places);
        self.first_block(a, b, edition, work_places);
    }

    fn two_sizes<S: Kind>(&mut self, a: &Known<S>, b: &Known<S>, edition: u32) {
        let longer = a.word.len().max(b.word.len());
        for work_places in around_in(edition, 4 * (longer + 1), longer) {
            self.two(a, b, edition, work_places);
        }
    }

    fn path_sizes<S: Kind>(&mut self, known: &Known<S>, edition: u32, ends: &[u32]) {
        for places in around_in(edition, ends.len(), known.word.len()) {
            self.path_of_split(known, edition, ends, places);
        }
    }

    fn page_sizes<S: Kind>(&mut self, known: &Known<S>, edition: u32, ends: &[u32]) {
        for room in around_in(edition, page_bytes(ends), known.word.len()) {
            self.write_page(known, edition, ends, room);
        }
    }

    fn plan_sizes(&mut self, n: u32, ends: &[u32]) {
        let line = reference::line(n, ends);
        for places in around(line.len(), 0) {
            self.write_plan(n, ends, places);
        }
        for places in around(ends.len(), 0) {
            self.read_plan(&line, places);
        }
    }

    /// Ends of squares and each of them changed, and the ends cut short.
    fn squares_and_near<S: Kind>(&mut self, w: &[S], ends: &[u32]) {
        self.judge_squares(w, ends);
        let mut near = ends.to_vec();
        for i in 0..ends.len() {
            for change in [0, near[i] - 1, near[i] + 1, near[i] + 2, u32::MAX] {
                near[i] = change;
                self.judge_squares(w, &near);
                near[i] = ends[i];
            }
            self.judge_squares(w, &ends[..i]);
        }
        near.push(w.len() as u32);
        self.judge_squares(w, &near);
    }

    /// A path and its numbers changed one at a time.
    fn path_and_near<S: Kind>(&mut self, known: &Known<S>, edition: u32, numbers: &[u32]) {
        self.judge_path(known, edition, numbers);
        let mut near = numbers.to_vec();
        for i in 0..numbers.len() {
            for change in [near[i].wrapping_sub(1), near[i] + 1, 0, u32::MAX] {
                near[i] = change;
                self.judge_path(known, edition, &near);
                near[i] = numbers[i];
            }
            self.judge_path(known, edition, &numbers[..i]);
        }
        near.push(1);
        self.judge_path(known, edition, &near);
        near.push(1);
        self.judge_path(known, edition, &near);
    }

    fn report(self, name: &str) {
        println!("{name}: {} comparisons", self.made);
    }
}

/// One too few, exact and more; none at all too, where the word's length makes calls cheap.
fn around(exact: usize, n: usize) -> Vec<usize> {
    let mut sizes = vec![exact.saturating_sub(1), exact, exact + 9];
    if n < LONG {
        sizes.extend([0, exact + 1]);
    }
    sizes.sort();
    sizes.dedup();
    sizes
}

/// The same in an edition. Of a long word edition 2 gets the exact size alone, for the time's sake:
/// shorter words show what the others do.
fn around_in(edition: u32, exact: usize, n: usize) -> Vec<usize> {
    if edition == 2 && n >= LONG {
        return vec![exact];
    }
    around(exact, n)
}

/// Two words and the fewest split of each.
fn pair<'a, S: Kind>(
    a: &'a Known<S>,
    b: &'a Known<S>,
    edition: u32,
) -> ([&'a [S]; 2], [&'a Best; 2]) {
    let both = [a, b];
    (both.map(|k| k.word), both.map(|k| k.best(edition, 1)))
}

/// The bytes of a page with a line for each end.
fn page_bytes(ends: &[u32]) -> usize {
    61 * ends.len()
}

/// Run number and end of each block.
fn encoded(numbers: &[u32], ends: &[u32]) -> Vec<u32> {
    numbers
        .iter()
        .zip(ends)
        .flat_map(|(&r, &e)| [r, e])
        .collect()
}

// ---- words

fn every_short_word(mut with: impl FnMut(&[u8])) {
    every_word(2, 10, &mut with);
    every_word(3, 7, &mut with);
}

/// A small generator of numbers, so that every run makes the same comparisons.
struct Numbers(u64);

impl Numbers {
    fn next(&mut self) -> u64 {
        self.0 ^= self.0 << 13;
        self.0 ^= self.0 >> 7;
        self.0 ^= self.0 << 17;
        self.0 >> 11
    }

    fn below(&mut self, n: usize) -> usize {
        (self.next() % n as u64) as usize
    }

    fn word(&mut self, n: usize, symbols: usize) -> Vec<u8> {
        (0..n).map(|_| self.below(symbols) as u8).collect()
    }

    /// A part of so many turns and up to three more, of a unit up to a length.
    fn part(&mut self, turns: usize, longest: usize, symbols: usize) -> Vec<u8> {
        let span = 1 + self.below(longest);
        let unit = self.word(span, symbols);
        let length = turns * span + self.below(3 * span);
        unit.into_iter().cycle().take(length).collect()
    }

    /// At least n symbols: such parts joined.
    fn joined(&mut self, n: usize, turns: usize, longest: usize) -> Vec<u8> {
        let mut word = Vec::new();
        while word.len() < n {
            word.extend(self.part(turns, longest, 3));
        }
        word
    }

    /// At most n symbols of such parts, and where each ends: a split that need not be a best one.
    fn split(
        &mut self,
        n: usize,
        turns: usize,
        longest: usize,
        symbols: usize,
    ) -> (Vec<u8>, Vec<u32>) {
        let (mut word, mut ends) = (Vec::new(), Vec::new());
        loop {
            let part = self.part(turns, longest, symbols);
            if word.len() + part.len() > n {
                return (word, ends);
            }
            word.extend(part);
            ends.push(word.len() as u32);
        }
    }

    /// A square of a half that is a power of up to 3, of a root up to a length.
    fn square(&mut self, longest: usize, symbols: usize) -> Vec<u8> {
        let span = 1 + self.below(longest);
        let turns = 2 * (1 + self.below(3));
        self.word(span, symbols).repeat(turns)
    }

    /// At most n symbols of such squares, and where each ends.
    fn squares(&mut self, n: usize, longest: usize, symbols: usize) -> (Vec<u8>, Vec<u32>) {
        let (mut word, mut ends) = (Vec::new(), Vec::new());
        loop {
            let square = self.square(longest, symbols);
            if word.len() + square.len() > n {
                return (word, ends);
            }
            word.extend(square);
            ends.push(word.len() as u32);
        }
    }

    /// At most so many symbols, of two, in which powers stand inside powers: a unit wound some times,
    /// up to three symbols more, all of it wound again, and so on.
    fn nested(&mut self, longest: usize) -> Vec<u8> {
        let span = 1 + self.below(3);
        let mut word = self.word(span, 2);
        loop {
            let wound = word.repeat(2 + self.below(7));
            let rest = self.below(4);
            if wound.len() + rest > longest {
                return word;
            }
            word = [wound, self.word(rest, 2)].concat();
        }
    }

    /// The same ends but for one, which is changed, left out or doubled.
    fn damaged(&mut self, ends: &[u32]) -> Vec<u32> {
        let mut near = ends.to_vec();
        let i = self.below(ends.len());
        match self.below(8) {
            0 => {
                near.remove(i);
            }
            1 => near.insert(i, near[i]),
            2 => near.truncate(i),
            3 => near.push(ends[i] + 1),
            4 => near[i] = self.next() as u32,
            _ => near[i] = near[i] + self.below(5) as u32 - 2.min(near[i]),
        }
        near
    }
}

/// Ways to write a byte as a 16-bit symbol of which both bytes count.
const SPELLINGS: [fn(u8) -> u16; 6] = [
    // the low bytes are equal
    |symbol| 256 * u16::from(symbol),
    |symbol| 256 * u16::from(symbol) + 255,
    // both bytes are the symbol
    |symbol| 257 * u16::from(symbol),
    // on both sides of 0x8000
    |symbol| 0x7f80 + u16::from(symbol),
    // the high bytes are equal, and the order is turned about
    |symbol| !u16::from(symbol),
    in_high_byte_first,
];

/// The high byte goes with the symbol, and the low byte against it.
fn in_high_byte_first(symbol: u8) -> u16 {
    u16::from_be_bytes([symbol, !symbol])
}

fn spelt(word: &[u8], spelling: impl Fn(u8) -> u16) -> Vec<u16> {
    word.iter().map(|&symbol| spelling(symbol)).collect()
}

/// Words of a length that have structure: equal symbols, a last symbol that differs, Fibonacci,
/// Thue-Morse, a unit of 64, blocks joined, and random ones.
fn structured(n: usize) -> Vec<Vec<u8>> {
    let mut numbers = Numbers(0x9e37_79b9_7f4a_7c15 ^ n as u64);
    let unit_of_64 = numbers.word(64, 4);
    let mut joined = numbers.joined(n, 2, 40);
    joined.truncate(n);
    vec![
        vec![b'a'; n],
        last_differs(n),
        fibonacci(n),
        thue_morse(n),
        (0..n).map(|i| unit_of_64[i % 64]).collect(),
        joined,
        numbers.word(n, 2),
        numbers.word(n, 4),
        numbers.word(n, 256),
    ]
}

// ---- the reference against the definitions

#[test]
fn reference_follows_the_definitions() {
    let mut made = 0u64;
    every_short_word(|w| {
        let n = w.len();
        for first in 0..n {
            let units = reference::units(&w[first..]);
            for end in first + 1..=n {
                let part = &w[first..end];
                let unit = reference::plain_unit(part);
                assert_eq!(reference::unit(part), unit);
                assert_eq!(units[end - first - 1], unit as u32);
                made += 1;
            }
        }
        let runs = reference::runs(w);
        assert_eq!(runs, reference::plain_runs(w));
        assert!(n == 0 || runs.len() < n);
        // These words are too short for what memory holds, but not for a smaller memory.
        for memory in [1, 2, UNIT_MEMORY] {
            let bests = reference::bests(w, memory);
            for (edition, bests) in EDITIONS.into_iter().zip(bests) {
                let turns = reference::turns(edition).unwrap();
                made += follows_the_definitions(w, &runs, Rule { turns, memory }, bests);
            }
        }
    });
    println!("the reference against the definitions: {made} comparisons");
}

/// The best splits, and the splits and the paths of each leading length, which go together one to one.
fn follows_the_definitions(w: &[u8], runs: &[Run], rule: Rule, bests: [Best; 2]) -> u64 {
    let n = w.len();
    for (choice, best) in [1, 2].into_iter().zip(bests) {
        let splits = |part: &[u8]| reference::plain_splits(part, rule);
        assert_eq!(best, reference::plain_best(w, choice, splits));
    }
    for t in 0..=n {
        let mut ends: Vec<Vec<u32>> = reference::plain_paths(runs, rule, n, t)
            .iter()
            .map(|path| path.iter().skip(1).step_by(2).copied().collect())
            .collect();
        ends.sort();
        let mut splits = reference::plain_splits(&w[..t], rule);
        splits.sort();
        assert_eq!(ends, splits);
    }
    n as u64 + 3
}

/// Longer ones than for blocks, since few of the short ones have a split into squares.
fn every_word_for_squares(mut with: impl FnMut(&[u8])) {
    every_word(2, 14, &mut with);
    every_word(3, 9, &mut with);
}

#[test]
fn reference_of_squares_follows_the_definitions() {
    let mut made = 0u64;
    every_word_for_squares(|w| {
        assert_eq!(reference::is_square(w), reference::plain_is_square(w));
        let bests = reference::best_squares(w);
        for (choice, best) in [1, 2].into_iter().zip(bests) {
            assert_eq!(
                best,
                reference::plain_best(w, choice, reference::plain_squares)
            );
            made += 1;
        }
    });
    println!("the reference of squares against the definitions: {made} comparisons");
}

/// Every split of most squares has squares of primitive halves only, and the one that the library
/// gives is one of them.
#[test]
fn most_squares_have_primitive_halves() {
    let mut made = 0u64;
    let mut others = 0u64;
    let mut look = |w: &[u8]| {
        let splits = reference::plain_squares(w);
        let most = splits.iter().map(Vec::len).max();
        for ends in &splits {
            let primitive = reference::halves(w, ends).all(reference::plain_is_primitive);
            if Some(ends.len()) == most {
                assert!(primitive, "{w:?} {ends:?}");
            } else if !primitive {
                others += 1;
            }
            made += 1;
        }
        match cegridom::best_squares(w, Choice::Most) {
            Ok(ends) => assert!(Some(ends.len()) == most && splits.contains(&ends)),
            Err(refusal) => assert!(refusal == Refusal::NoSplit && splits.is_empty()),
        }
        made += 1;
    };
    every_word(2, 14, &mut look);
    every_word(3, 9, &mut look);
    // Splits of fewer squares have halves that are powers.
    assert!(others > 0);
    println!("primitive halves of most squares: {made} comparisons");
}

/// Two runs of equal unit have the same symbols from their roots on exactly where the unit of one is
/// that of the other from some start.
#[test]
fn roots_tell_units_apart() {
    let mut told = Told::default();
    every_short_word(|w| told.apart(w));
    for w in structured(300) {
        told.apart(&w);
        for spelling in SPELLINGS {
            told.apart(&spelt(&w, spelling));
        }
    }
    assert!(told.other_starts > 0);
    println!("roots of runs of equal unit: {} comparisons", told.made);
}

#[derive(Default)]
struct Told {
    made: u64,
    /// How many runs wind one unit from different starts.
    other_starts: u64,
}

impl Told {
    fn apart<S: Kind>(&mut self, w: &[S]) {
        let runs = cegridom::runs(w).unwrap();
        let symbols = |from: u32, unit: u32| &w[from as usize - 1..][..unit as usize];
        for a in &runs {
            for b in runs.iter().filter(|b| b.unit == a.unit) {
                let [x, y] = [a, b].map(|run| symbols(run.first, run.unit));
                let from_some_start = x.repeat(2).windows(y.len()).any(|part| part == y);
                let same = symbols(a.root, a.unit) == symbols(b.root, b.unit);
                assert_eq!(same, from_some_start, "{w:?} {a:?} {b:?}");
                self.other_starts += u64::from(same && x != y);
                self.made += 1;
            }
        }
    }
}

// ---- the library against the reference

/// The runs of a word, with just the places that they need.
fn rooted<S: Kind>(checker: &mut Checker, w: &[S]) {
    let known = Known::unsplit(w);
    checker.runs(&known, RUN_PLACES * known.runs.len());
}

/// The word with the letters of an alphabet for its symbols.
fn lettered<S: Kind>(word: &[u8], alphabet: &[S]) -> Vec<S> {
    let letter = |&symbol: &u8| alphabet[symbol as usize];
    word.iter().map(letter).collect()
}

/// Symbols in either order, and on either side of 127.
#[test]
fn roots_go_by_symbol_codes() {
    let mut checker = Checker::default();
    for (low, high) in [(0u8, 255), (1, 128), (100, 200), (127, 128), (128, 129)] {
        for alphabet in [[low, high], [high, low]] {
            every_word(2, 12, |w| rooted(&mut checker, &lettered(w, &alphabet)));
        }
    }
    for alphabet in [
        [1u8, 127, 128],
        [128, 127, 1],
        [255, 0, 128],
        [127, 255, 128],
    ] {
        every_word(3, 8, |w| rooted(&mut checker, &lettered(w, &alphabet)));
    }
    checker.report("roots of short words");
}

/// Units wound twice and more, from many starts: random ones, and ones whose parts agree for long.
#[test]
fn roots_of_long_units() {
    let mut checker = Checker::default();
    let mut numbers = Numbers(6_364_136_223);
    for (length, starts) in [(20, 20), (233, 40), (1000, 5), (PLAIN / 2, 2)] {
        let near = length / 2 - 1;
        let mut agreeing = vec![b'a'; length];
        (agreeing[near], agreeing[2 * near + 1]) = (b'c', b'b');
        let units = [
            numbers.word(length, 2),
            numbers.word(length, 256),
            numbers.word(length, 2).iter().map(|s| 127 + s).collect(),
            last_differs(length),
            last_differs(length).iter().map(|s| !s).collect(),
            fibonacci(length),
            thue_morse(length).iter().map(|s| !s).collect(),
            agreeing,
        ];
        for unit in &units {
            for _ in 0..starts {
                let start = numbers.below(length);
                let symbols = (2 * length + numbers.below(length)).min(PLAIN);
                let turning = unit.iter().cycle().skip(start).take(symbols);
                rooted(&mut checker, &turning.copied().collect::<Vec<u8>>());
            }
        }
    }
    checker.report("roots of long units");
}

#[test]
fn short_words_part_runs_nodes() {
    let mut checker = Checker::default();
    every_short_word(|w| {
        let known = Known::of(w);
        let n = w.len() as u32;
        checker.runs_sizes(&known);
        for edition in EDITIONS {
            for first in 0..=n + 1 {
                for last in 0..=n + 1 {
                    checker.part_sizes(w, edition, first, last);
                }
            }
            checker.part_sizes(w, edition, 1, u32::MAX);
            checker.part_sizes(w, edition, u32::MAX, 1);
            for position in (0..=n + 1).chain([u32::MAX]) {
                checker.nodes_sizes(&known, edition, position);
            }
        }
        for edition in NO_EDITIONS {
            for (first, last) in [(1, n), (0, n), (n, 1)] {
                checker.part(w, edition, first, last, 0);
                checker.part(w, edition, first, last, w.len());
            }
            for position in [0, 1, n, n + 1] {
                checker.nodes(&known, edition, position, 0);
                checker.nodes(&known, edition, position, w.len());
            }
        }
    });
    checker.report("part, runs and nodes of short words");
}

#[test]
fn short_words_best_split() {
    let mut checker = Checker::default();
    every_short_word(|w| {
        let known = Known::of(w);
        let work = 4 * (w.len() + 1);
        for edition in EDITIONS {
            for choice in [1, 2] {
                checker.best_sizes(&known, edition, choice);
            }
            for choice in [0, 3, u32::MAX] {
                checker.best_split(&known, edition, choice, w.len(), work);
                checker.best_split(&known, edition, choice, w.len(), work - 1);
            }
        }
        for edition in NO_EDITIONS {
            for choice in [0, 1, 2, 3] {
                checker.best_split(&known, edition, choice, w.len(), work);
                checker.best_split(&known, edition, choice, w.len(), work - 1);
            }
        }
    });
    checker.report("best split of short words");
}

#[test]
fn short_words_best_squares() {
    let mut checker = Checker::default();
    every_word_for_squares(|w| {
        let known = Squared::of(w);
        let work = 4 * (w.len() + 1);
        for choice in [1, 2] {
            checker.squares_sizes(&known, choice);
        }
        for choice in [0, 3, u32::MAX] {
            checker.best_squares(&known, choice, w.len(), work);
            checker.best_squares(&known, choice, w.len(), work - 1);
            checker.best_squares(&known, choice, 0, 0);
        }
    });
    checker.report("best squares of short words");
}

#[test]
fn short_words_judged_squares() {
    let mut checker = Checker::default();
    every_short_word(|w| {
        for ends in rising_ends(w.len() as u32) {
            checker.judge_squares(w, &ends);
        }
        // Splits into blocks too, most of which are not squares.
        for ends in reference::plain_splits(w, Rule::of(1).unwrap()) {
            checker.judge_squares(w, &ends);
        }
    });
    every_word_for_squares(|w| {
        for ends in reference::plain_squares(w) {
            checker.squares_and_near(w, &ends);
        }
    });
    checker.report("judged squares of short words");
}

#[test]
fn long_words_squares() {
    let mut checker = Checker::default();
    let mut numbers = Numbers(1_181_783_497);
    for n in (11..140).step_by(7).chain([255, 256, 511, 1000, 2048]) {
        for w in structured(n) {
            long_squares(&mut checker, &mut numbers, &w, &[]);
        }
    }
    // Squares joined, over few symbols and over all, with short halves and long ones; the same word
    // doubled, and with one symbol changed.
    for n in [8, 20, 41, 90, 250, 1100] {
        for longest in [1, 3, 10, n / 4 + 1] {
            for symbols in [1, 2, 3, 256] {
                for _ in 0..if n < LONG { 10 } else { 1 } {
                    let (mut w, ends) = numbers.squares(n, longest, symbols);
                    long_squares(&mut checker, &mut numbers, &w, &ends);
                    long_squares(&mut checker, &mut numbers, &w.repeat(2), &[]);
                    if !w.is_empty() {
                        let at = numbers.below(w.len());
                        w[at] ^= 1;
                        long_squares(&mut checker, &mut numbers, &w, &ends);
                    }
                }
            }
        }
    }
    checker.report("squares of long words");
}

/// The longest words, among them one square whose half has no square but of equal symbols.
#[test]
fn longest_words_squares() {
    let mut checker = Checker::default();
    let mut numbers = Numbers(2_862_933_555);
    for w in structured(PLAIN) {
        long_squares(&mut checker, &mut numbers, &w, &[]);
    }
    let w = last_differs(PLAIN / 2).repeat(2);
    long_squares(&mut checker, &mut numbers, &w, &[PLAIN as u32]);
    for (longest, symbols) in [(1, 2), (40, 2), (300, 3)] {
        let (w, ends) = numbers.squares(PLAIN, longest, symbols);
        long_squares(&mut checker, &mut numbers, &w, &ends);
    }
    checker.report("squares of longest words");
}

/// The best splits of a word into squares, others that are given, and what is near them.
fn long_squares<S: Kind>(checker: &mut Checker, numbers: &mut Numbers, w: &[S], ends: &[u32]) {
    let known = Squared::of(w);
    let work = 4 * (w.len() + 1);
    for choice in [1, 2] {
        checker.squares_sizes(&known, choice);
    }
    for choice in [0, 3, u32::MAX] {
        checker.best_squares(&known, choice, w.len(), work);
        checker.best_squares(&known, choice, w.len(), work - 1);
    }
    let bests = known.bests.iter().filter_map(|best| best.1.as_deref());
    for ends in bests.chain([ends]) {
        checker.judge_squares(w, ends);
        if ends.is_empty() {
            continue;
        }
        for _ in 0..if w.len() < LONG { 10 } else { 3 } {
            let near = numbers.damaged(ends);
            checker.judge_squares(w, &near);
        }
        checker.judge_squares(w, &ends[..ends.len() - 1]);
    }
}

/// Words of at most so many symbols in which powers stand inside powers: a unit wound some times and
/// a rest, all of it wound again with another rest, and the whole once more. Where turns are 4 and
/// more, what was kept of runs of several units is read again at one boundary.
fn powers_inside_powers(longest: usize) -> Vec<Vec<u8>> {
    const TURNS: [[usize; 3]; 9] = [
        [4, 4, 4],
        [6, 6, 6],
        [6, 8, 3],
        [8, 8, 2],
        [5, 9, 3],
        [12, 2, 7],
        [2, 6, 8],
        [3, 3, 12],
        [20, 10, 1],
    ];
    const RESTS: [[&[u8]; 2]; 4] = [[b"b", b"c"], [b"a", b"b"], [b"ba", b"a"], [b"cc", b"abab"]];
    let mut words = Vec::new();
    for unit in [&b"a"[..], b"ab", b"aab", b"abaab"] {
        for [inner, middle, outer] in TURNS {
            for [first, second] in RESTS {
                let power = unit.repeat(inner);
                let powers = [&power, first].concat().repeat(middle);
                words.push([&powers, second].concat().repeat(outer));
                words.push(powers);
                words.push(power);
            }
        }
    }
    words.sort();
    words.dedup();
    words.retain(|w| w.len() <= longest);
    words
}

/// The best splits of a word into squares, and of its longest prefixes that have one: of the word alone
/// each call hands over the ends, of its prefixes only the sizes.
fn squares_of_prefixes<S: Kind>(checker: &mut Checker, w: &[S]) {
    let known = Squared::of(w);
    for choice in [1, 2] {
        checker.squares_sizes(&known, choice);
    }
    let sizes = &known.best(1).0;
    let split = (0..w.len()).rev().filter(|&m| sizes[m] != NONE);
    for m in split.take(8) {
        let known = Squared::of(&w[..m]);
        for choice in [1, 2] {
            checker.best_squares(&known, choice, m / 2, 4 * (m + 1));
        }
    }
}

/// Runs of many units inside others, alone, beside other symbols, and cut at another symbol: what is
/// kept of one run must neither be lost nor be taken for that of another.
#[test]
fn squares_of_powers_of_powers() {
    let mut checker = Checker::default();
    let mut numbers = Numbers(1_640_531_527);
    for (turn, w) in powers_inside_powers(600).into_iter().enumerate() {
        squares_of_prefixes(&mut checker, &w);
        squares_of_prefixes(&mut checker, &beside(&mut numbers, turn, &w));
        let (front, back) = w.split_at(numbers.below(w.len()));
        squares_of_prefixes(&mut checker, &[back, front].concat());
    }
    for longest in [30, 60, 120, 300, 600] {
        for turn in 0..300 {
            let w = numbers.nested(longest);
            squares_of_prefixes(&mut checker, &beside(&mut numbers, turn, &w));
        }
    }
    checker.report("squares of powers of powers");
}

/// Many runs over each position: Fibonacci and run-rich words of many lengths. And squares joined,
/// all of them wound, with others after them: many starts of equal sizes.
#[test]
fn squares_of_words_rich_in_runs() {
    let mut checker = Checker::default();
    let mut numbers = Numbers(4_101_842_887);
    for n in (30..130).chain((130..=600).step_by(10)) {
        for w in [fibonacci(n), run_rich(n)] {
            squares_of_prefixes(&mut checker, &w);
            squares_of_prefixes(&mut checker, &beside(&mut numbers, n, &w));
        }
    }
    for n in [10, 20, 40, 80] {
        for longest in 1..=4 {
            for _ in 0..50 {
                let (w, _) = numbers.squares(n, longest, 2);
                let (other, _) = numbers.squares(n, longest, 2);
                let power = w.repeat(2 + numbers.below(6));
                squares_of_prefixes(&mut checker, &[power, other, w].concat());
            }
        }
    }
    checker.report("squares of words rich in runs");
}

/// Long powers of short units with one symbol changed, at each of several places: a run ends there,
/// and nothing that was kept of it may serve the one of the same unit that starts after it.
#[test]
fn squares_of_changed_powers() {
    let mut checker = Checker::default();
    for unit in [&b"a"[..], b"ab", b"aab", b"abaab", b"aaaab"] {
        for length in [36, 75, 140, 300, 600] {
            let w = wound(unit, length);
            squares_of_prefixes(&mut checker, &w);
            for at in (0..length).step_by(length / 18) {
                // to the other symbol, and to one that stands nowhere else
                for change in [b'a' ^ b'b', b'a'] {
                    let mut changed = w.clone();
                    changed[at] ^= change;
                    squares_of_prefixes(&mut checker, &changed);
                }
            }
        }
    }
    checker.report("squares of changed powers");
}

fn all_known<S: Kind>(words: &[Vec<S>]) -> Vec<Known<'_, S>> {
    words.iter().map(|w| Known::of(w)).collect()
}

/// Every pair of shorter words, in both orders, and each word beside itself.
#[test]
fn short_words_in_pairs() {
    let mut checker = Checker::default();
    for (symbols, longest) in [(2, 7), (3, 4)] {
        let mut words = Vec::new();
        every_word(symbols, longest, |w| words.push(w.to_vec()));
        let known = all_known(&words);
        for a in &known {
            for b in &known {
                for edition in EDITIONS {
                    checker.two_sizes(a, b, edition);
                }
                for edition in NO_EDITIONS {
                    checker.two(a, b, edition, 0);
                    checker.two(a, b, edition, 4 * (longest + 1));
                }
            }
        }
    }
    checker.report("pairs of short words");
}

/// Words to pair: with structure, of several lengths; blocks joined, of two turns and of three,
/// over few symbols and over all; powers; and some of them again with every bit of each symbol
/// changed, so that the two tie and one has symbols above 127.
fn words_to_pair(numbers: &mut Numbers) -> Vec<Vec<u8>> {
    let mut words: Vec<Vec<u8>> = [13, 40, 99].into_iter().flat_map(structured).collect();
    for (turns, symbols) in [(2, 2), (2, 256), (3, 2), (3, 256)] {
        for longest in [1, 6, 20] {
            words.push(numbers.split(80, turns, longest, symbols).0);
        }
    }
    for (span, turns) in [(1, 5), (7, 2), (7, 3), (12, 9)] {
        words.push(numbers.word(span, 3).repeat(turns));
    }
    for i in (0..words.len()).step_by(5) {
        words.push(words[i].iter().map(|symbol| !symbol).collect());
    }
    words
}

#[test]
fn long_words_in_pairs() {
    let mut checker = Checker::default();
    let mut numbers = Numbers(521_288_629);
    let words = words_to_pair(&mut numbers);
    let known = all_known(&words);
    for a in &known {
        for b in &known {
            for edition in EDITIONS {
                checker.two_sizes(a, b, edition);
            }
            let longer = a.word.len().max(b.word.len());
            for edition in NO_EDITIONS {
                checker.two(a, b, edition, 4 * (longer + 1));
            }
        }
    }
    // Parts of one word, most of which overlap.
    for w in &words {
        for _ in 0..12 {
            let (from, to) = (numbers.below(w.len() + 1), numbers.below(w.len() + 1));
            let (front, back) = (Known::of(&w[..to]), Known::of(&w[from..]));
            for edition in EDITIONS {
                checker.two_sizes(&front, &back, edition);
                checker.two_sizes(&back, &front, edition);
            }
        }
    }
    checker.report("long words in pairs");
}

/// The longest words beside one another and beside short ones.
#[test]
fn longest_words_in_pairs() {
    let mut checker = Checker::default();
    let mut numbers = Numbers(123_456_789);
    let words = [
        vec![b'a'; PLAIN],
        fibonacci(PLAIN),
        numbers.split(PLAIN, 2, 40, 3).0,
        numbers.split(PLAIN, 3, 40, 3).0,
        last_differs(PLAIN),
        b"aabb".to_vec(),
        vec![],
    ];
    let known = all_known(&words);
    for a in &known {
        for b in &known {
            for edition in EDITIONS {
                checker.two_sizes(a, b, edition);
            }
        }
    }
    checker.report("longest words in pairs");
}

/// Every rising series of ends up to n + 1, for words of at most eight symbols.
fn rising_ends(n: u32) -> impl Iterator<Item = Vec<u32>> {
    let sets = if n <= 8 { 1u32 << (n + 1) } else { 0 };
    (0..sets).map(move |set| (1..=n + 1).filter(|e| set >> (e - 1) & 1 == 1).collect())
}

#[test]
fn short_words_judged_splits() {
    let mut checker = Checker::default();
    every_short_word(|w| {
        let known = Known::of(w);
        let n = w.len() as u32;
        for edition in EDITIONS {
            for ends in rising_ends(n) {
                checker.judge_split(w, edition, &ends);
                checker.path_of_split(&known, edition, &ends, ends.len());
            }
            for ends in reference::plain_splits(w, Rule::of(edition).unwrap()) {
                // The other edition may refuse it.
                checker.judge_split(w, 3 - edition, &ends);
                checker.judge_split(w, edition, &ends);
                checker.path_sizes(&known, edition, &ends);
                let mut near = ends.clone();
                for i in 0..ends.len() {
                    for change in [0, near[i] - 1, near[i] + 1, u32::MAX] {
                        near[i] = change;
                        checker.judge_split(w, edition, &near);
                        checker.path_of_split(&known, edition, &near, near.len());
                        near[i] = ends[i];
                    }
                    checker.judge_split(w, edition, &ends[..i]);
                }
            }
        }
        for edition in NO_EDITIONS {
            for ends in [&[][..], &[n], &[1, n], &[0], &[n + 1]] {
                checker.judge_split(w, edition, ends);
                checker.path_of_split(&known, edition, ends, 0);
                checker.path_of_split(&known, edition, ends, ends.len());
            }
        }
    });
    checker.report("judged splits and their paths of short words");
}

#[test]
fn short_words_judged_paths() {
    let mut checker = Checker::default();
    every_short_word(|w| {
        let known = Known::of(w);
        let n = w.len();
        for edition in EDITIONS {
            let rule = Rule::of(edition).unwrap();
            for path in reference::plain_paths(&known.runs, rule, n, n) {
                assert!(matches!(
                    reference::judge_path_call(w, edition, &known.runs, &path),
                    Accepted(_)
                ));
                checker.path_and_near(&known, edition, &path);
                // The other edition may refuse it.
                checker.judge_path(&known, 3 - edition, &path);
            }
            // Every series of up to two blocks, for the shorter words.
            if n <= 5 {
                let pairs: Vec<[u32; 2]> = (0..=known.runs.len() as u32 + 1)
                    .flat_map(|r| (0..=n as u32 + 1).map(move |e| [r, e]))
                    .collect();
                checker.judge_path(&known, edition, &[]);
                for a in &pairs {
                    checker.judge_path(&known, edition, a);
                    for b in &pairs {
                        checker.judge_path(&known, edition, &[a[0], a[1], b[0], b[1]]);
                    }
                }
            }
        }
        let end = n as u32;
        for edition in NO_EDITIONS {
            for path in [&[][..], &[1], &[1, end], &[1, 0], &[0, end], &[1, end, 1]] {
                checker.judge_path(&known, edition, path);
            }
        }
    });
    checker.report("judged paths of short words");
}

#[test]
fn short_words_pages() {
    let mut checker = Checker::default();
    every_short_word(|w| {
        let known = Known::of(w);
        let n = w.len() as u32;
        for edition in EDITIONS {
            for ends in rising_ends(n) {
                checker.write_page(&known, edition, &ends, page_bytes(&ends));
            }
            for ends in reference::plain_splits(w, Rule::of(edition).unwrap()) {
                checker.page_sizes(&known, edition, &ends);
                // The other edition may refuse it.
                checker.page_sizes(&known, 3 - edition, &ends);
                let mut near = ends.clone();
                for i in 0..ends.len() {
                    for change in [0, near[i] - 1, near[i] + 1, u32::MAX] {
                        near[i] = change;
                        checker.write_page(&known, edition, &near, 0);
                        checker.write_page(&known, edition, &near, page_bytes(&near));
                        near[i] = ends[i];
                    }
                    checker.page_sizes(&known, edition, &ends[..i]);
                }
            }
        }
        for edition in NO_EDITIONS {
            for ends in [&[][..], &[n], &[1, n], &[0], &[n + 1]] {
                checker.page_sizes(&known, edition, ends);
            }
        }
    });
    checker.report("pages of short words");
}

/// Splits that are no best ones, over few symbols and over all, with units of up to nine symbols and
/// of more, and numbers of one digit to four.
#[test]
fn pages() {
    let mut checker = Checker::default();
    let mut numbers = Numbers(362_436_069);
    for n in [12, 40, 99, 100, 500, 999, 1000, PLAIN] {
        for longest in [1, 8, 12, n / 3] {
            for symbols in [1, 2, 3, 17, 256] {
                for edition in EDITIONS {
                    let turns = reference::turns(edition).unwrap();
                    let (word, ends) = numbers.split(n, turns, longest, symbols);
                    page_and_near(&mut checker, &mut numbers, &word, edition, &ends);
                }
            }
        }
    }
    checker.report("pages");
}

/// The page of a split and what is near it.
fn page_and_near<S: Kind>(
    checker: &mut Checker,
    numbers: &mut Numbers,
    w: &[S],
    edition: u32,
    ends: &[u32],
) {
    let known = Known::unsplit(w);
    checker.page_sizes(&known, edition, ends);
    // The other edition may refuse it.
    checker.page_sizes(&known, 3 - edition, ends);
    if ends.is_empty() {
        return;
    }
    for _ in 0..if w.len() < LONG { 20 } else { 4 } {
        let near = numbers.damaged(ends);
        checker.write_page(&known, edition, &near, 0);
        checker.write_page(&known, edition, &near, page_bytes(&near));
    }
}

#[test]
fn long_words() {
    let mut checker = Checker::default();
    let mut numbers = Numbers(88_172_645_463_325_252);
    for n in (11..140).step_by(7).chain([255, 256, 511, 1000, 2048]) {
        for w in structured(n) {
            long_word(&mut checker, &mut numbers, &w);
        }
    }
    // Random words of any length, blocks with one symbol changed, and words that edition 2 splits.
    for _ in 0..400 {
        let n = 1 + numbers.below(90);
        let symbols = [2, 3, 4, 256][numbers.below(4)];
        let w = numbers.word(n, symbols);
        long_word(&mut checker, &mut numbers, &w);
        let unit = 1 + numbers.below(n);
        let mut w: Vec<u8> = w[..unit].iter().cycle().take(n).copied().collect();
        long_word(&mut checker, &mut numbers, &w);
        w[numbers.below(n)] ^= 1;
        long_word(&mut checker, &mut numbers, &w);
        let w = numbers.joined(n, 3, 6);
        long_word(&mut checker, &mut numbers, &w);
    }
    let w = numbers.joined(LONG, 3, 40);
    long_word(&mut checker, &mut numbers, &w);
    checker.report("long words");
}

/// A test of its own, to run beside the others: it takes as long as they do.
#[test]
fn longest_words() {
    let mut checker = Checker::default();
    let mut numbers = Numbers(88_172_645_463_325_252);
    for w in structured(PLAIN) {
        long_word(&mut checker, &mut numbers, &w);
    }
    checker.report("longest words");
}

fn long_word<S: Kind>(checker: &mut Checker, numbers: &mut Numbers, w: &[S]) {
    let known = Known::of(w);
    let n = w.len();
    for _ in 0..20 {
        let first = 1 + numbers.below(n);
        let last = first + numbers.below(n + 1 - first);
        for edition in EDITIONS {
            checker.part_sizes(w, edition, first as u32, last as u32);
        }
    }
    checker.runs_sizes(&known);
    for edition in EDITIONS {
        checker.part_sizes(w, edition, 1, n as u32);
        checker.part_sizes(w, edition, 2, n as u32 + 1);
        let positions: &[usize] = if n < LONG {
            &[0, 1, n / 3, n - 1, n, n + 1]
        } else {
            &[n / 3, n]
        };
        for &position in positions {
            checker.nodes_sizes(&known, edition, position as u32);
        }
        for choice in [1, 2] {
            checker.best_sizes(&known, edition, choice);
            long_split(checker, numbers, &known, edition, choice);
        }
    }
    // Ends that rise, most of them ends of no block.
    let ends: Vec<u32> = (1..=n as u32).filter(|_| numbers.below(3) == 0).collect();
    for edition in EDITIONS {
        checker.judge_split(w, edition, &ends);
        checker.write_page(&known, edition, &ends, page_bytes(&ends));
    }
    for edition in NO_EDITIONS {
        checker.part(w, edition, 1, n as u32, n);
        checker.nodes(&known, edition, n as u32, n);
        checker.best_split(&known, edition, 1, n, 4 * (n + 1));
        checker.judge_split(w, edition, &ends);
        checker.path_of_split(&known, edition, &ends, n);
        checker.judge_path(&known, edition, &ends);
        checker.write_page(&known, edition, &ends, page_bytes(&ends));
    }
}

/// The best split, its path and what is near them, where there is one.
fn long_split<S: Kind>(
    checker: &mut Checker,
    numbers: &mut Numbers,
    known: &Known<S>,
    edition: u32,
    choice: u32,
) {
    let (w, n) = (known.word, known.word.len());
    let Some(ends) = &known.best(edition, choice).1 else {
        return;
    };
    checker.judge_split(w, edition, ends);
    // The other edition may refuse it.
    checker.judge_split(w, 3 - edition, ends);
    checker.path_sizes(known, edition, ends);
    checker.page_sizes(known, edition, ends);
    checker.plan_sizes(n as u32, ends);
    let path = known.path(edition, ends);
    checker.judge_path(known, edition, &path);
    // A few changes, each in one place.
    for _ in 0..if n < LONG { 8 } else { 2 } {
        let mut near = ends.clone();
        let i = numbers.below(ends.len());
        near[i] = near[i] + numbers.below(5) as u32 - 2.min(near[i]);
        checker.judge_split(w, edition, &near);
        checker.path_of_split(known, edition, &near, near.len());
        checker.write_page(known, edition, &near, page_bytes(&near));
        let mut near = path.clone();
        let i = numbers.below(path.len());
        near[i] = near[i] + numbers.below(5) as u32 - 2.min(near[i]);
        checker.judge_path(known, edition, &near);
    }
    checker.judge_path(known, edition, &path[1..]);
    checker.judge_split(w, edition, &ends[..ends.len() - 1]);
}

// ---- the cuts of the finder of runs, which halves a word and then each half

/// The lengths up to 4,096 that are powers of two, one less and one more.
fn lengths_at_powers_of_two(least: usize) -> impl Iterator<Item = usize> {
    (0..=12)
        .map(|k| 1 << k)
        .filter(move |&power| least <= power)
        .flat_map(|power| [power - 1, power, power + 1])
        .filter(|&n| n <= PLAIN)
}

/// The runs of a word, its nodes at the cuts and beside them, and at both ends.
fn runs_and_nodes<S: Kind>(checker: &mut Checker, w: &[S]) {
    let (known, n) = (Known::unsplit(w), w.len());
    checker.runs_sizes(&known);
    for position in [1, n / 4, n / 2, n / 2 + 1, n - n / 4, n - 1, n] {
        for edition in EDITIONS {
            checker.nodes_sizes(&known, edition, position as u32);
        }
    }
}

/// Whole words of 2^k symbols, one less and one more, which are halved evenly or not.
#[test]
fn words_of_powers_of_two() {
    let mut checker = Checker::default();
    let mut numbers = Numbers(88_172_645_463_325_252);
    for n in lengths_at_powers_of_two(4) {
        for w in structured(n).into_iter().chain([run_rich(n)]) {
            if n < 200 {
                long_word(&mut checker, &mut numbers, &w);
            } else {
                runs_and_nodes(&mut checker, &w);
            }
        }
        // Splits over many runs of equal units, and what is near their paths.
        for (turns, edition) in [(2, 1), (3, 2)] {
            let (mut w, mut ends) = numbers.split(n, turns, 3, 2);
            if w.is_empty() {
                (w, ends) = (vec![b'a'; turns], vec![turns as u32]);
            }
            let known = Known::unsplit(&w);
            checker.path_sizes(&known, edition, &ends);
            let path = known.path(edition, &ends);
            checker.judge_path(&known, edition, &path);
            for _ in 0..20 {
                let near = numbers.damaged(&path);
                checker.judge_path(&known, edition, &near);
                let near = numbers.damaged(&ends);
                checker.path_of_split(&known, edition, &near, near.len());
            }
        }
    }
    checker.report("words of powers of two");
}

/// One run among symbols that differ, which ends or starts at a power of two, one before or one
/// after it, of units up to half of that.
#[test]
fn runs_beside_cuts() {
    let mut checker = Checker::default();
    let mut numbers = Numbers(0x9e37_79b9_7f4a_7c15);
    for k in 1..=11 {
        let power = 1usize << k;
        let mut units = vec![1, 2, 3, power / 4, power / 3, power / 2];
        units.sort();
        units.dedup();
        for n in [2 * power - 1, 2 * power, (2 * power + 1).min(PLAIN)] {
            for cut in [power - 1, power, power + 1] {
                for &unit in units.iter().filter(|&&u| 0 < u) {
                    let symbols = numbers.word(unit, 3);
                    for length in [2 * unit, 2 * unit + 1, 3 * unit + unit / 2] {
                        for start in [cut.checked_sub(length), Some(cut)] {
                            let Some(start) = start.filter(|s| s + length <= n) else {
                                continue;
                            };
                            if 512 < n && numbers.below(6) != 0 {
                                continue;
                            }
                            let mut w: Vec<u8> = (0..n).map(|i| 3 + (i % 253) as u8).collect();
                            for (i, place) in w[start..start + length].iter_mut().enumerate() {
                                *place = symbols[i % unit];
                            }
                            runs_and_nodes(&mut checker, &w);
                        }
                    }
                }
            }
        }
    }
    checker.report("runs beside cuts");
}

/// Powers of powers: a unit wound some times and one symbol more, all of it wound again, and again;
/// and the same with one symbol changed.
#[test]
fn powers_of_powers() {
    let mut checker = Checker::default();
    let mut numbers = Numbers(88_172_645_463_325_252);
    for unit in [&b"a"[..], b"ab", b"aab", b"abaab"] {
        for turns in [
            [2, 2, 2],
            [3, 2, 4],
            [2, 5, 3],
            [7, 3, 2],
            [4, 4, 4],
            [16, 8, 4],
        ] {
            let mut w = unit.to_vec();
            for (level, times) in turns.into_iter().enumerate() {
                w = w.repeat(times);
                let mut changed = w.clone();
                changed[numbers.below(w.len())] ^= 1;
                for w in [&w, &changed] {
                    if w.len() < 200 {
                        long_word(&mut checker, &mut numbers, w);
                    } else {
                        runs_and_nodes(&mut checker, w);
                    }
                }
                w.push(b"abx"[level]);
            }
        }
    }
    checker.report("powers of powers");
}

// ---- what unit memory holds, and how far best split reads from a boundary

/// The lengths of units that are tried: short ones, and those about what memory holds.
const UNITS: [usize; 5] = [1, 2, UNIT_MEMORY - 1, UNIT_MEMORY, UNIT_MEMORY + 1];

/// The ends of one to four turns of the longest unit. Two and three of them are what is read from a
/// boundary in the two editions.
const EDGES: [usize; 4] = [
    UNIT_MEMORY,
    2 * UNIT_MEMORY,
    3 * UNIT_MEMORY,
    4 * UNIT_MEMORY,
];

/// The lengths at which the memory decides first: those of two and of three turns of such units.
const DECIDED: [std::ops::RangeInclusive<usize>; 2] = [
    2 * UNIT_MEMORY - 2..=2 * UNIT_MEMORY + 4,
    3 * UNIT_MEMORY - 3..=3 * UNIT_MEMORY + 5,
];

/// One pass of code 1 and others of code 0.
fn one_and_zeros(length: usize) -> Vec<u8> {
    let mut unit = vec![0; length];
    unit[0] = 1;
    unit
}

/// Units of a length: with one symbol that differs, at either end; random ones; and ones made of
/// blocks, so that a split may end at many boundaries inside them.
fn units_of(numbers: &mut Numbers, length: usize) -> Vec<Vec<u8>> {
    if length <= 2 {
        return vec![vec![0, 1][..length].to_vec()];
    }
    let mut blocks = numbers.joined(length, 3, 4);
    blocks.truncate(length);
    let reversed = one_and_zeros(length).into_iter().rev().collect();
    vec![
        one_and_zeros(length),
        reversed,
        numbers.word(length, 2),
        blocks,
        fibonacci(length),
    ]
}

/// So many symbols of a unit wound again and again.
fn wound(unit: &[u8], length: usize) -> Vec<u8> {
    unit.iter().cycle().take(length).copied().collect()
}

/// A word with other material before it, which can be split, or after it, or both, in turn.
fn beside(numbers: &mut Numbers, turn: usize, word: &[u8]) -> Vec<u8> {
    let other = match turn / 4 % 2 {
        0 => vec![9; 3],
        _ => numbers.joined(20, 3, 4),
    };
    let (before, after) = match turn % 4 {
        0 => (&[][..], &[][..]),
        1 => (&other[..], &[][..]),
        2 => (&[][..], &other[..]),
        _ => (&other[..], &other[..]),
    };
    [before, word, after].concat()
}

/// The number of the run that encloses each piece and has its unit, whether memory holds it or not; 0
/// where there is none.
fn enclosing<S: Kind>(known: &Known<S>, ends: &[u32]) -> Vec<u32> {
    let befores = [0].iter().chain(ends);
    let pieces = befores.zip(ends).map(|(&a, &b)| (a as usize, b as usize));
    let number = |(a, b): (usize, usize)| {
        let unit = reference::unit(known.word.get(a..b).filter(|piece| !piece.is_empty())?);
        let encloses = |run: &Run| run.0 <= a + 1 && b <= run.1 && run.2 == unit;
        known.runs.iter().position(encloses)
    };
    pieces
        .map(|piece| number(piece).map_or(0, |i| i as u32 + 1))
        .collect()
}

/// What the calls that are given ends say of them, and judge a path of the runs that go with them.
fn judged<S: Kind>(checker: &mut Checker, known: &Known<S>, edition: u32, ends: &[u32]) {
    checker.judge_split(known.word, edition, ends);
    checker.path_of_split(known, edition, ends, ends.len());
    checker.write_page(known, edition, ends, page_bytes(ends));
    let path = encoded(&enclosing(known, ends), ends);
    checker.judge_path(known, edition, &path);
}

/// The best splits of a word, with the whole of both tables.
fn best_splits<S: Kind>(checker: &mut Checker, known: &Known<S>) {
    for edition in EDITIONS {
        for choice in [1, 2] {
            let size = known.best(edition, choice).1.as_ref().map_or(0, Vec::len);
            checker.best_split(known, edition, choice, size, 4 * (known.word.len() + 1));
        }
    }
}

/// The same, and the best splits judged.
fn best_splits_judged<S: Kind>(checker: &mut Checker, known: &Known<S>) {
    best_splits(checker, known);
    for edition in EDITIONS {
        for best in &known.bests[edition as usize - 1] {
            if let Some(ends) = &best.1 {
                judged(checker, known, edition, ends);
            }
        }
    }
}

/// The parts, nodes, splits and paths of the runs of a word with units about what memory holds: with
/// one symbol fewer than the turns of the edition, with these, with one more, and all of them; alone,
/// and after the piece before the run.
fn about_memory<S: Kind>(checker: &mut Checker, known: &Known<S>) {
    let (w, n) = (known.word, known.word.len());
    let about = UNIT_MEMORY - 1..=UNIT_MEMORY + 1;
    for &(first, last, unit, _) in known.runs.iter().filter(|run| about.contains(&run.2)) {
        for edition in EDITIONS {
            let span = reference::turns(edition).unwrap() * unit;
            let mut lasts = vec![first + span - 2, first + span - 1, first + span, last];
            lasts.retain(|&last| last <= n);
            lasts.dedup();
            for last in lasts {
                let before = first as u32 - 1;
                checker.part(w, edition, first as u32, last as u32, last + 1 - first);
                checker.nodes_sizes(known, edition, last as u32);
                let last = last as u32;
                for ends in [&[last][..], &[before, last], &[before, last, n as u32]] {
                    judged(checker, known, edition, ends);
                }
            }
            checker.nodes_sizes(known, edition, last.min(n - 1) as u32 + 1);
        }
    }
}

/// The reference's judges against the definitions, at the lengths where the memory decides first.
#[test]
fn reference_follows_the_definitions_about_memory() {
    let mut numbers = Numbers(3_141_592_653);
    let mut made = 0u64;
    for length in DECIDED.into_iter().flatten() {
        for unit in UNITS.map(|unit| units_of(&mut numbers, unit)).concat() {
            let w = wound(&unit, length);
            for edition in EDITIONS {
                let block = reference::plain_is_block(&w, Rule::of(edition).unwrap());
                let n = length as u32;
                let (part, _) = reference::part_call(&w, edition, 1, n, length);
                assert!(matches!(part, Accepted(values) if values[3] == block as u32));
                let judged = reference::judge_split_call(&w, edition, &[n]);
                assert_eq!(judged == Accepted(vec![1]), block);
                made += 2;
            }
        }
    }
    println!("the reference against the definitions about memory: {made} comparisons");
}

/// One symbol 1 and symbols 0 as the unit, of the edition's turns, after so many symbols 2, of which
/// there are none or enough for a block: all of the word is blocks if memory holds the unit, and else
/// the last piece is none, by every call, and the word has no split.
fn held_or_not(checker: &mut Checker, edition: u32, before: usize, unit: usize, held: bool) {
    let turns = reference::turns(edition).unwrap();
    let w = [vec![2; before], one_and_zeros(unit).repeat(turns)].concat();
    let (known, n, work) = (Known::of(&w), w.len() as u32, 4 * (w.len() + 1));
    let mut ends = vec![before as u32, n];
    ends.retain(|&end| end > 0);
    let (pieces, first, places) = (ends.len() as u32, before as u32 + 1, turns * unit);
    let part = vec![unit as u32, turns as u32, 0, held as u32];
    let given = reference::part_call(&w, edition, first, n, places).0;
    assert_eq!(given, Accepted(part));
    expect(checker, 0, &|c| c.part(&w, edition, first, n, places));
    let (verdict, best) = match held {
        true => (Accepted(vec![pieces]), 0),
        false => (Refused(4, pieces), 2),
    };
    assert_eq!(reference::judge_split_call(&w, edition, &ends), verdict);
    let refused = if held { 0 } else { 4 };
    let path = encoded(&enclosing(&known, &ends), &ends);
    expect(checker, refused, &|c| c.judge_split(&w, edition, &ends));
    expect(checker, refused, &|c| {
        c.path_of_split(&known, edition, &ends, ends.len())
    });
    expect(checker, refused, &|c| {
        c.write_page(&known, edition, &ends, page_bytes(&ends))
    });
    expect(checker, refused, &|c| c.judge_path(&known, edition, &path));
    for choice in [1, 2] {
        expect(checker, best, &|c| {
            c.best_split(&known, edition, choice, ends.len(), work)
        });
    }
    expect(checker, best, &|c| {
        c.which_first(&known, &known, edition, work)
    });
    expect(checker, 0, &|c| {
        c.first_block(&known, &known, edition, work)
    });
    runs_and_nodes(checker, &w);
}

/// The example of the request: one pass of code 1 and 256 of code 0, all wound twice, was a block and
/// is one no longer; with 255 of code 0 it still is.
#[test]
fn units_that_memory_does_not_hold() {
    let mut checker = Checker::default();
    for edition in EDITIONS {
        for before in [0, 3] {
            for (unit, held) in [(255, true), (256, true), (257, false), (258, false)] {
                held_or_not(&mut checker, edition, before, unit, held);
            }
        }
    }
    checker.report("units that memory does not hold");
}

/// Words of the lengths at which the memory decides first.
#[test]
fn shortest_words_about_memory() {
    let mut checker = Checker::default();
    let mut numbers = Numbers(2_718_281_828);
    let mut turn = 0;
    for length in DECIDED.into_iter().flatten() {
        let units = UNITS.map(|unit| units_of(&mut numbers, unit)).concat();
        for unit in units.into_iter().filter(|unit| unit.len() > 2) {
            let w = wound(&unit, length);
            let mut changed = w.clone();
            changed[[0, length / 2, length - 1, 254, 255, 256, 257][turn % 7]] ^= 1;
            for w in [&w, &beside(&mut numbers, 1 + turn % 7, &w), &changed] {
                let known = Known::of(w);
                best_splits_judged(&mut checker, &known);
                about_memory(&mut checker, &known);
            }
            turn += 1;
        }
    }
    checker.report("shortest words about memory");
}

/// Long runs with one symbol changed, or with a block put between, at each place about an end of what
/// is read from the run's start.
#[test]
fn runs_broken_at_a_windows_end() {
    let mut checker = Checker::default();
    let mut numbers = Numbers(1_618_033_988);
    let mut turn = 0;
    for unit in UNITS.map(|unit| units_of(&mut numbers, unit)).concat() {
        for edge in EDGES {
            for place in edge - 3..=edge + 3 {
                let run = wound(&unit, edge + 300 + numbers.below(300));
                let mut changed = run.clone();
                changed[place] ^= 1;
                let parted = [&run[..place], &[9; 3], &run[place..]].concat();
                for w in [changed, parted] {
                    let w = beside(&mut numbers, turn, &w);
                    best_splits(&mut checker, &Known::of(&w));
                    turn += 1;
                }
                turn += 1;
            }
        }
    }
    checker.report("runs broken at a window's end");
}

/// Two runs, one after the other or one in the other's rest, of lengths about those of the windows.
#[test]
fn two_runs_about_memory() {
    let mut checker = Checker::default();
    let mut numbers = Numbers(1_414_213_562);
    let mut turn = 0;
    for first in UNITS {
        for second in UNITS {
            for _ in 0..4 {
                let [a, b] = [first, second].map(|length| {
                    let units = units_of(&mut numbers, length);
                    let window = EDGES[1 + numbers.below(2)];
                    let unit = &units[numbers.below(units.len())];
                    let from = numbers.below(unit.len());
                    wound(
                        &wound(unit, from + unit.len())[from..],
                        window - 4 + numbers.below(300),
                    )
                });
                let w = beside(&mut numbers, turn, &[a, b].concat());
                let known = Known::of(&w);
                best_splits_judged(&mut checker, &known);
                about_memory(&mut checker, &known);
                turn += 1;
            }
        }
    }
    checker.report("two runs about memory");
}

/// Runs of two to four windows, whole and with one symbol changed.
#[test]
fn runs_of_many_windows() {
    let mut checker = Checker::default();
    let mut numbers = Numbers(1_732_050_807);
    let mut turn = 0;
    for unit in UNITS.map(|unit| units_of(&mut numbers, unit)).concat() {
        for window in [2 * UNIT_MEMORY, 3 * UNIT_MEMORY] {
            let length = window * (2 + turn % 3) + numbers.below(9);
            let mut w = wound(&unit, length);
            best_splits(&mut checker, &Known::of(&beside(&mut numbers, turn, &w)));
            let place = numbers.below(length);
            w[place] ^= 1;
            best_splits(&mut checker, &Known::of(&w));
            turn += 1;
        }
    }
    checker.report("runs of many windows");
}

/// Parts of random units, short ones and ones about what memory holds, joined.
#[test]
fn joined_parts_about_memory() {
    let mut checker = Checker::default();
    let mut numbers = Numbers(2_236_067_977);
    for turn in 0..150 {
        let mut w = Vec::new();
        while w.len() < 1200 {
            let length = [1, 3, 64, 128, 254, 255, 256, 257, 300][numbers.below(9)];
            let unit = numbers.word(length, 2 + turn % 2);
            w.extend(wound(&unit, 2 * length + numbers.below(2 * length + 200)));
        }
        best_splits_judged(&mut checker, &Known::of(&w));
        let place = numbers.below(w.len());
        w[place] ^= 1;
        best_splits(&mut checker, &Known::of(&w));
    }
    checker.report("joined parts about memory");
}

/// Words that the memory decides about beside one another and beside short ones.
#[test]
fn pairs_about_memory() {
    let mut checker = Checker::default();
    let mut numbers = Numbers(2_645_751_311);
    let mut words = vec![vec![], b"ab".to_vec(), b"aaabbb".to_vec()];
    for (length, turns) in [(255, 2), (256, 2), (257, 2), (256, 3), (257, 3), (256, 5)] {
        let units = units_of(&mut numbers, length);
        let unit = &units[numbers.below(units.len())];
        words.push(wound(unit, turns * length));
        words.push([&[9; 3][..], &wound(unit, turns * length + 1)].concat());
    }
    let known = all_known(&words);
    for a in &known {
        for b in &known {
            let longer = a.word.len().max(b.word.len());
            for edition in EDITIONS {
                checker.two(a, b, edition, 4 * (longer + 1));
            }
        }
    }
    checker.report("pairs about memory");
}

/// A unit of any length, twice over, is one square.
#[test]
fn squares_of_long_halves() {
    let mut checker = Checker::default();
    let mut numbers = Numbers(3_316_624_790);
    for length in [255, 256, 257, 258, 700] {
        for unit in units_of(&mut numbers, length) {
            let w = unit.repeat(2);
            long_squares(&mut checker, &mut numbers, &w, &[w.len() as u32]);
            assert_eq!(
                cegridom::best_squares(&w, Choice::Fewest),
                Ok(vec![w.len() as u32])
            );
        }
    }
    checker.report("squares of long halves");
}

// ---- 16-bit symbols that are no bytes

/// Two codes that have the same low byte, or the same high byte, or that a sign would order otherwise,
/// in either order.
const PAIRS_OF_CODES: [[u16; 2]; 12] = [
    [1, 257],
    [257, 1],
    [0, 256],
    [256, 0],
    [255, 256],
    [256, 255],
    [0, 65_535],
    [65_535, 0],
    [0x7fff, 0x8000],
    [0x8000, 0x7fff],
    [0x00ff, 0xff00],
    [0xff00, 0x00ff],
];

const TRIPLES_OF_CODES: [[u16; 3]; 6] = [
    [0, 256, 65_535],
    [255, 256, 257],
    [513, 1, 257],
    [0x8000, 0, 0x7fff],
    [0xff7f, 0xff80, 0x0080],
    [65_535, 65_279, 255],
];

/// Every call on one short word, with tables of several sizes and with every rising series of ends.
fn short_word<S: Kind>(checker: &mut Checker, w: &[S]) {
    let (known, squared, n) = (Known::of(w), Squared::of(w), w.len() as u32);
    checker.runs_sizes(&known);
    for choice in [1, 2] {
        checker.squares_sizes(&squared, choice);
    }
    for ends in rising_ends(n) {
        checker.judge_squares(w, &ends);
    }
    for edition in EDITIONS {
        for first in 0..=n + 1 {
            for last in 0..=n + 1 {
                checker.part_sizes(w, edition, first, last);
            }
        }
        for position in 0..=n + 1 {
            checker.nodes_sizes(&known, edition, position);
        }
        for choice in [1, 2] {
            checker.best_sizes(&known, edition, choice);
        }
        for ends in rising_ends(n) {
            checker.judge_split(w, edition, &ends);
            checker.path_of_split(&known, edition, &ends, ends.len());
            checker.write_page(&known, edition, &ends, page_bytes(&ends));
        }
        let rule = Rule::of(edition).unwrap();
        for ends in reference::plain_splits(w, rule) {
            checker.path_sizes(&known, edition, &ends);
            checker.page_sizes(&known, edition, &ends);
        }
        for path in reference::plain_paths(&known.runs, rule, w.len(), w.len()) {
            checker.path_and_near(&known, edition, &path);
        }
    }
    for edition in NO_EDITIONS {
        checker.part(w, edition, 1, n, w.len());
        checker.nodes(&known, edition, n, w.len());
        checker.best_split(&known, edition, 1, w.len(), 4 * (w.len() + 1));
        checker.judge_split(w, edition, &[n]);
        checker.path_of_split(&known, edition, &[n], 1);
        checker.judge_path(&known, edition, &[1, n]);
        checker.write_page(&known, edition, &[n], 61);
    }
}

#[test]
fn short_words_of_codes() {
    let mut checker = Checker::default();
    for alphabet in PAIRS_OF_CODES {
        every_word(2, 7, |w| short_word(&mut checker, &lettered(w, &alphabet)));
    }
    for alphabet in TRIPLES_OF_CODES {
        every_word(3, 5, |w| short_word(&mut checker, &lettered(w, &alphabet)));
    }
    checker.report("short words of codes");
}

/// Every two short words, of one alphabet and of two that have the same low bytes.
#[test]
fn short_words_of_codes_in_pairs() {
    let mut checker = Checker::default();
    let alphabets = [[1u16, 257], [257, 513], [0x7fff, 0x8000], [0xffff, 0x00ff]];
    let mut words = Vec::new();
    for alphabet in alphabets {
        every_word(2, 5, |w| words.push(lettered(w, &alphabet)));
    }
    let known = all_known(&words);
    for a in &known {
        for b in &known {
            for edition in EDITIONS {
                checker.two_sizes(a, b, edition);
            }
            checker.two(a, b, NO_EDITIONS[a.word.len() % 3], 4 * 6);
        }
    }
    checker.report("short words of codes in pairs");
}

#[test]
fn long_words_of_codes_in_pairs() {
    let mut checker = Checker::default();
    let mut numbers = Numbers(1_013_904_223);
    let mut words = words_to_pair(&mut numbers);
    words.extend([fibonacci(PLAIN), numbers.split(PLAIN, 3, 40, 3).0]);
    let spelling = |(i, w): (usize, &Vec<u8>)| spelt(w, SPELLINGS[i % SPELLINGS.len()]);
    let words: Vec<Vec<u16>> = words.iter().enumerate().map(spelling).collect();
    let known = all_known(&words);
    for a in &known {
        for b in &known {
            let longer = a.word.len().max(b.word.len());
            for edition in EDITIONS {
                checker.two(a, b, edition, 4 * (longer + 1));
                checker.two(a, b, edition, 4 * (longer + 1) - 1);
            }
        }
    }
    checker.report("long words of codes in pairs");
}

/// The words of the other tests, spelt in codes.
#[test]
fn long_words_of_codes() {
    let mut checker = Checker::default();
    let mut numbers = Numbers(1_099_511_628);
    for n in [11, 40, 64, 65, 130, 256, 257, 520] {
        for (i, w) in structured(n).into_iter().chain([run_rich(n)]).enumerate() {
            let (first, second) = (i % SPELLINGS.len(), (i + n) % SPELLINGS.len());
            for spelling in [SPELLINGS[first], SPELLINGS[second]] {
                let w = spelt(&w, spelling);
                long_word(&mut checker, &mut numbers, &w);
                long_squares(&mut checker, &mut numbers, &w, &[]);
            }
        }
    }
    // Random words, and blocks and squares joined, with one symbol changed in one bit.
    for turn in 0..400 {
        let n = 2 + numbers.below(300);
        let symbols = [2, 3, 4, 256][numbers.below(4)];
        let bytes = match turn % 3 {
            0 => numbers.word(n, symbols),
            1 => numbers.joined(n, 2 + turn % 2, 12),
            _ => [numbers.squares(n, 9, symbols).0, vec![0, 0]].concat(),
        };
        let mut w = spelt(&bytes, SPELLINGS[turn % SPELLINGS.len()]);
        long_word(&mut checker, &mut numbers, &w);
        long_squares(&mut checker, &mut numbers, &w, &[]);
        let at = numbers.below(w.len());
        w[at] ^= 1 << numbers.below(16);
        long_word(&mut checker, &mut numbers, &w);
        long_squares(&mut checker, &mut numbers, &w, &[]);
    }
    checker.report("long words of codes");
}

#[test]
fn longest_words_of_codes() {
    let mut checker = Checker::default();
    let mut numbers = Numbers(2_654_435_761);
    for (i, w) in structured(PLAIN).into_iter().enumerate() {
        let w = spelt(&w, SPELLINGS[i % SPELLINGS.len()]);
        long_word(&mut checker, &mut numbers, &w);
        long_squares(&mut checker, &mut numbers, &w, &[]);
    }
    checker.report("longest words of codes");
}

/// A word and a word that differs from it in one bit of one symbol, beside each other and judged by
/// what is true of the other.
#[test]
fn one_bit_of_a_code() {
    let mut checker = Checker::default();
    for bit in 0..16 {
        for (length, turns) in [(1, 6), (3, 4), (5, 3)] {
            let unit: Vec<u16> = (0..length).map(|i| 0x5aa5 ^ (i << 4)).collect();
            let w = unit.repeat(turns);
            let all = w.len() as u32;
            for at in 0..w.len() {
                let mut changed = w.clone();
                changed[at] ^= 1 << bit;
                let (known, other) = (Known::of(&w), Known::of(&changed));
                for edition in EDITIONS {
                    assert_eq!(
                        reference::judge_split_call(&w, edition, &[all]),
                        Accepted(vec![1])
                    );
                    checker.judge_split(&changed, edition, &[all]);
                    checker.part(&changed, edition, 1, all, w.len());
                    checker.judge_path(&other, edition, &[1, all]);
                    checker.two_sizes(&known, &other, edition);
                    checker.two_sizes(&other, &known, edition);
                    best_splits_judged(&mut checker, &other);
                }
                checker.runs_sizes(&other);
                let squared = Squared::of(&changed);
                checker.squares_sizes(&squared, 1);
                checker.squares_sizes(&squared, 2);
                checker.judge_squares(&changed, &[all]);
            }
        }
    }
    checker.report("one bit of a code");
}

/// Codes in either order: the root of xyxy starts with the lesser, whichever bit tells them apart.
#[test]
fn roots_go_by_codes() {
    let mut made = 0u64;
    for x in 0..=u16::MAX {
        for bit in 0..16 {
            let y = x ^ (1 << bit);
            let mut table = [cegridom::Run::default()];
            assert_eq!(cegridom::runs_into(&[x, y, x, y], &mut table), Ok(1));
            assert_eq!(
                table[0].root,
                if x < y { 1 } else { 2 },
                "{x:#06x} {y:#06x}"
            );
            made += 1;
        }
    }
    let mut checker = Checker::default();
    for alphabet in PAIRS_OF_CODES {
        every_word(2, 10, |w| rooted(&mut checker, &lettered(w, &alphabet)));
    }
    for alphabet in TRIPLES_OF_CODES {
        every_word(3, 7, |w| rooted(&mut checker, &lettered(w, &alphabet)));
    }
    // Long units, from many starts.
    let mut numbers = Numbers(1_597_334_677);
    for (length, starts) in [(20, 20), (233, 10), (1000, 3), (PLAIN / 2, 1)] {
        let units = [
            numbers.word(length, 2),
            numbers.word(length, 256),
            last_differs(length),
            fibonacci(length),
            thue_morse(length),
        ];
        for unit in &units {
            for spelling in SPELLINGS {
                for _ in 0..starts {
                    let start = numbers.below(length);
                    let symbols = (2 * length + numbers.below(length)).min(PLAIN);
                    let turning = unit.iter().cycle().skip(start).take(symbols);
                    let bytes: Vec<u8> = turning.copied().collect();
                    rooted(&mut checker, &spelt(&bytes, spelling));
                }
            }
        }
    }
    println!("roots by codes: {} comparisons", made + checker.made);
}

/// The page of every code, 2,048 of them a word, byte for byte.
#[test]
fn pages_of_every_code() {
    let mut made = 0u64;
    let ends: Vec<u32> = (1..=PLAIN as u32 / 2).map(|k| 2 * k).collect();
    for codes in (0..=u16::MAX).collect::<Vec<u16>>().chunks(PLAIN / 2) {
        let word: Vec<u16> = codes.iter().flat_map(|&code| [code, code]).collect();
        let page = cegridom::write_page(&word, Edition::One, &ends).unwrap();
        let lines = page.chunks(61);
        assert_eq!(lines.len(), codes.len());
        for (k, (line, code)) in lines.zip(codes).enumerate() {
            let (number, first, end) = (k + 1, 2 * k + 1, 2 * k + 2);
            let expected =
                format!("{number:>6}{first:>6}{end:>6}     1     2     0{number:>6}{code:04x}              \n");
            assert_eq!(line, expected.as_bytes());
            made += 1;
        }
    }
    println!("pages of every code: {made} comparisons");
}

/// Pages of splits that are no best ones, with units of up to four symbols and of more.
#[test]
fn pages_of_codes() {
    let mut checker = Checker::default();
    let mut numbers = Numbers(362_436_069);
    for n in [12, 40, 99, 100, 500, 1000, PLAIN] {
        for longest in [1, 3, 4, 5, 12, n / 3] {
            for symbols in [2, 17, 256] {
                for edition in EDITIONS {
                    let turns = reference::turns(edition).unwrap();
                    let (w, ends) = numbers.split(n, turns, longest, symbols);
                    let spelling = SPELLINGS[numbers.below(SPELLINGS.len())];
                    let w = spelt(&w, spelling);
                    page_and_near(&mut checker, &mut numbers, &w, edition, &ends);
                }
            }
        }
    }
    checker.report("pages of codes");
}

/// Words of more codes than bytes have: all different, as a unit that memory holds or does not, and
/// twice over.
#[test]
fn words_of_many_codes() {
    let mut checker = Checker::default();
    let mut numbers = Numbers(4_294_967_291);
    // Different codes, in no order, of which each low byte stands 16 times.
    let codes: Vec<u16> = (0..PLAIN as u32).map(|i| (40_503 * i) as u16).collect();
    for unit in [300, 1000, PLAIN / 2, PLAIN] {
        let w = &codes[..unit];
        assert_eq!(cegridom::runs(w), Ok(vec![]));
        assert_eq!(
            cegridom::best_split(w, Edition::One, Choice::Most),
            Err(Refusal::NoSplit)
        );
        long_word(&mut checker, &mut numbers, w);
    }
    for half in [300, 1000, PLAIN / 2] {
        let w = codes[..half].repeat(2);
        let (n, least) = (w.len() as u32, codes[..half].iter().min());
        let root = codes.iter().position(|code| Some(code) == least).unwrap() as u32 + 1;
        let run = cegridom::Run {
            first: 1,
            last: n,
            unit: half as u32,
            root,
        };
        assert_eq!(cegridom::runs(&w), Ok(vec![run]));
        assert_eq!(cegridom::judge_squares(&w, &[n]), Ok(1));
        for choice in [Choice::Fewest, Choice::Most] {
            assert_eq!(cegridom::best_squares(&w, choice), Ok(vec![n]));
            // A square, but no block: memory does not hold its unit.
            let split = cegridom::best_split(&w, Edition::One, choice);
            assert_eq!(split, Err(Refusal::NoSplit));
        }
        long_word(&mut checker, &mut numbers, &w);
        long_squares(&mut checker, &mut numbers, &w, &[n]);
    }
    // A unit of 256 codes that have one low byte.
    let unit: Vec<u16> = (0..=255).rev().map(|high| 256 * high + 7).collect();
    let w = unit.repeat(PLAIN / 256);
    let split = cegridom::best_split(&w, Edition::One, Choice::Fewest);
    assert_eq!(split, Ok(vec![PLAIN as u32]));
    long_word(&mut checker, &mut numbers, &w);
    long_squares(&mut checker, &mut numbers, &w, &[]);
    checker.report("words of many codes");
}

/// The same word one symbol too long for every call: 1 comes before anything else.
#[test]
fn words_over_the_limit() {
    let mut checker = Checker::default();
    for n in [LIMIT + 1, 131_072, 140_001] {
        for w in [vec![b'a'; n], fibonacci(n)] {
            let known = Known::of(&w);
            let all = n as u32;
            for places in [0, RUN_PLACES, RUN_PLACES * n] {
                checker.runs(&known, places);
            }
            let squared = Squared::of(&w);
            for choice in [0, 1, 2, 3] {
                for work_places in [0, 4 * (LIMIT + 1), 4 * (n + 1)] {
                    checker.best_squares(&squared, choice, n, work_places);
                    checker.best_squares(&squared, choice, 0, work_places);
                }
            }
            for ends in [&[][..], &[all], &[0], &[all + 1]] {
                checker.judge_squares(&w, ends);
            }
            for edition in [0, 1, 2, 3] {
                for places in [0, n] {
                    for (first, last) in [(1, all), (0, all), (2, 1)] {
                        checker.part(&w, edition, first, last, places);
                    }
                    for position in [0, 1, all, all + 1] {
                        checker.nodes(&known, edition, position, places);
                    }
                }
                for choice in [0, 1, 2, 3] {
                    for work_places in [0, 4 * (n + 1)] {
                        checker.best_split(&known, edition, choice, n, work_places);
                    }
                }
                for ends in [&[][..], &[all], &[0], &[all + 1]] {
                    checker.judge_split(&w, edition, ends);
                    checker.path_of_split(&known, edition, ends, 0);
                    checker.path_of_split(&known, edition, ends, 1);
                    checker.write_page(&known, edition, ends, 0);
                    checker.write_page(&known, edition, ends, page_bytes(&[all]));
                }
                for path in [&[][..], &[1], &[1, all], &[1, 0]] {
                    checker.judge_path(&known, edition, path);
                }
            }
        }
    }
    // Either of two words, or both.
    let equal = [LIMIT + 1, 140_001, LIMIT, 2, 1, 0].map(|n| vec![b'a'; n]);
    let known: Vec<Known> = equal.iter().map(|w| Known::of(w)).collect();
    for long in &known[..2] {
        for other in &known {
            for edition in [0, 1, 2, 3] {
                for work_places in [0, 4 * (LIMIT + 1), 4 * (LIMIT + 2), 4 * 140_002] {
                    checker.two(long, other, edition, work_places);
                    checker.two(other, long, edition, work_places);
                }
            }
        }
    }
    for n in [70_001, 99_999, 100_000, 999_999, 1_000_000, u32::MAX] {
        for ends in [&[][..], &[n], &[0], &[n, n]] {
            checker.write_plan(n, ends, 0);
            checker.write_plan(n, ends, 100);
            checker.read_plan(&reference::line(n, ends), 0);
            checker.read_plan(&reference::line(n, ends), 4);
        }
    }
    // In four digits as much as they hold, in six what needs no more than four.
    for n in [0, 1, 8, 4095, 4096, 4097, 5000, 9999, 10_000] {
        for ends in [&[][..], &[n], &[0], &[n, n]] {
            for places in [0, 4] {
                checker.read_plan(&reference::other_line(n, ends), places);
            }
        }
    }
    checker.report("words over the limit");
}

#[test]
fn plan_lines() {
    let mut checker = Checker::default();
    let mut numbers = Numbers(2_463_534_242);
    let mut plans: Vec<(u32, Vec<u32>)> = vec![
        (0, vec![]),
        (1, vec![1]),
        (8, vec![2, 8]),
        (9, vec![2, 8]),
        (8, vec![2, 2, 8]),
        (8, vec![8, 2]),
        (8, vec![0, 8]),
        (8, vec![2, 9]),
        (8, vec![]),
        (0, vec![0]),
        (4096, vec![4096]),
        (4096, (1..=4096).collect()),
        (4096, (1..=2048).map(|k| 2 * k).collect()),
        (4097, vec![4097]),
        (4097, vec![4096, 4097]),
        (4097, (1..=4097).collect()),
        (4097, vec![]),
        (4097, vec![4096]),
        (5000, vec![5000, 5000]),
        (9999, vec![9999]),
        (10_000, vec![9999, 10_000]),
        (65_536, vec![65_535, 65_536]),
        (69_999, vec![70_000]),
        (70_000, vec![2, 65_536, 70_000]),
        (70_000, (1..=70_000).collect()),
        (70_000, (1..=35_000).map(|k| 2 * k).collect()),
        (70_001, vec![70_001]),
        (99_999, vec![99_999]),
        (999_999, vec![0]),
    ];
    // Of both kinds.
    for turn in 0..500 {
        let most = [LINE_LIMIT, LIMIT][turn % 2];
        let n = numbers.below(most + 1) as u32;
        let sparse = 1 + numbers.below(50 * (1 + 20 * (turn % 2)));
        let mut ends: Vec<u32> = (1..=n).filter(|_| numbers.below(sparse) == 0).collect();
        if ends.last() != Some(&n) && n > 0 && numbers.below(10) > 0 {
            ends.push(n);
        }
        plans.push((n, ends));
    }
    for (n, ends) in &plans {
        checker.plan_sizes(*n, ends);
        // Each plan has one line.
        checker.read_plan(&reference::other_line(*n, ends), ends.len());
    }
    // Every byte of some lines of each kind changed, left out and doubled; and of a line of six digits
    // that has no need of them.
    let few = |long: bool| {
        let kind = plans
            .iter()
            .filter(move |(n, _)| (*n as usize > LINE_LIMIT) == long);
        kind.filter(|(_, ends)| ends.len() < 8).take(40)
    };
    let lines = few(false)
        .chain(few(true))
        .map(|(n, ends)| (reference::line(*n, ends), ends));
    let needless = few(false)
        .take(8)
        .map(|(n, ends)| (reference::other_line(*n, ends), ends));
    for (line, ends) in lines.chain(needless) {
        let room = ends.len() + 3;
        for i in 0..line.len() {
            for byte in 0..=255 {
                let mut damaged = line.clone();
                damaged[i] = byte;
                checker.read_plan(&damaged, room);
            }
            let mut damaged = line.clone();
            damaged.remove(i);
            checker.read_plan(&damaged, room);
            let mut damaged = line.clone();
            damaged.insert(i, line[i]);
            checker.read_plan(&damaged, room);
            checker.read_plan(&line[..i], room);
            checker.read_plan(&line[i..], room);
        }
        for head in [b"plan,", b"long,", b"LONG,", b"lonG,", b"pong,", b"plan:"] {
            checker.read_plan(&[&head[..], &line[5.min(line.len())..]].concat(), room);
        }
        for tail in [&b"\n"[..], b",0001\n", b",000001\n", b" ", b"\0", b"\r\n"] {
            checker.read_plan(&[&line[..], tail].concat(), room);
            checker.read_plan(&[&line[..line.len() - 1], tail].concat(), room);
        }
    }
    checker.report("plan lines");
}

/// Makes a comparison in which a refusal is met; 0 is for accepted.
fn expect(checker: &mut Checker, number: usize, make: &dyn Fn(&mut Checker)) {
    let before = checker.met[number];
    make(checker);
    assert_eq!(checker.met[number], before + 1, "refusal {number}");
}

/// Each refusal of each call is met, and where two are, the first in the call's order is given.
#[test]
fn every_refusal_in_its_order() {
    let mut checker = Checker::default();
    let word = b"aabaabaa";
    let known = Known::of(word);
    let baa = Known::of(b"baa");
    let equal = Known::of(b"aaaaaa");
    let empty = Known::of(b"");
    let long = vec![b'a'; LIMIT + 1];
    let too_long = Known::of(&long);
    // part: 1, 12, 6, 7
    expect(&mut checker, 1, &|c| c.part(&long, 0, 0, 0, 0));
    expect(&mut checker, 1, &|c| c.part(&long, 1, 1, 8, 0));
    expect(&mut checker, 12, &|c| c.part(word, 0, 0, 0, 0));
    expect(&mut checker, 12, &|c| c.part(word, 3, 1, 8, 0));
    expect(&mut checker, 12, &|c| c.part(word, 3, 1, 8, 8));
    for edition in EDITIONS {
        for (first, last) in [(0, 8), (1, 9), (5, 4), (0, 0), (9, 9), (1, u32::MAX)] {
            expect(&mut checker, 6, &|c| c.part(word, edition, first, last, 0));
            expect(&mut checker, 6, &|c| c.part(word, edition, first, last, 9));
        }
        for (first, last, exact) in [(1, 8, 8), (3, 8, 6), (8, 8, 1)] {
            expect(&mut checker, 7, &|c| {
                c.part(word, edition, first, last, exact - 1)
            });
            expect(&mut checker, 0, &|c| {
                c.part(word, edition, first, last, exact)
            });
        }
    }
    // runs: 1, 7
    expect(&mut checker, 1, &|c| c.runs(&too_long, 0));
    expect(&mut checker, 7, &|c| c.runs(&known, 12));
    expect(&mut checker, 7, &|c| c.runs(&known, 15));
    expect(&mut checker, 0, &|c| c.runs(&known, 16));
    // nodes: 1, 12, 6, 7
    expect(&mut checker, 1, &|c| c.nodes(&too_long, 0, 0, 0));
    expect(&mut checker, 12, &|c| c.nodes(&known, 0, 0, 0));
    expect(&mut checker, 12, &|c| c.nodes(&known, 3, 8, 1));
    expect(&mut checker, 6, &|c| c.nodes(&known, 1, 0, 0));
    expect(&mut checker, 6, &|c| c.nodes(&known, 2, 9, 0));
    expect(&mut checker, 7, &|c| c.nodes(&known, 1, 8, 1));
    expect(&mut checker, 0, &|c| c.nodes(&known, 1, 8, 2));
    expect(&mut checker, 0, &|c| c.nodes(&known, 2, 8, 0));
    expect(&mut checker, 7, &|c| c.nodes(&equal, 2, 3, 0));
    expect(&mut checker, 0, &|c| c.nodes(&equal, 2, 3, 1));
    // best split: 1, 12, 8, 9, 2, 7
    expect(&mut checker, 1, &|c| c.best_split(&too_long, 3, 3, 0, 0));
    expect(&mut checker, 12, &|c| c.best_split(&baa, 0, 3, 0, 0));
    expect(&mut checker, 12, &|c| c.best_split(&baa, 3, 1, 0, 15));
    expect(&mut checker, 12, &|c| c.best_split(&baa, 3, 1, 0, 16));
    expect(&mut checker, 8, &|c| c.best_split(&baa, 1, 3, 0, 0));
    expect(&mut checker, 8, &|c| c.best_split(&baa, 2, 0, 0, 16));
    expect(&mut checker, 9, &|c| c.best_split(&baa, 1, 1, 0, 15));
    expect(&mut checker, 9, &|c| c.best_split(&known, 2, 1, 0, 35));
    expect(&mut checker, 2, &|c| c.best_split(&baa, 1, 1, 0, 16));
    expect(&mut checker, 2, &|c| c.best_split(&known, 2, 1, 0, 36));
    expect(&mut checker, 7, &|c| c.best_split(&known, 1, 2, 1, 36));
    expect(&mut checker, 0, &|c| c.best_split(&known, 1, 2, 2, 36));
    expect(&mut checker, 7, &|c| c.best_split(&equal, 2, 2, 1, 28));
    expect(&mut checker, 0, &|c| c.best_split(&equal, 2, 2, 2, 28));
    // best squares: 1, 8, 9, 2, 7
    let [squared, odd, none] = [&word[..], b"aaa", b"ab"].map(Squared::of);
    let [no_squares, squares_over] = [&b""[..], &long].map(Squared::of);
    expect(&mut checker, 1, &|c| c.best_squares(&squares_over, 3, 0, 0));
    expect(&mut checker, 1, &|c| {
        c.best_squares(&squares_over, 1, LIMIT + 1, 4 * (LIMIT + 2))
    });
    for known in [&squared, &odd, &none, &no_squares] {
        let work = 4 * (known.word.len() + 1);
        for choice in [0, 3, u32::MAX] {
            expect(&mut checker, 8, &|c| c.best_squares(known, choice, 0, 0));
            expect(&mut checker, 8, &|c| {
                c.best_squares(known, choice, 9, work - 1)
            });
            expect(&mut checker, 8, &|c| c.best_squares(known, choice, 9, work));
        }
        for choice in [1, 2] {
            expect(&mut checker, 9, &|c| c.best_squares(known, choice, 0, 0));
            expect(&mut checker, 9, &|c| {
                c.best_squares(known, choice, 9, work - 1)
            });
        }
    }
    for choice in [1, 2] {
        expect(&mut checker, 2, &|c| c.best_squares(&odd, choice, 0, 16));
        expect(&mut checker, 2, &|c| c.best_squares(&none, choice, 9, 13));
        expect(&mut checker, 7, &|c| {
            c.best_squares(&squared, choice, 0, 36)
        });
        expect(&mut checker, 7, &|c| {
            c.best_squares(&squared, choice, 1, 36)
        });
        expect(&mut checker, 0, &|c| {
            c.best_squares(&squared, choice, 2, 36)
        });
        expect(&mut checker, 0, &|c| {
            c.best_squares(&no_squares, choice, 0, 4)
        });
    }
    // which first: 1 for either; 12; 9 for the longer; 2 if neither splits
    for (a, b) in [(&too_long, &baa), (&baa, &too_long), (&too_long, &too_long)] {
        expect(&mut checker, 1, &|c| c.which_first(a, b, 0, 0));
        expect(&mut checker, 1, &|c| {
            c.which_first(a, b, 1, 4 * (LIMIT + 2))
        });
    }
    for (a, b) in [(&baa, &known), (&known, &baa)] {
        expect(&mut checker, 12, &|c| c.which_first(a, b, 0, 0));
        expect(&mut checker, 12, &|c| c.which_first(a, b, 3, 36));
        expect(&mut checker, 9, &|c| c.which_first(a, b, 1, 16));
        expect(&mut checker, 9, &|c| c.which_first(a, b, 2, 35));
        expect(&mut checker, 2, &|c| c.which_first(a, b, 2, 36));
        expect(&mut checker, 0, &|c| c.which_first(a, b, 1, 36));
    }
    expect(&mut checker, 9, &|c| c.which_first(&baa, &baa, 1, 15));
    expect(&mut checker, 2, &|c| c.which_first(&baa, &baa, 1, 16));
    expect(&mut checker, 0, &|c| c.which_first(&empty, &baa, 1, 16));
    expect(&mut checker, 0, &|c| c.which_first(&baa, &empty, 1, 16));
    // first block: none
    expect(&mut checker, 0, &|c| c.first_block(&baa, &too_long, 0, 0));
    expect(&mut checker, 0, &|c| c.first_block(&baa, &known, 0, 0));
    expect(&mut checker, 0, &|c| c.first_block(&baa, &known, 1, 35));
    expect(&mut checker, 0, &|c| c.first_block(&baa, &known, 2, 36));
    expect(&mut checker, 0, &|c| c.first_block(&baa, &known, 1, 36));
    // judge a split: 1; 12; 3, 4 for each end; 5
    expect(&mut checker, 1, &|c| c.judge_split(&long, 0, &[0]));
    expect(&mut checker, 12, &|c| c.judge_split(word, 0, &[0]));
    expect(&mut checker, 12, &|c| c.judge_split(word, 3, &[3, 8]));
    expect(&mut checker, 12, &|c| c.judge_split(word, 3, &[]));
    for edition in EDITIONS {
        expect(&mut checker, 3, &|c| c.judge_split(word, edition, &[0]));
        expect(&mut checker, 4, &|c| c.judge_split(word, edition, &[3, 3]));
        expect(&mut checker, 5, &|c| c.judge_split(word, edition, &[]));
    }
    expect(&mut checker, 3, &|c| c.judge_split(word, 1, &[2, 2, 8]));
    expect(&mut checker, 3, &|c| c.judge_split(word, 1, &[2, 9]));
    expect(&mut checker, 4, &|c| c.judge_split(word, 1, &[2, 4]));
    expect(&mut checker, 5, &|c| c.judge_split(word, 1, &[2]));
    expect(&mut checker, 4, &|c| c.judge_split(word, 2, &[2, 2, 8]));
    expect(&mut checker, 4, &|c| c.judge_split(word, 2, &[8]));
    // judge squares: 1; 3, 4 for each end; 5
    expect(&mut checker, 1, &|c| c.judge_squares(&long, &[0]));
    expect(&mut checker, 1, &|c| c.judge_squares(&long, &[]));
    expect(&mut checker, 3, &|c| c.judge_squares(word, &[0]));
    expect(&mut checker, 3, &|c| c.judge_squares(word, &[9]));
    expect(&mut checker, 3, &|c| c.judge_squares(word, &[2, 2, 7]));
    expect(&mut checker, 3, &|c| c.judge_squares(b"", &[0]));
    expect(&mut checker, 4, &|c| c.judge_squares(word, &[8]));
    expect(&mut checker, 4, &|c| c.judge_squares(word, &[3, 3]));
    expect(&mut checker, 4, &|c| c.judge_squares(word, &[2, 4]));
    expect(&mut checker, 4, &|c| c.judge_squares(word, &[2, 5, 9]));
    expect(&mut checker, 5, &|c| c.judge_squares(word, &[]));
    expect(&mut checker, 5, &|c| c.judge_squares(word, &[6]));
    expect(&mut checker, 0, &|c| c.judge_squares(word, &[2, 8]));
    expect(&mut checker, 0, &|c| c.judge_squares(word, &[6, 8]));
    expect(&mut checker, 0, &|c| c.judge_squares(b"", &[]));
    // path of a split: the same as judge a split, then 7
    expect(&mut checker, 1, &|c| c.path_of_split(&too_long, 0, &[0], 0));
    expect(&mut checker, 12, &|c| c.path_of_split(&known, 0, &[9], 0));
    expect(&mut checker, 12, &|c| c.path_of_split(&known, 3, &[8], 1));
    expect(&mut checker, 3, &|c| c.path_of_split(&known, 1, &[9], 0));
    expect(&mut checker, 4, &|c| c.path_of_split(&known, 1, &[3, 8], 0));
    expect(&mut checker, 4, &|c| c.path_of_split(&known, 2, &[2, 8], 2));
    expect(&mut checker, 5, &|c| c.path_of_split(&known, 1, &[2], 0));
    expect(&mut checker, 7, &|c| c.path_of_split(&known, 1, &[2, 8], 1));
    expect(&mut checker, 0, &|c| c.path_of_split(&known, 1, &[2, 8], 2));
    expect(&mut checker, 7, &|c| c.path_of_split(&equal, 2, &[3, 6], 1));
    expect(&mut checker, 0, &|c| c.path_of_split(&equal, 2, &[3, 6], 2));
    // judge a path: 1, 12, 10, then as for a split
    expect(&mut checker, 1, &|c| c.judge_path(&too_long, 0, &[1]));
    expect(&mut checker, 12, &|c| c.judge_path(&known, 0, &[0]));
    expect(&mut checker, 12, &|c| c.judge_path(&known, 3, &[0, 0]));
    expect(&mut checker, 12, &|c| c.judge_path(&known, 3, &[0, 8]));
    expect(&mut checker, 10, &|c| c.judge_path(&known, 1, &[0]));
    expect(&mut checker, 10, &|c| c.judge_path(&known, 2, &[1, 0, 1]));
    expect(&mut checker, 3, &|c| c.judge_path(&known, 2, &[0, 0]));
    expect(&mut checker, 3, &|c| c.judge_path(&known, 1, &[1, 2, 9, 2]));
    expect(&mut checker, 4, &|c| c.judge_path(&known, 2, &[1, 2, 9, 2]));
    for path in [[0, 8], [5, 8], [1, 8], [2, 5], [4, 8]] {
        for edition in EDITIONS {
            expect(&mut checker, 4, &|c| c.judge_path(&known, edition, &path));
        }
    }
    expect(&mut checker, 5, &|c| c.judge_path(&known, 1, &[1, 2]));
    expect(&mut checker, 5, &|c| c.judge_path(&known, 2, &[]));
    expect(&mut checker, 0, &|c| c.judge_path(&known, 1, &[1, 2, 2, 8]));
    expect(&mut checker, 4, &|c| c.judge_path(&known, 2, &[2, 8]));
    expect(&mut checker, 4, &|c| c.judge_path(&equal, 2, &[1, 2, 1, 6]));
    expect(&mut checker, 0, &|c| c.judge_path(&equal, 2, &[1, 3, 1, 6]));
    // write a page: as for path of a split
    expect(&mut checker, 1, &|c| c.write_page(&too_long, 0, &[0], 0));
    expect(&mut checker, 1, &|c| {
        c.write_page(&too_long, 1, &[LIMIT as u32 + 1], 61)
    });
    expect(&mut checker, 12, &|c| c.write_page(&known, 0, &[9], 0));
    expect(&mut checker, 12, &|c| c.write_page(&known, 3, &[8], 61));
    expect(&mut checker, 3, &|c| c.write_page(&known, 1, &[9], 0));
    expect(&mut checker, 3, &|c| {
        c.write_page(&known, 1, &[2, 2, 7], 61)
    });
    expect(&mut checker, 4, &|c| c.write_page(&known, 1, &[3, 3], 0));
    expect(&mut checker, 4, &|c| c.write_page(&known, 1, &[2, 4], 122));
    expect(&mut checker, 4, &|c| c.write_page(&known, 2, &[2, 8], 122));
    expect(&mut checker, 5, &|c| c.write_page(&known, 1, &[2], 0));
    expect(&mut checker, 5, &|c| c.write_page(&known, 1, &[], 0));
    expect(&mut checker, 7, &|c| c.write_page(&known, 1, &[2, 8], 0));
    expect(&mut checker, 7, &|c| c.write_page(&known, 1, &[2, 8], 121));
    expect(&mut checker, 0, &|c| c.write_page(&known, 1, &[2, 8], 122));
    expect(&mut checker, 7, &|c| c.write_page(&equal, 2, &[3, 6], 121));
    expect(&mut checker, 0, &|c| c.write_page(&equal, 2, &[3, 6], 122));
    expect(&mut checker, 0, &|c| c.write_page(&empty, 1, &[], 0));
    expect(&mut checker, 3, &|c| c.write_page(&empty, 2, &[0], 0));
    // write a plan: 1; 3 for each end; 5; 7
    expect(&mut checker, 1, &|c| c.write_plan(70_001, &[0], 0));
    expect(&mut checker, 3, &|c| c.write_plan(70_000, &[0], 0));
    expect(&mut checker, 3, &|c| c.write_plan(70_000, &[70_001], 0));
    expect(&mut checker, 5, &|c| c.write_plan(70_000, &[69_999], 0));
    expect(&mut checker, 7, &|c| c.write_plan(70_000, &[70_000], 25));
    expect(&mut checker, 0, &|c| c.write_plan(70_000, &[70_000], 26));
    expect(&mut checker, 7, &|c| c.write_plan(4097, &[4097], 25));
    expect(&mut checker, 7, &|c| c.write_plan(4096, &[4096], 19));
    expect(&mut checker, 0, &|c| c.write_plan(4096, &[4096], 20));
    expect(&mut checker, 3, &|c| c.write_plan(8, &[9], 0));
    expect(&mut checker, 3, &|c| c.write_plan(8, &[8, 8], 0));
    expect(&mut checker, 5, &|c| c.write_plan(8, &[2], 0));
    expect(&mut checker, 7, &|c| c.write_plan(8, &[2, 8], 24));
    expect(&mut checker, 0, &|c| c.write_plan(8, &[2, 8], 25));
    // read a plan: 11; then as for writing
    expect(&mut checker, 11, &|c| {
        c.read_plan(b"plan,9999,0002,9999\n", 0)
    });
    expect(&mut checker, 1, &|c| {
        c.read_plan(b"plan,9999,0001,0000\n", 0)
    });
    expect(&mut checker, 3, &|c| {
        c.read_plan(b"plan,0008,0001,0009\n", 0)
    });
    expect(&mut checker, 5, &|c| {
        c.read_plan(b"plan,0008,0001,0007\n", 0)
    });
    expect(&mut checker, 7, &|c| {
        c.read_plan(b"plan,0008,0001,0008\n", 0)
    });
    expect(&mut checker, 0, &|c| {
        c.read_plan(b"plan,0008,0001,0008\n", 1)
    });
    for (number, line, places) in [
        // six digits without need, whatever else is wrong
        (11, "long,004096,000001,004096\n", 1),
        (11, "long,000008,000001,000009\n", 0),
        (11, "long,000000,000000\n", 0),
        (11, "long,004096,000002,004096\n", 1),
        // a count that differs, or digits of the other kind
        (11, "long,070001,000002,000000\n", 0),
        (11, "long,4097,0001,4097\n", 1),
        (11, "plan,004097,000001,004097\n", 1),
        (1, "plan,4097,0001,4097\n", 1),
        (1, "plan,4097,0001,0000\n", 0),
        (1, "long,070001,000001,000000\n", 0),
        (1, "long,999999,000000\n", 0),
        (3, "long,070000,000001,070001\n", 0),
        (3, "long,004097,000002,004097,004097\n", 0),
        (5, "long,070000,000001,069999\n", 0),
        (5, "long,004097,000000\n", 0),
        (7, "long,070000,000001,070000\n", 0),
        (0, "long,070000,000001,070000\n", 1),
        (0, "long,004097,000002,004096,004097\n", 2),
    ] {
        expect(&mut checker, number, &|c| {
            c.read_plan(line.as_bytes(), places)
        });
    }
    checker.report("every refusal in its order");
}

/// Makes the comparisons of the crate's own functions and counts them.
#[derive(Default)]
struct Wrappers {
    made: u64,
}

/// What an outcome is as a `Result`, with the values turned into the answer's type.
fn said<T>(outcome: Outcome, answer: impl FnOnce(&[u32]) -> T) -> Result<T, (u32, u32)> {
    match outcome {
        Accepted(values) => Ok(answer(&values)),
        Refused(number, index) => Err((number, index)),
    }
}

fn only(values: &[u32]) -> usize {
    assert_eq!(values.len(), 1);
    values[0] as usize
}

/// A lent table of so many places after a call that wrote this front of it.
fn table<T: Copy>(front: &[T], places: usize, before: T) -> Vec<T> {
    let mut table = front.to_vec();
    table.resize(places.max(front.len()), before);
    table
}

fn as_part(values: &[u32]) -> cegridom::Part {
    cegridom::Part {
        unit: values[0],
        turns: values[1],
        rest: values[2],
        block: values[3] == 1,
    }
}

fn as_which(values: &[u32]) -> Which {
    let mut both = [Which::First, Which::Second].into_iter();
    both.find(|which| [which.number()] == values).unwrap()
}

/// The sizes of the best splits of a word's leading parts, `None` for none, or refusal 1.
fn sizes_of<S>(w: &[S], sizes: &[u32]) -> Result<Vec<Option<u32>>, (u32, u32)> {
    let known = sizes.iter().map(|&s| (s != reference::NONE).then_some(s));
    match w.len() {
        0..=LIMIT => Ok(known.collect()),
        _ => Err((1, 0)),
    }
}

fn as_runs(flat: &[u32]) -> Vec<cegridom::Run> {
    flat.chunks_exact(raw::RUN_PLACES)
        .map(|r| cegridom::Run {
            first: r[0],
            last: r[1],
            unit: r[2],
            root: r[3],
        })
        .collect()
}

fn as_steps(numbers: &[u32], ends: &[u32]) -> Vec<Step> {
    let step = |(&run, &end)| Step { run, end };
    numbers.iter().zip(ends).map(step).collect()
}

impl Wrappers {
    fn agree<T: PartialEq + std::fmt::Debug>(
        &mut self,
        got: Result<T, Refusal>,
        expected: Result<T, (u32, u32)>,
    ) {
        let got = got.map_err(|r| (r.number(), r.index().unwrap_or(0)));
        assert_eq!(got, expected);
        self.made += 1;
    }

    fn part<S: Kind>(&mut self, w: &[S], edition: Edition, first: u32, last: u32) {
        let call = |places| reference::part_call(w, edition.number(), first, last, places);
        let (outcome, units) = call(MANY);
        let got = cegridom::part(w, edition, first, last);
        self.agree(got, said(outcome.clone(), as_part));
        let got = cegridom::units(w, first, last);
        self.agree(got, said(outcome, |_| units.clone()));
        for places in around(units.len(), w.len()) {
            let mut lent = vec![GUARD; places];
            let (outcome, front) = call(places);
            let got = cegridom::part_into(w, edition, first, last, &mut lent);
            self.agree(got, said(outcome, as_part));
            assert_eq!(lent, table(&front, places, GUARD));
        }
    }

    fn runs<S: Kind>(&mut self, known: &Known<S>) {
        let w = known.word;
        let (outcome, flat) = reference::runs_call(w, &known.runs, MANY);
        self.agree(cegridom::runs(w), said(outcome, |_| as_runs(&flat)));
        for places in around(known.runs.len(), w.len()) {
            let mut lent = vec![cegridom::Run::default(); places];
            let (outcome, flat) = reference::runs_call(w, &known.runs, RUN_PLACES * places);
            self.agree(cegridom::runs_into(w, &mut lent), said(outcome, only));
            assert_eq!(lent, table(&as_runs(&flat), places, Default::default()));
        }
    }

    fn nodes<S: Kind>(&mut self, known: &Known<S>, edition: Edition, position: u32) {
        let w = known.word;
        let call =
            |places| reference::nodes_call(w, edition.number(), &known.runs, position, places);
        let (outcome, numbers) = call(MANY);
        let got = cegridom::nodes(w, edition, position);
        self.agree(got, said(outcome, |_| numbers.clone()));
        for places in around(numbers.len(), w.len()) {
            let mut lent = vec![GUARD; places];
            let (outcome, numbers) = call(places);
            let got = cegridom::nodes_into(w, edition, position, &mut lent);
            self.agree(got, said(outcome, only));
            assert_eq!(lent, table(&numbers, places, GUARD));
        }
    }

    /// Gives the ends of the best split; none where there is none.
    fn best_split<S: Kind>(
        &mut self,
        known: &Known<S>,
        edition: Edition,
        choice: Choice,
    ) -> Vec<u32> {
        let w = known.word;
        let (e, c) = (edition.number(), choice.number());
        let best = known.best(e, c);
        let call = |places, work_places| reference::best_call(w, e, c, best, places, work_places);
        let (outcome, ends, _) = call(MANY, MANY);
        let got = cegridom::best_split(w, edition, choice);
        self.agree(got, said(outcome, |_| ends.clone()));
        let expected = sizes_of(w, &best.0);
        self.agree(cegridom::best_sizes(w, edition, choice), expected);
        let exact = cegridom::work_places(w.len());
        for (places, work_places) in [
            (ends.len().saturating_sub(1), exact),
            (ends.len(), exact),
            (ends.len() + 1, exact + 1),
            (ends.len(), exact - 1),
        ] {
            let (mut lent, mut work) = (vec![GUARD; places], vec![GUARD; work_places]);
            let (outcome, front, work_front) = call(places, work_places);
            let got = cegridom::best_split_into(w, edition, choice, &mut lent, &mut work);
            self.agree(got, said(outcome, only));
            assert_eq!(lent, table(&front, places, GUARD));
            assert_eq!(work, table(&work_front, work_places, GUARD));
        }
        ends
    }

    fn best_squares<S: Kind>(&mut self, known: &Squared<S>, choice: Choice) {
        let (w, best) = (known.word, known.best(choice.number()));
        let call = |places, work_places| {
            reference::best_squares_call(w, choice.number(), best, places, work_places)
        };
        let (outcome, ends, _) = call(MANY, MANY);
        let got = cegridom::best_squares(w, choice);
        self.agree(got, said(outcome, |_| ends.clone()));
        let expected = sizes_of(w, &best.0);
        self.agree(cegridom::best_squares_sizes(w, choice), expected);
        let exact = cegridom::work_places(w.len());
        for (places, work_places) in [
            (ends.len().saturating_sub(1), exact),
            (ends.len(), exact),
            (ends.len() + 1, exact + 1),
            (ends.len(), exact - 1),
        ] {
            let (mut lent, mut work) = (vec![GUARD; places], vec![GUARD; work_places]);
            let (outcome, front, work_front) = call(places, work_places);
            let got = cegridom::best_squares_into(w, choice, &mut lent, &mut work);
            self.agree(got, said(outcome, only));
            assert_eq!(lent, table(&front, places, GUARD));
            assert_eq!(work, table(&work_front, work_places, GUARD));
        }
        self.judge_squares(w, &ends);
    }

    fn judge_squares<S: Kind>(&mut self, w: &[S], ends: &[u32]) {
        let outcome = reference::judge_squares_call(w, ends);
        self.agree(cegridom::judge_squares(w, ends), said(outcome, only));
    }

    /// What the calls on squares promise of one another and of those on blocks, by the library's own
    /// answers: a square is a block of edition 1, where memory holds its half, and a word twice over is
    /// a square.
    fn square_promises<S: Kind>(&mut self, w: &[S]) {
        assert!(w.len() <= 2 * UNIT_MEMORY);
        let blocks = |choice| cegridom::best_split(w, Edition::One, choice).map(|ends| ends.len());
        let [fewest, most] = [Choice::Fewest, Choice::Most].map(|c| cegridom::best_squares(w, c));
        assert_eq!(fewest.is_ok(), most.is_ok());
        for ends in [&fewest, &most].into_iter().flatten() {
            assert_eq!(cegridom::judge_squares(w, ends), Ok(ends.len()));
            assert_eq!(cegridom::judge_split(w, Edition::One, ends), Ok(ends.len()));
            assert!(blocks(Choice::Fewest).unwrap() <= ends.len());
            assert!(blocks(Choice::Most).unwrap() >= ends.len());
        }
        if let (Ok(fewest), Ok(most)) = (fewest, most) {
            assert!(fewest.len() <= most.len());
            assert!(reference::halves(w, &most).all(reference::plain_is_primitive));
        }
        let twice = w.repeat(2);
        let whole = match twice.len() as u32 {
            0 => vec![],
            n => vec![n],
        };
        assert_eq!(cegridom::best_squares(&twice, Choice::Fewest), Ok(whole));
        self.made += 1;
    }

    /// A part of two words is the one expected, by which word and how long: of the caller's own
    /// symbols, not only equal to them.
    fn lies_in<S: Kind>(&mut self, words: [&[S]; 2], part: &[S], expected: Outcome) {
        let Accepted(values) = expected else {
            panic!("the call refuses nothing");
        };
        assert_eq!(part.len(), values[1] as usize);
        if values[0] > 0 {
            let word = words[values[0] as usize - 1];
            assert_eq!(part.as_ptr(), word.as_ptr());
        }
        self.made += 1;
    }

    fn two<S: Kind>(&mut self, a: &Known<S>, b: &Known<S>, edition: Edition) {
        let number = edition.number();
        let (words, fewest) = pair(a, b, number);
        let [a, b] = words;
        let which = |places| reference::which_call(words, number, fewest, places);
        let block = |places| reference::first_block_call(words, number, fewest, places);
        let got = cegridom::which_first(a, b, edition);
        self.agree(got, said(which(MANY).0, as_which));
        let got = cegridom::first_block(a, b, edition);
        self.lies_in(words, got, block(MANY).0);
        let longer = a.len().max(b.len());
        for places in around(cegridom::work_places(longer), longer) {
            let mut work = vec![GUARD; places];
            let (outcome, front) = which(places);
            let got = cegridom::which_first_into(a, b, edition, &mut work);
            self.agree(got, said(outcome, as_which));
            assert_eq!(work, table(&front, places, GUARD));
            let mut work = vec![GUARD; places];
            let (outcome, front) = block(places);
            let got = cegridom::first_block_into(a, b, edition, &mut work);
            self.lies_in(words, got, outcome);
            assert_eq!(work, table(&front, places, GUARD));
        }
    }

    /// What the calls on two words promise of one another and of best split, by the library's own
    /// answers.
    fn promises<S: Kind>(&mut self, a: &[S], b: &[S], edition: Edition) {
        let [first, second] = [a, b].map(|w| cegridom::best_split(w, edition, Choice::Fewest));
        let size = |ends: &Result<Vec<u32>, Refusal>| ends.as_ref().map(Vec::len).ok();
        let tie = size(&first) == size(&second);
        let which = cegridom::which_first(a, b, edition);
        let swapped = match which {
            Ok(Which::First) if !tie => Ok(Which::Second),
            Ok(Which::Second) => Ok(Which::First),
            tied_or_refused => tied_or_refused,
        };
        assert_eq!(cegridom::which_first(b, a, edition), swapped);
        let block = cegridom::first_block(a, b, edition);
        let chosen = match which {
            Ok(Which::First) => Some((a, first)),
            Ok(Which::Second) => Some((b, second)),
            Err(_) => None,
        };
        match chosen {
            Some((word, ends)) => {
                let end = ends.unwrap().first().map_or(0, |&end| end as usize);
                assert_eq!(block, &word[..end]);
                assert_eq!(block.is_empty(), word.is_empty());
            }
            None => assert!(block.is_empty()),
        }
        self.made += 1;
    }

    /// Gives the run number of each block; none where the ends are not those of a split.
    fn path_of_split<S: Kind>(
        &mut self,
        known: &Known<S>,
        edition: Edition,
        ends: &[u32],
    ) -> Vec<u32> {
        let w = known.word;
        let call = |places| reference::path_call(w, edition.number(), &known.runs, ends, places);
        let (outcome, numbers) = call(MANY);
        let got = cegridom::path_of_split(w, edition, ends);
        self.agree(got, said(outcome, |_| numbers.clone()));
        for places in around(ends.len(), w.len()) {
            let mut lent = vec![GUARD; places];
            let (outcome, front) = call(places);
            let got = cegridom::path_of_split_into(w, edition, ends, &mut lent);
            self.agree(got, said(outcome, only));
            assert_eq!(lent, table(&front, places, GUARD));
        }
        numbers
    }

    fn write_page<S: Kind>(&mut self, known: &Known<S>, edition: Edition, ends: &[u32]) {
        let w = known.word;
        let call = |room| reference::page_call(w, edition.number(), &known.runs, ends, room);
        let (outcome, page) = call(MANY);
        let got = cegridom::write_page(w, edition, ends);
        self.agree(got, said(outcome, |_| page.clone()));
        for room in around(cegridom::page_bytes(ends.len()), w.len()) {
            let mut lent = vec![b'.'; room];
            let (outcome, front) = call(room);
            let got = cegridom::write_page_into(w, edition, ends, &mut lent);
            self.agree(got, said(outcome, only));
            assert_eq!(lent, table(&front, room, b'.'));
        }
    }

    /// Runs, and nodes at some positions, in tables for the most runs: no table is too short.
    fn most_runs<S: Kind>(&mut self, known: &Known<S>, positions: &[u32]) {
        let (w, most) = (known.word, cegridom::most_runs(known.word.len()));
        let mut lent = vec![cegridom::Run::default(); most];
        let (outcome, flat) = reference::runs_call(w, &known.runs, MANY);
        self.agree(cegridom::runs_into(w, &mut lent), said(outcome, only));
        assert_eq!(lent, table(&as_runs(&flat), most, Default::default()));
        for edition in [Edition::One, Edition::Two] {
            for &position in positions {
                let number = edition.number();
                let (outcome, numbers) =
                    reference::nodes_call(w, number, &known.runs, position, MANY);
                let mut lent = vec![GUARD; most];
                let got = cegridom::nodes_into(w, edition, position, &mut lent);
                self.agree(got, said(outcome, only));
                assert_eq!(lent, table(&numbers, most, GUARD));
            }
        }
    }

    /// The best splits and their paths, in tables for the most ends: no table is too short.
    fn most_ends<S: Kind>(&mut self, known: &Known<S>, squared: &Squared<S>) {
        let (w, n) = (known.word, known.word.len());
        let most = cegridom::most_ends(n);
        let (mut ends, mut work) = (vec![GUARD; most], vec![GUARD; cegridom::work_places(n)]);
        for choice in [Choice::Fewest, Choice::Most] {
            let c = choice.number();
            for edition in [Edition::One, Edition::Two] {
                let e = edition.number();
                let (outcome, front, _) =
                    reference::best_call(w, e, c, known.best(e, c), MANY, MANY);
                let got = cegridom::best_split_into(w, edition, choice, &mut ends, &mut work);
                self.agree(got, said(outcome, only));
                assert_eq!(ends[..front.len()], front);
                if got.is_ok() {
                    self.most_blocks(w, edition, &front);
                }
            }
            let (outcome, front, _) =
                reference::best_squares_call(w, c, squared.best(c), MANY, MANY);
            let got = cegridom::best_squares_into(w, choice, &mut ends, &mut work);
            self.agree(got, said(outcome, only));
            assert_eq!(ends[..front.len()], front);
            if got.is_ok() {
                // A square is a block of edition 1, where memory holds its unit.
                self.most_blocks(w, Edition::One, &front);
            }
        }
    }

    /// A split has no more ends than the most, and its path no more numbers: 7 never comes.
    fn most_blocks<S: Kind>(&mut self, w: &[S], edition: Edition, ends: &[u32]) {
        let most = cegridom::most_ends(w.len());
        assert!(ends.len() <= most, "{w:?} {ends:?}");
        let mut lent = vec![GUARD; most];
        let got = cegridom::path_of_split_into(w, edition, ends, &mut lent);
        let outcome = reference::judge_split_call(w, edition.number(), ends);
        self.agree(got, said(outcome, only));
    }

    fn judges<S: Kind>(
        &mut self,
        known: &Known<S>,
        edition: Edition,
        ends: &[u32],
        numbers: &[u32],
    ) {
        let (w, number) = (known.word, edition.number());
        let outcome = reference::judge_split_call(w, number, ends);
        self.agree(cegridom::judge_split(w, edition, ends), said(outcome, only));
        let outcome = reference::judge_path_call(w, number, &known.runs, &encoded(numbers, ends));
        let got = cegridom::judge_path(w, edition, &as_steps(numbers, ends));
        self.agree(got, said(outcome, only));
    }

    fn plans(&mut self, n: usize, ends: &[u32]) {
        let written = |places| reference::write_call(n as u32, ends, places);
        let (outcome, line) = written(MANY);
        let got = cegridom::write_plan(n, ends);
        self.agree(got, said(outcome, |_| line.clone()));
        for places in around(line.len(), n) {
            let mut lent = vec![b'.'; places];
            let (outcome, front) = written(places);
            let got = cegridom::write_plan_into(n, ends, &mut lent);
            self.agree(got, said(outcome, only));
            assert_eq!(lent, table(&front, places, b'.'));
        }
        let (outcome, back) = reference::read_call(&line, MANY);
        let expected = said(outcome, |v| cegridom::Plan {
            n: v[0] as usize,
            ends: back.clone(),
        });
        self.agree(cegridom::read_plan(&line), expected);
        for places in around(back.len(), n) {
            let mut lent = vec![GUARD; places];
            let (outcome, front) = reference::read_call(&line, places);
            let got = cegridom::read_plan_into(&line, &mut lent);
            let expected = said(outcome, |v| (v[0] as usize, v[1] as usize));
            self.agree(got, expected);
            assert_eq!(lent, table(&front, places, GUARD));
        }
    }
}

/// Words of bytes, the same numbers as 16-bit symbols, and codes of which both bytes count.
fn in_both_kinds(words: &[Vec<u8>], mut bytes: impl FnMut(&[u8]), mut codes: impl FnMut(&[u16])) {
    for (turn, w) in words.iter().enumerate() {
        bytes(w);
        codes(&wide(w));
        codes(&spelt(w, SPELLINGS[turn % SPELLINGS.len()]));
    }
}

/// The functions of the crate against the same answers.
#[test]
fn wrappers() {
    let mut words: Vec<Vec<u8>> = structured(200);
    words.extend([LINE_LIMIT, LINE_LIMIT + 1, LIMIT + 1].map(|n| vec![b'a'; n]));
    words.extend([256, 257].map(|unit| one_and_zeros(unit).repeat(2)));
    every_word(2, 7, |w| words.push(w.to_vec()));
    let (mut of_bytes, mut of_codes) = (Wrappers::default(), Wrappers::default());
    in_both_kinds(
        &words,
        |w| wrapped(&mut of_bytes, w),
        |w| wrapped(&mut of_codes, w),
    );
    let made = of_bytes.made + of_codes.made;
    println!("the wrappers: {made} comparisons");
}

fn wrapped<S: Kind>(wrappers: &mut Wrappers, w: &[S]) {
    let known = Known::of(w);
    let n = w.len() as u32;
    wrappers.runs(&known);
    for edition in [Edition::One, Edition::Two] {
        let inside = [(1, n), (2, n), (n, n), (1, n / 2), (n / 3 + 1, n / 2)];
        let outside = [(0, n), (2, n + 1), (n, 1), (1, u32::MAX), (u32::MAX, 1)];
        for (first, last) in inside.into_iter().chain(outside) {
            wrappers.part(w, edition, first, last);
        }
        for position in [0, 1, n / 2, n, n + 1] {
            wrappers.nodes(&known, edition, position);
        }
        for choice in [Choice::Fewest, Choice::Most] {
            let ends = wrappers.best_split(&known, edition, choice);
            let numbers = wrappers.path_of_split(&known, edition, &ends);
            for judging in [Edition::One, Edition::Two] {
                wrappers.judges(&known, judging, &ends, &numbers);
                wrappers.write_page(&known, judging, &ends);
            }
            wrappers.plans(w.len(), &ends);
        }
    }
}

/// The functions of the crate on squares.
#[test]
fn wrappers_on_squares() {
    let mut numbers = Numbers(1_442_695_040);
    let mut words = structured(200);
    for longest in [1, 5, 30] {
        for symbols in [2, 256] {
            words.push(numbers.squares(200, longest, symbols).0);
        }
    }
    every_word(2, 10, |w| words.push(w.to_vec()));
    let (mut of_bytes, mut of_codes) = (Wrappers::default(), Wrappers::default());
    in_both_kinds(
        &words,
        |w| of_bytes.square_promises(w),
        |w| of_codes.square_promises(w),
    );
    words.extend([PLAIN - 1, PLAIN, LIMIT + 1].map(|n| vec![b'a'; n]));
    in_both_kinds(
        &words,
        |w| wrapped_squares(&mut of_bytes, w),
        |w| wrapped_squares(&mut of_codes, w),
    );
    let made = of_bytes.made + of_codes.made;
    println!("the wrappers on squares: {made} comparisons");
}

fn wrapped_squares<S: Kind>(wrappers: &mut Wrappers, w: &[S]) {
    let known = Squared::of(w);
    let n = w.len() as u32;
    for choice in [Choice::Fewest, Choice::Most] {
        wrappers.best_squares(&known, choice);
    }
    for ends in [&[][..], &[0], &[n], &[2, n], &[n, n], &[n + 1]] {
        wrappers.judge_squares(w, ends);
    }
}

/// The functions of the crate on two words.
#[test]
fn wrappers_on_two_words() {
    let mut wrappers = Wrappers::default();
    let mut words = structured(60);
    words.push([0x80, 0xff, 0xff].repeat(5));
    every_word(2, 6, |w| words.push(w.to_vec()));
    wrapped_pairs(&mut wrappers, &words);
    words.truncate(50);
    for spelling in [|symbol: u8| symbol.into(), SPELLINGS[0]] {
        let words: Vec<Vec<u16>> = words.iter().map(|w| spelt(w, spelling)).collect();
        wrapped_pairs(&mut wrappers, &words);
    }
    println!("the wrappers on two words: {} comparisons", wrappers.made);
}

fn wrapped_pairs<S: Kind>(wrappers: &mut Wrappers, words: &[Vec<S>]) {
    let mut both = |a: &Known<S>, b: &Known<S>| {
        for edition in [Edition::One, Edition::Two] {
            wrappers.two(a, b, edition);
            wrappers.promises(a.word, b.word, edition);
        }
    };
    let known = all_known(words);
    for a in &known {
        for b in &known {
            both(a, b);
        }
    }
    // Parts of one word, of which only the address tells the equal ones apart.
    for w in &words[..10] {
        for length in 0..20.min(w.len()) {
            let (front, back) = (&w[..length], &w[w.len() - length..]);
            both(&Known::of(front), &Known::of(back));
            both(&Known::of(w), &Known::of(front));
            both(&Known::of(back), &Known::of(w));
        }
    }
    let symbol = words[0][0];
    let words = [PLAIN, LIMIT + 1, 2, 1, 0].map(|n| vec![symbol; n]);
    let known = all_known(&words);
    for a in &known {
        for b in &known {
            both(a, b);
        }
    }
}

/// A word with many runs for its length: of a series in which each begins with the one before it
/// and goes on with an earlier one, by a recurrence like that of the Fibonacci words.
fn run_rich(n: usize) -> Vec<u8> {
    let mut lengths = vec![19, 13, 24];
    let mut word = b"abbababbabaababbababbaba".to_vec();
    while word.len() < n {
        let k = lengths.len();
        let earlier = lengths[if k % 3 == 0 { k - 2 } else { k - 4 }];
        word.extend_from_within(..earlier);
        lengths.push(word.len());
    }
    word.truncate(n);
    word
}

/// Words with many runs for their length, and how many: one that has n - 1, the most that any may
/// have; one of 14 symbols, than which none over two symbols has more; and words of a series.
fn rich_in_runs() -> Vec<(Vec<u8>, usize)> {
    let mut words = vec![(b"aa".to_vec(), 1), (b"aabaabbaabaabb".to_vec(), 10)];
    let series = [
        (37, 28),
        (56, 47),
        (125, 110),
        (505, 467),
        (1024, 951),
        (PLAIN, 3851),
    ];
    words.extend(series.map(|(n, runs)| (run_rich(n), runs)));
    words
}

/// In tables of the sizes that are said to suffice, no call gives 7: a word has fewer runs than
/// symbols, and a split at most half as many blocks.
#[test]
fn sizes_that_suffice() {
    let mut checker = Checker::default();
    let mut wrappers = Wrappers::default();
    let mut look = |w: &[u8]| {
        let (n, known, squared) = (w.len(), Known::of(w), Squared::of(w));
        assert!(n == 0 || known.runs.len() < n, "{w:?}");
        checker.runs(&known, RUN_PLACES * n);
        let apart = if n < LONG { 1 } else { n / 3 };
        let positions: Vec<u32> = (1..=n as u32).rev().step_by(apart).collect();
        for edition in EDITIONS {
            for &position in &positions {
                checker.nodes(&known, edition, position, n);
            }
        }
        wrappers.most_runs(&known, &positions);
        wrappers.most_ends(&known, &squared);
    };
    for (w, runs) in rich_in_runs() {
        assert_eq!(reference::runs(&w).len(), runs);
        look(&w);
    }
    every_word(2, 12, &mut look);
    every_word(3, 8, &mut look);
    for w in [PLAIN, PLAIN - 1].map(|n| vec![b'a'; n]) {
        look(&w);
    }
    let mut every_split = |w: &[u8]| {
        for edition in [Edition::One, Edition::Two] {
            let rule = Rule::of(edition.number()).unwrap();
            for ends in reference::plain_splits(w, rule) {
                wrappers.most_blocks(w, edition, &ends);
            }
        }
        for ends in reference::plain_squares(w) {
            wrappers.most_blocks(w, Edition::One, &ends);
        }
    };
    every_word(2, 12, &mut every_split);
    every_word(3, 8, &mut every_split);
    assert_eq!(checker.met[7], 0);
    let made = checker.made + wrappers.made;
    println!("sizes that suffice: {made} comparisons");
}
