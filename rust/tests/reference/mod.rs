//! What every call answers, written from the definitions alone and apart from the library.
//!
//! The functions named `plain_..` are the definitions themselves, by trying everything; they serve
//! short words. The others are faster and of another kind than the library's own (borders, or how far
//! each distance reaches, instead of the recurrence of periods; runs by period instead of by first
//! position; roots by all candidates at once instead of by two; each boundary looking back instead of
//! offering forward; squares by their halves, without periods); the test holds them to the plain ones
//! on every short word. They serve words of up to [`PLAIN`] symbols. Those in `long` serve longer
//! ones, and are held to these.

pub mod long;

pub const LIMIT: usize = 70_000;
/// Up to so many symbols a plan line has four digits a number, above six.
pub const LINE_LIMIT: usize = 4096;
/// The longest words that are not left to `long`, for the time's sake.
pub const PLAIN: usize = 4096;
pub const NONE: u32 = u32::MAX;
/// What unit memory holds: no block has a longer unit, in either edition.
pub const UNIT_MEMORY: usize = 256;

/// An answer with its values, or a refusal with its number and index.
#[derive(Clone, Debug, PartialEq, Eq)]
pub enum Outcome {
    Accepted(Vec<u32>),
    Refused(u32, u32),
}

use Outcome::{Accepted, Refused};

fn refused(number: u32) -> Outcome {
    Refused(number, 0)
}

// ---- symbols

/// A symbol: a number without a sign. A page shows so many of a unit, in so many digits each.
pub trait Code: Copy + Ord + Into<u64> + std::fmt::Debug + std::fmt::LowerHex {
    const SHOWN: usize;
    const DIGITS: usize;
}

impl Code for u8 {
    const SHOWN: usize = 9;
    const DIGITS: usize = 2;
}

impl Code for u16 {
    const SHOWN: usize = 4;
    const DIGITS: usize = 4;
}

// ---- editions

pub const EDITIONS: [u32; 2] = [1, 2];

/// The times that a block of an edition is at least as long as its unit.
pub fn turns(edition: u32) -> Option<usize> {
    match edition {
        1 => Some(2),
        2 => Some(3),
        _ => None,
    }
}

/// What a block is: a part of at least so many turns of its unit, which a memory of so many symbols
/// holds.
#[derive(Clone, Copy)]
pub struct Rule {
    pub turns: usize,
    pub memory: usize,
}

impl Rule {
    pub fn of(edition: u32) -> Option<Rule> {
        turns(edition).map(|turns| Rule {
            turns,
            memory: UNIT_MEMORY,
        })
    }

    fn is_block(self, length: usize, unit: usize) -> bool {
        unit <= self.memory && self.turns * unit <= length
    }
}

/// The rule of an edition, or the two refusals that come first in each call that is told one.
fn rule_for<C: Code>(w: &[C], edition: u32) -> Result<Rule, Outcome> {
    if w.len() > LIMIT {
        return Err(refused(1));
    }
    Rule::of(edition).ok_or(refused(12))
}

// ---- periods

fn is_period<C: Code>(part: &[C], p: usize) -> bool {
    1 <= p && p <= part.len() && (0..part.len() - p).all(|i| part[i] == part[i + p])
}

pub fn plain_unit<C: Code>(part: &[C]) -> usize {
    (1..=part.len())
        .find(|&p| is_period(part, p))
        .expect("the length is a period")
}

/// The longest proper border of each prefix of a part.
fn borders<C: Code>(part: &[C]) -> Vec<usize> {
    let mut border = vec![0; part.len()];
    for i in 1..part.len() {
        let mut b = border[i - 1];
        while b > 0 && part[i] != part[b] {
            b = border[b - 1];
        }
        border[i] = if part[i] == part[b] { b + 1 } else { 0 };
    }
    border
}

/// The length without the longest border is the smallest period.
pub fn unit<C: Code>(part: &[C]) -> usize {
    part.len() - borders(part)[part.len() - 1]
}

/// For each distance from 0 on, how many symbols from there on are those from the start on.
fn agreeing<C: Code>(part: &[C]) -> Vec<usize> {
    let n = part.len();
    let mut agree = vec![n; n + 1];
    // The stretch furthest to the right that is known to agree with the start.
    let (mut from, mut to) = (0, 0);
    for p in 1..=n {
        let known = if p < to {
            agree[p - from].min(to - p)
        } else {
            0
        };
        let pairs = part[known..].iter().zip(&part[p + known..]);
        agree[p] = known + pairs.take_while(|(a, b)| a == b).count();
        if p + agree[p] > to {
            (from, to) = (p, p + agree[p]);
        }
    }
    agree
}

/// The unit of each leading part but the empty one. A distance is a period of those that are at least
/// as long, as far as no two symbols so far apart differ; the first to reach one is its unit.
pub fn units<C: Code>(part: &[C]) -> Vec<u32> {
    let agree = agreeing(part);
    let mut units = Vec::new();
    for (p, agree) in agree.into_iter().enumerate().skip(1) {
        units.resize((p + agree).max(units.len()), p as u32);
    }
    units
}

pub fn plain_is_block<C: Code>(part: &[C], rule: Rule) -> bool {
    let unit = plain_unit(part);
    part.len() >= rule.turns * unit && unit <= rule.memory
}

// ---- runs

/// First, last, unit, root.
pub type Run = (usize, usize, usize, usize);

/// The numbers of a run in a table.
pub const RUN_PLACES: usize = 4;

/// Whether a part comes before another of its length in order of symbol code: the first symbols that
/// differ decide.
fn plain_before<C: Code>(part: &[C], other: &[C]) -> bool {
    let mut pairs = part.iter().zip(other);
    pairs.find(|(a, b)| a != b).is_some_and(|(a, b)| a < b)
}

/// The one position from first to first + p - 1 where the p symbols starting there come before those at
/// every other.
pub fn plain_root<C: Code>(w: &[C], first: usize, p: usize) -> usize {
    let positions = first..first + p;
    let symbols_at = |q: usize| &w[q - 1..q - 1 + p];
    let comes_first = |&q: &usize| {
        let mut others = positions.clone().filter(|&other| other != q);
        others.all(|other| plain_before(symbols_at(q), symbols_at(other)))
    };
    let found: Vec<usize> = positions.clone().filter(comes_first).collect();
    assert_eq!(found.len(), 1, "a run has one root");
    found[0]
}

/// The same: of all positions those are kept whose next symbol is least, until one is left.
pub fn root<C: Code>(w: &[C], first: usize, p: usize) -> usize {
    let mut left: Vec<usize> = (first..first + p).collect();
    let mut compared = 0;
    while left.len() > 1 {
        assert!(compared < p, "a run has one root");
        let symbol = |q: usize| w[q - 1 + compared];
        let least = left.iter().map(|&q| symbol(q)).min();
        left.retain(|&q| Some(symbol(q)) == least);
        compared += 1;
    }
    left[0]
}

pub fn plain_runs<C: Code>(w: &[C]) -> Vec<Run> {
    let n = w.len();
    let at = |position: usize| w[position - 1];
    let mut runs = Vec::new();
    for first in 1..=n {
        for last in first..=n {
            let p = plain_unit(&w[first - 1..last]);
            // A run has two turns in every edition, of a unit of any length.
            if last + 1 - first >= 2 * p
                && (first == 1 || at(first - 1) != at(first + p - 1))
                && (last == n || at(last + 1) != at(last + 1 - p))
            {
                runs.push((first, last, p, plain_root(w, first, p)));
            }
        }
    }
    runs.sort_by_key(|&(first, _, p, _)| (first, p));
    runs
}

/// For each period, the stretches of symbols equal to the one a period on; those of at least one
/// period are maximal with it, and are runs if it is their unit.
pub fn runs<C: Code>(w: &[C]) -> Vec<Run> {
    let n = w.len();
    let mut runs = Vec::new();
    for p in 1..=n / 2 {
        let mut from = 0;
        while from + p < n {
            let mut to = from;
            while to + p < n && w[to] == w[to + p] {
                to += 1;
            }
            if to - from >= p && unit(&w[from..to + p]) == p {
                runs.push((from + 1, to + p, p, root(w, from + 1, p)));
            }
            from = to + 1;
        }
    }
    runs.sort_by_key(|&(first, _, p, _)| (first, p));
    runs
}

/// The numbers of the runs with a white node at a position.
pub fn white(runs: &[Run], rule: Rule, position: usize) -> Vec<u32> {
    let mut numbers = Vec::new();
    for (i, &(first, last, p, _)) in runs.iter().enumerate() {
        // A run whose unit memory does not hold has none.
        if p <= rule.memory && (first + rule.turns * p - 1..=last).contains(&position) {
            numbers.push(i as u32 + 1);
        }
    }
    numbers
}

// ---- squares

/// Some half that is not empty, twice over, is the part.
pub fn plain_is_square<C: Code>(part: &[C]) -> bool {
    (1..=part.len()).any(|half| part == part[..half].repeat(2))
}

pub fn is_square<C: Code>(part: &[C]) -> bool {
    let (left, right) = part.split_at(part.len() / 2);
    !part.is_empty() && left == right
}

/// No word has the part as its power with an exponent of 2 or more.
pub fn plain_is_primitive<C: Code>(part: &[C]) -> bool {
    let n = part.len();
    (1..n).all(|root| part != part[..root].repeat(n / root))
}

/// The halves of the squares with these ends.
pub fn halves<'a, C: Code>(w: &'a [C], ends: &'a [u32]) -> impl Iterator<Item = &'a [C]> {
    let befores = [0].iter().chain(ends);
    befores.zip(ends).map(|(&before, &end)| {
        let square = &w[before as usize..end as usize];
        &square[..square.len() / 2]
    })
}

// ---- splits

/// Every split of a word into parts that fit, by its ends.
fn plain_joined<C: Code>(w: &[C], fits: &dyn Fn(&[C]) -> bool) -> Vec<Vec<u32>> {
    type Fits<'f, C> = &'f dyn Fn(&[C]) -> bool;
    fn go<C: Code>(
        w: &[C],
        fits: Fits<C>,
        from: usize,
        ends: &mut Vec<u32>,
        all: &mut Vec<Vec<u32>>,
    ) {
        if from == w.len() {
            all.push(ends.clone());
        }
        for end in from + 1..=w.len() {
            if fits(&w[from..end]) {
                ends.push(end as u32);
                go(w, fits, end, ends, all);
                ends.pop();
            }
        }
    }
    let mut all = Vec::new();
    go(w, fits, 0, &mut Vec::new(), &mut all);
    all
}

pub fn plain_splits<C: Code>(w: &[C], rule: Rule) -> Vec<Vec<u32>> {
    plain_joined(w, &|part| plain_is_block(part, rule))
}

pub fn plain_squares<C: Code>(w: &[C]) -> Vec<Vec<u32>> {
    plain_joined(w, &plain_is_square)
}

/// The lengths of the blocks, the last one first.
fn lengths_from_end(ends: &[u32]) -> Vec<u32> {
    let mut before = 0;
    let mut lengths: Vec<u32> = ends
        .iter()
        .map(|&e| {
            let length = e - before;
            before = e;
            length
        })
        .collect();
    lengths.reverse();
    lengths
}

/// The best size of each prefix and the best split of the whole.
pub type Best = (Vec<u32>, Option<Vec<u32>>);

/// By looking at every split.
pub fn plain_best<C: Code>(w: &[C], choice: u32, splits: impl Fn(&[C]) -> Vec<Vec<u32>>) -> Best {
    let best_of = |splits: &[Vec<u32>]| {
        let sizes = splits.iter().map(|s| s.len() as u32);
        if choice == 1 {
            sizes.min()
        } else {
            sizes.max()
        }
        .unwrap_or(NONE)
    };
    let sizes: Vec<u32> = (0..=w.len()).map(|m| best_of(&splits(&w[..m]))).collect();
    let ends = splits(w)
        .into_iter()
        .filter(|s| s.len() as u32 == sizes[w.len()])
        .max_by_key(|s| lengths_from_end(s));
    (sizes, ends)
}

/// The sizes of one choice, and the boundary before each.
struct Sizes {
    choice: u32,
    sizes: Vec<u32>,
    back: Vec<usize>,
}

impl Sizes {
    fn new(n: usize, choice: u32) -> Sizes {
        let mut sizes = vec![NONE; n + 1];
        sizes[0] = 0;
        Sizes {
            choice,
            sizes,
            back: vec![0; n + 1],
        }
    }

    fn reached(&self, j: usize) -> bool {
        self.sizes[j] != NONE
    }

    /// Takes the part between two boundaries, which may stand in a split, if it serves.
    fn look_back(&mut self, j: usize, m: usize) {
        if !self.reached(j) {
            return;
        }
        let size = self.sizes[j] + 1;
        let better = if self.choice == 1 {
            size < self.sizes[m]
        } else {
            size > self.sizes[m]
        };
        if self.sizes[m] == NONE || better {
            self.sizes[m] = size;
            self.back[m] = j;
        }
    }

    fn best(self) -> Best {
        let n = self.back.len() - 1;
        if self.sizes[n] == NONE {
            return (self.sizes, None);
        }
        let mut ends = Vec::new();
        let mut m = n;
        while m > 0 {
            ends.push(m as u32);
            m = self.back[m];
        }
        ends.reverse();
        (self.sizes, Some(ends))
    }
}

/// The same for each edition and choice, with a memory of so many symbols: each boundary looks back at
/// the blocks that end there, the longest first. The units, which take most of the time, are found
/// once.
pub fn bests<C: Code>(w: &[C], memory: usize) -> [[Best; 2]; 2] {
    let n = w.len();
    let mut all = EDITIONS.map(|edition| {
        let turns = turns(edition).expect("both are editions");
        let rule = Rule { turns, memory };
        (rule, [1, 2].map(|choice| Sizes::new(n, choice)))
    });
    for m in 1..=n {
        let reversed: Vec<C> = w[..m].iter().rev().copied().collect();
        let border = borders(&reversed);
        for j in 0..m {
            let length = m - j;
            let unit = length - border[length - 1];
            for (rule, both) in &mut all {
                if rule.is_block(length, unit) {
                    both.iter_mut().for_each(|sizes| sizes.look_back(j, m));
                }
            }
        }
    }
    all.map(|(_, both)| both.map(Sizes::best))
}

/// The same for squares and each choice. The two choices reach the same boundaries.
pub fn best_squares<C: Code>(w: &[C]) -> [Best; 2] {
    let n = w.len();
    let mut both = [1, 2].map(|choice| Sizes::new(n, choice));
    for m in 1..=n {
        for j in 0..m {
            if both[0].reached(j) && is_square(&w[j..m]) {
                both.iter_mut().for_each(|sizes| sizes.look_back(j, m));
            }
        }
    }
    both.map(Sizes::best)
}

// ---- the graph

/// The encodings of all paths from joint 0 to a joint, by walking the graph's edges.
pub fn plain_paths(runs: &[Run], rule: Rule, n: usize, target: usize) -> Vec<Vec<u32>> {
    #[derive(Clone, Copy)]
    enum Node {
        Black(usize),
        White(usize, usize),
    }
    struct Graph<'r> {
        runs: &'r [Run],
        rule: Rule,
        n: usize,
    }
    impl Graph<'_> {
        fn is_white(&self, (first, last, unit, _): Run, position: usize) -> bool {
            let Rule { turns, memory } = self.rule;
            unit <= memory && first + turns * unit <= position + 1 && position <= last
        }

        fn go(&self, at: Node, target: usize, code: &[u32], all: &mut Vec<Vec<u32>>) {
            match at {
                Node::Black(j) => {
                    if j == target {
                        all.push(code.to_vec());
                    }
                    for (i, &run) in self.runs.iter().enumerate() {
                        let x = j + self.rule.turns * run.2;
                        if x <= self.n && self.is_white(run, x) {
                            self.go(Node::White(i, x), target, code, all);
                        }
                    }
                }
                Node::White(i, x) => {
                    if self.is_white(self.runs[i], x + 1) {
                        self.go(Node::White(i, x + 1), target, code, all);
                    }
                    let mut longer = code.to_vec();
                    longer.extend([i as u32 + 1, x as u32]);
                    self.go(Node::Black(x), target, &longer, all);
                }
            }
        }
    }
    let mut all = Vec::new();
    Graph { runs, rule, n }.go(Node::Black(0), target, &[], &mut all);
    all
}

// ---- the calls: the outcome, and what an accepted answer writes at the front of its table

pub fn part_call<C: Code>(
    w: &[C],
    edition: u32,
    first: u32,
    last: u32,
    places: usize,
) -> (Outcome, Vec<u32>) {
    let rule = match rule_for(w, edition) {
        Ok(rule) => rule,
        Err(outcome) => return (outcome, vec![]),
    };
    if first < 1 || last as usize > w.len() || first > last {
        return (refused(6), vec![]);
    }
    let part = &w[first as usize - 1..last as usize];
    if places < part.len() {
        return (refused(7), vec![]);
    }
    let units = units(part);
    let (length, unit) = (part.len(), units[part.len() - 1] as usize);
    let block = rule.is_block(length, unit) as usize;
    let values = [unit, length / unit, length % unit, block];
    (Accepted(values.map(|v| v as u32).to_vec()), units)
}

pub fn runs_call<C: Code>(w: &[C], runs: &[Run], places: usize) -> (Outcome, Vec<u32>) {
    if w.len() > LIMIT {
        return (refused(1), vec![]);
    }
    if places < RUN_PLACES * runs.len() {
        return (refused(7), vec![]);
    }
    let flat = runs
        .iter()
        .flat_map(|&(first, last, p, root)| [first, last, p, root])
        .map(|number| number as u32)
        .collect();
    (Accepted(vec![runs.len() as u32]), flat)
}

pub fn nodes_call<C: Code>(
    w: &[C],
    edition: u32,
    runs: &[Run],
    position: u32,
    places: usize,
) -> (Outcome, Vec<u32>) {
    let rule = match rule_for(w, edition) {
        Ok(rule) => rule,
        Err(outcome) => return (outcome, vec![]),
    };
    if position < 1 || position as usize > w.len() {
        return (refused(6), vec![]);
    }
    let numbers = white(runs, rule, position as usize);
    if places < numbers.len() {
        return (refused(7), vec![]);
    }
    (Accepted(vec![numbers.len() as u32]), numbers)
}

/// The outcome, the ends, and the front of the working table where the call changes it.
type BestAnswer = (Outcome, Vec<u32>, Vec<u32>);

pub fn best_call<C: Code>(
    w: &[C],
    edition: u32,
    choice: u32,
    best: &Best,
    places: usize,
    work_places: usize,
) -> BestAnswer {
    match rule_for(w, edition) {
        Ok(_) => hand_out(w.len(), choice, best, places, work_places),
        Err(outcome) => (outcome, vec![], vec![]),
    }
}

pub fn best_squares_call<C: Code>(
    w: &[C],
    choice: u32,
    best: &Best,
    places: usize,
    work_places: usize,
) -> BestAnswer {
    if w.len() > LIMIT {
        return (refused(1), vec![], vec![]);
    }
    hand_out(w.len(), choice, best, places, work_places)
}

/// From refusal 8 on, for blocks and for squares.
fn hand_out(n: usize, choice: u32, best: &Best, places: usize, work_places: usize) -> BestAnswer {
    if choice != 1 && choice != 2 {
        return (refused(8), vec![], vec![]);
    }
    if work_places < 4 * (n + 1) {
        return (refused(9), vec![], vec![]);
    }
    let mut work = best.0.clone();
    work.resize(4 * (n + 1), 0);
    match &best.1 {
        None => (refused(2), vec![], work),
        Some(ends) if places < ends.len() => (refused(7), vec![], work),
        Some(ends) => (Accepted(vec![ends.len() as u32]), ends.clone(), work),
    }
}

/// Which of two words has fewer blocks in its fewest split: the outcome, and the front of the working
/// table where the call changes it.
pub fn which_call<C: Code>(
    words: [&[C]; 2],
    edition: u32,
    fewest: [&Best; 2],
    work_places: usize,
) -> (Outcome, Vec<u32>) {
    let longer = words[0].len().max(words[1].len());
    if longer > LIMIT {
        return (refused(1), vec![]);
    }
    if turns(edition).is_none() {
        return (refused(12), vec![]);
    }
    let needed = 4 * (longer + 1);
    if work_places < needed {
        return (refused(9), vec![]);
    }
    let sizes = fewest.map(|(_, ends)| ends.as_ref().map(Vec::len));
    let outcome = match sizes {
        [None, None] => refused(2),
        [Some(_), None] => Accepted(vec![1]),
        [None, Some(_)] => Accepted(vec![2]),
        [Some(first), Some(second)] if second < first => Accepted(vec![2]),
        [Some(_), Some(_)] => Accepted(vec![1]),
    };
    (outcome, vec![0; needed])
}

/// The same with the first block of that word: which one, and the block's length. It refuses nothing;
/// both are 0 where the other call refuses.
pub fn first_block_call<C: Code>(
    words: [&[C]; 2],
    edition: u32,
    fewest: [&Best; 2],
    work_places: usize,
) -> (Outcome, Vec<u32>) {
    let (outcome, work) = which_call(words, edition, fewest, work_places);
    let Accepted(which) = outcome else {
        return (Accepted(vec![0, 0]), work);
    };
    let ends = fewest[which[0] as usize - 1].1.as_ref();
    let block = ends.expect("it has a split").first().unwrap_or(&0);
    (Accepted(vec![which[0], *block]), work)
}

/// The refusals 3, 4 and 5 of ends, with a test of the piece between two boundaries.
fn verdict(n: usize, ends: &[u32], fits: impl Fn(usize, usize, usize) -> bool) -> Option<Outcome> {
    let mut before = 0;
    for (k, &end) in ends.iter().enumerate() {
        let end = end as usize;
        let index = k as u32 + 1;
        if end <= before || end > n {
            return Some(Refused(3, index));
        }
        if !fits(k, before, end) {
            return Some(Refused(4, index));
        }
        before = end;
    }
    (before != n).then(|| refused(5))
}

pub fn judge_split_call<C: Code>(w: &[C], edition: u32, ends: &[u32]) -> Outcome {
    let rule = match rule_for(w, edition) {
        Ok(rule) => rule,
        Err(outcome) => return outcome,
    };
    verdict(w.len(), ends, |_, i, j| {
        rule.is_block(j - i, unit(&w[i..j]))
    })
    .unwrap_or_else(|| Accepted(vec![ends.len() as u32]))
}

pub fn judge_squares_call<C: Code>(w: &[C], ends: &[u32]) -> Outcome {
    if w.len() > LIMIT {
        return refused(1);
    }
    verdict(w.len(), ends, |_, i, j| is_square(&w[i..j]))
        .unwrap_or_else(|| Accepted(vec![ends.len() as u32]))
}

pub fn path_call<C: Code>(
    w: &[C],
    edition: u32,
    runs: &[Run],
    ends: &[u32],
    places: usize,
) -> (Outcome, Vec<u32>) {
    let judged = judge_split_call(w, edition, ends);
    if let Refused(..) = judged {
        return (judged, vec![]);
    }
    if places < ends.len() {
        return (refused(7), vec![]);
    }
    let numbers = match w.len() {
        0..=PLAIN => run_numbers(w, runs, ends),
        _ => long::run_numbers(w, runs, ends),
    };
    (judged, numbers)
}

/// Of each block of a split the number of the one run that encloses it and has its unit.
pub fn run_numbers<C: Code>(w: &[C], runs: &[Run], ends: &[u32]) -> Vec<u32> {
    let mut before = 0;
    let mut numbers = Vec::new();
    for &end in ends {
        let end = end as usize;
        let p = unit(&w[before..end]);
        let mut enclosing = runs
            .iter()
            .enumerate()
            .filter(|(_, &(a, b, q, _))| a <= before + 1 && end <= b && q == p);
        let (i, _) = enclosing.next().expect("a block lies in a run");
        assert!(enclosing.next().is_none(), "only one run encloses a block");
        numbers.push(i as u32 + 1);
        before = end;
    }
    numbers
}

/// A line for each block: number, first, last, unit, turns, rest and run, six characters each, and
/// eighteen for the first symbols of the unit.
pub fn page_call<C: Code>(
    w: &[C],
    edition: u32,
    runs: &[Run],
    ends: &[u32],
    room: usize,
) -> (Outcome, Vec<u8>) {
    let (judged, numbers) = path_call(w, edition, runs, ends, ends.len());
    if let Refused(..) = judged {
        return (judged, vec![]);
    }
    let mut text = String::new();
    let mut before = 0;
    for (k, (&end, run)) in ends.iter().zip(numbers).enumerate() {
        let block = &w[before..end as usize];
        let (length, unit) = (block.len(), unit(block));
        let (number, first) = (k + 1, before + 1);
        let (turns, rest) = (length / unit, length % unit);
        let shown = &block[..unit.min(C::SHOWN)];
        let digits = |symbol| format!("{symbol:0width$x}", width = C::DIGITS);
        let shown: String = shown.iter().map(digits).collect();
        text += &format!("{number:>6}{first:>6}{end:>6}{unit:>6}{turns:>6}{rest:>6}{run:>6}");
        text += &format!("{shown:<18}\n");
        before = end as usize;
    }
    if room < text.len() {
        return (refused(7), vec![]);
    }
    (Accepted(vec![text.len() as u32]), text.into_bytes())
}

pub fn judge_path_call<C: Code>(w: &[C], edition: u32, runs: &[Run], numbers: &[u32]) -> Outcome {
    let rule = match rule_for(w, edition) {
        Ok(rule) => rule,
        Err(outcome) => return outcome,
    };
    if numbers.len() % 2 == 1 {
        return refused(10);
    }
    let ends: Vec<u32> = numbers.iter().skip(1).step_by(2).copied().collect();
    verdict(w.len(), &ends, |k, i, j| {
        let number = numbers[2 * k] as usize;
        if number == 0 || number > runs.len() {
            return false;
        }
        let (first, last, p, _) = runs[number - 1];
        first <= i + 1 && j <= last && j - i >= rule.turns * p && p <= rule.memory
    })
    .unwrap_or_else(|| Accepted(vec![ends.len() as u32]))
}

// ---- plan lines

/// A kind of plan line: the five bytes that it begins with, the digits of a number, and the lengths
/// that it is for.
struct Line {
    begins: &'static str,
    digits: usize,
    above: Option<usize>,
    limit: usize,
}

const LINES: [Line; 2] = [
    Line {
        begins: "plan,",
        digits: 4,
        above: None,
        limit: LINE_LIMIT,
    },
    Line {
        begins: "long,",
        digits: 6,
        above: Some(LINE_LIMIT),
        limit: LIMIT,
    },
];

/// The refusals that writing and reading a plan share.
fn implausible(n: u32, ends: &[u32], limit: usize) -> Option<Outcome> {
    if n as usize > limit {
        return Some(refused(1));
    }
    verdict(n as usize, ends, |_, _, _| true)
}

impl Line {
    fn text(&self, n: u32, ends: &[u32]) -> Vec<u8> {
        let number = |number: u32| format!("{number:0digits$}", digits = self.digits);
        let numbers = [n, ends.len() as u32]
            .into_iter()
            .chain(ends.iter().copied());
        let numbers: Vec<String> = numbers.map(number).collect();
        format!("{}{}\n", self.begins, numbers.join(",")).into_bytes()
    }

    /// n and the ends, if the bytes have this form and an n that a line of it may have.
    fn parse(&self, s: &[u8]) -> Option<(u32, Vec<u32>)> {
        let text = s.strip_prefix(self.begins.as_bytes())?;
        let text = text.strip_suffix(b"\n")?;
        let numbers = text
            .split(|&b| b == b',')
            .map(|f| {
                (f.len() == self.digits && f.iter().all(u8::is_ascii_digit))
                    .then(|| std::str::from_utf8(f).unwrap().parse().unwrap())
            })
            .collect::<Option<Vec<u32>>>()?;
        let (&n, rest) = numbers.split_first()?;
        let (&count, ends) = rest.split_first()?;
        let needless = self.above.is_some_and(|above| n as usize <= above);
        (ends.len() == count as usize && !needless).then(|| (n, ends.to_vec()))
    }
}

/// The line of n and the ends; of numbers that are too great, one of the same form with more digits.
pub fn line(n: u32, ends: &[u32]) -> Vec<u8> {
    LINES[(n as usize > LINE_LIMIT) as usize].text(n, ends)
}

/// The same in the other form, which is no line or refused.
pub fn other_line(n: u32, ends: &[u32]) -> Vec<u8> {
    LINES[(n as usize <= LINE_LIMIT) as usize].text(n, ends)
}

pub fn write_call(n: u32, ends: &[u32], places: usize) -> (Outcome, Vec<u8>) {
    if let Some(outcome) = implausible(n, ends, LIMIT) {
        return (outcome, vec![]);
    }
    let bytes = line(n, ends);
    if places < bytes.len() {
        return (refused(7), vec![]);
    }
    (Accepted(vec![bytes.len() as u32]), bytes)
}

pub fn read_call(s: &[u8], places: usize) -> (Outcome, Vec<u32>) {
    let mut read = LINES
        .iter()
        .filter_map(|kind| Some((kind.limit, kind.parse(s)?)));
    let Some((limit, (n, ends))) = read.next() else {
        return (refused(11), vec![]);
    };
    if let Some(outcome) = implausible(n, &ends, limit) {
        return (outcome, vec![]);
    }
    if places < ends.len() {
        return (refused(7), vec![]);
    }
    (Accepted(vec![n, ends.len() as u32]), ends)
}
