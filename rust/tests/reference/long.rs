//! The answers that are not near linear to find by the rest of the reference, for long words.
//!
//! They are found in other ways than the library's: runs by the longest Lyndon words of both orders
//! and fingerprints of parts, instead of by halves; roots by a factorization into Lyndon words; best
//! splits by counting, for each distance that memory holds, how many symbols are equal to the one so
//! far before, instead of by units of windows; squares by the runs, with the best start of each
//! residue in a table of each run's own, instead of in one row for all. Every table is on the heap.

use super::{turns, unit, Best, Code, Run, EDITIONS, NONE};
use std::collections::HashMap;

// ---- runs

/// The prime 2^61 - 1, by which fingerprints are taken.
const PRIME: u64 = (1 << 61) - 1;
const BASE: u64 = 0x0123_4567_89ab_cdef;

fn times(a: u64, b: u64) -> u64 {
    let product = u128::from(a) * u128::from(b);
    let sum = (product as u64 & PRIME) + (product >> 61) as u64;
    if sum < PRIME {
        sum
    } else {
        sum - PRIME
    }
}

/// A word and the fingerprints of its prefixes, by which parts are compared.
struct Compared<'a, C> {
    word: &'a [C],
    prefixes: Vec<u64>,
    powers: Vec<u64>,
}

/// So many symbols are compared one by one before fingerprints are.
const NEAR: usize = 12;

impl<C: Code> Compared<'_, C> {
    fn of(word: &[C]) -> Compared<'_, C> {
        let (mut prefixes, mut powers) = (vec![0], vec![1]);
        for (i, &symbol) in word.iter().enumerate() {
            let code: u64 = symbol.into();
            prefixes.push((times(prefixes[i], BASE) + code + 1) % PRIME);
            powers.push(times(powers[i], BASE));
        }
        Compared {
            word,
            prefixes,
            powers,
        }
    }

    /// Whether the parts of a length from two boundaries on are equal.
    fn equal(&self, i: usize, j: usize, length: usize) -> bool {
        let print = |from: usize| {
            let front = times(self.prefixes[from], self.powers[length]);
            (self.prefixes[from + length] + PRIME - front) % PRIME
        };
        print(i) == print(j)
    }

    /// The greatest length up to a bound that fits, where every smaller one does.
    fn longest(bound: usize, fits: impl Fn(usize) -> bool) -> usize {
        let (mut least, mut above) = (0, bound + 1);
        while above - least > 1 {
            let middle = least + (above - least) / 2;
            if fits(middle) {
                least = middle;
            } else {
                above = middle;
            }
        }
        least
    }

    /// How many symbols after boundary i are those after boundary j, i below j.
    fn ahead(&self, i: usize, j: usize) -> usize {
        let pairs = self.word[i..].iter().zip(&self.word[j..]);
        match pairs.take(NEAR).take_while(|(a, b)| a == b).count() {
            NEAR => Self::longest(self.word.len() - j, |k| self.equal(i, j, k)),
            near => near,
        }
    }

    /// How many symbols before boundary i are those before boundary j, i below j.
    fn back(&self, i: usize, j: usize) -> usize {
        let pairs = self.word[..i].iter().rev().zip(self.word[..j].iter().rev());
        match pairs.take(NEAR).take_while(|(a, b)| a == b).count() {
            NEAR => Self::longest(i, |k| self.equal(i - k, j - k, k)),
            near => near,
        }
    }

    /// Whether the suffix from i on comes before that from j on, i below j, by the order of symbols or
    /// by the opposite one; a prefix comes before what is longer in both.
    fn before(&self, i: usize, j: usize, opposite: bool) -> bool {
        let k = self.ahead(i, j);
        j + k < self.word.len() && (self.word[i + k] < self.word[j + k]) != opposite
    }
}

/// Each run has a unit that is the longest Lyndon word from its first symbol on, in one of the two
/// orders; and a Lyndon word that is repeated, extended as far as it goes, is a run.
pub fn runs<C: Code>(w: &[C]) -> Vec<Run> {
    let (n, compared) = (w.len(), Compared::of(w));
    let mut found = Vec::new();
    for opposite in [false, true] {
        // Boundaries of smaller and smaller suffixes, the next of them last.
        let mut smaller = vec![n];
        for i in (0..n).rev() {
            while let Some(&j) = smaller.last().filter(|&&j| j < n) {
                if !compared.before(i, j, opposite) {
                    break;
                }
                smaller.pop();
            }
            let j = smaller[smaller.len() - 1];
            let p = j - i;
            let (left, right) = (compared.back(i, j), compared.ahead(i, j));
            if left + right >= p {
                found.push((i - left + 1, p, j + right));
            }
            smaller.push(i);
        }
    }
    found.sort();
    found.dedup();
    let rooted = |(first, p, last)| (first, last, p, first + least_rotation(&w[first - 1..], p));
    found.into_iter().map(rooted).collect()
}

/// Where the least rotation of the first p symbols starts, which stand there twice over: with the last
/// Lyndon word of the factorization that starts in the first half.
fn least_rotation<C: Code>(twice: &[C], p: usize) -> usize {
    let (mut start, mut from) = (0, 0);
    while from < p {
        start = from;
        let (mut i, mut j) = (from, from + 1);
        while j < 2 * p && twice[i] <= twice[j] {
            i = if twice[i] < twice[j] { from } else { i + 1 };
            j += 1;
        }
        while from <= i {
            from += j - i;
        }
    }
    start
}

/// The runs of one unit rise in their first and in their last symbols alike, so those that reach a
/// block's end follow those that do not, and those that start before it precede those that do not.
pub fn run_numbers<C: Code>(w: &[C], runs: &[Run], ends: &[u32]) -> Vec<u32> {
    let mut by_unit: HashMap<usize, Vec<(usize, usize, u32)>> = HashMap::new();
    for (number, &(first, last, p, _)) in (1..).zip(runs) {
        let same = by_unit.entry(p).or_default();
        let rises = |&(a, b, _): &(usize, usize, u32)| a < first && b < last;
        assert!(same.last().map_or(true, rises));
        same.push((first, last, number));
    }
    let befores = [0].iter().chain(ends);
    let blocks = befores.zip(ends).map(|(&i, &j)| (i as usize, j as usize));
    blocks
        .map(|(before, end)| {
            let same = &by_unit[&unit(&w[before..end])];
            let from = same.partition_point(|&(_, last, _)| last < end);
            let to = same.partition_point(|&(first, _, _)| first <= before + 1);
            assert_eq!(from + 1, to, "one run encloses a block");
            same[from].2
        })
        .collect()
}

// ---- splits

/// The sizes of one choice, and the boundary before each.
struct Sizes {
    most: bool,
    sizes: Vec<u32>,
    back: Vec<u32>,
}

impl Sizes {
    fn new(n: usize, choice: u32) -> Sizes {
        let mut sizes = vec![NONE; n + 1];
        sizes[0] = 0;
        Sizes {
            most: choice == 2,
            sizes,
            back: vec![0; n + 1],
        }
    }

    fn better(&self, size: u32, other: u32) -> bool {
        match self.most {
            _ if size == NONE => false,
            _ if other == NONE => true,
            true => size > other,
            false => size < other,
        }
    }

    /// The better of two boundaries to split before, of which either may be none; of equal ones the
    /// first.
    fn of_two(&self, first: u32, second: u32) -> u32 {
        let size = |j: u32| self.sizes.get(j as usize).copied().unwrap_or(NONE);
        if self.better(size(second), size(first)) {
            second
        } else {
            first
        }
    }

    /// Takes the part between two boundaries, which may stand in a split, if it serves; of equal sizes
    /// the lower boundary does.
    fn offer(&mut self, j: u32, m: usize) {
        let Some(&before) = self.sizes.get(j as usize).filter(|&&size| size != NONE) else {
            return;
        };
        let size = before + 1;
        let lower = size == self.sizes[m] && j < self.back[m];
        if lower || self.better(size, self.sizes[m]) {
            (self.sizes[m], self.back[m]) = (size, j);
        }
    }

    fn best(self) -> Best {
        let n = self.sizes.len() - 1;
        if self.sizes[n] == NONE {
            return (self.sizes, None);
        }
        let mut ends = vec![];
        let mut m = n as u32;
        while m > 0 {
            ends.push(m);
            m = self.back[m as usize];
        }
        ends.reverse();
        (self.sizes, Some(ends))
    }
}

/// For each edition and choice. A part of enough turns of some distance that memory holds is a block,
/// whether the distance is its unit or not; and every block is one with its unit.
pub fn bests<C: Code>(w: &[C], memory: usize) -> [[Best; 2]; 2] {
    let n = w.len();
    let mut all = EDITIONS.map(|edition| {
        let turns = turns(edition).expect("both are editions");
        // Of each distance the best boundary from which a block of it goes up to here.
        let both = [1, 2].map(|choice| (Sizes::new(n, choice), vec![NONE; memory + 1]));
        (turns, both)
    });
    // Of each distance how many symbols up to here are equal to the one so far before.
    let mut equal = vec![0; memory + 1];
    for m in 1..=n {
        for p in 1..=memory.min(m - 1) {
            if w[m - 1] != w[m - 1 - p] {
                if equal[p] > 0 {
                    equal[p] = 0;
                    for (_, both) in &mut all {
                        both.iter_mut().for_each(|(_, starts)| starts[p] = NONE);
                    }
                }
                continue;
            }
            equal[p] += 1;
            for (turns, both) in &mut all {
                if equal[p] < (*turns - 1) * p {
                    continue;
                }
                let newest = (m - *turns * p) as u32;
                for (sizes, starts) in both {
                    starts[p] = sizes.of_two(starts[p], newest);
                    sizes.offer(starts[p], m);
                }
            }
        }
    }
    all.map(|(_, both)| both.map(|(sizes, _)| sizes.best()))
}

/// For each choice, of a word with these runs. The squares that end at a boundary within a run start
/// at an even number of units before it.
pub fn best_squares(n: usize, runs: &[Run]) -> [Best; 2] {
    struct Live {
        start: usize,
        last: usize,
        two: usize,
        /// Of each residue the best start so far, by choice.
        starts: [Vec<u32>; 2],
    }
    let mut both = [1, 2].map(|choice| Sizes::new(n, choice));
    let mut next = runs.iter().peekable();
    let mut live: Vec<Live> = vec![];
    for m in 1..=n {
        while let Some(&(first, last, p, _)) = next.next_if(|&&(first, ..)| first <= m) {
            let two = 2 * p;
            live.push(Live {
                start: first - 1,
                last,
                two,
                starts: [vec![NONE; two], vec![NONE; two]],
            });
        }
        live.retain(|run| m <= run.last);
        for run in live.iter_mut().filter(|run| run.start + run.two <= m) {
            let (residue, newest) = ((m - run.start) % run.two, (m - run.two) as u32);
            for (sizes, starts) in both.iter_mut().zip(&mut run.starts) {
                starts[residue] = sizes.of_two(starts[residue], newest);
                sizes.offer(starts[residue], m);
            }
        }
    }
    both.map(Sizes::best)
}
