//! The library's algorithms again, in plain Rust, for the benchmark to compare with. The answer is
//! `Ok` with its values, or `Err` with the refusal's number and index.

pub type Answer<T> = Result<T, (u32, u32)>;

const LIMIT: usize = 70_000;
/// Up to so many symbols a plan line has four digits a number, above six.
const LINE_LIMIT: usize = 4096;
/// The longest unit of a block.
const UNIT_MEMORY: usize = 256;
/// Words of at most so many symbols get small arrays, and of at most so many middling ones.
const SHORT: usize = 64;
const MIDDLE: usize = 4096;
/// Parts of at most so many symbols are not halved.
const LEAF: usize = 16;
/// The rows that the finder of runs works in.
const ROWS: usize = 4;
const NONE: u32 = u32::MAX;
const STRIDE: usize = 4;
const LINE: usize = 61;
const COLUMN: usize = 6;
/// The characters of a line that show symbols.
const SYMBOLS: usize = 18;

/// A symbol. A page shows so many of a unit, in so many digits each.
pub trait Code: Copy + Ord + Into<u32> {
    const SHOWN: usize;
    const DIGITS: usize;
}

impl Code for u8 {
    const SHOWN: usize = 9;
    const DIGITS: usize = 2;
}

impl Code for u16 {
    const SHOWN: usize = 4;
    const DIGITS: usize = 4;
}

/// A call of its own, so that what it has on the stack is not its caller's.
#[inline(never)]
fn apart<T>(body: impl FnOnce() -> T) -> T {
    body()
}

/// Has the arrays of a body of the size that words of the length need.
macro_rules! in_frame {
    ($n:expr, $length:ident, $body:expr) => {
        if $n <= SHORT {
            const $length: usize = SHORT;
            $body
        } else if $n <= MIDDLE {
            const $length: usize = MIDDLE;
            apart(|| $body)
        } else {
            const $length: usize = LIMIT;
            apart(|| $body)
        }
    };
}

/// The whole turns that a block of an edition has at least.
fn turns_of(edition: u32) -> Answer<usize> {
    match edition {
        1 => Ok(2),
        2 => Ok(3),
        _ => Err((12, 0)),
    }
}

/// Whether a part of this length with this unit is a block.
fn is_block_of(turns: usize, len: usize, unit: usize) -> bool {
    unit <= UNIT_MEMORY && turns * unit <= len
}

/// The unit of a part if it is a block, else 0. No unit is tried that a block of the length cannot
/// have.
fn block_unit<C: Code>(part: &[C], turns: usize) -> usize {
    let n = part.len();
    let mut p = 0;
    'outer: loop {
        p += 1;
        if !is_block_of(turns, n, p) {
            break 0;
        }
        let mut i = 0;
        while i < n - p {
            if part[i] != part[i + p] {
                continue 'outer;
            }
            i += 1;
        }
        break p;
    }
}

fn units<C: Code>(part: &[C], table: &mut [u32]) {
    let n = part.len();
    if n == 0 {
        return;
    }
    table[0] = 1;
    let mut m = 1;
    let mut d = 1;
    while m < n {
        if part[m] == part[m - d] {
            table[m] = d as u32;
            m += 1;
            continue;
        }
        if d < m {
            d += table[m - d - 1] as usize;
            continue;
        }
        d = m + 1;
        table[m] = d as u32;
        m += 1;
    }
}

pub fn part<C: Code>(
    w: &[C],
    edition: u32,
    first: u32,
    last: u32,
    table: &mut [u32],
) -> Answer<[u32; 4]> {
    let n = w.len();
    if LIMIT < n {
        return Err((1, 0));
    }
    let turns = turns_of(edition)?;
    let end = last as usize;
    if first < 1 || n < end || last < first {
        return Err((6, 0));
    }
    let start = first as usize - 1;
    let len = end - start;
    if table.len() < len {
        return Err((7, 0));
    }
    units(&w[start..end], table);
    let unit = table[len - 1] as usize;
    Ok([
        unit as u32,
        (len / unit) as u32,
        (len % unit) as u32,
        is_block_of(turns, len, unit) as u32,
    ])
}

fn store(table: &mut [u32], at: usize, value: u32) {
    if let Some(place) = table.get_mut(at) {
        *place = value;
    }
}

/// The root of a run after boundary a, of unit p. Of the starts below j only i is left, and from i and
/// from j on k symbols agree. They are fewer than p, since the unit is primitive, and so lie in the
/// two turns that a run has.
fn root<C: Code>(w: &[C], a: usize, p: usize) -> usize {
    let (mut i, mut j, mut k) = (0, 1, 0);
    while j < p {
        let (x, y) = (w[a + i + k], w[a + j + k]);
        if x == y {
            k += 1;
            continue;
        }
        if x < y {
            j += k + 1;
        } else {
            let next = i + k + 1;
            i = j;
            j = next.max(i + 1);
        }
        k = 0;
    }
    a + i + 1
}

/// How far what stands at each place of the part, or of its mirror, agrees with what stands at mid.
fn matches<C: Code>(part: &[C], mirrored: bool, mid: usize, table: &mut [u32]) {
    let len = part.len();
    let symbol = |i: usize| if mirrored { part[len - 1 - i] } else { part[i] };
    for (from, to) in [(mid + 1, len + 1), (0, mid)] {
        // what stands between left and right agrees with what stands at mid
        let (mut left, mut right) = (from, from);
        for i in from..to {
            let mut k = 0;
            if i < right {
                k = (table[mid + (i - left)] as usize).min(right - i);
            }
            while i + k < len && mid + k < len && symbol(i + k) == symbol(mid + k) {
                k += 1;
            }
            table[i] = k as u32;
            if right < i + k {
                (left, right) = (i, i + k);
            }
        }
    }
    table[mid] = (len - mid) as u32;
}

/// The rows that the finder of runs works in.
struct Rows<'a> {
    prefixes: &'a mut [u32],
    suffixes: &'a mut [u32],
    /// The greatest end found for each start.
    ends: &'a mut [u32],
    /// The number of the next record for each start.
    next: &'a mut [u32],
}

impl Rows<'_> {
    fn new(scratch: &mut [u32], n: usize) -> Rows<'_> {
        let (prefixes, rest) = scratch.split_at_mut(n + 1);
        let (suffixes, rest) = rest.split_at_mut(n + 1);
        let (ends, rest) = rest.split_at_mut(n + 1);
        Rows {
            prefixes,
            suffixes,
            ends,
            next: &mut rest[..n + 1],
        }
    }

    /// Records the part of period p from left before c to right after c + p, if it is a run that
    /// was not found yet.
    fn attempt<C: Code>(
        &mut self,
        w: &[C],
        c: usize,
        p: usize,
        left: usize,
        right: usize,
        table: &mut [u32],
    ) {
        if left + right < p {
            return;
        }
        let (a, b) = (c - left, c + p + right);
        if b <= self.ends[a] as usize
            || 0 < a && w[a - 1] == w[a - 1 + p]
            || b < w.len() && w[b] == w[b - p]
        {
            return;
        }
        self.ends[a] = b as u32;
        let at = STRIDE * self.next[a] as usize;
        if let Some(record) = table.get_mut(at..at + STRIDE) {
            let root = root(w, a, p);
            record.copy_from_slice(&[(a + 1) as u32, b as u32, p as u32, root as u32]);
        }
        self.next[a] += 1;
    }

    /// The runs between lo and hi that cross m.
    fn cross<C: Code>(&mut self, w: &[C], lo: usize, m: usize, hi: usize, table: &mut [u32]) {
        let (mid, rest) = (m - lo, hi - m);
        matches(&w[lo..hi], false, mid, self.prefixes);
        matches(&w[lo..hi], true, rest, self.suffixes);
        for p in 1..=(hi - lo) / 2 {
            if p <= rest {
                let (left, right) = (self.suffixes[rest - p], self.prefixes[mid + p]);
                self.attempt(w, m, p, left as usize, right as usize, table);
            }
            if p <= mid {
                let (left, right) = (self.suffixes[rest + p], self.prefixes[mid - p]);
                self.attempt(w, m - p, p, left as usize, right as usize, table);
            }
        }
    }

    /// All runs of a short part: for each period, every stretch that agrees with what stands a
    /// period later.
    fn scan<C: Code>(&mut self, w: &[C], lo: usize, hi: usize, table: &mut [u32]) {
        for p in 1..=(hi - lo) / 2 {
            let mut start = lo;
            for at in lo..hi - p {
                if w[at] != w[at + p] {
                    self.attempt(w, start, p, 0, at - start, table);
                    start = at + 1;
                }
            }
            self.attempt(w, start, p, 0, hi - p - start, table);
        }
    }

    fn solve<C: Code>(&mut self, w: &[C], lo: usize, hi: usize, table: &mut [u32]) {
        if hi - lo <= LEAF {
            return self.scan(w, lo, hi, table);
        }
        let m = lo + (hi - lo) / 2;
        self.solve(w, lo, m, table);
        self.solve(w, m, hi, table);
        self.cross(w, lo, m, hi, table);
    }
}

/// Writes the records of all runs if the table has places for them, and gives their count.
fn list<C: Code>(w: &[C], scratch: &mut [u32], table: &mut [u32]) -> usize {
    let n = w.len();
    let mut rows = Rows::new(scratch, n);
    rows.ends.fill(0);
    rows.next.fill(0);
    rows.solve(w, 0, n, &mut []);
    let mut total = 0;
    for start in &mut rows.next[..n] {
        let count = *start;
        *start = total;
        total += count;
    }
    let total = total as usize;
    if STRIDE * total <= table.len() {
        rows.ends.fill(0);
        rows.solve(w, 0, n, table);
    }
    total
}

fn listed<C: Code>(w: &[C], scratch: &mut [u32], table: &mut [u32]) -> Answer<u32> {
    let count = list(w, scratch, table);
    if table.len() < STRIDE * count {
        return Err((7, 0));
    }
    Ok(count as u32)
}

pub fn runs<C: Code>(w: &[C], table: &mut [u32]) -> Answer<u32> {
    if LIMIT < w.len() {
        return Err((1, 0));
    }
    in_frame!(w.len(), N, listed(w, &mut [0; ROWS * (N + 1)], table))
}

/// The numbers of the records with a white node at position x.
fn pick(records: &[u32], turns: usize, x: usize, out: &mut [u32]) -> usize {
    let mut found = 0;
    for (i, record) in records.chunks_exact(STRIDE).enumerate() {
        let unit = record[2] as usize;
        let from = record[0] as usize + turns * unit;
        if unit <= UNIT_MEMORY && from <= x + 1 && x <= record[1] as usize {
            store(out, found, (i + 1) as u32);
            found += 1;
        }
    }
    found
}

fn nodes_in<C: Code>(
    w: &[C],
    turns: usize,
    x: usize,
    scratch: &mut [u32],
    records: &mut [u32],
    table: &mut [u32],
) -> Answer<u32> {
    let total = list(w, scratch, records);
    let records = &records[..STRIDE * total];
    let count = pick(records, turns, x, &mut []);
    if table.len() < count {
        return Err((7, 0));
    }
    pick(records, turns, x, table);
    Ok(count as u32)
}

pub fn nodes<C: Code>(w: &[C], edition: u32, position: u32, table: &mut [u32]) -> Answer<u32> {
    if LIMIT < w.len() {
        return Err((1, 0));
    }
    let turns = turns_of(edition)?;
    let x = position as usize;
    if position < 1 || w.len() < x {
        return Err((6, 0));
    }
    in_frame!(w.len(), N, {
        let mut scratch = [0; ROWS * (N + 1)];
        nodes_in(w, turns, x, &mut scratch, &mut [0; STRIDE * N], table)
    })
}

fn offer(work: &mut [u32], choice: u32, at: usize, back: usize, size: u32, j: u32) {
    let known = work[at];
    let kept = known != NONE
        && if choice == 1 {
            known <= size
        } else {
            size <= known
        };
    if !kept {
        work[at] = size;
        work[back] = j;
    }
}

/// Offers a size from boundary j wherever a block from it ends in the next len symbols, whose units
/// are in row 2. They never fall, so the first that is too long for any part ends the work.
fn spread(work: &mut [u32], n: usize, turns: usize, choice: u32, j: usize, len: usize, size: u32) {
    let row = n + 1;
    let unit_row = row + row;
    let mut d = 0;
    while d < len {
        let span = turns * work[unit_row + d] as usize;
        if len < span {
            return;
        }
        d += 1;
        if d < span {
            continue;
        }
        let m = j + d;
        offer(work, choice, m, row + m, size, j as u32);
    }
}

/// How many symbols after a boundary are read at most. A block that is longer goes on with a period of
/// those that are read.
fn window(turns: usize) -> usize {
    turns * UNIT_MEMORY
}

/// Offers a size from boundary j, if it is reached, wherever a block from it ends in the window. Gives
/// the unit of the window, or what is known where the boundary is not reached.
fn visit<C: Code>(
    w: &[C],
    turns: usize,
    choice: u32,
    j: usize,
    known: usize,
    work: &mut [u32],
) -> usize {
    let size = work[j];
    if size == NONE {
        return known;
    }
    let n = w.len();
    let two = 2 * (n + 1);
    let len = window(turns).min(n - j);
    units(&w[j..j + len], &mut work[two..]);
    spread(work, n, turns, choice, j, len, size + 1);
    work[two + len - 1] as usize
}

/// Passes the blocks that end at boundary m, where a window ends, on to the next one if a period of
/// the window goes on there.
fn lengthen<C: Code>(w: &[C], m: usize, period: usize, work: &mut [u32]) {
    let n = w.len();
    if n <= m || w[m] != w[m - period] {
        return;
    }
    let row = n + 1;
    work[m + 1] = work[m];
    work[row + m + 1] = work[row + m];
}

/// The table before any block is offered: no prefix but the empty one has a size.
fn start(work: &mut [u32], n: usize) {
    let row = n + 1;
    work[0] = 0;
    work[1..row].fill(NONE);
    work[row..row + row].fill(0);
}

fn fill<C: Code>(w: &[C], turns: usize, choice: u32, work: &mut [u32]) {
    let n = w.len();
    let two = 2 * (n + 1);
    start(work, n);
    let mut unit = 0;
    for j in 0..n {
        unit = visit(w, turns, choice, j, unit, work);
        lengthen(w, j + window(turns), unit, work);
    }
    work[two..two + two].fill(0);
}

/// Fills the table for squares by the runs. Row 2 has slots, row 3 the runs that are not over.
mod slots {
    use super::{offer, start, NONE, STRIDE};
    use std::cmp::Ordering;

    /// The number by which sizes are compared: less is better, and none is worst.
    fn rank(choice: u32, size: u32) -> u32 {
        if choice == 1 || size == NONE {
            return size;
        }
        NONE - 1 - size
    }

    /// Of two starts the one with the better size, of equal sizes the lower one.
    fn preferred(work: &[u32], choice: u32, i: usize, k: usize) -> usize {
        match rank(choice, work[i]).cmp(&rank(choice, work[k])) {
            Ordering::Less => i,
            Ordering::Greater => k,
            Ordering::Equal => i.min(k),
        }
    }

    /// The place where the best start for boundary e is kept, in a run that starts after boundary a
    /// and has twice the unit two: one for each residue, at the first boundaries of the run.
    fn slot_of(n: usize, a: usize, two: usize, e: usize) -> usize {
        2 * (n + 1) + a + (e - a) % two
    }

    /// The best start of the squares in the run that end at boundary e: the one two before e, or the
    /// best start for the boundary two before e, which stands in the slot.
    fn lead(work: &[u32], n: usize, choice: u32, a: usize, two: usize, e: usize) -> usize {
        let start = e - two;
        if e - a < 2 * two {
            return start;
        }
        let kept = work[slot_of(n, a, two, e)] as usize;
        preferred(work, choice, kept, start)
    }

    /// Takes one run at boundary e: keeps its best start in the slot, and compares it with the best so
    /// far.
    fn take(
        work: &mut [u32],
        n: usize,
        choice: u32,
        a: usize,
        two: usize,
        e: usize,
        best: usize,
    ) -> usize {
        if e - a < two {
            return best;
        }
        let start = lead(work, n, choice, a, two, e);
        let better = preferred(work, choice, best, start);
        work[slot_of(n, a, two, e)] = start as u32;
        better
    }

    /// Takes boundary e: every run in the list that is not over there, and then the best start of
    /// all. Gives how many runs stay in the list.
    fn visit(
        n: usize,
        runs: &[u32],
        choice: u32,
        e: usize,
        lives: usize,
        work: &mut [u32],
    ) -> usize {
        let low = 3 * (n + 1);
        let mut best = e;
        let mut kept = 0;
        for k in 0..lives {
            let i = work[low + k];
            let at = STRIDE * i as usize;
            let run = &runs[at..at + STRIDE];
            if (run[1] as usize) < e {
                continue;
            }
            work[low + kept] = i;
            kept += 1;
            let (a, two) = (run[0] as usize - 1, 2 * run[2] as usize);
            best = take(work, n, choice, a, two, e, best);
        }
        let size = work[best];
        if size != NONE {
            offer(work, choice, e, n + 1 + e, size + 1, best as u32);
        }
        kept
    }

    /// Adds the runs that start at position e at the latest to the list of those that are not over.
    /// Gives the number of the next run.
    fn admit(
        work: &mut [u32],
        runs: &[u32],
        n: usize,
        count: usize,
        e: usize,
        next: usize,
        lives: usize,
    ) -> usize {
        let low = 3 * (n + 1) + lives;
        for i in next..count {
            if e < runs[STRIDE * i] as usize {
                return i;
            }
            work[low + (i - next)] = i as u32;
        }
        count
    }

    pub fn fill(n: usize, runs: &[u32], count: usize, choice: u32, work: &mut [u32]) {
        let two = 2 * (n + 1);
        start(work, n);
        let (mut next, mut lives) = (0, 0);
        for e in 1..=n {
            let upto = admit(work, runs, n, count, e, next, lives);
            lives += upto - next;
            next = upto;
            lives = visit(n, runs, choice, e, lives, work);
        }
        work[two..two + two].fill(0);
    }
}

fn write_ends(prev: &[u32], j: usize, count: usize, ends: &mut [u32]) {
    if j == 0 {
        return;
    }
    let at = count - 1;
    ends[at] = j as u32;
    write_ends(prev, prev[j] as usize, at, ends);
}

/// Refusals 8 and 9 of a call for a best split.
fn choosable(n: usize, choice: u32, work: &[u32]) -> Answer<()> {
    if choice != 1 && choice != 2 {
        return Err((8, 0));
    }
    if work.len() < 4 * (n + 1) {
        return Err((9, 0));
    }
    Ok(())
}

/// Answers from a filled table, writes the ends where there is a split and room for them, and clears
/// the row of previous boundaries.
fn finish(n: usize, ends: &mut [u32], work: &mut [u32]) -> Answer<u32> {
    let size = work[n];
    let row = n + 1;
    let answer = if size == NONE {
        Err((2, 0))
    } else if ends.len() < size as usize {
        Err((7, 0))
    } else {
        write_ends(&work[row..row + row], n, size as usize, ends);
        Ok(size)
    };
    work[row..row + row].fill(0);
    answer
}

pub fn best_split<C: Code>(
    w: &[C],
    edition: u32,
    choice: u32,
    ends: &mut [u32],
    work: &mut [u32],
) -> Answer<u32> {
    if LIMIT < w.len() {
        return Err((1, 0));
    }
    let turns = turns_of(edition)?;
    choosable(w.len(), choice, work)?;
    fill(w, turns, choice, work);
    finish(w.len(), ends, work)
}

/// Lists the runs, with the four rows of the working table for scratch, and fills these by them.
fn fill_squares<C: Code>(w: &[C], choice: u32, records: &mut [u32], work: &mut [u32]) {
    let n = w.len();
    let count = list(w, &mut work[..ROWS * (n + 1)], records);
    slots::fill(n, records, count, choice, work);
}

pub fn best_squares<C: Code>(
    w: &[C],
    choice: u32,
    ends: &mut [u32],
    work: &mut [u32],
) -> Answer<u32> {
    if LIMIT < w.len() {
        return Err((1, 0));
    }
    choosable(w.len(), choice, work)?;
    in_frame!(
        w.len(),
        N,
        fill_squares(w, choice, &mut [0; STRIDE * N], work)
    );
    finish(w.len(), ends, work)
}

/// The turns of the edition and the places that two words need, where neither call refuses yet.
fn admit<C: Code>(a: &[C], b: &[C], edition: u32, work: &[u32]) -> Answer<(usize, usize)> {
    let n = a.len().max(b.len());
    if LIMIT < n {
        return Err((1, 0));
    }
    let turns = turns_of(edition)?;
    let places = 4 * (n + 1);
    if work.len() < places {
        return Err((9, 0));
    }
    Ok((turns, places))
}

pub fn which_first<C: Code>(a: &[C], b: &[C], edition: u32, work: &mut [u32]) -> Answer<u32> {
    let (turns, places) = admit(a, b, edition, work)?;
    let sizes = [a, b].map(|w| {
        fill(w, turns, 1, work);
        work[w.len()]
    });
    work[..places].fill(0);
    if sizes == [NONE, NONE] {
        return Err((2, 0));
    }
    Ok(if sizes[1] < sizes[0] { 2 } else { 1 })
}

fn first_end(prev: &[u32], n: usize) -> u32 {
    let mut end = 0;
    let mut j = n;
    while 0 < j {
        end = j;
        j = prev[j] as usize;
    }
    end as u32
}

pub fn first_block<C: Code>(a: &[C], b: &[C], edition: u32, work: &mut [u32]) -> [u32; 2] {
    let Ok((turns, places)) = admit(a, b, edition, work) else {
        return [0, 0];
    };
    let found = [a, b].map(|w| {
        let row = w.len() + 1;
        fill(w, turns, 1, work);
        (work[w.len()], first_end(&work[row..row + row], w.len()))
    });
    work[..places].fill(0);
    let [(first, first_end), (second, second_end)] = found;
    if second < first {
        [2, second_end]
    } else if first != NONE {
        [1, first_end]
    } else {
        [0, 0]
    }
}

pub fn judge_split<C: Code>(w: &[C], edition: u32, ends: &[u32]) -> Answer<u32> {
    if LIMIT < w.len() {
        return Err((1, 0));
    }
    let turns = turns_of(edition)?;
    judge(w, ends, |part| block_unit(part, turns) != 0)
}

fn same_halves<C: Code>(part: &[C]) -> bool {
    let half = part.len() / 2;
    if part.len() % 2 == 1 {
        return false;
    }
    let mut i = 0;
    while i < half {
        if part[i] != part[half + i] {
            return false;
        }
        i += 1;
    }
    true
}

pub fn judge_squares<C: Code>(w: &[C], ends: &[u32]) -> Answer<u32> {
    if LIMIT < w.len() {
        return Err((1, 0));
    }
    judge(w, ends, same_halves)
}

/// No part that is tested is empty.
fn judge<C: Code>(w: &[C], ends: &[u32], mut fits: impl FnMut(&[C]) -> bool) -> Answer<u32> {
    let n = w.len();
    let mut before = 0;
    for (k, &end) in ends.iter().enumerate() {
        let end = end as usize;
        let number = (k + 1) as u32;
        if end <= before || n < end {
            return Err((3, number));
        }
        if !fits(&w[before..end]) {
            return Err((4, number));
        }
        before = end;
    }
    if before != n {
        return Err((5, 0));
    }
    Ok(ends.len() as u32)
}

/// Goes on over the records that start at or before a boundary: of each unit the number of the latest
/// is kept.
fn note(records: &[u32], before: usize, from: usize, latest: &mut [u32]) -> usize {
    let mut number = from;
    for record in records[STRIDE * from..].chunks_exact(STRIDE) {
        if before + 1 < record[0] as usize {
            break;
        }
        number += 1;
        latest[record[2] as usize] = number as u32;
    }
    number
}

/// Goes over the blocks of a split with the unit and the run number of each: the run is the latest of
/// the unit that starts at or before the block.
fn each_block<C: Code>(
    w: &[C],
    ends: &[u32],
    scratch: &mut [u32],
    records: &mut [u32],
    mut put: impl FnMut(usize, &[C], usize, u32),
) {
    let total = list(w, scratch, records);
    let (records, latest) = (&records[..STRIDE * total], &mut scratch[..w.len() + 1]);
    latest.fill(0);
    let (mut before, mut noted) = (0, 0);
    for (k, &end) in ends.iter().enumerate() {
        let block = &w[before..end as usize];
        let unit = block_unit(block, 2);
        noted = note(records, before, noted, latest);
        put(k, block, unit, latest[unit]);
        before = end as usize;
    }
}

pub fn path_of_split<C: Code>(
    w: &[C],
    edition: u32,
    ends: &[u32],
    table: &mut [u32],
) -> Answer<u32> {
    let blocks = judge_split(w, edition, ends)?;
    if table.len() < ends.len() {
        return Err((7, 0));
    }
    in_frame!(w.len(), N, {
        let mut scratch = [0; ROWS * (N + 1)];
        let put = |k: usize, _: &[C], _, number| table[k] = number;
        each_block(w, ends, &mut scratch, &mut [0; STRIDE * N], put);
    });
    Ok(blocks)
}

fn path_in<C: Code>(
    w: &[C],
    turns: usize,
    numbers: &[u32],
    scratch: &mut [u32],
    records: &mut [u32],
) -> Answer<u32> {
    let n = w.len();
    let total = list(w, scratch, records);
    let records = &records[..STRIDE * total];
    let latest = &mut scratch[..n + 1];
    latest.fill(0);
    let (mut before, mut noted, mut blocks) = (0, 0, 0);
    for pair in numbers.chunks_exact(2) {
        let end = pair[1] as usize;
        blocks += 1;
        if end <= before || n < end {
            return Err((3, blocks));
        }
        noted = note(records, before, noted, latest);
        let unit = block_unit(&w[before..end], turns);
        if unit == 0 || latest[unit] != pair[0] {
            return Err((4, blocks));
        }
        before = end;
    }
    if before != n {
        return Err((5, 0));
    }
    Ok(blocks)
}

pub fn judge_path<C: Code>(w: &[C], edition: u32, numbers: &[u32]) -> Answer<u32> {
    if LIMIT < w.len() {
        return Err((1, 0));
    }
    let turns = turns_of(edition)?;
    if numbers.len() % 2 == 1 {
        return Err((10, 0));
    }
    in_frame!(w.len(), N, {
        let mut scratch = [0; ROWS * (N + 1)];
        path_in(w, turns, numbers, &mut scratch, &mut [0; STRIDE * N])
    })
}

fn put_column(out: &mut [u8], x: usize) {
    let mut rest = x;
    for place in out[..COLUMN].iter_mut().rev() {
        *place = if rest == 0 {
            b' '
        } else {
            b'0' + (rest % 10) as u8
        };
        rest /= 10;
    }
    if x == 0 {
        out[COLUMN - 1] = b'0';
    }
}

fn put_symbols<C: Code>(out: &mut [u8], unit: &[C]) {
    const DIGITS: &[u8; 16] = b"0123456789abcdef";
    let (shown, filling) = out[..SYMBOLS].split_at_mut(C::SHOWN * C::DIGITS);
    for (k, places) in shown.chunks_exact_mut(C::DIGITS).enumerate() {
        let Some(&symbol) = unit.get(k) else {
            places.fill(b' ');
            continue;
        };
        let mut rest: u32 = symbol.into();
        for place in places.iter_mut().rev() {
            *place = DIGITS[(rest % 16) as usize];
            rest /= 16;
        }
    }
    filling.fill(b' ');
}

pub fn write_page<C: Code>(w: &[C], edition: u32, ends: &[u32], out: &mut [u8]) -> Answer<u32> {
    judge_split(w, edition, ends)?;
    let bytes = LINE * ends.len();
    if out.len() < bytes {
        return Err((7, 0));
    }
    in_frame!(w.len(), N, {
        let mut scratch = [0; ROWS * (N + 1)];
        let mut first = 1;
        let put = |k: usize, block: &[C], unit, number| {
            put_line_of(&mut out[LINE * k..][..LINE], k, first, block, unit, number);
            first += block.len();
        };
        each_block(w, ends, &mut scratch, &mut [0; STRIDE * N], put);
    });
    Ok(bytes as u32)
}

fn put_line_of<C: Code>(
    line: &mut [u8],
    k: usize,
    first: usize,
    block: &[C],
    unit: usize,
    number: u32,
) {
    let last = first + block.len() - 1;
    let (turns, rest) = (block.len() / unit, block.len() % unit);
    let columns = [k + 1, first, last, unit, turns, rest, number as usize];
    for (i, x) in columns.into_iter().enumerate() {
        put_column(&mut line[COLUMN * i..], x);
    }
    put_symbols(&mut line[COLUMN * columns.len()..], &block[..unit]);
    line[LINE - 1] = b'\n';
}

fn judge_ends(n: u32, limit: usize, ends: impl Iterator<Item = u32>) -> Answer<u32> {
    if limit < n as usize {
        return Err((1, 0));
    }
    let mut before = 0;
    let mut blocks = 0;
    for end in ends {
        blocks += 1;
        if end <= before || n < end {
            return Err((3, blocks));
        }
        before = end;
    }
    if before != n {
        return Err((5, 0));
    }
    Ok(blocks)
}

/// The powers of ten of a number's digits, by the digits.
fn powers(digits: usize) -> &'static [u32] {
    &[100_000, 10_000, 1000, 100, 10, 1][6 - digits..]
}

fn put_number(out: &mut [u8], powers: &[u32], x: u32) {
    for (place, power) in out.iter_mut().zip(powers) {
        *place = b'0' + (x / power % 10) as u8;
    }
}

/// The line of so many digits a number, of which each takes one byte more.
fn put_line(begins: &[u8; 5], digits: usize, n: u32, ends: &[u32], out: &mut [u8]) {
    out[..5].copy_from_slice(begins);
    let (step, powers) = (digits + 1, powers(digits));
    put_number(&mut out[5..], powers, n);
    out[4 + step] = b',';
    put_number(&mut out[5 + step..], powers, ends.len() as u32);
    for (k, &end) in ends.iter().enumerate() {
        let at = 5 + step * (k + 2);
        out[at - 1] = b',';
        put_number(&mut out[at..], powers, end);
    }
    out[4 + step * (ends.len() + 2)] = b'\n';
}

pub fn write_plan(n: u32, ends: &[u32], out: &mut [u8]) -> Answer<u32> {
    let blocks = judge_ends(n, LIMIT, ends.iter().copied())? as usize;
    let long = LINE_LIMIT < n as usize;
    let bytes = if long {
        19 + 7 * blocks
    } else {
        15 + 5 * blocks
    };
    if out.len() < bytes {
        return Err((7, 0));
    }
    if long {
        put_line(b"long,", 6, n, ends, out);
    } else {
        put_line(b"plan,", 4, n, ends, out);
    }
    Ok(bytes as u32)
}

fn number(s: &[u8], digits: usize, at: usize) -> Option<u32> {
    let mut x = 0;
    for &b in &s[at..at + digits] {
        if !b.is_ascii_digit() {
            return None;
        }
        x = 10 * x + (b - b'0') as u32;
    }
    Some(x)
}

fn field(s: &[u8], digits: usize, at: usize) -> Option<u32> {
    if s[at - 1] != b',' {
        return None;
    }
    number(s, digits, at)
}

// n and the count of ends, where the bytes are a line of so many digits a number.
fn header(s: &[u8], digits: usize) -> Option<(u32, u32)> {
    let step = digits + 1;
    if s.len() < 5 + 2 * step {
        return None;
    }
    let n = field(s, digits, 5)?;
    let count = field(s, digits, 5 + step)?;
    if s.len() != 5 + step * (count as usize + 2) {
        return None;
    }
    for k in 0..count as usize {
        field(s, digits, 5 + step * (k + 2))?;
    }
    (s[s.len() - 1] == b'\n').then_some((n, count))
}

fn read_line(s: &[u8], digits: usize, limit: usize, table: &mut [u32]) -> Answer<(u32, u32)> {
    let (n, count) = header(s, digits).ok_or((11, 0))?;
    if digits == 6 && n as usize <= LINE_LIMIT {
        return Err((11, 0));
    }
    let end = |k: usize| number(s, digits, 5 + (digits + 1) * (k + 2)).unwrap_or(0);
    judge_ends(n, limit, (0..count as usize).map(end))?;
    if table.len() < count as usize {
        return Err((7, 0));
    }
    for (k, place) in table[..count as usize].iter_mut().enumerate() {
        *place = end(k);
    }
    Ok((n, count))
}

pub fn read_plan(s: &[u8], table: &mut [u32]) -> Answer<(u32, u32)> {
    if s.starts_with(b"plan,") {
        read_line(s, 4, LINE_LIMIT, table)
    } else if s.starts_with(b"long,") {
        read_line(s, 6, LIMIT, table)
    } else {
        Err((11, 0))
    }
}
