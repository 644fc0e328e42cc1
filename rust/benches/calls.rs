//! Times every call beside a plain Rust twin of the same algorithm, in one run, and prints the
//! result as a Markdown table. In `rust/`, after `make lib` at the top of the
//! repository:
//!
//! ```sh
//! cargo bench --offline
//! cargo bench --offline -- plan
//! ```
//!
//! The second times only the calls whose names have that word. `cargo test --benches` compares the
//! answers and times nothing. A second table has each call on words of 8 symbols. With write a page
//! comes one more: what it takes beyond path of a split, for each block. With which first and first
//! block another: what they take of the time of two fewest splits, of each the median batch. One more
//! has each call on words of bytes and on the same numbers as 16-bit codes. The last two have each
//! call on words up to the limit, in fewer batches, and on bytes and codes at the limit.
//!
//! A call that is told an edition has a row for each, on the same words. Of random words several are
//! taken in turn. Buffers are allocated once and not cleared between calls. Each figure is processor
//! time, the least of several batches, those of the library and of the twin taking turns.

mod twin;
#[path = "../tests/words/mod.rs"]
#[allow(dead_code)]
mod words;

use cegridom::{raw, Choice, Edition, Symbol};
use std::hint::black_box;
use words::{fibonacci, last_differs, thue_morse};

const LENGTHS: [usize; 4] = [512, 1024, 2048, 4096];
/// The last is the limit; the others are for the growth.
const LONG_LENGTHS: [usize; 4] = [4096, 17_500, 35_000, 70_000];
const LONG_DOUBLINGS: f64 = 2.0;
const SHORT: usize = 8;
/// Random words of so many symbols together are taken in turn, at most so many words.
const DIFFERENT_SYMBOLS: usize = 1 << 18;
const MOST_DIFFERENT: usize = 512;
const DOUBLINGS: f64 = 3.0;
const BATCHES: usize = 11;
/// More, where a small difference of two times is wanted.
const CLOSE_BATCHES: usize = 33;
/// Fewer, where a call takes up to a fifth of a second.
const LONG_BATCHES: usize = 3;
/// A batch is as many calls as take at least this long.
const BATCH_SECONDS: f64 = 0.004;
/// What a call may take of its twin's time.
const MOST_RATIO: f64 = 1.5;
/// What best split may take in edition 2 of its time in edition 1, as it reads half as far again.
const MOST_TO_FIRST: f64 = 1.7;
/// What a call on two words may take of the time of their two fewest splits.
const MOST_OF_TWO: f64 = 1.05;
/// What a call on 16-bit codes may take of its time on bytes.
const MOST_OF_BYTES: f64 = 1.1;
const MICRO: f64 = 1e6;
const MILLI: f64 = 1e3;
const NANO: f64 = 1e9;

/// A kind of symbol, which a byte can be written in.
trait Kind: Symbol + twin::Code + From<u8> + 'static {}

impl<S: Symbol + twin::Code + From<u8> + 'static> Kind for S {}

/// The same numbers as symbols of a kind.
fn spelt<S: Kind>(word: Vec<u8>) -> Vec<S> {
    word.into_iter().map(S::from).collect()
}

/// The word number `number` of such words; 0 is the one where one is enough.
fn random_word(n: usize, symbols: u64, number: u64) -> Vec<u8> {
    let mut state = 88_172_645_463_325_252u64 ^ number.wrapping_mul(0x9e37_79b9_7f4a_7c15);
    (0..n)
        .map(|_| {
            state ^= state << 13;
            state ^= state >> 7;
            state ^= state << 17;
            ((state >> 11) % symbols) as u8
        })
        .collect()
}

fn random(n: usize, symbols: u64) -> Vec<u8> {
    random_word(n, symbols, 0)
}

fn period_64(n: usize) -> Vec<u8> {
    let unit = random(64, 4);
    (0..n).map(|i| unit[i % 64]).collect()
}

/// The longest unit of a block, a²⁵⁵b, again and again.
fn period_256(n: usize) -> Vec<u8> {
    let unit = last_differs(256);
    (0..n).map(|i| unit[i % 256]).collect()
}

/// Words of a length, one or many: the time of a random one that is taken again and again is not that
/// of another, since the processor learns which way its branches go.
struct Family {
    name: &'static str,
    many: bool,
    word: fn(usize, u64) -> Vec<u8>,
}

impl Family {
    const fn one(name: &'static str, word: fn(usize, u64) -> Vec<u8>) -> Family {
        Family {
            name,
            many: false,
            word,
        }
    }

    const fn many(name: &'static str, word: fn(usize, u64) -> Vec<u8>) -> Family {
        Family {
            name,
            many: true,
            word,
        }
    }

    fn words<S: Kind>(&self, n: usize) -> Vec<Vec<S>> {
        let different = match self.many {
            true => (DIFFERENT_SYMBOLS / n).min(MOST_DIFFERENT),
            false => 1,
        };
        let numbers = 0..different as u64;
        numbers
            .map(|number| spelt((self.word)(n, number)))
            .collect()
    }
}

const FAMILIES: [Family; 8] = [
    Family::many("random, 2 symbols", |n, i| random_word(n, 2, i)),
    Family::many("random, 256 symbols", |n, i| random_word(n, 256, i)),
    Family::one("all equal", |n, _| vec![b'a'; n]),
    Family::one("a…ab", |n, _| last_differs(n)),
    Family::one("Fibonacci", |n, _| fibonacci(n)),
    Family::one("Thue–Morse", |n, _| thue_morse(n)),
    Family::one("period 64", |n, _| period_64(n)),
    Family::one("(a²⁵⁵b)…", |n, _| period_256(n)),
];

/// Equal symbols but for few of them: nearly every boundary is reached, and many windows have one unit.
fn rare(n: usize) -> Vec<u8> {
    let differs = |i: usize| (i.wrapping_mul(2_654_435_761) >> 7) % 97 == 0;
    (0..n).map(|i| b'a' + differs(i) as u8).collect()
}

/// Words that are taken at long lengths beside the others.
const LONG_FAMILIES: [Family; 1] = [Family::one("a with rare b", |n, _| rare(n))];

/// Random units over two symbols, of up to eight of them, each twice; n is even.
fn squares(n: usize) -> Vec<u8> {
    let symbols = random(n, 2);
    let mut word = Vec::new();
    for span in random(n, 8) {
        let used = word.len() / 2;
        let span = (1 + span as usize).min(n / 2 - used);
        word.extend(symbols[used..used + span].repeat(2));
    }
    word
}

/// A word and its ends, for what a page takes beyond a path.
type Page = (&'static str, fn(usize) -> (Vec<u8>, Vec<u32>));

const PAGES: [Page; 4] = [
    ("all equal, blocks of 2", |n| {
        (vec![b'a'; n], (1..=n as u32 / 2).map(|k| 2 * k).collect())
    }),
    ("random squares, 2 symbols, most blocks", |n| {
        let word = squares(n);
        let ends = cegridom::best_split(&word, Edition::One, Choice::Most).unwrap();
        (word, ends)
    }),
    ("(a²⁵⁵b)…, one block", |n| {
        (period_256(n), vec![n as u32])
    }),
    ("all equal, one block", |n| (vec![b'a'; n], vec![n as u32])),
];

/// Two words.
type Pair = (&'static str, fn(usize) -> [Vec<u8>; 2]);

const PAIRS: [Pair; 4] = [
    ("all equal; Fibonacci", |n| [vec![b'a'; n], fibonacci(n)]),
    ("random squares, 2 symbols; period 64", |n| {
        [squares(n), period_64(n)]
    }),
    ("a…ab; Thue–Morse", |n| [last_differs(n), thue_morse(n)]),
    ("random, 2 symbols; random, 256 symbols", |n| {
        [random(n, 2), random(n, 256)]
    }),
];

/// Short words too, where what is done once a call counts most.
const PAIR_LENGTHS: [usize; 5] = [8, 512, 1024, 2048, 4096];

/// Tables for one of the two sides.
#[derive(Clone, PartialEq, Debug)]
struct Buffers {
    table: Vec<u32>,
    work: Vec<u32>,
    page: Vec<u8>,
    line: Vec<u8>,
}

impl Buffers {
    fn new(n: usize) -> Buffers {
        Buffers {
            table: vec![0; raw::RUN_PLACES * n],
            work: vec![0; cegridom::work_places(n)],
            page: vec![0; cegridom::page_bytes(cegridom::most_ends(n))],
            line: vec![0; cegridom::line_bytes(n, n)],
        }
    }
}

/// What the calls are given.
struct Input<S = u8> {
    word: Vec<S>,
    /// For the calls on two words.
    second: Vec<S>,
    /// Its number.
    edition: u32,
    ends: Vec<u32>,
    /// The ends of squares.
    square_ends: Vec<u32>,
    path: Vec<u32>,
    plan_ends: Vec<u32>,
    plan: Vec<u8>,
}

impl<S: Kind> Input<S> {
    /// The edition's split with the most blocks, where there is one; else the whole word as one
    /// block.
    fn new(word: Vec<S>, edition: Edition) -> Input<S> {
        let n = word.len() as u32;
        let ends = cegridom::best_split(&word, edition, Choice::Most).unwrap_or(vec![n]);
        Input::split(word, edition, ends)
    }

    /// The word with these ends. Those of squares are of the split with the most, where there is one;
    /// else the whole word as one.
    fn split(word: Vec<S>, edition: Edition, ends: Vec<u32>) -> Input<S> {
        let n = word.len() as u32;
        let square_ends = cegridom::best_squares(&word, Choice::Most).unwrap_or(vec![n]);
        let runs = cegridom::path_of_split(&word, edition, &ends).unwrap_or(vec![1]);
        let path = runs.iter().zip(&ends).flat_map(|(&r, &e)| [r, e]).collect();
        let plan_ends: Vec<u32> = (1..=n / 2).map(|k| 2 * k).collect();
        let plan = cegridom::write_plan(word.len(), &plan_ends).unwrap();
        Input {
            second: spelt(fibonacci(word.len())),
            word,
            edition: edition.number(),
            ends,
            square_ends,
            path,
            plan_ends,
            plan,
        }
    }

    /// Two words.
    fn pair([word, second]: [Vec<S>; 2], edition: Edition) -> Input<S> {
        Input {
            second,
            ..Input::new(word, edition)
        }
    }

    /// The same word, split and path, told another edition.
    fn told(self, edition: Edition) -> Input<S> {
        Input {
            edition: edition.number(),
            ..self
        }
    }
}

/// As many as the part call gives, and 0 after fewer: an answer allocates nothing, since on short
/// words that would take longer than the call.
type Values = [u32; 4];

type Answer = Result<Values, (u32, u32)>;

fn padded<const N: usize>(given: [u32; N]) -> Values {
    let mut values = Values::default();
    values[..N].copy_from_slice(&given);
    values
}

/// The values that a call hands over by pointer, or its refusal.
fn answer<const N: usize>(call: impl FnOnce(&mut [u32; N], &mut u32) -> u32) -> Answer {
    let (mut values, mut index) = ([0; N], 0);
    match call(&mut values, &mut index) {
        0 => Ok(padded(values)),
        number => Err((number, index)),
    }
}

/// What the time of a call depends on.
enum On {
    Word,
    /// The word and a second one, the Fibonacci word.
    TwoWords,
    /// The count of ends alone.
    Ends,
}

/// A call's name, what its time depends on, whether it is told an edition, and the call by the
/// library and its twin.
struct Call<S: 'static = u8> {
    name: &'static str,
    on: On,
    in_editions: bool,
    library: fn(&Input<S>, &mut Buffers) -> Answer,
    twin: fn(&Input<S>, &mut Buffers) -> Answer,
}

// The pointers that the calls below hand over come from the vectors of the input and of the
// buffers, with their own lengths, and from the values of `answer`; none overlaps another.

fn best<S: Kind>(
    w: &[S],
    edition: u32,
    choice: Choice,
    b: &mut Buffers,
    size: &mut u32,
    index: &mut u32,
) -> u32 {
    let (e, t) = (&mut b.table, &mut b.work);
    unsafe {
        (S::CALLS.best_split)(
            w.as_ptr(),
            w.len(),
            edition,
            choice.number(),
            e.as_mut_ptr(),
            e.len(),
            t.as_mut_ptr(),
            t.len(),
            size,
            index,
        )
    }
}

fn library_best<S: Kind>(input: &Input<S>, b: &mut Buffers, choice: Choice) -> Answer {
    answer(|[size], index| best(&input.word, input.edition, choice, b, size, index))
}

/// The fewest splits of both words, one after the other; what the second gives.
fn two_fewest(input: &Input, b: &mut Buffers) -> Answer {
    let (edition, choice) = (input.edition, Choice::Fewest);
    answer(|[size], index| {
        black_box(best(&input.word, edition, choice, b, size, index));
        best(&input.second, edition, choice, b, size, index)
    })
}

fn twin_best<S: Kind>(input: &Input<S>, b: &mut Buffers, choice: Choice) -> Answer {
    let (w, choice) = (&input.word, choice.number());
    twin::best_split(w, input.edition, choice, &mut b.table, &mut b.work).map(|v| padded([v]))
}

fn library_squares<S: Kind>(input: &Input<S>, b: &mut Buffers, choice: Choice) -> Answer {
    let (w, e, t) = (&input.word, &mut b.table, &mut b.work);
    answer(|[size], index| unsafe {
        (S::CALLS.best_squares)(
            w.as_ptr(),
            w.len(),
            choice.number(),
            e.as_mut_ptr(),
            e.len(),
            t.as_mut_ptr(),
            t.len(),
            size,
            index,
        )
    })
}

fn twin_squares<S: Kind>(input: &Input<S>, b: &mut Buffers, choice: Choice) -> Answer {
    let (w, choice) = (&input.word, choice.number());
    twin::best_squares(w, choice, &mut b.table, &mut b.work).map(|v| padded([v]))
}

const SQUARES: &str = "best squares";
const PATH: &str = "path of a split";
const PAGE: &str = "write a page";
const WHICH: &str = "which first";
const BLOCK: &str = "first block";

static CALLS: [Call; 16] = calls();

/// The same of 16-bit codes. Those on plans are the same.
static CALLS_16: [Call<u16>; 16] = calls();

const fn calls<S: Kind>() -> [Call<S>; 16] {
    [
        Call {
            name: "part",
            on: On::Word,
            in_editions: true,
            library: |input, b| {
                let (w, n, edition) = (input.word.as_ptr(), input.word.len(), input.edition);
                let t = &mut b.table[..n];
                answer(|[unit, turns, rest, block], index| unsafe {
                    (S::CALLS.part)(
                        w,
                        n,
                        edition,
                        1,
                        n as u32,
                        t.as_mut_ptr(),
                        t.len(),
                        unit,
                        turns,
                        rest,
                        block,
                        index,
                    )
                })
            },
            twin: |input, b| {
                let (w, n) = (&input.word, input.word.len());
                twin::part(w, input.edition, 1, n as u32, &mut b.table[..n]).map(padded)
            },
        },
        Call {
            name: "runs",
            on: On::Word,
            in_editions: false,
            library: |input, b| {
                let (w, t) = (&input.word, &mut b.table);
                answer(|[count], index| unsafe {
                    (S::CALLS.runs)(w.as_ptr(), w.len(), t.as_mut_ptr(), t.len(), count, index)
                })
            },
            twin: |input, b| twin::runs(&input.word, &mut b.table).map(|v| padded([v])),
        },
        Call {
            name: "nodes, last position",
            on: On::Word,
            in_editions: true,
            library: |input, b| {
                let (w, n, edition) = (input.word.as_ptr(), input.word.len(), input.edition);
                let t = &mut b.table;
                answer(|[count], index| unsafe {
                    (S::CALLS.nodes)(
                        w,
                        n,
                        edition,
                        n as u32,
                        t.as_mut_ptr(),
                        t.len(),
                        count,
                        index,
                    )
                })
            },
            twin: |input, b| {
                let w = &input.word;
                twin::nodes(w, input.edition, w.len() as u32, &mut b.table).map(|v| padded([v]))
            },
        },
        Call {
            name: "best split, fewest",
            on: On::Word,
            in_editions: true,
            library: |input, b| library_best(input, b, Choice::Fewest),
            twin: |input, b| twin_best(input, b, Choice::Fewest),
        },
        Call {
            name: "best split, most",
            on: On::Word,
            in_editions: true,
            library: |input, b| library_best(input, b, Choice::Most),
            twin: |input, b| twin_best(input, b, Choice::Most),
        },
        Call {
            name: "best squares, fewest",
            on: On::Word,
            in_editions: false,
            library: |input, b| library_squares(input, b, Choice::Fewest),
            twin: |input, b| twin_squares(input, b, Choice::Fewest),
        },
        Call {
            name: "best squares, most",
            on: On::Word,
            in_editions: false,
            library: |input, b| library_squares(input, b, Choice::Most),
            twin: |input, b| twin_squares(input, b, Choice::Most),
        },
        Call {
            name: WHICH,
            on: On::TwoWords,
            in_editions: true,
            library: |input, b| {
                let (v, w, t) = (&input.word, &input.second, &mut b.work);
                answer(|[which], index| unsafe {
                    (S::CALLS.which_first)(
                        v.as_ptr(),
                        v.len(),
                        w.as_ptr(),
                        w.len(),
                        input.edition,
                        t.as_mut_ptr(),
                        t.len(),
                        which,
                        index,
                    )
                })
            },
            twin: |input, b| {
                let (v, w) = (&input.word, &input.second);
                twin::which_first(v, w, input.edition, &mut b.work).map(|which| padded([which]))
            },
        },
        Call {
            name: BLOCK,
            on: On::TwoWords,
            in_editions: true,
            library: |input, b| {
                let (v, w, t) = (&input.word, &input.second, &mut b.work);
                answer(|[which, length], _| unsafe {
                    (S::CALLS.first_block)(
                        v.as_ptr(),
                        v.len(),
                        w.as_ptr(),
                        w.len(),
                        input.edition,
                        t.as_mut_ptr(),
                        t.len(),
                        which,
                        length,
                    )
                })
            },
            twin: |input, b| {
                let (v, w) = (&input.word, &input.second);
                Ok(padded(twin::first_block(v, w, input.edition, &mut b.work)))
            },
        },
        Call {
            name: "judge a split",
            on: On::Word,
            in_editions: true,
            library: |input, _| {
                let (w, n, edition) = (input.word.as_ptr(), input.word.len(), input.edition);
                let e = &input.ends;
                answer(|[blocks], index| unsafe {
                    (S::CALLS.judge_split)(w, n, edition, e.as_ptr(), e.len(), blocks, index)
                })
            },
            twin: |input, _| {
                twin::judge_split(&input.word, input.edition, &input.ends).map(|v| padded([v]))
            },
        },
        Call {
            name: "judge squares",
            on: On::Word,
            in_editions: false,
            library: |input, _| {
                let (w, e) = (&input.word, &input.square_ends);
                answer(|[blocks], index| unsafe {
                    (S::CALLS.judge_squares)(
                        w.as_ptr(),
                        w.len(),
                        e.as_ptr(),
                        e.len(),
                        blocks,
                        index,
                    )
                })
            },
            twin: |input, _| {
                twin::judge_squares(&input.word, &input.square_ends).map(|v| padded([v]))
            },
        },
        Call {
            name: PATH,
            on: On::Word,
            in_editions: true,
            library: |input, b| {
                let (w, e, t) = (&input.word, &input.ends, &mut b.table);
                answer(|[blocks], index| unsafe {
                    (S::CALLS.path_of_split)(
                        w.as_ptr(),
                        w.len(),
                        input.edition,
                        e.as_ptr(),
                        e.len(),
                        t.as_mut_ptr(),
                        t.len(),
                        blocks,
                        index,
                    )
                })
            },
            twin: |input, b| {
                let (w, e) = (&input.word, &input.ends);
                twin::path_of_split(w, input.edition, e, &mut b.table).map(|v| padded([v]))
            },
        },
        Call {
            name: "judge a path",
            on: On::Word,
            in_editions: true,
            library: |input, _| {
                let (w, n, edition) = (input.word.as_ptr(), input.word.len(), input.edition);
                let p = &input.path;
                answer(|[blocks], index| unsafe {
                    (S::CALLS.judge_path)(w, n, edition, p.as_ptr(), p.len(), blocks, index)
                })
            },
            twin: |input, _| {
                twin::judge_path(&input.word, input.edition, &input.path).map(|v| padded([v]))
            },
        },
        Call {
            name: PAGE,
            on: On::Word,
            in_editions: true,
            library: |input, b| {
                let (w, e, out) = (&input.word, &input.ends, &mut b.page);
                answer(|[bytes], index| unsafe {
                    (S::CALLS.write_page)(
                        w.as_ptr(),
                        w.len(),
                        input.edition,
                        e.as_ptr(),
                        e.len(),
                        out.as_mut_ptr(),
                        out.len(),
                        bytes,
                        index,
                    )
                })
            },
            twin: |input, b| {
                let (w, e) = (&input.word, &input.ends);
                twin::write_page(w, input.edition, e, &mut b.page).map(|v| padded([v]))
            },
        },
        Call {
            name: "write a plan",
            on: On::Ends,
            in_editions: false,
            library: |input, b| {
                let (n, e, out) = (input.word.len() as u32, &input.plan_ends, &mut b.line);
                answer(|[bytes], index| unsafe {
                    raw::cegridom_write_plan(
                        n,
                        e.as_ptr(),
                        e.len(),
                        out.as_mut_ptr(),
                        out.len(),
                        bytes,
                        index,
                    )
                })
            },
            twin: |input, b| {
                let n = input.word.len() as u32;
                twin::write_plan(n, &input.plan_ends, &mut b.line).map(|v| padded([v]))
            },
        },
        Call {
            name: "read a plan",
            on: On::Ends,
            in_editions: false,
            library: |input, b| {
                let (s, t) = (&input.plan, &mut b.table);
                answer(|[n, count], index| unsafe {
                    raw::cegridom_read_plan(
                        s.as_ptr(),
                        s.len(),
                        t.as_mut_ptr(),
                        t.len(),
                        n,
                        count,
                        index,
                    )
                })
            },
            twin: |input, b| {
                twin::read_plan(&input.plan, &mut b.table).map(|(n, k)| padded([n, k]))
            },
        },
    ]
}

/// The processor time of this thread, in seconds: what other programs take is not in it.
fn processor_time() -> f64 {
    #[repr(C)]
    struct Timespec {
        seconds: i64,
        nanoseconds: i64,
    }
    extern "C" {
        fn clock_gettime(clock: i32, time: *mut Timespec) -> i32;
    }
    const THREAD_CPUTIME: i32 = 3;
    let mut time = Timespec {
        seconds: 0,
        nanoseconds: 0,
    };
    // SAFETY: the structure is that of x86-64 Linux, which is all that the library is for.
    let failed = unsafe { clock_gettime(THREAD_CPUTIME, &mut time) };
    assert_eq!(failed, 0);
    time.seconds as f64 + time.nanoseconds as f64 * 1e-9
}

/// Seconds of one call, over a batch of so many turns through the inputs.
fn batch<S>(
    call: fn(&Input<S>, &mut Buffers) -> Answer,
    inputs: &[Input<S>],
    buffers: &mut Buffers,
    turns: usize,
) -> f64 {
    let start = processor_time();
    for _ in 0..turns {
        for input in inputs {
            black_box(call(black_box(input), black_box(buffers))).ok();
        }
    }
    (processor_time() - start) / (turns * inputs.len()) as f64
}

/// What the library and its twin both answer, with equal tables.
fn agreed<S>(call: &Call<S>, input: &Input<S>, ours: &mut Buffers, theirs: &mut Buffers) -> Answer {
    let given = (call.library)(input, ours);
    assert_eq!(given, (call.twin)(input, theirs), "{}", call.name);
    assert_eq!(ours, theirs, "{}", call.name);
    given
}

/// How many turns through the inputs make a batch.
fn turns_of<S>(call: &Call<S>, inputs: &[Input<S>], buffers: &mut Buffers) -> usize {
    let once = batch(call.library, inputs, buffers, 1) * inputs.len() as f64;
    (BATCH_SECONDS / once).ceil().max(1.0) as usize
}

/// The library's time and its twin's, in seconds, and what both answered to the first input.
fn measure(call: &Call, inputs: &[Input]) -> (f64, f64, Answer) {
    let n = inputs[0].word.len();
    let (mut ours, mut theirs) = (Buffers::new(n), Buffers::new(n));
    for input in inputs {
        agreed(call, input, &mut ours, &mut theirs).ok();
    }
    let given = (call.library)(&inputs[0], &mut ours);
    let turns = turns_of(call, inputs, &mut ours);
    let (mut library, mut twin) = (f64::MAX, f64::MAX);
    for _ in 0..BATCHES {
        library = library.min(batch(call.library, inputs, &mut ours, turns));
        twin = twin.min(batch(call.twin, inputs, &mut theirs, turns));
    }
    (library, twin, given)
}

/// The words of a family, for a call that is told an edition.
fn inputs<S: Kind>(family: &Family, n: usize, edition: Edition) -> Vec<Input<S>> {
    let words = family.words(n).into_iter();
    words.map(|word| Input::new(word, edition)).collect()
}

/// The library's time in edition 2 over that in edition 1, for the same words, splits and paths.
fn to_first(call: &Call, family: &Family, n: usize) -> f64 {
    let second = inputs(family, n, Edition::Two);
    let told = inputs(family, n, Edition::Two).into_iter();
    let first: Vec<Input> = told.map(|input| input.told(Edition::One)).collect();
    let mut buffers = Buffers::new(n);
    let turns = turns_of(call, &second, &mut buffers);
    let turns_first = turns_of(call, &first, &mut buffers);
    let (mut two, mut one) = (f64::MAX, f64::MAX);
    for _ in 0..BATCHES {
        two = two.min(batch(call.library, &second, &mut buffers, turns));
        one = one.min(batch(call.library, &first, &mut buffers, turns_first));
    }
    two / one
}

/// The number of an edition, for a call that is told one.
fn told(edition: Option<Edition>) -> String {
    edition.map_or("–".to_string(), |e| e.number().to_string())
}

fn said(given: &Answer) -> String {
    match given {
        Ok(_) => "accepted".to_string(),
        Err((number, _)) => format!("refused {number}"),
    }
}

/// One row of the table.
struct Row {
    call: &'static str,
    /// None where the call is told none.
    edition: Option<Edition>,
    word: String,
    /// The library's time at each length, in seconds.
    times: [f64; LENGTHS.len()],
    /// The twin's at the last.
    twin: f64,
    /// What both answered there.
    given: Answer,
    /// For a row of edition 2, what it takes there of edition 1's time.
    to_first: Option<f64>,
}

impl Row {
    fn new(call: &'static Call, family: &Family, edition: Edition) -> Row {
        let mut row = Row {
            call: call.name,
            edition: call.in_editions.then_some(edition),
            word: match call.on {
                On::Word => family.name.to_string(),
                On::TwoWords => format!("{}; Fibonacci", family.name),
                On::Ends => "every second end".to_string(),
            },
            times: [0.0; LENGTHS.len()],
            twin: 0.0,
            given: Ok(Values::default()),
            to_first: None,
        };
        for (time, n) in row.times.iter_mut().zip(LENGTHS) {
            (*time, row.twin, row.given) = measure(call, &inputs(family, n, edition));
        }
        if edition == Edition::Two {
            row.to_first = Some(to_first(call, family, LENGTHS[LENGTHS.len() - 1]));
        }
        row
    }

    fn longest(&self) -> f64 {
        self.times[LENGTHS.len() - 1]
    }

    fn growth(&self) -> f64 {
        (self.longest() / self.times[0]).powf(1.0 / DOUBLINGS)
    }

    fn ratio(&self) -> f64 {
        self.longest() / self.twin
    }

    fn print(&self) {
        let (edition, said) = (told(self.edition), said(&self.given));
        let to_first = self.to_first.map_or("–".to_string(), |r| format!("{r:.2}"));
        let times = self.times.map(|t| format!("{:.1}", t * MICRO)).join(" | ");
        println!(
            "| {} | {edition} | {} | {said} | {times} | {:.2} | {:.1} | {:.2} | {to_first} |",
            self.call,
            self.word,
            self.growth(),
            self.twin * MICRO,
            self.ratio()
        );
    }
}

/// The words that a call is tried on: one is enough where its time does not depend on them.
fn families<S>(call: &Call<S>) -> &'static [Family] {
    match call.on {
        On::Word | On::TwoWords => &FAMILIES,
        On::Ends => &FAMILIES[..1],
    }
}

/// The editions that a call is tried in: one is enough where it is told none.
fn editions<S>(call: &Call<S>) -> &'static [Edition] {
    const BOTH: [Edition; 2] = [Edition::One, Edition::Two];
    &BOTH[..if call.in_editions { BOTH.len() } else { 1 }]
}

fn time(calls: impl Iterator<Item = &'static Call>) {
    println!("Time of one call in microseconds, by the length of the word, or of each of two; growth is the factor for each doubling, on average from 512 to 4,096 (4 is quadratic); ratio is the library's time over the twin's at 4,096; to edition 1 is the library's time in edition 2 over that in edition 1, for the same word of 4,096 symbols and the same split or path. A split or path that is judged is the edition's own; in edition 2, for both times of the last column, edition 2's. Squares that are judged are the most, or the whole word where it has no split into squares.\n");
    println!(
        "| call | edition | word | answer | 512 | 1,024 | 2,048 | 4,096 | growth | twin, 4,096 | ratio | to edition 1 |"
    );
    println!("|---|---|---|---|--:|--:|--:|--:|--:|--:|--:|--:|");
    let mut rows = Vec::new();
    for call in calls {
        for family in families(call) {
            for &edition in editions(call) {
                let row = Row::new(call, family, edition);
                row.print();
                rows.push(row);
            }
        }
    }
    let slowest = |name| {
        let named = rows.iter().filter(|row| row.call.starts_with(name));
        greatest(named.map(Row::longest)) * MILLI
    };
    let by_runs = ["runs", "nodes", PATH, "judge a path", SQUARES];
    for name in by_runs {
        let named = || rows.iter().filter(|row| row.call.starts_with(name));
        if named().next().is_some() {
            println!(
                "\n{name}: worst of 4,096 symbols {:.2} ms, worst growth {:.2}.",
                slowest(name),
                greatest(named().map(Row::growth))
            );
        }
    }
    let splits = || rows.iter().filter(|row| row.call.starts_with("best split"));
    if splits().next().is_some() {
        println!(
            "\nbest split: worst of 4,096 symbols {:.2} ms, worst ratio {:.2}, worst to edition 1 {:.2}.",
            slowest("best split"),
            greatest(splits().map(Row::ratio)),
            greatest(splits().filter_map(|row| row.to_first))
        );
    }
    println!(
        "\nWorst ratio {:.2}, worst growth {:.2}, worst to edition 1 {:.2}; slowest best split of 4,096 symbols {:.1} ms, slowest best squares {:.1} ms.",
        greatest(rows.iter().map(Row::ratio)),
        greatest(rows.iter().map(Row::growth)),
        greatest(rows.iter().filter_map(|row| row.to_first)),
        slowest("best split"),
        slowest(SQUARES)
    );
    for row in rows.iter().filter(|row| row.ratio() > MOST_RATIO) {
        let (call, word, ratio) = (row.call, &row.word, row.ratio());
        println!("Over {MOST_RATIO} times the twin: {call}, {word}: ratio {ratio:.2}.");
    }
    for row in splits() {
        let (call, word, ratio) = (row.call, &row.word, row.to_first.unwrap_or_default());
        if ratio > MOST_TO_FIRST {
            println!("Over {MOST_TO_FIRST} times edition 1: {call}, {word}: {ratio:.2}.");
        }
    }
}

/// A count with a comma before its last three digits, where it has more.
fn thousands(count: usize) -> String {
    match count {
        0..1000 => count.to_string(),
        _ => format!("{},{:03}", count / 1000, count % 1000),
    }
}

fn named(name: &str) -> &'static Call {
    let mut calls = CALLS.iter();
    calls.find(|call| call.name == name).expect("it is a call")
}

fn time_pages() {
    println!("\nTime of one call in microseconds, in edition 1, and what write a page takes beyond path of a split, in nanoseconds a block.\n");
    println!("| word and split | length | blocks | path of a split | write a page | beyond, ns a block |");
    println!("|---|--:|--:|--:|--:|--:|");
    let [path, page] = [PATH, PAGE].map(named);
    for (name, make) in PAGES {
        for n in LENGTHS {
            let (word, ends) = make(n);
            let blocks = ends.len();
            let input = [Input::split(word, Edition::One, ends)];
            let mut buffers = Buffers::new(n);
            let turns = turns_of(path, &input, &mut buffers);
            let (mut without, mut with) = (f64::MAX, f64::MAX);
            for _ in 0..CLOSE_BATCHES {
                without = without.min(batch(path.library, &input, &mut buffers, turns));
                with = with.min(batch(page.library, &input, &mut buffers, turns));
            }
            println!(
                "| {name} | {} | {} | {:.1} | {:.1} | {:.0} |",
                thousands(n),
                thousands(blocks),
                without * MICRO,
                with * MICRO,
                (with - without) * NANO / blocks as f64
            );
        }
    }
}

/// Each call on words of a few symbols, where what is done once a call counts most: the word that
/// takes it longest.
fn time_short(calls: impl Iterator<Item = &'static Call>) {
    println!("\nTime of one call on words of {SHORT} symbols in nanoseconds, for the word that takes the library longest.\n");
    println!("| call | edition | word | answer | library | twin |");
    println!("|---|---|---|---|--:|--:|");
    for call in calls {
        for &edition in editions(call) {
            let measured = families(call).iter().map(|family| {
                let (library, twin, given) = measure(call, &inputs(family, SHORT, edition));
                (family.name, library, twin, given)
            });
            let slowest = measured.max_by(|a, b| a.1.total_cmp(&b.1));
            let (word, library, twin, given) = slowest.expect("there are words");
            println!(
                "| {} | {} | {word} | {} | {:.0} | {:.0} |",
                call.name,
                told(call.in_editions.then_some(edition)),
                said(&given),
                library * NANO,
                twin * NANO
            );
        }
    }
}

/// Of the batches of a long call the least is a matter of luck, to a few hundredths.
fn median(mut times: Vec<f64>) -> f64 {
    times.sort_by(f64::total_cmp);
    times[times.len() / 2]
}

fn time_pairs() {
    println!("\nTime of one call in microseconds, in edition 1, and what the calls on two words take of the time of their two fewest splits, one after the other; of each the median batch.\n");
    println!(
        "| words | length | two fewest splits | which first | of two | first block | of two |"
    );
    println!("|---|--:|--:|--:|--:|--:|--:|");
    let calls = [WHICH, BLOCK].map(named);
    let mut over = Vec::new();
    let mut worst = 0.0f64;
    for (name, make) in PAIRS {
        for n in PAIR_LENGTHS {
            let input = [Input::pair(make(n), Edition::One)];
            let mut buffers = Buffers::new(n);
            let turns = turns_of(calls[0], &input, &mut buffers);
            let sides = [two_fewest, calls[0].library, calls[1].library];
            let mut seen = sides.map(|_| Vec::new());
            for _ in 0..CLOSE_BATCHES {
                for (times_seen, side) in seen.iter_mut().zip(sides) {
                    times_seen.push(batch(side, &input, &mut buffers, turns));
                }
            }
            let [two, which, block] = seen.map(median);
            let ratios = [which / two, block / two];
            println!(
                "| {name} | {} | {:.2} | {:.2} | {:.2} | {:.2} | {:.2} |",
                thousands(n),
                two * MICRO,
                which * MICRO,
                ratios[0],
                block * MICRO,
                ratios[1]
            );
            for (ratio, call) in ratios.into_iter().zip(calls) {
                worst = worst.max(ratio);
                if ratio > MOST_OF_TWO {
                    over.push(format!(
                        "{}, {name}, {}: {ratio:.2}",
                        call.name,
                        thousands(n)
                    ));
                }
            }
        }
    }
    println!("\nWorst {worst:.2} of two fewest splits.");
    for row in over {
        println!("Over {MOST_OF_TWO} of two fewest splits: {row}.");
    }
}

/// Lengths for the comparison of bytes with codes, and some of the words.
const WIDTH_LENGTHS: [usize; 3] = [SHORT, 512, 4096];
const WIDTH_WORDS: [&str; 4] = ["random, 2 symbols", "all equal", "Fibonacci", "(a²⁵⁵b)…"];

/// The times of a call on bytes and on codes, which answer the same.
fn both_widths(bytes: &Call, codes: &Call<u16>, family: &Family, n: usize) -> [f64; 2] {
    let (of_bytes, of_codes) = (
        inputs(family, n, Edition::One),
        inputs(family, n, Edition::One),
    );
    let mut buffers = Buffers::new(n);
    for (a, b) in of_bytes.iter().zip(&of_codes) {
        let given = (bytes.library)(a, &mut buffers);
        assert_eq!(given, (codes.library)(b, &mut buffers), "{}", bytes.name);
    }
    let turns = turns_of(bytes, &of_bytes, &mut buffers);
    let mut least = [f64::MAX; 2];
    for _ in 0..CLOSE_BATCHES {
        least[0] = least[0].min(batch(bytes.library, &of_bytes, &mut buffers, turns));
        least[1] = least[1].min(batch(codes.library, &of_codes, &mut buffers, turns));
    }
    least
}

/// The calls on words, of bytes and of codes.
fn of_both<'a>(
    calls: impl Iterator<Item = &'a Call>,
) -> impl Iterator<Item = (&'a Call, &'static Call<u16>)> {
    let on_words = calls.filter(|call| !matches!(call.on, On::Ends));
    on_words.map(|call| {
        let mut codes = CALLS_16.iter();
        let same = codes.find(|codes| codes.name == call.name);
        (call, same.expect("it is a call"))
    })
}

fn time_widths(calls: impl Iterator<Item = &'static Call>) {
    println!("\nTime of one call in microseconds, in edition 1, on a word of bytes and on the same numbers as 16-bit codes, by its length, or that of each of two; ratio is the time on codes over that on bytes.\n");
    println!("| call | word | bytes, 8 | codes, 8 | ratio | bytes, 512 | codes, 512 | ratio | bytes, 4,096 | codes, 4,096 | ratio |");
    println!("|---|---|--:|--:|--:|--:|--:|--:|--:|--:|--:|");
    let mut over = Vec::new();
    let mut worst = 0.0f64;
    for (bytes, codes) in of_both(calls) {
        let some = FAMILIES.iter().filter(|f| WIDTH_WORDS.contains(&f.name));
        for family in some {
            let columns = WIDTH_LENGTHS.map(|n| {
                let times = both_widths(bytes, codes, family, n);
                let ratio = times[1] / times[0];
                worst = worst.max(ratio);
                if ratio > MOST_OF_BYTES {
                    let (name, n) = (bytes.name, thousands(n));
                    over.push(format!("{name}, {}, {n}: {ratio:.2}", family.name));
                }
                let [bytes, codes] = times.map(|t| t * MICRO);
                format!("{bytes:.3} | {codes:.3} | {ratio:.2}")
            });
            println!(
                "| {} | {} | {} |",
                bytes.name,
                family.name,
                columns.join(" | ")
            );
        }
    }
    println!("\nWorst {worst:.2} of the time on bytes.");
    for row in over {
        println!("Over {MOST_OF_BYTES} of the time on bytes: {row}.");
    }
}

/// The words that a call is tried on at long lengths.
fn long_families<S>(call: &Call<S>) -> impl Iterator<Item = &'static Family> {
    let more = match call.on {
        On::Word | On::TwoWords => &LONG_FAMILIES[..],
        On::Ends => &[],
    };
    families(call).iter().chain(more)
}

/// One word of a family: a long one is not learnt by the processor.
fn one_input<S: Kind>(family: &Family, n: usize, edition: Edition) -> [Input<S>; 1] {
    [Input::new(spelt((family.word)(n, 0)), edition)]
}

/// The time of one call, over as many turns as take long enough.
fn long_batch<S>(
    call: fn(&Input<S>, &mut Buffers) -> Answer,
    input: &[Input<S>; 1],
    buffers: &mut Buffers,
) -> f64 {
    let once = batch(call, input, buffers, 1);
    match (BATCH_SECONDS / once).ceil() as usize {
        0 | 1 => once,
        turns => batch(call, input, buffers, turns),
    }
}

/// One call on a family's word at the long lengths, in one edition.
struct LongRow {
    call: &'static str,
    edition: Option<Edition>,
    word: String,
    /// The library's times, in seconds.
    times: [f64; LONG_LENGTHS.len()],
    /// At the last length: the twin's, that on codes if they were taken, and what all answered.
    twin: f64,
    codes: Option<f64>,
    given: Answer,
}

impl LongRow {
    /// The longest word as codes too, for a call that takes a word.
    fn new(
        call: &'static Call,
        family: &Family,
        edition: Edition,
        inputs: &[[Input; 1]; LONG_LENGTHS.len()],
        codes: Option<(&'static Call<u16>, &[Input<u16>; 1])>,
    ) -> LongRow {
        let mut times = [f64::MAX; LONG_LENGTHS.len()];
        let last = LONG_LENGTHS.len() - 1;
        for (time, input) in times.iter_mut().zip(&inputs[..last]) {
            let mut buffers = Buffers::new(input[0].word.len());
            let batches = (0..LONG_BATCHES).map(|_| long_batch(call.library, input, &mut buffers));
            *time = batches.fold(f64::MAX, f64::min);
        }
        let n = LONG_LENGTHS[last];
        let (mut ours, mut theirs) = (Buffers::new(n), Buffers::new(n));
        let given = agreed(call, &inputs[last][0], &mut ours, &mut theirs);
        if let Some((codes, input)) = codes {
            let same = (codes.library)(&input[0], &mut ours);
            assert_eq!(given, same, "{}", call.name);
        }
        let (mut twin, mut of_codes) = (f64::MAX, f64::MAX);
        for _ in 0..LONG_BATCHES {
            times[last] = times[last].min(long_batch(call.library, &inputs[last], &mut ours));
            twin = twin.min(long_batch(call.twin, &inputs[last], &mut theirs));
            if let Some((codes, input)) = codes {
                of_codes = of_codes.min(long_batch(codes.library, input, &mut ours));
            }
        }
        LongRow {
            call: call.name,
            edition: call.in_editions.then_some(edition),
            word: match call.on {
                On::Word => family.name.to_string(),
                On::TwoWords => format!("{}; Fibonacci", family.name),
                On::Ends => "every second end".to_string(),
            },
            times,
            twin,
            codes: codes.map(|_| of_codes),
            given,
        }
    }

    fn longest(&self) -> f64 {
        self.times[LONG_LENGTHS.len() - 1]
    }

    fn growth(&self) -> f64 {
        (self.longest() / self.times[1]).powf(1.0 / LONG_DOUBLINGS)
    }

    fn ratio(&self) -> f64 {
        self.longest() / self.twin
    }

    fn print(&self) {
        let times = self.times.map(|t| format!("{:.1}", t * MICRO)).join(" | ");
        println!(
            "| {} | {} | {} | {} | {times} | {:.2} | {:.1} | {:.2} |",
            self.call,
            told(self.edition),
            self.word,
            said(&self.given),
            self.growth(),
            self.twin * MICRO,
            self.ratio()
        );
    }
}

/// Every call on long words; what these are given takes its time, and is made once for all calls.
fn long_rows(calls: impl Iterator<Item = &'static Call> + Clone) -> Vec<LongRow> {
    let longest = LONG_LENGTHS[LONG_LENGTHS.len() - 1];
    let mut rows = Vec::new();
    for family in FAMILIES.iter().chain(&LONG_FAMILIES) {
        for edition in [Edition::One, Edition::Two] {
            let inputs = LONG_LENGTHS.map(|n| one_input(family, n, edition));
            // The widths are compared in edition 1.
            let codes = (edition == Edition::One).then(|| one_input(family, longest, edition));
            for call in calls.clone() {
                let taken = long_families(call).any(|f| f.name == family.name);
                if !taken || !editions(call).contains(&edition) {
                    continue;
                }
                let same = of_both([call].into_iter()).next().map(|(_, codes)| codes);
                let codes = same.zip(codes.as_ref());
                rows.push(LongRow::new(call, family, edition, &inputs, codes));
            }
        }
    }
    // In the order of the calls; those of one call stay in theirs.
    rows.sort_by_key(|row| CALLS.iter().position(|call| call.name == row.call));
    rows
}

fn time_long(calls: impl Iterator<Item = &'static Call> + Clone) {
    let rows = long_rows(calls);
    println!("\nTime of one call in microseconds on long words, by the length of the word, or of each of two: the least of {LONG_BATCHES} batches; growth is the factor for each doubling, on average from 17,500 to 70,000 symbols; ratio is the library's time over the twin's at 70,000. Splits, paths and squares that are judged are chosen as in the first table.\n");
    println!("| call | edition | word | answer | 4,096 | 17,500 | 35,000 | 70,000 | growth | twin, 70,000 | ratio |");
    println!("|---|---|---|---|--:|--:|--:|--:|--:|--:|--:|");
    rows.iter().for_each(LongRow::print);
    for call in CALLS.iter() {
        let named = || rows.iter().filter(|row| row.call == call.name);
        if named().next().is_some() {
            println!(
                "\n{}: worst of 70,000 symbols {:.2} ms, worst growth {:.2}, worst ratio {:.2}.",
                call.name,
                greatest(named().map(LongRow::longest)) * MILLI,
                greatest(named().map(LongRow::growth)),
                greatest(named().map(LongRow::ratio))
            );
        }
    }
    println!("\nThe same, in edition 1, on a word of bytes and on the same numbers as 16-bit codes, of 70,000 symbols, or two of them; ratio is the time on codes over that on bytes.\n");
    println!("| call | word | bytes, 70,000 | codes, 70,000 | ratio |");
    println!("|---|---|--:|--:|--:|");
    let mut worst = 0.0f64;
    for row in &rows {
        if let Some(codes) = row.codes {
            let (bytes, ratio) = (row.longest(), codes / row.longest());
            worst = worst.max(ratio);
            let [bytes, codes] = [bytes, codes].map(|t| t * MICRO);
            println!(
                "| {} | {} | {bytes:.1} | {codes:.1} | {ratio:.2} |",
                row.call, row.word
            );
        }
    }
    println!("\nWorst {worst:.2} of the time on bytes, at 70,000 symbols.");
}

/// The answers on one word of each family, just over the length of a plan line of four digits.
fn compare_long<S: Kind>(calls: impl Iterator<Item = &'static Call<S>>) {
    let n = cegridom::LINE_LIMIT + 2;
    for call in calls {
        for family in long_families(call) {
            for &edition in editions(call) {
                let (mut ours, mut theirs) = (Buffers::new(n), Buffers::new(n));
                let [input] = one_input(family, n, edition);
                agreed(call, &input, &mut ours, &mut theirs).ok();
            }
        }
    }
}

fn greatest(figures: impl Iterator<Item = f64>) -> f64 {
    figures.fold(0.0, f64::max)
}

/// Compares the answers at the least length, and on words of a few symbols.
fn compare<S: Kind>(calls: impl Iterator<Item = &'static Call<S>>) {
    for call in calls {
        for family in families(call) {
            for &edition in editions(call) {
                for n in [SHORT, LENGTHS[0]] {
                    let (mut ours, mut theirs) = (Buffers::new(n), Buffers::new(n));
                    for input in inputs(family, n, edition) {
                        agreed(call, &input, &mut ours, &mut theirs).ok();
                    }
                }
            }
        }
    }
}

/// The same for the pages; none is refused.
fn compare_pages() {
    let n = LENGTHS[0];
    for (name, make) in PAGES {
        let (word, ends) = make(n);
        let input = Input::split(word, Edition::One, ends);
        for call in [PATH, PAGE].map(named) {
            let (mut ours, mut theirs) = (Buffers::new(n), Buffers::new(n));
            assert!(
                agreed(call, &input, &mut ours, &mut theirs).is_ok(),
                "{name}"
            );
        }
    }
}

/// The same for the pairs, of short words too, in both editions.
fn compare_pairs() {
    for (_, make) in PAIRS {
        for n in &PAIR_LENGTHS[..2] {
            for edition in [Edition::One, Edition::Two] {
                let input = Input::pair(make(*n), edition);
                for call in [WHICH, BLOCK].map(named) {
                    let (mut ours, mut theirs) = (Buffers::new(*n), Buffers::new(*n));
                    agreed(call, &input, &mut ours, &mut theirs).ok();
                }
            }
        }
    }
}

/// The answers and tables of bytes and of codes, the page apart.
fn compare_widths(calls: impl Iterator<Item = &'static Call>) {
    for (bytes, codes) in of_both(calls) {
        for family in families(bytes) {
            for n in [SHORT, LENGTHS[0]] {
                let (mut a, mut b) = (Buffers::new(n), Buffers::new(n));
                let of_bytes = inputs(family, n, Edition::One).into_iter();
                for (of_bytes, of_codes) in of_bytes.zip(inputs(family, n, Edition::One)) {
                    let given = (bytes.library)(&of_bytes, &mut a);
                    assert_eq!(given, (codes.library)(&of_codes, &mut b), "{}", bytes.name);
                    b.page.clone_from(&a.page);
                    assert_eq!(a, b, "{}", bytes.name);
                }
            }
        }
    }
}

fn main() {
    // `cargo bench` adds `--bench` to what is asked for; `cargo test` does not.
    let arguments: Vec<String> = std::env::args().skip(1).collect();
    let wanted = arguments.iter().find(|a| !a.starts_with("--"));
    let wanted = wanted.map_or("", String::as_str);
    let chosen = CALLS.iter().filter(|call| call.name.contains(wanted));
    let chosen_16 = CALLS_16.iter().filter(|call| call.name.contains(wanted));
    let pages = PAGE.contains(wanted);
    let pairs = [WHICH, BLOCK].iter().any(|name| name.contains(wanted));
    if arguments.iter().any(|a| a == "--bench") {
        time(chosen.clone());
        time_short(chosen.clone());
        if pages {
            time_pages();
        }
        if pairs {
            time_pairs();
        }
        time_widths(chosen.clone());
        time_long(chosen);
    } else {
        compare(chosen.clone());
        compare(chosen_16.clone());
        compare_long(chosen.clone());
        compare_long(chosen_16);
        compare_widths(chosen);
        if pages {
            compare_pages();
        }
        if pairs {
            compare_pairs();
        }
    }
}
