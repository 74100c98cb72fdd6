//! Times of the model and, where linked, of the library, side by side, in tables.

use std::hint::black_box;

use crate::columns::{commas, Table};
use crate::gen::fixed::table_s;
use crate::hostile::{self, List};
use crate::scenes::{self, Scene};
use crate::table::{self, file, Node};
use crate::write::{self, Search};
use crate::{clock, ffi, read, rows, Answer, MAX_BYTES, NO_DEDUPLICATION, WORK_WORDS};

/// Rounds of all measurements; a call's best one counts.
const ROUNDS: usize = 60;
/// In a round, a call is repeated until that takes so many seconds.
const ROUND: f64 = 0.001;

/// A call to be timed; none where the library is not linked.
type Call<'a> = Option<Box<dyn FnMut() + 'a>>;

pub fn run() {
    // After the first large block that is given back, the C library keeps as much for itself. Otherwise the model's calls
    // would, or would not, fetch their memory anew from the system, as it happens to lie.
    drop(black_box(vec![1u8; 16 << 20]));
    let pairs = scenes::pairs();
    let small = scenes::small();
    let texts = scenes::long_texts();
    let tables = scenes::tables();
    let files: Vec<Vec<u8>> = tables.iter().flatten().map(|(_, t)| file(t)).collect();
    let mut calls = Vec::new();
    calls.extend(pairs.iter().flatten().flat_map(read_calls));
    for plain in [false, true] {
        let scenes = pairs.iter().flatten();
        calls.extend(scenes.flat_map(|scene| write_calls(scene, plain)));
    }
    calls.extend(files.iter().flat_map(|file| check_calls(file)));
    calls.extend(small.iter().flat_map(|scene| write_calls(scene, false)));
    calls.extend(texts.iter().flat_map(|texts| text_calls(texts)));
    let mut times = Times(best(calls).into_iter());

    println!(
        "Processor time in ns for each row, or node when checking; best of {ROUNDS} rounds.\n"
    );
    reading(&pairs, &mut times);
    writing(&pairs, &mut times);
    checking(&tables, &mut times);
    whole_calls(&small, &mut times);
    long_texts(&texts, &mut times);
}

/// One call on each of the lists that are worst for the writer: with the hash table, and the library. Each line is
/// printed as soon as it is known.
pub fn hostile() {
    println!(
        "Processor time of one call that writes, in ms. \
         Lists of 60,000 bytes each and of many sizes are refused with 43 after the first pass.\n"
    );
    println!(
        "| {:>5} | {:<46} | {:>7} | {:>7} |",
        "rows", "list", "hash", "library"
    );
    println!(
        "|{}:|{}|{}:|{}:|",
        "-".repeat(6),
        "-".repeat(48),
        "-".repeat(8),
        "-".repeat(8)
    );
    for list in hostile::lists() {
        let list = list();
        let [hash, library] = hostile_times(&list).map(|time| time * 1e3);
        let (rows, name) = (commas(list.rows.len() / rows::WORDS), list.name);
        println!("| {rows:>5} | {name:<46} | {hash:>7.1} | {library:>7.1} |");
    }
    println!();
}

fn hostile_times(list: &List) -> [f64; 2] {
    let List { rows, pool, .. } = list;
    let table = file(&table_s());
    let [mut out, mut lent] = std::array::from_fn(|_| vec![0; MAX_BYTES]);
    let mut work = Work::new();
    let start = clock::now();
    let ours = write::write(&table, 0, rows, pool, &mut out, WORK_WORDS);
    let hash = clock::now() - start;
    let start = clock::now();
    let theirs = ffi::write(&table, 0, rows, pool, &mut lent, &mut work.0);
    let library = clock::now() - start;
    assert_eq!(ours.number, list.number, "{}", list.name);
    let Some(theirs) = theirs else {
        return [hash, f64::NAN];
    };
    assert_eq!(theirs, ours, "{}", list.name);
    assert!(lent == out, "{}", list.name);
    [hash, library]
}

/// The model bare and with work to zero, and the library.
fn read_calls(scene: &Scene) -> [Call<'_>; 3] {
    let room = || vec![0; scene.rows.len()];
    let (table, message) = (&scene.table, &scene.message);
    let (mut bare, mut zeroed, mut lent) = (room(), room(), room());
    let (mut owed, mut work) = (Work::new(), Work::new());
    [
        call(move || read::read(table, message, &mut bare, WORK_WORDS)),
        call(move || {
            owed.zero();
            read::read(table, message, &mut zeroed, WORK_WORDS)
        }),
        linked(move || ffi::read(table, message, &mut lent, &mut work.0)),
    ]
}

/// The model bare, with work to zero, and with that and the sheet's search; and the library. All in the scene's modes,
/// and in mode 5 too where it is to be plain.
fn write_calls(scene: &Scene, plain: bool) -> [Call<'_>; 4] {
    let (modes, room) = match plain {
        false => (scene.modes, vec![0; scene.message.len()]),
        true => (scene.modes | NO_DEDUPLICATION, vec![0; scene.long]),
    };
    let (table, rows, pool) = (&scene.table, &scene.rows, &scene.pool);
    let model = move |search: Search, out: &mut [u8]| {
        write::write_by(search, table, modes as u128, rows, pool, out, WORK_WORDS)
    };
    let [mut bare, mut hash, mut one_by_one, mut lent] = std::array::from_fn(|_| room.clone());
    let [mut owed, mut owed_too, mut work] = std::array::from_fn(|_| Work::new());
    [
        call(move || model(Search::Hash, &mut bare)),
        call(move || {
            owed.zero();
            model(Search::Hash, &mut hash)
        }),
        call(move || {
            owed_too.zero();
            model(Search::OneByOne, &mut one_by_one)
        }),
        linked(move || ffi::write(table, modes, rows, pool, &mut lent, &mut work.0)),
    ]
}

/// The check of the standard library alone; then the model and the library, each reading a message that holds just the
/// text, and the library writing it. Each call takes the next text.
fn text_calls(scenes: &[Scene]) -> [Call<'_>; 4] {
    let turns = || scenes.iter().cycle();
    let [mut checked, mut read, mut read_too, mut written] = std::array::from_fn(|_| turns());
    let [mut rows, mut lent_rows] = [[0; rows::WORDS]; 2];
    let room = scenes.iter().map(|scene| scene.message.len()).max();
    let mut lent = vec![0; room.unwrap_or(0)];
    let [mut owed, mut work, mut work_too] = std::array::from_fn(|_| Work::new());
    [
        call(move || {
            let text = &checked.next().expect("a text").pool;
            let valid = std::str::from_utf8(black_box(text)).is_ok();
            Answer {
                number: u64::from(!valid),
                second: 0,
            }
        }),
        call(move || {
            let Scene { table, message, .. } = read.next().expect("a text");
            owed.zero();
            read::read(table, message, &mut rows, WORK_WORDS)
        }),
        linked(move || {
            let Scene { table, message, .. } = read_too.next().expect("a text");
            ffi::read(table, message, &mut lent_rows, &mut work.0)
        }),
        linked(move || {
            let Scene {
                table, rows, pool, ..
            } = written.next().expect("a text");
            ffi::write(table, 0, rows, pool, &mut lent, &mut work_too.0)
        }),
    ]
}

/// As for reading.
fn check_calls(table: &[u8]) -> [Call<'_>; 3] {
    let (mut owed, mut work) = (Work::new(), Work::new());
    [
        call(move || table::check(table, WORK_WORDS)),
        call(move || {
            owed.zero();
            table::check(table, WORK_WORDS)
        }),
        linked(move || ffi::check(table, &mut work.0)),
    ]
}

fn call<'a>(mut call: impl FnMut() -> Answer + 'a) -> Call<'a> {
    Some(Box::new(move || assert!(call().is_success())))
}

fn linked<'a>(mut call: impl FnMut() -> Option<Answer> + 'a) -> Call<'a> {
    call()?;
    Some(Box::new(move || {
        assert!(call().is_some_and(Answer::is_success))
    }))
}

/// Work of the size that a caller lends.
struct Work(Vec<u32>);

impl Work {
    fn new() -> Work {
        Work(vec![0; WORK_WORDS])
    }

    /// Zeroed as the sheet owes it; whoever lent it might look.
    fn zero(&mut self) {
        self.0.fill(0);
        black_box(&mut self.0[..]);
    }
}

/// Seconds that each call takes, in its best round; not a number where there is none. The rounds of a call lie apart,
/// so that what disturbs the machine for a while does not meet all of them.
fn best(mut calls: Vec<Call>) -> Vec<f64> {
    let mut best = vec![f64::INFINITY; calls.len()];
    for _ in 0..ROUNDS {
        for (best, call) in best.iter_mut().zip(&mut calls) {
            *best = match call {
                Some(call) => best.min(round(call)),
                None => f64::NAN,
            };
        }
    }
    best
}

fn round(call: &mut dyn FnMut()) -> f64 {
    let mut calls = 1;
    loop {
        let start = clock::now();
        for _ in 0..calls {
            call();
        }
        let time = clock::now() - start;
        if time >= ROUND {
            return time / calls as f64;
        }
        calls *= 2;
    }
}

/// The times in the order of the calls.
struct Times(std::vec::IntoIter<f64>);

impl Times {
    fn next<const N: usize>(&mut self) -> [f64; N] {
        std::array::from_fn(|_| self.0.next().expect("a time for each call"))
    }
}

fn reading(pairs: &[[Scene; 2]], times: &mut Times) {
    let size = |scene: &Scene| (scene.name.clone(), scene.count());
    let groups = pairs.iter().map(|pair| pair.iter().map(size).collect());
    side_by_side("reading | rows", groups.collect(), times);
}

fn checking(tables: &[Vec<(&str, Vec<Node>)>], times: &mut Times) {
    let size = |(name, nodes): &(&str, Vec<Node>)| (name.to_string(), nodes.len());
    let groups = tables.iter().map(|group| group.iter().map(size).collect());
    side_by_side("checking | nodes", groups.collect(), times);
}

/// The model bare and with work to zero, and the library; each group is of n and, where it has two, 2n.
fn side_by_side(head: &str, groups: Vec<Vec<(String, usize)>>, times: &mut Times) {
    let columns = "bare | model | library | ratio | to bare | 2n: model | library";
    let mut table = Table::new(&format!("{head} | {columns}"));
    for group in groups {
        let mut before = [f64::NAN; 3];
        for (name, count) in group {
            let all @ [bare, model, library] = times.next();
            let mut line = table.line(&name, count);
            line.each(&all);
            line.ratios(&[library / model, library / bare]);
            line.ratios(&[model / before[1], library / before[2]]);
            before = all;
        }
    }
    table.print();
}

fn writing(pairs: &[[Scene; 2]], times: &mut Times) {
    let mut take = || -> Vec<[[f64; 4]; 2]> {
        let both = |_| std::array::from_fn(|_| times.next());
        pairs.iter().map(both).collect()
    };
    let (searching, plain) = (take(), take());
    with_search(pairs, &searching);
    without_search(pairs, &searching, &plain);
}

fn with_search(pairs: &[[Scene; 2]], times: &[[[f64; 4]; 2]]) {
    let mut table = Table::new(
        "writing | rows | bare | hash | one by one | library | to hash | to one by one \
         | 2n: hash | one by one | library",
    );
    for (pair, times) in pairs.iter().zip(times) {
        let mut before = [f64::NAN; 4];
        for (scene, all) in pair.iter().zip(times) {
            let [_, hash, search, library] = *all;
            let mut line = table.line(&scene.name, scene.count());
            line.each(all);
            line.ratios(&[library / hash, library / search]);
            line.ratios(&[hash / before[1], search / before[2], library / before[3]]);
            before = *all;
        }
    }
    table.print();
}

/// In mode 5 nothing is looked for. What the search takes is the time with it less the time without it.
fn without_search(pairs: &[[Scene; 2]], searching: &[[[f64; 4]; 2]], plain: &[[[f64; 4]; 2]]) {
    let mut table = Table::new(
        "writing in mode 5 | rows | model | library | ratio | 2n: model | library \
         | search: one by one | library | of all",
    );
    for (i, pair) in pairs.iter().enumerate() {
        let mut before = [f64::NAN; 4];
        for (j, scene) in pair.iter().enumerate() {
            let (with, without) = (searching[i][j], plain[i][j]);
            let [_, model, _, library] = without;
            let mut line = table.line(&scene.name, scene.count());
            line.each(&[model, library]);
            line.ratios(&[library / model, model / before[1], library / before[3]]);
            // A difference of two times may come out below zero.
            let search = |way: usize| (with[way] - without[way]).clamp(0.0, f64::INFINITY);
            line.each(&[search(2), search(3)]);
            line.share(search(3) / with[3]);
            before = without;
        }
    }
    table.print();
}

/// Small messages, where what a call does once is most of its time.
fn whole_calls(scenes: &[Scene], times: &mut Times) {
    let mut table =
        Table::new("writing, ns for a call | rows | bare | hash | library | ratio | to bare");
    for scene in scenes {
        let [bare, hash, _, library] = times.next();
        let mut line = table.call(&scene.name, scene.count());
        line.each(&[bare, hash, library]);
        line.ratios(&[library / hash, library / bare]);
    }
    table.print();
}

/// Messages of one long text, whose check is nearly all that there is to do; with ASCII the zeros of the work count too.
fn long_texts(scenes: &[[Scene; 8]], times: &mut Times) {
    let mut table = Table::new(
        "a message of one text, µs for a call | bytes | from_utf8 alone | model reads | library reads \
         | to from_utf8 | library writes",
    );
    for [scene, ..] in scenes {
        let [check, model, library, writing] = times.next();
        let mut line = table.long_call(&scene.name, scene.pool.len());
        line.each(&[check, model, library]);
        line.ratios(&[library / check]);
        line.each(&[writing]);
    }
    table.print();
}
