use std::collections::BTreeMap;
use std::io::{self, BufWriter, Write};
use std::process::ExitCode;

use model::case::{judge, Case, Verdict};
use model::night::Night;
use model::{bench, compare, gen, sample, small, store, table};

const USAGE: &str = "\
model vectors FILE                                       answer every line of FILE and compare
model cases --seed S --count N [--kinds TRWLP]           print generated cases with answers
model store DIR [--seed S] [--kinds TRWLP] [--blocks N]    stored cases for the program vectors, in DIR
    [--with FILE]                                        with those of FILE among them
model show FILE                                          the stored cases, one a line; each must be as the model stores it
model damage FILE DIR                                    copies of FILE with one answer wrong each, and what vectors must say
model sample DIR                                         a small night: DIR/night.table and DIR/night.message
model small                                              search all spellings of small trees
model compare --seed S --count N [--kinds TRWLP]         generated cases through libargo.a
    [--trace yes]                                        print each case before its call
model compare --file FILE                                stored cases through libargo.a
model bench                                              time the model, and libargo.a if linked
model bench --hostile                                    one call each on rows that are worst for the writer: some seconds
model night DIR N                                        a night of N jobs: DIR/night-N.table, .message and .json";

fn main() -> ExitCode {
    let words: Vec<String> = std::env::args().skip(1).collect();
    let words: Vec<&str> = words.iter().map(String::as_str).collect();
    match run(&words) {
        Ok(true) => ExitCode::SUCCESS,
        Ok(false) => ExitCode::from(1),
        Err(message) => {
            eprintln!("{message}");
            ExitCode::from(2)
        }
    }
}

fn run(words: &[&str]) -> Result<bool, String> {
    match words {
        ["vectors", file] => vectors(file),
        ["cases", rest @ ..] => cases(&Options::parse(rest)?),
        ["store", dir, rest @ ..] => keep(dir, &Options::parse(rest)?),
        ["show", file] => show(file),
        ["damage", file, dir] => damage(file, dir),
        ["sample", dir] => {
            put(dir, "night.table", &sample::table())?;
            put(dir, "night.message", &sample::message())?;
            Ok(true)
        }
        ["small"] => Ok(small::run()),
        ["compare", "--file", file] => compare::stored(&text(file)?),
        ["compare", rest @ ..] => {
            let options = Options::parse(rest)?;
            let Options { seed, count, .. } = options;
            compare::generated(seed, count, &options.kinds, options.trace)
        }
        ["bench"] => {
            bench::run();
            Ok(true)
        }
        ["bench", "--hostile"] => {
            bench::hostile();
            Ok(true)
        }
        ["night", dir, jobs] => {
            let night = Night::new(jobs.parse().map_err(|_| USAGE)?);
            let table = table::file(&Night::nodes());
            put(dir, &format!("night-{jobs}.table"), &table)?;
            put(dir, &format!("night-{jobs}.message"), &night.message())?;
            put(dir, &format!("night-{jobs}.json"), night.json().as_bytes())?;
            Ok(true)
        }
        _ => Err(USAGE.to_string()),
    }
}

fn text(file: &str) -> Result<String, String> {
    std::fs::read_to_string(file).map_err(|error| format!("{file}: {error}"))
}

fn bytes(file: &str) -> Result<Vec<u8>, String> {
    std::fs::read(file).map_err(|error| format!("{file}: {error}"))
}

fn put(dir: &str, name: &str, bytes: &[u8]) -> Result<(), String> {
    let path = format!("{dir}/{name}");
    std::fs::write(&path, bytes).map_err(|error| format!("{path}: {error}"))
}

struct Options {
    seed: u64,
    count: usize,
    kinds: String,
    trace: bool,
    blocks: usize,
    with: Option<String>,
}

impl Options {
    fn parse(words: &[&str]) -> Result<Options, String> {
        let mut options = Options {
            seed: 1,
            count: 1_000,
            kinds: gen::KINDS.to_string(),
            trace: false,
            blocks: 15,
            with: None,
        };
        for pair in words.chunks(2) {
            match *pair {
                ["--seed", seed] => options.seed = seed.parse().map_err(|_| USAGE)?,
                ["--count", count] => options.count = count.parse().map_err(|_| USAGE)?,
                ["--kinds", kinds]
                    if !kinds.is_empty() && kinds.chars().all(|kind| gen::KINDS.contains(kind)) =>
                {
                    options.kinds = kinds.to_string()
                }
                ["--trace", "yes"] => options.trace = true,
                ["--blocks", blocks] => options.blocks = blocks.parse().map_err(|_| USAGE)?,
                ["--with", file] => options.with = Some(file.to_string()),
                _ => return Err(USAGE.to_string()),
            }
        }
        Ok(options)
    }
}

fn vectors(file: &str) -> Result<bool, String> {
    let (mut total, mut differ) = (0, 0);
    let mut agreeing: BTreeMap<char, usize> = BTreeMap::new();
    for (i, line) in text(file)?.lines().enumerate() {
        if line.trim().is_empty() || line.starts_with('#') {
            continue;
        }
        let (case, verdict) = judge(line).map_err(|error| format!("line {}: {error}", i + 1))?;
        total += 1;
        match verdict {
            Verdict::Agrees => *agreeing.entry(case.kind()).or_default() += 1,
            Verdict::OtherWords(ours) => {
                *agreeing.entry(case.kind()).or_default() += 1;
                println!("line {}: same numbers, other words: {line} | {ours}", i + 1);
            }
            Verdict::Differs(ours) => {
                differ += 1;
                println!("line {}: {line} | {ours}", i + 1);
            }
        }
    }
    for (kind, count) in agreeing {
        println!("{kind}: {count} agree");
    }
    println!("{total} cases, {differ} differ");
    Ok(differ == 0)
}

fn cases(options: &Options) -> Result<bool, String> {
    let mut cases = gen::Cases::new(options.seed, &options.kinds);
    print_cases((0..options.count).map(|_| cases.next_case()))
}

fn print_cases(cases: impl Iterator<Item = Case>) -> Result<bool, String> {
    let mut out = BufWriter::new(io::stdout().lock());
    for case in cases {
        // A closed pipe ends the listing, it is no fault.
        if writeln!(out, "{case} -> {}", case.answer()).is_err() {
            return Ok(true);
        }
    }
    Ok(true)
}

/// Stored cases as the input of a program and what it must write.
fn keep(dir: &str, options: &Options) -> Result<bool, String> {
    let given = match &options.with {
        Some(file) => text(file)?
            .lines()
            .filter(|line| !line.trim().is_empty() && !line.starts_with('#'))
            .map(|line| Case::parse(line.split(" -> ").next().unwrap_or(line)))
            .collect::<Result<Vec<Case>, String>>()?,
        None => Vec::new(),
    };
    let stored = store::Store::new(options.seed, &options.kinds, options.blocks, given);
    let report = format!("{} cases, 0 differ\n", stored.count());
    print!(
        "{} bytes, {} the largest case, {} cases left out; {report}",
        stored.file.len(),
        stored.largest,
        stored.left_out
    );
    put(dir, "stdin", &stored.file)?;
    put(dir, "stdout", report.as_bytes())?;
    Ok(true)
}

fn show(file: &str) -> Result<bool, String> {
    print_cases(store::decode(&bytes(file)?)?.into_iter())
}

/// Copies of the stored cases that the program `vectors` must find fault with: what it must say stands beside each.
fn damage(file: &str, dir: &str) -> Result<bool, String> {
    for copy in store::damaged(&bytes(file)?)? {
        put(dir, &format!("{}.stdin", copy.name), &copy.file)?;
        put(
            dir,
            &format!("{}.stdout", copy.name),
            copy.report.as_bytes(),
        )?;
    }
    Ok(true)
}
