//! Cases, one a line, with the answer after `->`.
//!
//! ```text
//! T work table -> number second
//! R work rows table message -> number second rows
//! W work out modes table rows pool -> number second message
//! L bytes index rows -> number second description
//! P index rows data -> part
//! ```

use std::fmt;

use crate::rows::{self, Seen, Value};
use crate::{read, table, write, Answer, MAX_BYTES, MAX_ROWS};

#[derive(Clone, Debug, PartialEq)]
pub enum Case {
    Table {
        work: usize,
        table: Vec<u8>,
    },
    Read {
        work: usize,
        rows: usize,
        table: Vec<u8>,
        message: Vec<u8>,
    },
    Write {
        work: usize,
        out: usize,
        modes: u128,
        table: Vec<u8>,
        rows: Vec<u64>,
        pool: Vec<u8>,
    },
    Look {
        bytes: usize,
        index: u64,
        rows: Vec<u64>,
    },
    Part {
        index: u64,
        rows: Vec<u64>,
        data: Vec<u8>,
    },
}

#[derive(Clone, Debug)]
pub enum Reply {
    Numbers(Answer),
    Rows(Answer, Vec<u64>),
    Message(Answer, Vec<u8>),
    Seen(Answer, Option<Seen>),
    Part(Vec<u8>),
}

impl Reply {
    /// The two numbers, of every call but the one that hands back a part.
    pub fn answer(&self) -> Option<Answer> {
        match self {
            Reply::Numbers(answer)
            | Reply::Rows(answer, _)
            | Reply::Message(answer, _)
            | Reply::Seen(answer, _) => Some(*answer),
            Reply::Part(_) => None,
        }
    }
}

impl Case {
    pub fn kind(&self) -> char {
        match self {
            Case::Table { .. } => 'T',
            Case::Read { .. } => 'R',
            Case::Write { .. } => 'W',
            Case::Look { .. } => 'L',
            Case::Part { .. } => 'P',
        }
    }

    /// The model's answer.
    pub fn answer(&self) -> Reply {
        match self {
            Case::Table { work, table } => Reply::Numbers(table::check(table, *work)),
            Case::Read {
                work,
                rows,
                table,
                message,
            } => {
                // Words past the most rows are zeros that nobody asks for here.
                let mut lent = vec![0; (*rows).min(rows::WORDS * (MAX_ROWS + 1))];
                let answer = read::read(table, message, &mut lent, *work);
                let used = if answer.is_success() {
                    rows::WORDS * answer.second as usize
                } else {
                    0
                };
                lent.truncate(used);
                Reply::Rows(answer, lent)
            }
            Case::Write {
                work,
                out,
                modes,
                table,
                rows,
                pool,
            } => {
                let mut lent = vec![0; (*out).min(MAX_BYTES + 1)];
                let answer = write::write(table, *modes, rows, pool, &mut lent, *work);
                let used = if answer.is_success() {
                    answer.second as usize
                } else {
                    0
                };
                lent.truncate(used);
                Reply::Message(answer, lent)
            }
            Case::Look { bytes, index, rows } => {
                let (answer, seen) = rows::look(rows, *bytes, *index);
                Reply::Seen(answer, seen)
            }
            Case::Part { index, rows, data } => {
                Reply::Part(rows::part(rows, data, *index).to_vec())
            }
        }
    }

    /// The case in front of `->`.
    pub fn parse(line: &str) -> Result<Case, String> {
        let words: Vec<&str> = line.split_whitespace().collect();
        match words[..] {
            ["T", work, table] => Ok(Case::Table {
                work: number(work)?,
                table: bytes(table)?,
            }),
            ["R", work, rows, table, message] => Ok(Case::Read {
                work: number(work)?,
                rows: number(rows)?,
                table: bytes(table)?,
                message: bytes(message)?,
            }),
            ["W", work, out, modes, table, rows, pool] => Ok(Case::Write {
                work: number(work)?,
                out: number(out)?,
                modes: number(modes)?,
                table: bytes(table)?,
                rows: list(rows)?,
                pool: bytes(pool)?,
            }),
            ["L", bytes, index, rows] => Ok(Case::Look {
                bytes: number(bytes)?,
                index: number(index)?,
                rows: list(rows)?,
            }),
            ["P", index, rows, data] => Ok(Case::Part {
                index: number(index)?,
                rows: list(rows)?,
                data: bytes(data)?,
            }),
            _ => Err("no such case".to_string()),
        }
    }
}

fn number<T: std::str::FromStr>(word: &str) -> Result<T, String> {
    word.parse().map_err(|_| format!("not a number: {word}"))
}

fn list(word: &str) -> Result<Vec<u64>, String> {
    match word {
        "-" => Ok(Vec::new()),
        _ => word.split(',').map(number).collect(),
    }
}

fn bytes(word: &str) -> Result<Vec<u8>, String> {
    if word == "-" {
        return Ok(Vec::new());
    }
    let digit = |c: u8| (c as char).to_digit(16).map(|d| d as u8);
    word.as_bytes()
        .chunks(2)
        .map(|pair| match *pair {
            [high, low] => Some(digit(high)? << 4 | digit(low)?),
            _ => None,
        })
        .collect::<Option<Vec<u8>>>()
        .ok_or_else(|| format!("not bytes: {word}"))
}

struct Hex<'a>(&'a [u8]);

impl fmt::Display for Hex<'_> {
    fn fmt(&self, f: &mut fmt::Formatter) -> fmt::Result {
        if self.0.is_empty() {
            return f.write_str("-");
        }
        self.0.iter().try_for_each(|byte| write!(f, "{byte:02x}"))
    }
}

struct Words<'a>(&'a [u64]);

impl fmt::Display for Words<'_> {
    fn fmt(&self, f: &mut fmt::Formatter) -> fmt::Result {
        let Some((first, rest)) = self.0.split_first() else {
            return f.write_str("-");
        };
        write!(f, "{first}")?;
        rest.iter().try_for_each(|word| write!(f, ",{word}"))
    }
}

impl fmt::Display for Case {
    fn fmt(&self, f: &mut fmt::Formatter) -> fmt::Result {
        match self {
            Case::Table { work, table } => write!(f, "T {work} {}", Hex(table)),
            Case::Read {
                work,
                rows,
                table,
                message,
            } => write!(f, "R {work} {rows} {} {}", Hex(table), Hex(message)),
            Case::Write {
                work,
                out,
                modes,
                table,
                rows,
                pool,
            } => {
                let (table, rows, pool) = (Hex(table), Words(rows), Hex(pool));
                write!(f, "W {work} {out} {modes} {table} {rows} {pool}")
            }
            Case::Look { bytes, index, rows } => write!(f, "L {bytes} {index} {}", Words(rows)),
            Case::Part { index, rows, data } => {
                write!(f, "P {index} {} {}", Words(rows), Hex(data))
            }
        }
    }
}

impl fmt::Display for Answer {
    fn fmt(&self, f: &mut fmt::Formatter) -> fmt::Result {
        write!(f, "{} {}", self.number, self.second)
    }
}

impl fmt::Display for Seen {
    fn fmt(&self, f: &mut fmt::Formatter) -> fmt::Result {
        match self.value {
            Value::Null => f.write_str("null")?,
            Value::Absent => f.write_str("absent")?,
            Value::Truth(false) => f.write_str("truth:False")?,
            Value::Truth(true) => f.write_str("truth:True")?,
            Value::Integer(n) => write!(f, "integer:{n}")?,
            Value::Float(x) => write!(f, "float:{}", x.to_bits())?,
            Value::Place { start, len, .. } => write!(f, "place:{start}:{len}")?,
            Value::Count { count, .. } => write!(f, "count:{count}")?,
        }
        write!(f, "@{}", self.node)
    }
}

impl fmt::Display for Reply {
    fn fmt(&self, f: &mut fmt::Formatter) -> fmt::Result {
        match self {
            Reply::Numbers(answer) => write!(f, "{answer}"),
            Reply::Rows(answer, rows) => write!(f, "{answer} {}", Words(rows)),
            Reply::Message(answer, message) => write!(f, "{answer} {}", Hex(message)),
            Reply::Seen(answer, Some(seen)) => write!(f, "{answer} {seen}"),
            Reply::Seen(answer, None) => write!(f, "{answer} -"),
            Reply::Part(part) => write!(f, "{}", Hex(part)),
        }
    }
}

/// A stored line against the model's answer.
pub enum Verdict {
    Agrees,
    /// The numbers agree; the words of an L description do not.
    OtherWords(String),
    Differs(String),
}

pub fn judge(line: &str) -> Result<(Case, Verdict), String> {
    let (case, stored) = line.split_once(" -> ").ok_or("no answer in the line")?;
    let case = Case::parse(case)?;
    let reply = case.answer();
    let ours = reply.to_string();
    let verdict = if ours == stored.trim() {
        Verdict::Agrees
    } else {
        let numbers = reply.answer().map(|answer| answer.to_string());
        match (case.kind(), numbers) {
            ('L', Some(numbers)) if stored.starts_with(&format!("{numbers} ")) => {
                Verdict::OtherWords(ours)
            }
            _ => Verdict::Differs(ours),
        }
    };
    Ok((case, verdict))
}
