//! A realistic night of jobs, as rows for the writer, as a message, and as the JSON text of the same answer.

use std::fmt::Write;

use crate::rng::Rng;
use crate::table::{self, Node};
use crate::{rows, write, MAX_BYTES, WORK_WORDS};

const SUITES: [&str; 5] = ["unit", "build", "lint", "fuzz", "system"];
const MODULES: [&str; 8] = [
    "parser",
    "codec",
    "linker",
    "net",
    "scheduler",
    "ui",
    "storage",
    "index",
];

struct Job {
    /// Different for each job.
    name: String,
    status: &'static str,
    note: Option<&'static str>,
    seconds: u64,
    digest: [u8; 20],
}

/// A night in which most jobs pass and few have something to note.
pub struct Night {
    jobs: Vec<Job>,
}

impl Night {
    pub fn new(jobs: usize) -> Night {
        let mut rng = Rng::new(jobs as u64);
        Night {
            jobs: (0..jobs).map(|i| job(&mut rng, i)).collect(),
        }
    }

    /// An array of records: name, status, note, seconds, digest.
    pub fn nodes() -> Vec<Node> {
        let n = Node::new;
        vec![
            n(table::ARRAY, 0, 0),
            n(table::RECORD, 0, 5),
            n(table::BLOCK, table::DEDUPLICATE, 0),
            n(table::STRING, 0, 0),
            n(table::BLOCK, table::DEDUPLICATE, 1),
            n(table::STRING, 0, 0),
            n(table::NULLABLE, 0, 0),
            n(table::BLOCK, table::DEDUPLICATE, 2),
            n(table::STRING, 0, 0),
            n(table::BLOCK, 0, 3),
            n(table::VARINT, 0, 0),
            n(table::BLOCK, 0, 4),
            n(table::FIXED, 0, 20),
        ]
    }

    /// The rows and their pool. Every text has a place of its own, so that equal ones are found by their bytes alone.
    pub fn rows(&self) -> (Vec<u64>, Vec<u8>) {
        let mut pool = Vec::new();
        let mut list = vec![rows::ARRAY, self.jobs.len() as u64, 0, 0];
        let mut place = |kind: u64, bytes: &[u8], node: u64| {
            pool.extend(bytes);
            let start = pool.len() - bytes.len();
            [kind, start as u64, bytes.len() as u64, node]
        };
        for job in &self.jobs {
            list.extend([rows::RECORD, 5, 0, 1]);
            list.extend(place(rows::STRING, job.name.as_bytes(), 2));
            list.extend(place(rows::STRING, job.status.as_bytes(), 4));
            list.extend(match job.note {
                Some(note) => place(rows::STRING, note.as_bytes(), 6),
                None => [rows::NULL, 0, 0, 6],
            });
            list.extend([rows::INTEGER, job.seconds, 0, 9]);
            list.extend(place(rows::FIXED, &job.digest, 11));
        }
        (list, pool)
    }

    pub fn message(&self) -> Vec<u8> {
        let (list, pool) = self.rows();
        let mut message = vec![0; MAX_BYTES];
        let table = table::file(&Night::nodes());
        let answer = write::write(&table, 0, &list, &pool, &mut message, WORK_WORDS);
        assert!(answer.is_success(), "the night is written: {answer}");
        message.truncate(answer.second as usize);
        message
    }

    /// The answer as a GraphQL server sends it, without spaces; JSON has no bytes, so the digest is in hex.
    pub fn json(&self) -> String {
        let mut jobs = Vec::new();
        for job in &self.jobs {
            let note = job
                .note
                .map_or("null".to_string(), |note| format!("\"{note}\""));
            let mut digest = String::new();
            for byte in job.digest {
                let _ = write!(digest, "{byte:02x}");
            }
            jobs.push(format!(
                "{{\"name\":\"{}\",\"status\":\"{}\",\"note\":{note},\"seconds\":{},\"digest\":\"{digest}\"}}",
                job.name, job.status, job.seconds
            ));
        }
        format!("{{\"data\":{{\"jobs\":[{}]}}}}", jobs.join(","))
    }
}

fn job(rng: &mut Rng, i: usize) -> Job {
    let status = match rng.below(100) {
        0..=84 => "PASSED",
        85..=91 => "FAILED",
        92..=96 => "SKIPPED",
        _ => "KILLED",
    };
    let notes: &[Option<&str>] = match status {
        "FAILED" => &[Some("1 test failed"), Some("exit status 2"), Some("")],
        "SKIPPED" => &[Some("no runner free"), Some("not on this platform")],
        "KILLED" => &[Some("timeout after an hour"), Some("out of memory")],
        _ if rng.one_in(30) => &[Some("flaky, tried again")],
        _ => &[None, None, None, None, Some("")],
    };
    // Most jobs are short.
    let longest = rng.pick(&[20, 60, 60, 400, 4_000]);
    Job {
        name: format!("{}/{}/{i}", rng.pick(&SUITES), rng.pick(&MODULES)),
        status,
        note: rng.pick(notes),
        seconds: 1 + rng.below(longest) as u64,
        digest: std::array::from_fn(|_| rng.byte()),
    }
}

#[cfg(test)]
mod tests {
    use super::*;
    use crate::small::{reading, tree_of};
    use std::collections::HashSet;

    #[test]
    fn a_night_has_different_names_and_few_other_texts() {
        let night = Night::new(1_200);
        let different = |texts: Vec<&str>| texts.into_iter().collect::<HashSet<_>>().len();
        let jobs = &night.jobs;
        assert_eq!(different(jobs.iter().map(|j| &j.name[..]).collect()), 1_200);
        assert_eq!(different(jobs.iter().map(|j| j.status).collect()), 4);
        let notes: Vec<&str> = jobs.iter().filter_map(|j| j.note).collect();
        assert!(notes.len() < 600);
        assert_eq!(different(notes), 8);
    }

    #[test]
    fn the_message_reads_as_the_rows() {
        let night = Night::new(40);
        let (list, pool) = night.rows();
        let message = night.message();
        let got = reading(&table::file(&Night::nodes()), &message).expect("it reads");
        assert_eq!(tree_of(&got, &message), tree_of(&list, &pool));
    }

    #[test]
    fn the_json_text() {
        let night = Night {
            jobs: vec![Job {
                name: "unit/ui/0".to_string(),
                status: "PASSED",
                note: None,
                seconds: 7,
                digest: [0xa0; 20],
            }],
        };
        let digest = "a0".repeat(20);
        assert_eq!(
            night.json(),
            format!("{{\"data\":{{\"jobs\":[{{\"name\":\"unit/ui/0\",\"status\":\"PASSED\",\"note\":null,\"seconds\":7,\"digest\":\"{digest}\"}}]}}}}")
        );
    }
}
