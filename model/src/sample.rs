//! A small night of jobs, for the repository's samples: its table, and its message as the model writes it.

use crate::table::{self, file, Node};
use crate::{rows, write, MAX_BYTES, WORK_WORDS};

/// A job, with nulls and absent fields as `None`.
struct Job {
    name: &'static str,
    status: &'static str,
    note: Option<&'static str>,
    seconds: Option<i64>,
    digest: [u8; 8],
}

const JOBS: [Job; 4] = [
    Job {
        name: "parser",
        status: "PASSED",
        note: Some(""),
        seconds: Some(41),
        digest: *b"\x1f\x8b\x5e\x02\xa7\x44\x90\x3c",
    },
    Job {
        name: "linker",
        status: "KILLED",
        note: Some("out of memory"),
        seconds: None,
        digest: [0; 8],
    },
    Job {
        name: "manual",
        status: "PASSED",
        note: None,
        seconds: Some(7),
        digest: *b"\xd4\x01\x77\xee\x20\x6b\x5a\x98",
    },
    Job {
        name: "parser",
        status: "PASSED",
        note: Some(""),
        seconds: Some(43),
        digest: *b"\x1f\x8b\x5e\x02\xa7\x44\x90\x3c",
    },
];

/// An array of jobs: name, status, a note that may be null, seconds that may be absent, a digest.
pub fn table() -> Vec<u8> {
    let n = Node::new;
    let dedup = table::DEDUPLICATE;
    file(&[
        n(table::ARRAY, 0, 0),
        n(table::RECORD, 0, 5),
        n(table::BLOCK, dedup, 0),
        n(table::STRING, 0, 0),
        n(table::BLOCK, dedup, 1),
        n(table::STRING, 0, 0),
        n(table::NULLABLE, 0, 0),
        n(table::BLOCK, dedup, 2),
        n(table::STRING, 0, 0),
        n(table::BLOCK, table::OMITTABLE, 3),
        n(table::VARINT, 0, 0),
        n(table::BLOCK, 0, 4),
        n(table::FIXED, 0, JOBS[0].digest.len() as u16),
    ])
}

pub fn message() -> Vec<u8> {
    let mut pool = Vec::new();
    let mut list = vec![rows::ARRAY, JOBS.len() as u64, 0, 0];
    let mut place = |kind: u64, bytes: &[u8], node: u64| {
        pool.extend(bytes);
        let start = pool.len() - bytes.len();
        [kind, start as u64, bytes.len() as u64, node]
    };
    for job in &JOBS {
        list.extend([rows::RECORD, 5, 0, 1]);
        list.extend(place(rows::STRING, job.name.as_bytes(), 2));
        list.extend(place(rows::STRING, job.status.as_bytes(), 4));
        list.extend(match job.note {
            Some(note) => place(rows::STRING, note.as_bytes(), 6),
            None => [rows::NULL, 0, 0, 6],
        });
        list.extend(match job.seconds {
            Some(seconds) => [rows::INTEGER, seconds as u64, 0, 9],
            None => [rows::ABSENT, 0, 0, 9],
        });
        list.extend(place(rows::FIXED, &job.digest, 11));
    }
    let mut message = vec![0; MAX_BYTES];
    let answer = write::write(&table(), 0, &list, &pool, &mut message, WORK_WORDS);
    assert!(answer.is_success(), "the sample is written: {answer}");
    message.truncate(answer.second as usize);
    message
}
