//! What the generator reaches, and the label matrix cell by cell.

use std::collections::BTreeSet;

use model::case::{judge, Case, Reply, Verdict};
use model::gen::fixed::{cells, Cell, HEADERS};
use model::gen::Cases;
use model::{rows, table, NO_DEDUPLICATION, OUT_OF_BAND_FIELD_ERRORS};

/// What the matrix says of a cell: the refusal, or the row of the value.
fn by_the_matrix(cell: &Cell) -> Result<u64, u64> {
    let text = matches!(cell.kind, table::STRING | table::BYTES);
    let n = cell.label;
    match n {
        -2 if cell.omittable => return Ok(rows::ABSENT),
        -1 if cell.nullable => return Ok(rows::NULL),
        -3 if cell.nullable && cell.modes & OUT_OF_BAND_FIELD_ERRORS != 0 => return Ok(rows::NULL),
        -3 if cell.nullable => return Err(25),
        -3..=-1 => return Err(24),
        _ => {}
    }
    if text && n <= -4 {
        let numbered = cell.deduplicate && cell.modes & NO_DEDUPLICATION == 0;
        return match n {
            -4 if numbered => Ok(text_row(cell)),
            _ => Err(26),
        };
    }
    match cell.kind {
        table::STRING | table::BYTES if n <= 64 => Ok(text_row(cell)),
        // More than the block holds.
        table::STRING | table::BYTES => Err(27),
        table::BOOLEAN if n == 0 => Ok(rows::FALSE),
        table::BOOLEAN if n == 1 => Ok(rows::TRUE),
        table::ARRAY if (0..=64).contains(&n) => Ok(rows::ARRAY),
        // More entries than the core holds.
        table::ARRAY if n > 64 => Err(23),
        table::VARINT if n == 0 => Ok(rows::INTEGER),
        table::FLOAT64 if n == 0 => Ok(rows::FLOAT),
        table::FIXED if n == 0 => Ok(rows::FIXED),
        table::RECORD if n == 0 => Ok(rows::RECORD),
        _ => Err(24),
    }
}

fn text_row(cell: &Cell) -> u64 {
    match cell.kind {
        table::STRING => rows::STRING,
        _ => rows::BYTES,
    }
}

#[test]
fn every_cell_of_the_label_matrix() {
    let cells = cells();
    assert_eq!(cells.len(), (6 * 4 + 4 * 3) * 20 * 16);
    for cell in cells {
        let Reply::Rows(answer, rows) = cell.case().answer() else {
            panic!("a reading case");
        };
        let got = match answer.number {
            0 => Ok(rows[8]),
            number => Err(number),
        };
        assert_eq!(got, by_the_matrix(&cell), "{cell:?}");
    }
}

#[test]
fn generated_cases_reach_every_refusal() {
    let mut reached = BTreeSet::new();
    let mut cases = Cases::new(20, "TRWLP");
    for _ in 0..60_000 {
        let case = cases.next_case();
        if let Some(answer) = case.answer().answer() {
            reached.insert((case.kind(), answer.number));
        }
    }
    let front = [0, 1, 10, 11, 12, 13, 14, 15];
    let reader = (20..=32).chain([35]);
    let writer = [28, 32, 40, 41, 42, 43];
    let expected = front
        .iter()
        .flat_map(|&number| ['T', 'R', 'W'].map(|kind| (kind, number)))
        .chain(reader.map(|number| ('R', number)))
        .chain(writer.map(|number| ('W', number)))
        .chain([0, 50, 51].map(|number| ('L', number)));
    let missing: Vec<_> = expected.filter(|pair| !reached.contains(pair)).collect();
    assert!(missing.is_empty(), "{missing:?}");
}

#[test]
fn headers_and_limits_are_reached() {
    let mut headers = BTreeSet::new();
    let (mut nodes, mut rows, mut deep) = (0, 0, 0);
    let mut cases = Cases::new(4, "R");
    for _ in 0..20_000 {
        let case = cases.next_case();
        let Reply::Rows(answer, read) = case.answer() else {
            panic!("a reading case");
        };
        let Case::Read { message, table, .. } = case else {
            panic!("a reading case");
        };
        if answer.is_success() {
            headers.insert(message[0]);
            rows = rows.max(read.len() / 4);
            nodes = nodes.max((table.len() - 7) / 4);
            let chain = table[7..].chunks_exact(4);
            deep = deep.max(chain.take_while(|node| node[0] >= 7).count());
        }
    }
    assert_eq!(headers.into_iter().collect::<Vec<_>>(), HEADERS);
    assert_eq!((nodes, rows), (1_024, 8_192));
    assert!(deep >= 10);
}

#[test]
fn a_seed_gives_the_same_cases_again() {
    let lines = |seed| {
        let mut cases = Cases::new(seed, "TRWLP");
        (0..300)
            .map(|_| cases.next_case().to_string())
            .collect::<Vec<_>>()
    };
    assert_eq!(lines(5), lines(5));
    assert_ne!(lines(5), lines(6));
}

#[test]
fn lines_are_read_as_they_were_printed() {
    let mut cases = Cases::new(9, "TRWLP");
    for _ in 0..3_000 {
        let case = cases.next_case();
        let line = format!("{case} -> {}", case.answer());
        assert_eq!(Case::parse(&case.to_string()), Ok(case));
        assert!(matches!(judge(&line), Ok((_, Verdict::Agrees))), "{line}");
    }
}

#[test]
fn a_wrong_answer_is_seen() {
    let differs = |line: &str| matches!(judge(line), Ok((_, Verdict::Differs(_))));
    let agrees = |line: &str| matches!(judge(line), Ok((_, Verdict::Agrees)));
    assert!(agrees("T 16384 - -> 10 0"));
    assert!(differs("T 16384 - -> 10 1"));
    assert!(differs("P 0 6,0,1,0 41 -> -"));
    assert!(agrees("L 0 0 4,7,0,3 -> 0 0 integer:7@3"));
    assert!(differs("L 0 0 4,7,0,3 -> 51 0 -"));
    let other = judge("L 0 0 4,7,0,3 -> 0 0 seven");
    assert!(matches!(other, Ok((_, Verdict::OtherWords(_)))));
    assert!(judge("X 1 2 -> 3").is_err());
    assert!(judge("T 16384 4 -> 10 0").is_err());
    assert!(judge("T 16384 41").is_err());
}
