//! Trees to time calls on, mostly in pairs of n and 2n rows.

use crate::columns::commas;
use crate::gen::fixed::{array_chain, table_all, table_e, table_s};
use crate::night::Night;
use crate::rng::Rng;
use crate::table::{self, file, Node};
use crate::{rows, write, MAX_BYTES, NO_DEDUPLICATION, NULL_TERMINATED_STRINGS, WORK_WORDS};

/// Bytes of a long text, or one less where the last letter does not fit.
const LONG: usize = 60_000;

/// A tree with its table and its message in these modes; and how long the message is in mode 5 too.
pub struct Scene {
    pub name: String,
    pub modes: u64,
    pub table: Vec<u8>,
    pub rows: Vec<u64>,
    pub pool: Vec<u8>,
    pub message: Vec<u8>,
    pub long: usize,
}

impl Scene {
    fn new(name: &str, nodes: &[Node], rows: Vec<u64>, pool: Vec<u8>) -> Scene {
        Scene::in_modes(0, name, nodes, rows, pool)
    }

    fn in_modes(modes: u64, name: &str, nodes: &[Node], rows: Vec<u64>, pool: Vec<u8>) -> Scene {
        let table = file(nodes);
        let mut message = vec![0; MAX_BYTES];
        let [long, short] = [modes | NO_DEDUPLICATION, modes].map(|modes| {
            let modes = modes as u128;
            let answer = write::write(&table, modes, &rows, &pool, &mut message, WORK_WORDS);
            assert!(answer.is_success(), "{name}: {answer}");
            answer.second as usize
        });
        message.truncate(short);
        Scene {
            name: name.to_string(),
            modes,
            table,
            rows,
            pool,
            message,
            long,
        }
    }

    pub fn count(&self) -> usize {
        self.rows.len() / rows::WORDS
    }
}

pub fn pairs() -> Vec<[Scene; 2]> {
    vec![
        [600, 1_200].map(|jobs| night(jobs, 0)),
        [600, 1_200].map(|jobs| night(jobs, NULL_TERMINATED_STRINGS)),
        [2_048, 4_096].map(|literals| texts(literals, 0)),
        [2_048, 4_096].map(|literals| texts(literals, literals * 4_000 / 4_096)),
        [2_048, 4_096].map(scattered),
        [4_095, 8_191].map(empty_records),
        [2_047, 4_095].map(truths),
        [4_000, 8_000].map(numbers),
        [125, 250].map(deep),
        [11, 12].map(twos),
    ]
}

/// Messages of a few rows.
pub fn small() -> Vec<Scene> {
    let text = [rows::ARRAY, 1, 0, 0, rows::STRING, 0, 8, 1].to_vec();
    let (job, pool) = Night::new(1).rows();
    vec![
        array("an empty array", 0, 0, |_| String::new()),
        Scene::new(
            "one text of 8 bytes",
            &table_s(),
            text,
            b"unit/net".to_vec(),
        ),
        array("ten different texts", 10, 0, |i| format!("{i:06}")),
        Scene::new("a night of one job", &Night::nodes(), job, pool),
    ]
}

/// Messages that hold one text each and nothing else. There are some of each sort, for a processor learns a single text
/// of 60,000 bytes by heart, and then foresees where its letters end.
pub fn long_texts() -> Vec<[Scene; 8]> {
    let mut rng = Rng::new(1);
    let letter = |rng: &mut Rng| char::from_u32('a' as u32 + rng.below(26) as u32);
    let greek = |rng: &mut Rng| char::from_u32('α' as u32 + rng.below(25) as u32);
    let chinese = |rng: &mut Rng| char::from_u32('一' as u32 + rng.below(20_000) as u32);
    let mut texts = |name: &str, next: &dyn Fn(usize, &mut Rng) -> Option<char>| {
        std::array::from_fn(|_| {
            let mut text = String::new();
            for i in 0.. {
                let next = next(i, &mut rng).expect("a letter");
                if text.len() + next.len_utf8() > LONG {
                    break;
                }
                text.push(next);
            }
            let row = vec![rows::STRING, 0, text.len() as u64, 0];
            let nodes = [table::BLOCK, table::STRING].map(|kind| Node::new(kind, 0, 0));
            Scene::new(name, &nodes, row, text.into_bytes())
        })
    };
    vec![
        texts("ASCII", &|_, rng| letter(rng)),
        texts("two bytes each, Greek", &|_, rng| greek(rng)),
        texts("three bytes each, Chinese", &|_, rng| chinese(rng)),
        texts("two and three bytes in turn", &|i, rng| match i % 2 {
            0 => greek(rng),
            _ => chinese(rng),
        }),
        texts(
            "one and two bytes in no order",
            &|_, rng| match rng.one_in(2) {
                true => letter(rng),
                false => greek(rng),
            },
        ),
    ]
}

/// Tables to check: those of the trees above; a pair of n and 2n nodes; some others.
pub fn tables() -> Vec<Vec<(&'static str, Vec<Node>)>> {
    vec![
        vec![("the night's table", Night::nodes())],
        vec![("table S, texts", table_s())],
        vec![("table E, empty records", table_e())],
        vec![("one field of every kind", table_all())],
        vec![("32 deep", array_chain(32, true))],
        vec![("512 truths", wide(512)), ("1,024 truths", wide(1_024))],
    ]
}

/// A record of truths, with so many nodes in all.
fn wide(nodes: u16) -> Vec<Node> {
    let mut list = vec![Node::new(table::RECORD, 0, nodes - 1)];
    list.resize(nodes as usize, Node::new(table::BOOLEAN, 0, 0));
    list
}

fn night(jobs: usize, modes: u64) -> Scene {
    let (list, pool) = Night::new(jobs).rows();
    let mut name = format!("a night of {} jobs", commas(jobs));
    if modes == NULL_TERMINATED_STRINGS {
        name += ", mode 4";
    }
    Scene::in_modes(modes, &name, &Night::nodes(), list, pool)
}

/// Different texts that have much in common first, then references all over them.
fn texts(literals: usize, repeats: usize) -> Scene {
    let name = match repeats {
        0 => format!("{} different texts", commas(literals)),
        _ => format!("{} texts, {} repeats", commas(literals), commas(repeats)),
    };
    array(&name, literals, repeats, |i| format!("{i:06}"))
}

/// Different texts of one length that have little in common: numbers far apart, to the base 64.
fn scattered(literals: usize) -> Scene {
    let name = format!("{} scattered texts", commas(literals));
    array(&name, literals, 0, |i| {
        let number = i.wrapping_mul(0x9_e377_9b97);
        (0..6).map(|place| digit(number >> (6 * place))).collect()
    })
}

fn digit(number: usize) -> char {
    b"ABCDEFGHIJKLMNOPQRSTUVWXYZabcdefghijklmnopqrstuvwxyz0123456789-_"[number % 64] as char
}

/// An array of texts of six bytes, all different but for the repeats.
fn array(name: &str, literals: usize, repeats: usize, spell: fn(usize) -> String) -> Scene {
    let pool: Vec<u8> = (0..literals).flat_map(|i| spell(i).into_bytes()).collect();
    let text = |i: usize| [rows::STRING, 6 * i as u64, 6, 1];
    let mut list = vec![rows::ARRAY, (literals + repeats) as u64, 0, 0];
    list.extend((0..literals).flat_map(text));
    list.extend((0..repeats).flat_map(|i| text(i * 2_654_435_761 % literals)));
    Scene::new(name, &table_s(), list, pool)
}

fn empty_records(entries: usize) -> Scene {
    let mut list = vec![rows::ARRAY, entries as u64, 0, 0];
    list.extend([rows::RECORD, 0, 0, 1].repeat(entries));
    let name = format!("{} empty records", commas(entries));
    Scene::new(&name, &table_e(), list, Vec::new())
}

fn truths(entries: usize) -> Scene {
    let nodes = [
        Node::new(table::ARRAY, 0, 0),
        Node::new(table::RECORD, 0, 1),
        Node::new(table::BOOLEAN, 0, 0),
    ];
    let mut list = vec![rows::ARRAY, entries as u64, 0, 0];
    list.extend([rows::RECORD, 1, 0, 1, rows::TRUE, 0, 0, 2].repeat(entries));
    let name = format!("{} records of a truth", commas(entries));
    Scene::new(&name, &nodes, list, Vec::new())
}

/// An array of integers, so many bits each that labels of one to ten bytes come in no order.
fn numbers(entries: usize) -> Scene {
    let nodes = [
        Node::new(table::ARRAY, 0, 0),
        Node::new(table::BLOCK, 0, 0),
        Node::new(table::VARINT, 0, 0),
    ];
    let mut rng = Rng::new(entries as u64);
    let mut list = vec![rows::ARRAY, entries as u64, 0, 0];
    for _ in 0..entries {
        let bits = rng.below(64) as u32;
        list.extend([rows::INTEGER, rng.word() >> bits, 0, 1]);
    }
    let name = format!("{} numbers", commas(entries));
    Scene::new(&name, &nodes, list, Vec::new())
}

/// Under an array, each entry goes down through arrays of one to depth 32.
fn deep(entries: usize) -> Scene {
    let nodes = array_chain(32, true);
    let mut list = vec![rows::ARRAY, entries as u64, 0, 0];
    for i in 0..entries {
        for node in 1..30 {
            list.extend([rows::ARRAY, 1, 0, node]);
        }
        list.extend([rows::STRING, (i % 8) as u64, 8, 30]);
    }
    let pool = b"deepdeepdeepdeep".to_vec();
    let name = format!("{entries} entries, 32 deep");
    Scene::new(&name, &nodes, list, pool)
}

/// Arrays of two entries in one another, and truths at the bottom: half of the rows are arrays.
fn twos(levels: usize) -> Scene {
    let mut nodes = vec![Node::new(table::ARRAY, 0, 0); levels];
    nodes.push(Node::new(table::BOOLEAN, 0, 0));
    let mut list = [rows::TRUE, 0, 0, levels as u64].to_vec();
    for node in (0..levels as u64).rev() {
        list = [&[rows::ARRAY, 2, 0, node], &list[..], &list[..]].concat();
    }
    let name = format!("arrays of two, {levels} deep");
    Scene::new(&name, &nodes, list, Vec::new())
}
