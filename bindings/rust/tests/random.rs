//! Random trees under random tables: written and read again, with the same nodes, and gone over by their children. Random
//! bytes as texts.

mod common;

use argo::{Codec, Modes, Refusal, Rows, Table, Tree, Value};
use common::file;

/// Xorshift; the same numbers in each run.
struct Random(u64);

impl Random {
    fn next(&mut self) -> u64 {
        self.0 ^= self.0 << 13;
        self.0 ^= self.0 >> 7;
        self.0 ^= self.0 << 17;
        self.0
    }

    fn below(&mut self, n: u64) -> u64 {
        self.next() % n
    }
}

/// What each key holds, with its deduplicate flag.
const KEYS: [([u8; 4], u8); 6] = [
    (common::STRING, 2),
    (common::VARINT, 0),
    (common::FLOAT64, 0),
    (common::BYTES, 2),
    (common::fixed(2), 0),
    (common::STRING, 0),
];

const TEXTS: [&str; 4] = ["", "a", "PASSED", "gr\u{fc}n"];

enum Type {
    Boolean,
    Block(usize),
    Nullable(Box<Type>),
    Array(Box<Type>),
    Record(Vec<Field>),
}

struct Field {
    omittable: bool,
    of: Type,
}

impl Type {
    fn random(random: &mut Random, depth: u64) -> Type {
        match random.below(if depth == 0 { 3 } else { 8 }) {
            0 => Type::Boolean,
            1 | 2 => Type::Block(random.below(6) as usize),
            3 => loop {
                let of = Type::random(random, depth - 1);
                if !matches!(of, Type::Nullable(_)) {
                    break Type::Nullable(Box::new(of));
                }
            },
            4 | 5 => Type::Array(Box::new(Type::random(random, depth - 1))),
            _ => Type::Record(
                (0..random.below(5))
                    .map(|_| Field {
                        omittable: random.below(3) == 0,
                        of: Type::random(random, depth - 1),
                    })
                    .collect(),
            ),
        }
    }

    fn nodes(&self, flags: u8, nodes: &mut Vec<[u8; 4]>) {
        match self {
            Type::Boolean => nodes.push([2, flags, 0, 0]),
            Type::Block(key) => {
                let (held, deduplicate) = KEYS[*key];
                nodes.extend([[9, flags | deduplicate, *key as u8, 0], held]);
            }
            Type::Nullable(of) => {
                nodes.push([10, flags, 0, 0]);
                of.nodes(0, nodes);
            }
            Type::Array(of) => {
                nodes.push([8, flags, 0, 0]);
                of.nodes(0, nodes);
            }
            Type::Record(fields) => {
                nodes.push([7, flags, fields.len() as u8, 0]);
                for field in fields {
                    field.of.nodes(u8::from(field.omittable), nodes);
                }
            }
        }
    }

    fn values(&self, random: &mut Random, values: &mut Vec<Value<'static>>) {
        let text = TEXTS[random.below(4) as usize];
        match self {
            Type::Boolean => values.push(Value::Bool(random.below(2) == 0)),
            Type::Block(1) => {
                let bits = random.below(64);
                values.push(Value::Int(random.next() as i64 >> bits));
            }
            Type::Block(2) => values.push(Value::Float(f64::from_bits(random.next()))),
            Type::Block(3) => values.push(Value::Bytes(text.as_bytes())),
            Type::Block(4) => values.push(Value::Fixed(b"\x00\xff")),
            Type::Block(_) => values.push(Value::Str(text)),
            Type::Nullable(_) if random.below(3) == 0 => values.push(Value::Null),
            Type::Nullable(of) => of.values(random, values),
            Type::Array(of) => {
                let entries = random.below(5);
                values.push(Value::Array(entries as usize));
                (0..entries).for_each(|_| of.values(random, values));
            }
            Type::Record(fields) => {
                values.push(Value::Record(fields.len()));
                for field in fields {
                    if field.omittable && random.below(3) == 0 {
                        values.push(Value::Absent);
                    } else {
                        field.of.values(random, values);
                    }
                }
            }
        }
    }
}

/// Goes over a row and all below it by `children`, and answers the row after them.
fn walk(rows: &Rows, row: usize) -> usize {
    let mut next = row + 1;
    for child in rows.children(row) {
        assert_eq!(child, next);
        next = walk(rows, child);
    }
    assert_eq!(rows.after(row), next);
    next
}

#[test]
fn random_trees_survive() {
    let mut random = Random(20_261_116);
    let mut codec = Codec::new();
    for _ in 0..2_000 {
        let shape = Type::random(&mut random, 4);
        let (mut nodes, mut values) = (Vec::new(), Vec::new());
        shape.nodes(0, &mut nodes);
        shape.values(&mut random, &mut values);
        let table = Table::new(file(&nodes)).unwrap();
        assert_eq!(table.nodes(), nodes.len());
        let modes = [0, 1, 4, 5, 32, 33, 36, 37][random.below(8) as usize];
        let modes = Modes::from_bits(modes + 16 * random.below(2));
        let tree: Tree = values.iter().copied().collect();
        let message = codec.write(&table, modes, &tree).unwrap().to_vec();
        let rows = codec.read(&table, &message).unwrap();
        assert_eq!(rows.iter().collect::<Vec<_>>(), values);
        // The nodes that were filled in are those that are read.
        let given = tree.rows(&table);
        let given: Vec<&[u64]> = given.chunks(argo::ROW_WORDS).collect();
        assert_eq!(given.len(), rows.len());
        for (row, given) in given.iter().enumerate() {
            assert_eq!(rows.node(row), Some(given[3] as usize));
        }
        assert_eq!((rows.modes(), walk(&rows, 0)), (modes, values.len()));
    }
}

/// Up to four code points, of one to four bytes each.
fn text(random: &mut Random) -> String {
    let mut text = String::new();
    for _ in 0..random.below(5) {
        let below = [0x80, 0x800, 0x1_0000, 0x11_0000][random.below(4) as usize];
        text.extend(char::from_u32(random.below(below) as u32));
    }
    text
}

/// The ends of the ranges in the grammar of RFC 3629, with what stands next to them.
const ENDS: [u8; 23] = [
    0x00, 0x7f, 0x80, 0x8f, 0x90, 0x9f, 0xa0, 0xbf, 0xc0, 0xc1, 0xc2, 0xdf, 0xe0, 0xe1, 0xec, 0xed,
    0xee, 0xef, 0xf0, 0xf1, 0xf3, 0xf4, 0xf5,
];

/// What is read as a text is what a `str` may hold: tried on random bytes, on ends of ranges, and on texts that are cut
/// or have one byte changed.
#[test]
fn a_text_is_what_rust_takes_for_one() {
    let mut random = Random(3_629);
    let mut codec = Codec::with_rows(2);
    let texts = common::texts();
    let mut taken = 0;
    for _ in 0..40_000 {
        let mut bytes = text(&mut random).into_bytes();
        let at = random.below(bytes.len() as u64 + 1) as usize;
        match random.below(4) {
            0 => bytes.fill_with(|| random.next() as u8),
            1 => bytes.fill_with(|| ENDS[random.below(23) as usize]),
            2 => bytes.truncate(at),
            _ => {
                if let Some(byte) = bytes.get_mut(at) {
                    *byte = ENDS[random.below(23) as usize];
                }
            }
        }
        let message = common::one_text(&bytes);
        match (codec.read(&texts, &message), std::str::from_utf8(&bytes)) {
            (Ok(rows), Ok(text)) => {
                assert_eq!(rows.get(1), Some(Value::Str(text)));
                taken += 1;
            }
            (Err(refusal), Err(_)) => assert_eq!(refusal, Refusal::Text { row: None }),
            (read, _) => panic!("{bytes:x?}: read {}", read.is_ok()),
        }
    }
    assert!((10_000..30_000).contains(&taken), "{taken}");
}
