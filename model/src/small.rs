//! Demand 3 by brute force: all spellings of small trees, and all short messages.

use std::collections::HashSet;

use crate::case::Case;
use crate::compare::Comparison;
use crate::gen::fixed::{
    all_modes, base_trees, table_e, table_omittable_record, table_r, table_s, types, HEADERS,
};
use crate::gen::texts::table_bytes;
use crate::table::{self, file, Node, WireType};
use crate::{
    ffi, label, read, rows, spell, write, Answer, INLINE_EVERYTHING, MAX_BYTES, MAX_ROWS,
    NO_DEDUPLICATION, NULL_TERMINATED_STRINGS, WORK_WORDS,
};

/// Runs all searches, prints what they saw; true when nothing failed. Where the library is linked, it writes each tree
/// into each buffer too, and reads each message: it must answer as the model does.
pub fn run() -> bool {
    let linked = ffi::has('W') && ffi::has('R');
    let mut search = Search {
        library: linked.then(|| Comparison::new(1)),
        ..Search::default()
    };
    search.small_trees();
    search.report("small trees");
    search.boundaries();
    search.report("boundaries");
    search.sheet_example();
    search.short_messages();
    search.report("short messages");
    println!("{} failures", search.failures);
    let library = search.library.is_none_or(|library| {
        print!("the library: ");
        library.close()
    });
    search.failures == 0 && library
}

/// What a search has seen.
#[derive(Default)]
pub struct Search {
    pub trees: usize,
    pub messages: usize,
    /// Trees under the premise: the writer's count is the least.
    pub shortest: usize,
    /// Trees outside it, and those of them whose message could be shorter.
    pub outside: usize,
    pub beaten: usize,
    pub no_room: usize,
    pub failures: usize,
    library: Option<Comparison>,
}

impl Search {
    fn report(&mut self, name: &str) {
        println!(
            "{name}: {} trees, {} messages; shortest for {}; {} outside the premise, {} of them \
             beaten; 43 at {} sizes",
            self.trees, self.messages, self.shortest, self.outside, self.beaten, self.no_room
        );
        *self = Search {
            failures: self.failures,
            library: self.library.take(),
            ..Search::default()
        };
    }

    fn expect(&mut self, held: bool, what: &str, nodes: &[Node], rows: &[u64], modes: u64) {
        if !held {
            self.failures += 1;
            if self.failures <= 20 {
                println!("FAILED {what}: table {nodes:?} rows {rows:?} modes {modes}");
            }
        }
    }

    /// The model's answer, which the library's must be.
    fn write(
        &mut self,
        table: &[u8],
        modes: u64,
        rows: &[u64],
        pool: &[u8],
        out: &mut [u8],
    ) -> Answer {
        if let Some(library) = &mut self.library {
            library.compare(&Case::Write {
                work: WORK_WORDS,
                out: out.len(),
                modes: modes as u128,
                table: table.to_vec(),
                rows: rows.to_vec(),
                pool: pool.to_vec(),
            });
        }
        write::write(table, modes as u128, rows, pool, out, WORK_WORDS)
    }

    /// The rows of a message, which must be the library's too.
    fn read(&mut self, table: &[u8], message: &[u8]) -> Result<Vec<u64>, Answer> {
        let got = reading(table, message);
        if let Some(library) = &mut self.library {
            library.compare(&Case::Read {
                work: WORK_WORDS,
                rows: got.as_ref().map_or(0, Vec::len),
                table: table.to_vec(),
                message: message.to_vec(),
            });
        }
        got
    }

    /// One tree: each spelling reads as it, nodes and all; the writer makes a shortest
    /// one, and takes no other nodes; 43 comes exactly when none fits.
    pub fn tree(&mut self, nodes: &[Node], rows: &[u64], pool: &[u8], modes: u64) {
        let types = types(nodes);
        let table = file(nodes);
        let wanted = tree_of(rows, pool);
        let spellings = spell::all(&types, rows, pool, modes);
        self.trees += 1;
        self.messages += spellings.len();
        for message in &spellings {
            let got = self.read(&table, message);
            let reads = got.is_ok_and(|got| tree_of(&got, message) == wanted);
            self.expect(reads, "reads as its tree", nodes, rows, modes);
        }
        let least = spellings.iter().map(Vec::len).min().unwrap_or(0);
        let mut out = vec![0xee; MAX_BYTES];
        let answer = self.write(&table, modes, rows, pool, &mut out);
        let count = answer.second as usize;
        let ours = &out[..count];
        self.expect(answer.is_success(), "is accepted", nodes, rows, modes);
        let legal = spellings.iter().any(|message| message == ours);
        self.expect(legal, "is a legal spelling", nodes, rows, modes);
        let premise = spell::premise(&types, rows, pool, modes, false);
        if premise {
            self.shortest += 1;
        } else {
            self.outside += 1;
            self.beaten += usize::from(count > least);
        }
        // Only values that come again can be named, so asking those is enough.
        if premise || spell::premise(&types, rows, pool, modes, true) {
            self.expect(count == least, "is shortest", nodes, rows, modes);
        }
        // Another node is refused, at its row; in one mode is enough.
        let asked = if modes == 0 { wanted.len() } else { 0 };
        for at in 0..asked {
            let mut other = rows.to_vec();
            other[rows::WORDS * at + 3] ^= 1;
            let answer = self.write(&table, modes, &other, pool, &mut out[..count]);
            let refused = answer == Answer::refused(42, at);
            self.expect(refused, "has its own nodes", nodes, &other, modes);
        }
        for lent in [0, 1, least - 1, least, count - 1, count, count + 1] {
            let answer = self.write(&table, modes, rows, pool, &mut out[..lent]);
            let fits = if premise {
                least <= lent
            } else {
                count <= lent
            };
            let as_said = if fits {
                answer == Answer::success(count)
            } else {
                answer == Answer::refused(43, 0)
            };
            self.no_room += usize::from(!fits);
            self.expect(as_said, "43 when none fits", nodes, rows, modes);
        }
    }

    /// All trees of small tables over a few texts, in all modes.
    pub fn small_trees(&mut self) {
        let n = Node::new;
        let text = |flags, key| [n(table::BLOCK, flags, key), n(table::STRING, 0, 0)];
        let bytes = |flags, key| [n(table::BLOCK, flags, key), n(table::BYTES, 0, 0)];
        let array = [n(table::ARRAY, 0, 0)];
        let nullable = [n(table::NULLABLE, 0, 0)];
        let omittable_nullable = [n(table::NULLABLE, table::OMITTABLE, 0)];
        let record = |fields| [n(table::RECORD, 0, fields)];
        let integer = [n(table::BLOCK, 1, 2), n(table::VARINT, 0, 0)];
        let tables: [(Vec<Node>, &[&str], usize); 10] = [
            (table_s(), &["", "a", "b", "abc"], 5),
            (table_s(), &["", "\0", "a", "a\0"], 3),
            (
                [&array[..], &nullable, &bytes(2, 0)].concat(),
                &["", "a", "abcd"],
                4,
            ),
            (
                [&record(2)[..], &array, &text(2, 0), &array, &bytes(2, 1)].concat(),
                &["", "a"],
                3,
            ),
            (
                [&record(2)[..], &array, &text(2, 7), &array, &text(2, 7)].concat(),
                &["", "a"],
                3,
            ),
            (
                [
                    &record(4)[..],
                    &omittable_nullable,
                    &text(2, 0),
                    &text(2, 0),
                    &text(3, 1),
                    &integer,
                ]
                .concat(),
                &["", "a", "ab"],
                1,
            ),
            (
                [&array[..], &record(2), &text(2, 0), &text(0, 1)].concat(),
                &["", "a"],
                3,
            ),
            ([&array[..], &array, &text(2, 3)].concat(), &["", "x"], 3),
            (table_omittable_record(), &[], 1),
            ([&nullable[..], &text(2, 31)].concat(), &["", "y"], 1),
        ];
        for (nodes, texts, entries) in tables {
            let types = types(&nodes);
            // Each text stands twice in the pool: equal is by bytes, not by place.
            let once: String = texts.concat();
            let pool = [once.as_bytes(), once.as_bytes()].concat();
            for tree in trees(&types, 0, texts.len(), entries) {
                let rows = place(&tree, texts, once.len());
                for modes in all_modes() {
                    self.tree(&nodes, &rows, &pool, modes);
                }
            }
        }
        for (nodes, rows, pool) in base_trees() {
            for modes in all_modes() {
                self.tree(&nodes, &rows, &pool, modes);
            }
        }
    }

    /// Many different values and a few repeats: around the 61st number, and where
    /// a piece's own label grows.
    pub fn boundaries(&mut self) {
        for different in 58..=66 {
            for len in 0..=3 {
                for named in [0, 1, 59, 60, 61, 62, different - 1] {
                    if named >= different {
                        continue;
                    }
                    // All values as long as the repeat; and long ones around it.
                    self.repeats(different, len, len.max(1), &[named]);
                    self.repeats(different, len, 3, &[named, named]);
                    self.repeats(different, len, 2, &[named, 0, named, 60.min(named)]);
                }
            }
        }
        // A block of 63 or 64 bytes, of 8,191 or 8,192, with and without the repeat.
        for total in [31, 32, 62, 63, 64, 65, 4_095, 4_096, 8_190, 8_191, 8_192] {
            let text = vec![b'k'; total];
            let whole = [rows::STRING, 0, total as u64, 1];
            let front = [rows::STRING, 0, total as u64 - 1, 1];
            let list = [[rows::ARRAY, 3, 0, 0], whole, front, whole].concat();
            for modes in all_modes() {
                self.tree(&table_s(), &list, &text, modes);
            }
        }
        // A core around 63 and 8,191 bytes that holds mostly empty texts.
        for entries in [60, 61, 62, 63, 64, 65, 8_186, 8_187, 8_188, 8_189, 8_190] {
            let mut list = vec![rows::ARRAY, entries, 0, 0];
            for _ in 0..entries {
                list.extend([rows::STRING, 0, 0, 1]);
            }
            // Too many spellings to list.
            self.only_equal(&list, entries as usize);
        }
    }

    /// An array, and a record, of `different` values and then repeats.
    fn repeats(&mut self, different: usize, len: usize, others: usize, named: &[usize]) {
        let mut pool = Vec::new();
        let mut places = Vec::new();
        for i in 0..different {
            let size = if named.contains(&i) { len } else { others };
            let value = [i as u8, 0x7f, 0x7e];
            // One value at most can be empty.
            let size = if size == 0 && i != named[0] { 1 } else { size };
            places.push([rows::STRING, pool.len() as u64, size as u64, 1]);
            pool.extend(&value[..size]);
        }
        let again: Vec<rows::Row> = named.iter().map(|&i| places[i]).collect();
        places.extend(again);
        let count = places.len();
        let array = [vec![[rows::ARRAY, count as u64, 0, 0]], places.clone()].concat();
        let mut record = [vec![[rows::RECORD, count as u64, 0, 0]], places].concat();
        for (field, row) in (0..).zip(&mut record[1..]) {
            row[3] = text_field(field);
        }
        let mut bytes = array.clone();
        for row in &mut bytes[1..] {
            row[0] = rows::BYTES;
        }
        for modes in [0, INLINE_EVERYTHING, NO_DEDUPLICATION] {
            for modes in [modes, modes | NULL_TERMINATED_STRINGS] {
                self.tree(&table_s(), &array.concat(), &pool, modes);
                self.tree(&text_record(count), &record.concat(), &pool, modes);
            }
        }
        // BYTES take as much in mode 4 as without it.
        for modes in [0, NULL_TERMINATED_STRINGS] {
            self.tree(&table_bytes(), &bytes.concat(), &pool, modes);
        }
    }

    /// Equal empty texts, by a sum: the array's label and one byte for each, be it
    /// a literal or a number; in mode 4 a 00 for each literal, of which there is one
    /// unless mode 5 is set; the labels of the block and of the core.
    fn only_equal(&mut self, list: &[u64], entries: usize) {
        let nodes = table_s();
        let mut out = vec![0; MAX_BYTES];
        for modes in all_modes() {
            let zeros = match modes & NULL_TERMINATED_STRINGS {
                0 => 0,
                _ if modes & NO_DEDUPLICATION != 0 => entries,
                _ => 1,
            };
            let core = label::size(entries as i64) + entries;
            let labels = label::size(zeros as i64) + label::size(core as i64);
            let wanted = match modes & INLINE_EVERYTHING {
                0 => 1 + labels + zeros + core,
                _ => 1 + zeros + core,
            };
            let answer = self.write(&file(&nodes), modes, list, &[], &mut out);
            self.trees += 1;
            self.shortest += 1;
            let holds = answer == Answer::success(wanted);
            self.expect(holds, "is shortest", &nodes, &list[..rows::WORDS], modes);
            let read_back = self.read(&file(&nodes), &out[..wanted]);
            let same = read_back.is_ok_and(|got| tree_of(&got, &out) == tree_of(list, &[]));
            self.expect(
                same,
                "reads as its tree",
                &nodes,
                &list[..rows::WORDS],
                modes,
            );
        }
    }

    /// 63 one-byte texts in a record, the last repeats the 62nd: 130 named, 129 written out. In mode 4 the text takes
    /// three bytes written out, and both are as long; an empty one takes two there, and again it is longer named.
    pub fn sheet_example(&mut self) {
        let zero = NULL_TERMINATED_STRINGS;
        self.last_again("63 texts of one byte", 1, 0, [130, 129]);
        self.last_again("63 texts of one byte, mode 4", 1, zero, [193, 193]);
        self.last_again("the last two empty", 0, 0, [129, 127]);
        self.last_again("the last two empty, mode 4", 0, zero, [192, 191]);
    }

    /// 63 texts in a record; the last repeats the 62nd, which has no byte or one like the others.
    fn last_again(&mut self, name: &str, len: u64, modes: u64, [named, written_out]: [usize; 2]) {
        let nodes = text_record(63);
        let mut list = vec![rows::RECORD, 63, 0, 0];
        for i in 0..63 {
            let [start, len] = if i < 61 { [i, 1] } else { [61, len] };
            list.extend([rows::STRING, start, len, text_field(i)]);
        }
        let pool: Vec<u8> = (0x20..0x20 + 63).collect();
        let sizes: Vec<usize> = spell::all(&types(&nodes), &list, &pool, modes)
            .iter()
            .map(Vec::len)
            .collect();
        let as_said = sizes == [written_out, named];
        self.expect(as_said, "the last is named or not", &nodes, &list, modes);
        let premise = spell::premise(&types(&nodes), &list, &pool, modes, false);
        let as_said = premise == (named <= written_out);
        self.expect(as_said, "the premise asks for it", &nodes, &list, modes);
        let mut out = vec![0; named];
        let answer = self.write(&file(&nodes), modes, &list, &pool, &mut out);
        let names = answer == Answer::success(named);
        self.expect(names, "the writer names it", &nodes, &list, modes);
        out.pop();
        let answer = self.write(&file(&nodes), modes, &list, &pool, &mut out);
        let refused = answer == Answer::refused(43, 0);
        self.expect(refused, "one byte less is too few", &nodes, &list, modes);
        println!("{name}: {written_out} written out, {named} named, as the writer does");
    }

    /// Every short message over a few bytes: one that reads is a spelling of its
    /// tree, and the writer takes that tree in a buffer as long as the message.
    pub fn short_messages(&mut self) {
        let few = [0, 1, 2, 3, 4, 5, 6, 7, 8, b'A'];
        let every: Vec<u8> = (0..=255).collect();
        let nullable_bytes = vec![
            Node::new(table::ARRAY, 0, 0),
            Node::new(table::NULLABLE, 0, 0),
            Node::new(table::BLOCK, 2, 9),
            Node::new(table::BYTES, 0, 0),
        ];
        for nodes in [
            table_r(),
            table_s(),
            table_e(),
            table_omittable_record(),
            nullable_bytes,
        ] {
            let table = file(&nodes);
            for header in HEADERS {
                self.each_message(&nodes, &table, &mut vec![header], &few, 5);
                self.each_message(&nodes, &table, &mut vec![header], &every, 2);
            }
        }
    }

    fn each_message(
        &mut self,
        nodes: &[Node],
        table: &[u8],
        message: &mut Vec<u8>,
        alphabet: &[u8],
        more: usize,
    ) {
        if let Ok(list) = reading(table, message) {
            self.rewrite(nodes, table, message, &list);
        }
        if more == 0 {
            return;
        }
        for &byte in alphabet {
            message.push(byte);
            self.each_message(nodes, table, message, alphabet, more - 1);
            message.pop();
        }
    }

    fn rewrite(&mut self, nodes: &[Node], table: &[u8], message: &[u8], list: &[u64]) {
        // Thousands of empty records need no second look.
        if list.len() > 80 {
            return;
        }
        let modes = (message[0] >> 1) as u64;
        let types = types(nodes);
        self.trees += 1;
        self.messages += 1;
        let spellings: HashSet<Vec<u8>> = spell::all(&types, list, message, modes)
            .into_iter()
            .collect();
        let legal = spellings.contains(message);
        self.expect(legal, "what reads is a spelling", nodes, list, modes);
        let mut out = vec![0; message.len()];
        let answer = self.write(table, modes, list, message, &mut out);
        if spell::premise(&types, list, message, modes, false) {
            self.shortest += 1;
            let taken = answer.is_success() && answer.second <= message.len() as u64;
            self.expect(taken, "fits where it stood", nodes, list, modes);
        } else {
            self.outside += 1;
        }
    }
}

/// A record of `count` deduplicated texts under one key.
pub fn text_record(count: usize) -> Vec<Node> {
    let mut nodes = vec![Node::new(table::RECORD, 0, count as u16)];
    for _ in 0..count {
        nodes.push(Node::new(table::BLOCK, table::DEDUPLICATE, 0));
        nodes.push(Node::new(table::STRING, 0, 0));
    }
    nodes
}

/// The node of one of its fields.
pub fn text_field(field: u64) -> u64 {
    1 + 2 * field
}

/// The rows of a message, with rows enough lent.
pub fn reading(table: &[u8], message: &[u8]) -> Result<Vec<u64>, Answer> {
    // Most messages here are refused or tiny, so few rows are tried first.
    for room in [64, MAX_ROWS] {
        let mut rows = vec![0; rows::WORDS * room];
        let answer = read::read(table, message, &mut rows, WORK_WORDS);
        if answer.is_success() {
            rows.truncate(rows::WORDS * answer.second as usize);
            return Ok(rows);
        }
        if answer.number != 31 {
            return Err(answer);
        }
    }
    Err(Answer::refused(31, 0))
}

/// Rows with each place replaced by its bytes, kind and node beside it: equal for the same tree.
pub fn tree_of<'a>(list: &[u64], bytes: &'a [u8]) -> Vec<(u64, u64, &'a [u8], u64)> {
    list.chunks_exact(rows::WORDS)
        .map(|row| match row[0] {
            rows::STRING..=rows::FIXED => {
                let place = &bytes[row[1] as usize..][..row[2] as usize];
                (row[0], 0, place, row[3])
            }
            _ => (row[0], row[1], &bytes[..0], row[3]),
        })
        .collect()
}

/// A row whose text is still a number in the list of texts.
#[derive(Clone, Copy)]
struct Sketch {
    kind: u64,
    a: u64,
    node: u64,
}

/// All trees of a type with up to `entries` in each array.
fn trees(types: &[WireType], node: usize, texts: usize, entries: usize) -> Vec<Vec<Sketch>> {
    let this = types[node];
    let one = |kind, a| {
        let node = node as u64;
        vec![Sketch { kind, a, node }]
    };
    let mut all = Vec::new();
    if this.omittable {
        all.push(one(rows::ABSENT, 0));
    }
    if this.nullable {
        all.push(one(rows::NULL, 0));
    }
    match this.kind {
        table::STRING => all.extend((0..texts as u64).map(|i| one(rows::STRING, i))),
        table::BYTES => all.extend((0..texts as u64).map(|i| one(rows::BYTES, i))),
        table::BOOLEAN => all.extend([one(rows::FALSE, 0), one(rows::TRUE, 0)]),
        table::VARINT => all.push(one(rows::INTEGER, 64)),
        table::RECORD => {
            let mut fronts = vec![one(rows::RECORD, this.argument as u64)];
            let mut field = this.child as usize;
            for _ in 0..this.argument {
                fronts = product(&fronts, &trees(types, field, texts, entries));
                field = types[field].end as usize;
            }
            all.extend(fronts);
        }
        _ => {
            let below = trees(types, this.child as usize, texts, entries);
            for count in 0..=entries {
                let mut fronts = vec![one(rows::ARRAY, count as u64)];
                for _ in 0..count {
                    fronts = product(&fronts, &below);
                }
                all.extend(fronts);
            }
        }
    }
    all
}

fn product(fronts: &[Vec<Sketch>], backs: &[Vec<Sketch>]) -> Vec<Vec<Sketch>> {
    let pairs = fronts
        .iter()
        .flat_map(|front| backs.iter().map(move |back| [&front[..], back].concat()));
    pairs.collect()
}

/// Rows over a pool that holds all texts twice; every other row points to the copy.
fn place(tree: &[Sketch], texts: &[&str], copy: usize) -> Vec<u64> {
    let mut list = Vec::new();
    for (i, row) in tree.iter().enumerate() {
        match row.kind {
            rows::STRING | rows::BYTES => {
                let at = row.a as usize;
                let start: usize = texts[..at].iter().map(|text| text.len()).sum();
                let start = start + if i % 2 == 1 { copy } else { 0 };
                list.extend([row.kind, start as u64, texts[at].len() as u64, row.node]);
            }
            kind => list.extend([kind, row.a, 0, row.node]),
        }
    }
    list
}
