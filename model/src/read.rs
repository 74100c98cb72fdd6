//! The reader: a message under a table into rows.

use crate::table::{self, WireType};
use crate::{
    label, refuse, rows, utf8, Answer, INLINE_EVERYTHING, KEYS, MAX_BYTES, MAX_NUMBERED, MAX_ROWS,
    MODES, NO_DEDUPLICATION, NULL_TERMINATED_STRINGS, OUT_OF_BAND_FIELD_ERRORS, WORK_WORDS,
};

/// The call. `work` is the count of words lent; what the model needs it keeps itself.
pub fn read(table: &[u8], message: &[u8], rows: &mut [u64], work: usize) -> Answer {
    match read_rows(table, message, rows, work) {
        Ok(count) => {
            rows[rows::WORDS * count..].fill(0);
            Answer::success(count)
        }
        Err(refusal) => {
            rows.fill(0);
            refusal
        }
    }
}

fn read_rows(table: &[u8], message: &[u8], rows: &mut [u64], work: usize) -> Result<usize, Answer> {
    if work < WORK_WORDS {
        return refuse(1, 0);
    }
    let nodes = table::nodes(table)?;
    let types = table::wire_types(&nodes);
    if message.is_empty() || message.len() > MAX_BYTES {
        return refuse(20, 0);
    }
    let modes = (message[0] >> 1) as u64;
    if message[0] & 1 != 0 || modes & !MODES != 0 {
        return refuse(21, 0);
    }
    let mut blocks = if modes & INLINE_EVERYTHING != 0 {
        vec![Piece {
            at: 1,
            end: message.len(),
        }]
    } else {
        pieces(message)?
    };
    let core = blocks.pop().expect("there is always a core");
    let room = MAX_ROWS.min(rows.len() / rows::WORDS);
    let mut reader = Reader {
        types: &types,
        message,
        modes,
        core,
        blocks,
        given: 0,
        keys: [None; KEYS],
        literals: std::array::from_fn(|_| Vec::new()),
        numbered: 0,
        rows,
        count: 0,
        room,
    };
    reader.value(0)?;
    if !reader.all_used() {
        return refuse(30, 0);
    }
    Ok(reader.count)
}

/// Refusal 22: every piece is found before the walk begins.
fn pieces(message: &[u8]) -> Result<Vec<Piece>, Answer> {
    let mut pieces = Vec::new();
    let mut at = 1;
    while at < message.len() {
        let Some((len, start)) = label::get(message, at) else {
            return refuse(22, 0);
        };
        if len < 0 || len as u64 > (message.len() - start) as u64 {
            return refuse(22, 0);
        }
        at = start + len as usize;
        pieces.push(Piece { at: start, end: at });
    }
    if pieces.is_empty() {
        return refuse(22, 0);
    }
    Ok(pieces)
}

/// A core or block: how far it has been read, and where it ends in the message.
#[derive(Clone, Copy)]
struct Piece {
    at: usize,
    end: usize,
}

struct Reader<'a> {
    types: &'a [WireType],
    message: &'a [u8],
    modes: u64,
    core: Piece,
    blocks: Vec<Piece>,
    /// Blocks given to keys so far, in the order of first touch.
    given: usize,
    /// The block that each key has been given.
    keys: [Option<u32>; KEYS],
    /// Each key's numbered literals; number -4 is the first.
    literals: [Vec<(u32, u32)>; KEYS],
    numbered: usize,
    rows: &'a mut [u64],
    count: usize,
    room: usize,
}

impl Reader<'_> {
    /// One value: its one label, if it has one, then what stands under it.
    fn value(&mut self, node: usize) -> Result<(), Answer> {
        let this = self.types[node];
        if !this.is_labelled() {
            if this.omittable || this.nullable {
                match self.label()? {
                    0 => {}
                    other => return self.without_value(&this, other),
                }
            }
            return self.unlabelled(&this);
        }
        let n = self.label()?;
        match this.kind {
            table::STRING | table::BYTES if n >= 0 => self.literal(&this, n as u64),
            table::STRING | table::BYTES if n <= -4 => self.backreference(&this, n),
            table::BOOLEAN if n == 0 => self.row(this.node, rows::FALSE, 0, 0),
            table::BOOLEAN if n == 1 => self.row(this.node, rows::TRUE, 0, 0),
            table::ARRAY if n >= 0 => {
                self.row(this.node, rows::ARRAY, n as u64, 0)?;
                // The count is not trusted: the walk ends at the first entry at fault.
                for _ in 0..n {
                    self.value(this.child as usize)?;
                }
                Ok(())
            }
            _ => self.without_value(&this, n),
        }
    }

    /// A label that is none of the value's own: absent, null, or not allowed.
    fn without_value(&mut self, this: &WireType, n: i64) -> Result<(), Answer> {
        match n {
            -2 if this.omittable => self.row(this.node, rows::ABSENT, 0, 0),
            -1 if this.nullable => self.row(this.node, rows::NULL, 0, 0),
            -3 if this.nullable => {
                if self.modes & OUT_OF_BAND_FIELD_ERRORS == 0 {
                    return refuse(25, 0);
                }
                self.row(this.node, rows::NULL, 0, 0)
            }
            _ => refuse(24, 0),
        }
    }

    fn unlabelled(&mut self, this: &WireType) -> Result<(), Answer> {
        match this.kind {
            table::RECORD => {
                self.row(this.node, rows::RECORD, this.argument as u64, 0)?;
                let mut field = this.child as usize;
                for _ in 0..this.argument {
                    self.value(field)?;
                    field = self.types[field].end as usize;
                }
                Ok(())
            }
            table::VARINT => {
                let message = self.message;
                let piece = self.touch(this.key)?;
                let Some((n, after)) = label::get(&message[..piece.end], piece.at) else {
                    return refuse(23, 0);
                };
                piece.at = after;
                self.row(this.node, rows::INTEGER, n as u64, 0)
            }
            table::FLOAT64 => {
                let start = self.take(this.key, 8)?;
                let bits = self.message[start..][..8].try_into().expect("eight bytes");
                self.row(this.node, rows::FLOAT, u64::from_le_bytes(bits), 0)
            }
            _ => {
                let len = this.argument as u64;
                let start = self.take(this.key, len)?;
                self.row(this.node, rows::FIXED, start as u64, len)
            }
        }
    }

    fn literal(&mut self, this: &WireType, len: u64) -> Result<(), Answer> {
        let start = self.take(this.key, len)?;
        if this.kind == table::STRING {
            if self.modes & NULL_TERMINATED_STRINGS != 0 {
                let end = self.take(this.key, 1)?;
                if self.message[end] != 0 {
                    return refuse(35, 0);
                }
            }
            if !utf8::valid(&self.message[start..][..len as usize]) {
                return refuse(28, 0);
            }
        }
        if this.deduplicate && self.modes & NO_DEDUPLICATION == 0 {
            if self.numbered == MAX_NUMBERED {
                return refuse(32, 0);
            }
            self.numbered += 1;
            self.literals[this.key as usize].push((start as u32, len as u32));
        }
        self.row(this.node, place_kind(this), start as u64, len)
    }

    /// In mode 5, or for a key that does not deduplicate, no number was ever given.
    fn backreference(&mut self, this: &WireType, n: i64) -> Result<(), Answer> {
        // -4 - n, and not -n - 4: the lowest label has no negative.
        let number = (-4 - n) as u64;
        let given = &self.literals[this.key as usize];
        if number >= given.len() as u64 {
            return refuse(26, 0);
        }
        let (start, len) = given[number as usize];
        self.row(this.node, place_kind(this), start as u64, len as u64)
    }

    /// The next label of the core.
    fn label(&mut self) -> Result<i64, Answer> {
        let Some((n, after)) = label::get(&self.message[..self.core.end], self.core.at) else {
            return refuse(23, 0);
        };
        self.core.at = after;
        Ok(n)
    }

    /// The piece with a key's values; a key touched first takes the next block.
    fn touch(&mut self, key: u8) -> Result<&mut Piece, Answer> {
        if self.modes & INLINE_EVERYTHING != 0 {
            return Ok(&mut self.core);
        }
        let block = match self.keys[key as usize] {
            Some(block) => block as usize,
            None => {
                if self.given == self.blocks.len() {
                    return refuse(29, 0);
                }
                self.keys[key as usize] = Some(self.given as u32);
                self.given += 1;
                self.given - 1
            }
        };
        Ok(&mut self.blocks[block])
    }

    /// Start in the message of the key's next `len` bytes.
    fn take(&mut self, key: u8, len: u64) -> Result<usize, Answer> {
        let piece = self.touch(key)?;
        if len > (piece.end - piece.at) as u64 {
            return refuse(27, 0);
        }
        let start = piece.at;
        piece.at += len as usize;
        Ok(start)
    }

    /// A row of the value whose top node this is.
    fn row(&mut self, node: u16, kind: u64, a: u64, b: u64) -> Result<(), Answer> {
        if self.count == self.room {
            return refuse(31, 0);
        }
        self.rows[rows::WORDS * self.count..][..rows::WORDS].copy_from_slice(&[
            kind,
            a,
            b,
            node.into(),
        ]);
        self.count += 1;
        Ok(())
    }

    /// A block never given is unused, even an empty one.
    fn all_used(&self) -> bool {
        let read_out = |piece: &Piece| piece.at == piece.end;
        self.given == self.blocks.len() && read_out(&self.core) && self.blocks.iter().all(read_out)
    }
}

fn place_kind(this: &WireType) -> u64 {
    if this.kind == table::STRING {
        rows::STRING
    } else {
        rows::BYTES
    }
}
