//! Safe bindings for `libargo.a`, the proved Argo codec for job feeds: a wire-type table is checked, a message is read
//! into rows, rows are written as the shortest message.
//!
//! ```
//! use argo::{Codec, Modes, Refusal, Table, Tree, Value};
//!
//! // An array of texts under key 0, which deduplicates: the mark, version 1, 3 nodes; ARRAY, BLOCK, STRING.
//! let table = Table::new(*b"AWT\x01\0\x03\0\x08\0\0\0\x09\x02\0\0\x01\0\0\0")?;
//!
//! // Write three states. The third is a repeat, so it is named by its number.
//! let mut tree = Tree::new();
//! tree.push(Value::Array(3));
//! for state in ["PASSED", "KILLED", "PASSED"] {
//!     tree.push(Value::Str(state));
//! }
//! let message = table.write(Modes::NONE, &tree)?;
//! assert_eq!(message, b"\x00\x18PASSEDKILLED\x08\x06\x0c\x0c\x07");
//!
//! // Read them again. The texts are borrowed from the message.
//! let mut codec = Codec::new();
//! let rows = codec.read(&table, &message)?;
//! for row in rows.children(0) {
//!     if let Some(Value::Str(text)) = rows.get(row) {
//!         println!("{text}");
//!     }
//! }
//! assert_eq!(rows.get(3), Some(Value::Str("PASSED")));
//!
//! // A row knows its column: the node of the table that it stands under. Here it is the BLOCK, node 1.
//! assert_eq!(rows.node(3), Some(1));
//!
//! // A message that is cut is refused, with the number of the feed's rules.
//! let cut = codec.read(&table, &message[..18]).unwrap_err();
//! assert_eq!((cut, cut.number()), (Refusal::Pieces, 22));
//! # Ok::<(), Refusal>(())
//! ```
//!
//! [`Table::read`] and [`Table::write`] have buffers of their own; a [`Codec`] has them once for many calls. The library
//! itself allocates nothing, has no state, and needs at most 64 KiB of stack. It is compiled for x86-64 Linux.
#![deny(unsafe_code)]
#![warn(missing_docs)]

mod codec;
#[allow(unsafe_code)]
mod ffi;
mod modes;
mod nodes;
mod refusal;
mod rows;
mod tree;
mod value;

pub use codec::{Codec, Table};
pub use modes::Modes;
pub use refusal::Refusal;
pub use rows::{Children, Iter, Rows};
pub use tree::Tree;
pub use value::{look, Seen, Value};

/// The version of this crate and of the library that belongs to it, as `ARGO_VERSION` in `include/argo.h`.
pub const VERSION: &str = env!("CARGO_PKG_VERSION");

/// Words of a row: kind, a, b, and the node that it stands under.
pub const ROW_WORDS: usize = 4;

/// Rows that a message has at most.
pub const MAX_ROWS: usize = 8_192;

/// Bytes that a message has at most, and the bytes of a tree together.
pub const MAX_BYTES: usize = 65_536;

// Words of 64 bits are taken for sizes, and the archive is for such machines alone.
const _: () = assert!(usize::BITS == 64);
