//! The table file: its check, and its nodes folded into wire types for the walks.

use crate::{refuse, Answer, KEYS, MAX_FIXED, MAX_NODES, MAX_PATH};

pub const STRING: u8 = 1;
pub const BOOLEAN: u8 = 2;
pub const VARINT: u8 = 3;
pub const FLOAT64: u8 = 4;
pub const BYTES: u8 = 5;
pub const FIXED: u8 = 6;
pub const RECORD: u8 = 7;
pub const ARRAY: u8 = 8;
pub const BLOCK: u8 = 9;
pub const NULLABLE: u8 = 10;

pub const OMITTABLE: u8 = 1;
pub const DEDUPLICATE: u8 = 2;

/// The file up to the nodes.
pub const FRONT: usize = 7;

#[derive(Clone, Copy, Debug, PartialEq, Eq)]
pub struct Node {
    pub kind: u8,
    pub flags: u8,
    pub argument: u16,
}

impl Node {
    pub fn new(kind: u8, flags: u8, argument: u16) -> Node {
        Node {
            kind,
            flags,
            argument,
        }
    }

    /// Kinds that stand under a BLOCK, and only there.
    fn is_scalar(self) -> bool {
        matches!(self.kind, STRING | VARINT | FLOAT64 | BYTES | FIXED)
    }

    /// Refusal 13: the node by itself.
    fn stands_alone(self) -> bool {
        let flags = if self.kind == BLOCK {
            OMITTABLE | DEDUPLICATE
        } else {
            OMITTABLE
        };
        let argument = match self.kind {
            STRING | BOOLEAN | VARINT | FLOAT64 | BYTES | ARRAY | NULLABLE => self.argument == 0,
            FIXED => self.argument <= MAX_FIXED,
            RECORD => true,
            BLOCK => (self.argument as usize) < KEYS,
            _ => false,
        };
        self.flags & !flags == 0 && argument
    }

    fn children(self) -> usize {
        match self.kind {
            RECORD => self.argument as usize,
            ARRAY | BLOCK | NULLABLE => 1,
            _ => 0,
        }
    }
}

/// The call: refusal 1, then the table.
pub fn check(table: &[u8], work: usize) -> Answer {
    if work < crate::WORK_WORDS {
        return Answer::refused(1, 0);
    }
    match nodes(table) {
        Ok(nodes) => Answer::success(nodes.len()),
        Err(refusal) => refusal,
    }
}

/// The nodes of a sound table, or the refusal 10 to 15.
pub fn nodes(table: &[u8]) -> Result<Vec<Node>, Answer> {
    if table.len() < FRONT || &table[..3] != b"AWT" {
        return refuse(10, 0);
    }
    let short = |at: usize| u16::from_le_bytes([table[at], table[at + 1]]);
    if short(3) != 1 {
        return refuse(11, 0);
    }
    let count = short(5) as usize;
    if count == 0 || count > MAX_NODES || table.len() != FRONT + 4 * count {
        return refuse(12, 0);
    }
    let nodes: Vec<Node> = table[FRONT..]
        .chunks_exact(4)
        .map(|n| Node::new(n[0], n[1], u16::from_le_bytes([n[2], n[3]])))
        .collect();
    if let Some(i) = nodes.iter().position(|node| !node.stands_alone()) {
        return refuse(13, i);
    }
    check_tree(&nodes)?;
    check_keys(&nodes)?;
    Ok(nodes)
}

/// Refusal 14: the first node at which the nodes so far break a rule.
fn check_tree(nodes: &[Node]) -> Result<(), Answer> {
    // The path to the node at hand: each ancestor with its children still to begin.
    let mut path: Vec<(Node, usize)> = Vec::with_capacity(MAX_PATH);
    for (i, &node) in nodes.iter().enumerate() {
        let parent = match path.last_mut() {
            Some((parent, left)) => {
                *left -= 1;
                Some(*parent)
            }
            None if i == 0 => None,
            None => return refuse(14, i),
        };
        if path.len() + 1 > MAX_PATH || !may_stand(node, parent) {
            return refuse(14, i);
        }
        if node.children() > 0 {
            path.push((node, node.children()));
        } else {
            while path.last().is_some_and(|&(_, left)| left == 0) {
                path.pop();
            }
        }
    }
    if path.is_empty() {
        Ok(())
    } else {
        refuse(14, nodes.len())
    }
}

fn may_stand(node: Node, parent: Option<Node>) -> bool {
    let parent_kind = parent.map_or(0, |p| p.kind);
    if node.flags & OMITTABLE != 0 && parent_kind != RECORD {
        return false;
    }
    if node.is_scalar() != (parent_kind == BLOCK) {
        return false;
    }
    if node.kind == NULLABLE && parent_kind == NULLABLE {
        return false;
    }
    let deduplicates = parent.is_some_and(|p| p.kind == BLOCK && p.flags & DEDUPLICATE != 0);
    !deduplicates || matches!(node.kind, STRING | BYTES)
}

/// Refusal 15: every BLOCK agrees with the first one of its key.
fn check_keys(nodes: &[Node]) -> Result<(), Answer> {
    let mut first: [Option<(Node, u8)>; KEYS] = [None; KEYS];
    for (i, block) in nodes.iter().enumerate() {
        if block.kind != BLOCK {
            continue;
        }
        let child = nodes[i + 1];
        let deduplicate = block.flags & DEDUPLICATE;
        let use_ = (Node::new(child.kind, 0, child.argument), deduplicate);
        match &first[block.argument as usize] {
            None => first[block.argument as usize] = Some(use_),
            Some(earlier) if *earlier != use_ => return refuse(15, i),
            Some(_) => {}
        }
    }
    Ok(())
}

/// A value's type: its top node with the wrapper nodes below folded in.
#[derive(Clone, Copy, Debug)]
pub struct WireType {
    /// The top node itself, which the value's rows have as their last word.
    pub node: u16,
    pub omittable: bool,
    pub nullable: bool,
    pub deduplicate: bool,
    /// Kind of the value itself: neither NULLABLE nor BLOCK.
    pub kind: u8,
    /// Key of the BLOCK, where there is one.
    pub key: u8,
    /// Length of a FIXED, fields of a RECORD.
    pub argument: u16,
    /// First node below a RECORD or ARRAY.
    pub child: u16,
    /// Node after all below it.
    pub end: u16,
}

impl WireType {
    pub fn is_labelled(&self) -> bool {
        matches!(self.kind, STRING | BYTES | BOOLEAN | ARRAY)
    }
}

/// The wire type at each node of a sound table. Children come after their parent,
/// so one pass from the back finds every subtree's end.
pub fn wire_types(nodes: &[Node]) -> Vec<WireType> {
    let nothing = WireType {
        node: 0,
        omittable: false,
        nullable: false,
        deduplicate: false,
        kind: 0,
        key: 0,
        argument: 0,
        child: 0,
        end: 0,
    };
    let mut types = vec![nothing; nodes.len()];
    for (i, node) in nodes.iter().enumerate().rev() {
        let below = i + 1;
        let mut this = match node.kind {
            NULLABLE => WireType {
                nullable: true,
                ..types[below]
            },
            BLOCK => WireType {
                key: node.argument as u8,
                deduplicate: node.flags & DEDUPLICATE != 0,
                ..types[below]
            },
            kind => {
                let mut end = below;
                for _ in 0..node.children() {
                    end = types[end].end as usize;
                }
                WireType {
                    kind,
                    argument: node.argument,
                    child: below as u16,
                    end: end as u16,
                    ..nothing
                }
            }
        };
        this.node = i as u16;
        this.omittable = node.flags & OMITTABLE != 0;
        types[i] = this;
    }
    types
}

/// The file of these nodes, sound or not.
pub fn file(nodes: &[Node]) -> Vec<u8> {
    let mut table = b"AWT\x01\x00".to_vec();
    table.extend((nodes.len() as u16).to_le_bytes());
    for node in nodes {
        table.extend([node.kind, node.flags]);
        table.extend(node.argument.to_le_bytes());
    }
    table
}
