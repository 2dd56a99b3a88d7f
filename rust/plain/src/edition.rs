//! The two editions that are read: which nodes they have, limits, pages, and the node numbers of their answers.

use crate::guide::{bit, set, Set, NODES};
use crate::pages::{Row, IMD_20C, PAGES};
use crate::text::key;

/// What the two editions do not share. Nodes are those of 2.0d.
pub struct Edition {
    pub nodes: Set,
    pub limit: [u32; NODES],
    pub pages: [&'static [Row]; NODES],
}

/// RFF/Z56 and the first kind's IMD, PRI and RNG.
const RFF_Z56: usize = 7;
const IMD: usize = 18;
const PRI: usize = 19;
const RNG: usize = 20;

const ALL: Set = bit(NODES) - bit(1);

const LIMIT: [u32; NODES] = [1, 1, 1, 1, 1, 1, 1, 1, 1, 1, 1, 1, 1, 5, 1, 1, 999_999, 1, 1, 100, 1, 2, 1, 999_999, 1, 1, 1];

/// Judges also a message that names neither edition.
pub static OF_20D: Edition = Edition { nodes: ALL, limit: LIMIT, pages: PAGES };

/// No RFF/Z56, one price to a position, no RNG in the first kind, and a page of its own for IMD (source 003).
static OF_20C: Edition = Edition { nodes: ALL & !set(&[RFF_Z56, RNG]), limit: with(LIMIT, PRI, 1), pages: with(PAGES, IMD, IMD_20C) };

const fn with<T: Copy>(mut all: [T; NODES], node: usize, one: T) -> [T; NODES] {
    all[node] = one;
    all
}

impl Edition {
    /// The edition with this DE0057.
    pub fn named(code: u64) -> Option<&'static Edition> {
        const D: u64 = key(b"2.0d");
        const C: u64 = key(b"2.0c");
        match code {
            D => Some(&OF_20D),
            C => Some(&OF_20C),
            _ => None,
        }
    }

    /// The number that this edition has for a node: its own nodes are counted through.
    pub fn number(&self, node: usize) -> usize {
        (self.nodes & (bit(node + 1) - 1)).count_ones() as usize
    }
}
