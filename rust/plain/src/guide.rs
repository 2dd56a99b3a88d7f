//! The nodes of PRICAT (document 01, "Guide nodes"): order and required nodes. Node 0 is the root.
//!
//! Nodes are numbered as in 2.0d. 2.0c has them too, but for two, in the same order and with the same parents, counters
//! and required nodes (source 003), so what stands here holds for both; `edition` has what differs.
//!
//! The last node placed decides which instances are open and how far each has come, so "can come here" is a set of
//! nodes for each last node, and "is required before" a set for each pair; both are computed from the three columns.

use crate::cut::tag;
use crate::text::key;

pub const NODES: usize = 27;
pub type Set = u32;

const PARENT: [usize; NODES] = [0, 0, 0, 0, 0, 0, 0, 0, 0, 0, 0, 10, 10, 12, 0, 0, 15, 16, 16, 16, 19, 19, 0, 22, 23, 24, 0];

/// The standard's counter; for a group's first node that of the group.
const COUNTER: [u32; NODES] =
    [0, 10, 20, 30, 30, 30, 60, 60, 60, 90, 90, 110, 150, 170, 220, 590, 1310, 1330, 1340, 1560, 1600, 1610, 590, 1310, 1560, 1600, 2400];

/// DTM/163 or 164 under a price.
pub const INTERVAL: usize = 21;

const REQUIRED: Set = set(&[1, 2, 4, 8, 9, 10, 13, 16, 23, 24, 26]);

/// For each last node the nodes that can come next, limits and missing nodes ignored.
pub static AFTER: [Set; NODES] = after_all();
/// For each last node and next node what must have occurred.
pub static NEEDED: [[Set; NODES]; NODES] = needed_all();
/// For each node the nodes below it: they are forgotten when a new instance begins.
pub static BELOW: [Set; NODES] = below_all();

pub const fn bit(node: usize) -> Set {
    1 << node
}

pub const fn set(nodes: &[usize]) -> Set {
    let mut all = 0;
    let mut at = 0;
    while at < nodes.len() {
        all |= bit(nodes[at]);
        at += 1;
    }
    all
}

/// The required nodes right under `parent` whose counter is below `counter`.
const fn required_under(parent: usize, counter: u32) -> Set {
    let mut all = 0;
    let mut node = 1;
    while node < NODES {
        if PARENT[node] == parent && COUNTER[node] < counter && REQUIRED & bit(node) != 0 {
            all |= bit(node);
        }
        node += 1;
    }
    all
}

/// Whether `next` can follow `last`: its parent's instance is open and has not passed its counter.
const fn can_follow(last: usize, next: usize) -> bool {
    let parent = PARENT[next];
    let mut passed = 0;
    let mut open = last;
    while open != parent {
        if open == 0 {
            return false;
        }
        passed = COUNTER[open];
        open = PARENT[open];
    }
    COUNTER[next] >= passed
}

const fn after_all() -> [Set; NODES] {
    let mut all = [0; NODES];
    let mut last = 0;
    while last < NODES {
        let mut next = 1;
        while next < NODES {
            if can_follow(last, next) {
                all[last] |= bit(next);
            }
            next += 1;
        }
        last += 1;
    }
    all
}

const fn needed(last: usize, next: usize) -> Set {
    let parent = PARENT[next];
    let mut all = required_under(parent, COUNTER[next]);
    let mut open = last;
    while open != parent {
        all |= required_under(open, u32::MAX);
        open = PARENT[open];
    }
    all
}

const fn needed_all() -> [[Set; NODES]; NODES] {
    let mut all = [[0; NODES]; NODES];
    let mut last = 0;
    while last < NODES {
        let mut next = 1;
        while next < NODES {
            if can_follow(last, next) {
                all[last][next] = needed(last, next);
            }
            next += 1;
        }
        last += 1;
    }
    all
}

const fn below_all() -> [Set; NODES] {
    let mut all = [0; NODES];
    let mut node = 1;
    while node < NODES {
        let mut above = PARENT[node];
        while above != 0 {
            all[above] |= bit(node);
            above = PARENT[above];
        }
        node += 1;
    }
    all
}

/// The missing node that 14 names: the innermost closed instance with a gap, then the one that takes the segment.
#[cold]
pub fn missing(last: usize, next: usize, seen: Set) -> usize {
    let parent = PARENT[next];
    let mut open = last;
    while open != parent {
        let gap = required_under(open, u32::MAX) & !seen;
        if gap != 0 {
            return gap.trailing_zeros() as usize;
        }
        open = PARENT[open];
    }
    (required_under(parent, COUNTER[next]) & !seen).trailing_zeros() as usize
}

const UNH: u32 = tag(b"UNH");
const BGM: u32 = tag(b"BGM");
const DTM: u32 = tag(b"DTM");
const RFF: u32 = tag(b"RFF");
const NAD: u32 = tag(b"NAD");
const LOC: u32 = tag(b"LOC");
const CTA: u32 = tag(b"CTA");
const COM: u32 = tag(b"COM");
const CUX: u32 = tag(b"CUX");
const PGI: u32 = tag(b"PGI");
const LIN: u32 = tag(b"LIN");
const PIA: u32 = tag(b"PIA");
const IMD: u32 = tag(b"IMD");
const PRI: u32 = tag(b"PRI");
const RNG: u32 = tag(b"RNG");
const UNT: u32 = tag(b"UNT");

/// The nodes with this tag; `code` gives the first component where the code chooses among them.
#[inline(always)]
pub fn nodes_of(tag: u32, code: impl FnOnce() -> u64) -> Set {
    match tag {
        LIN => set(&[16, 23]),
        PRI => set(&[19, 24]),
        RNG => set(&[20, 25]),
        DTM => dates(code()),
        PIA => bit(17),
        IMD => bit(18),
        UNH => bit(1),
        BGM => bit(2),
        RFF => references(code()),
        NAD => parties(code()),
        LOC => bit(11),
        CTA => bit(12),
        COM => bit(13),
        CUX => bit(14),
        PGI => groups(code()),
        UNT => bit(26),
        _ => 0,
    }
}

fn dates(code: u64) -> Set {
    const C492: u64 = key(b"492");
    const C137: u64 = key(b"137");
    const C157: u64 = key(b"157");
    const C163: u64 = key(b"163");
    const C164: u64 = key(b"164");
    match code {
        C492 => bit(3),
        C137 => bit(4),
        C157 => bit(5),
        C163 | C164 => bit(INTERVAL),
        _ => 0,
    }
}

fn references(code: u64) -> Set {
    const ACW: u64 = key(b"ACW");
    const Z56: u64 = key(b"Z56");
    const Z13: u64 = key(b"Z13");
    match code {
        ACW => bit(6),
        Z56 => bit(7),
        Z13 => bit(8),
        _ => 0,
    }
}

fn parties(code: u64) -> Set {
    const MR: u64 = key(b"MR");
    const MS: u64 = key(b"MS");
    match code {
        MR => bit(9),
        MS => bit(10),
        _ => 0,
    }
}

fn groups(code: u64) -> Set {
    const C9: u64 = key(b"9");
    const Z01: u64 = key(b"Z01");
    match code {
        C9 => bit(15),
        Z01 => bit(22),
        _ => 0,
    }
}
