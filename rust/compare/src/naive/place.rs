//! Which node a segment gets, with the open instances as a stack.

use std::collections::{HashMap, HashSet};

use super::cut::Segment;
use super::guide::Guide;

/// An open instance: its first node (0 for the root), the counter it has come to, how often each node occurred, and the
/// first components of the segments right under it.
struct Instance {
    node: usize,
    counter: u32,
    occurred: HashMap<usize, usize>,
    codes: HashSet<Vec<u8>>,
}

impl Instance {
    fn new(node: usize) -> Instance {
        Instance { node, counter: 0, occurred: HashMap::new(), codes: HashSet::new() }
    }

    fn missing(&self, guide: &Guide, before: u32) -> Option<usize> {
        (1..=guide.nodes.len()).find(|number| {
            let node = guide.node(*number);
            let is_missing = node.required && !self.occurred.contains_key(number);
            node.parent == self.node && node.counter < before && (is_missing || self.is_given_in_part(guide.together(*number)))
        })
    }

    fn is_given_in_part(&self, codes: &[Vec<u8>]) -> bool {
        let given = codes.iter().filter(|code| self.codes.contains(*code)).count();
        0 < given && given < codes.len()
    }
}

/// The instances that are open behind the segments placed so far, the root first.
pub struct Open<'a> {
    guide: &'a Guide,
    instances: Vec<Instance>,
}

impl<'a> Open<'a> {
    pub fn new(guide: &'a Guide) -> Open<'a> {
        Open { guide, instances: vec![Instance::new(0)] }
    }

    /// The nodes with the segment's tag, and its code where the code chooses.
    fn candidates(&self, segment: &Segment) -> Vec<usize> {
        let tag = segment.part(0, 1);
        let is_one = |number: &usize| {
            let page = &self.guide.node(*number).page;
            let codes = &page.elements[0].rows[0].codes;
            let by_tag_alone = ![&b"DTM"[..], b"RFF", b"NAD", b"PGI"].contains(&tag);
            page.tag.as_bytes() == tag && (by_tag_alone || codes.iter().any(|code| code == segment.part(1, 1)))
        };
        (1..=self.guide.nodes.len()).filter(is_one).collect()
    }

    /// Puts a segment at its node: 13, 15, 25, 14.
    pub fn place(&mut self, segment: &Segment) -> Result<usize, (u32, usize)> {
        let mut found = None;
        for node in self.candidates(segment) {
            let (parent, counter) = (self.guide.node(node).parent, self.guide.node(node).counter);
            let level = self.instances.iter().position(|instance| instance.node == parent);
            if let Some(level) = level.filter(|&level| self.instances[level].counter <= counter) {
                assert!(found.is_none());
                found = Some((node, level, counter));
            }
        }
        let (node, level, counter) = found.ok_or((13, 0))?;
        if self.instances[level].occurred.get(&node).copied().unwrap_or(0) >= self.guide.node(node).limit {
            return Err((15, node));
        }
        let code = segment.part(1, 1).to_vec();
        if self.guide.together(node).contains(&code) && self.instances[level].codes.contains(&code) {
            return Err((25, node));
        }
        for closed in self.instances[level + 1..].iter().rev() {
            if let Some(missing) = closed.missing(self.guide, u32::MAX) {
                return Err((14, missing));
            }
        }
        if let Some(missing) = self.instances[level].missing(self.guide, counter) {
            return Err((14, missing));
        }
        self.instances.truncate(level + 1);
        self.instances[level].counter = counter;
        *self.instances[level].occurred.entry(node).or_default() += 1;
        self.instances[level].codes.insert(code);
        self.instances.push(Instance::new(node));
        Ok(node)
    }
}
