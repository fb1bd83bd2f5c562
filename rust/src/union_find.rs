//! Union-find over the joints.

use crate::plan::JOINTS;

/// Groups of joints, each with one root.
pub struct UnionFind {
    parent: [u8; JOINTS],
}

impl Default for UnionFind {
    fn default() -> Self {
        Self::new()
    }
}

impl UnionFind {
    /// Every joint alone.
    pub fn new() -> Self {
        let mut parent = [0; JOINTS];
        for (joint, slot) in parent.iter_mut().enumerate() {
            *slot = joint as u8;
        }
        UnionFind { parent }
    }

    /// The root of a joint's group; the way there gets shorter.
    pub fn root(&mut self, joint: u8) -> u8 {
        let mut at = joint;
        loop {
            let up = self.parent[usize::from(at)];
            if up == at {
                return at;
            }
            let above = self.parent[usize::from(up)];
            self.parent[usize::from(at)] = above;
            at = above;
        }
    }

    /// Joins two groups; false when they were one already.
    pub fn join(&mut self, a: u8, b: u8) -> bool {
        let (a, b) = (self.root(a), self.root(b));
        self.parent[usize::from(a)] = b;
        a != b
    }
}
