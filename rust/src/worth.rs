//! Worth as matroid rank, computed by counting, by union-find and by matching. A team's glued
//! instruments are contracted, those glued to other teams are deleted.

use crate::bits;
use crate::matching::Matching;
use crate::plan::{Bipartite, Classes, Graph, Kind, Plan, Team};
use crate::refusal::Refusal;
use crate::union_find::UnionFind;

/// Worth as one number: 0 to 64, or the refusal's code.
pub fn answer(file: &[u8], team: usize, set: u64) -> u64 {
    match worth(file, team, set) {
        Ok(worth) => u64::from(worth),
        Err(refusal) => refusal.code(),
    }
}

/// The operation Worth: what a set is worth to a team of the plan in this file.
/// Bits at or above m are passed over; a team not in the plan finds nothing of worth.
pub fn worth(file: &[u8], team: usize, set: u64) -> Result<u32, Refusal> {
    let plan = crate::plan::read(file)?;
    Ok(worth_in(&plan, team, set))
}

/// Worth in a plan already read.
pub fn worth_in(plan: &Plan, team: usize, set: u64) -> u32 {
    plan.teams
        .get(team)
        .map_or(0, |team| team.rank(set & plan.all()))
}

impl Team {
    /// Worth: the size of the largest independent part of `set`. It is what the instruments
    /// that are not glued add to the rank of the team's glued ones, which is their number.
    pub fn rank(&self, set: u64) -> u32 {
        let joined = set & !self.all_glued | self.glued;
        self.rank_before(joined) - bits::size(self.glued)
    }

    /// Whether the whole set is independent; a set with a glued instrument is not.
    pub fn independent(&self, set: u64) -> bool {
        self.rank(set) == bits::size(set)
    }

    /// The channels that the team's glued instruments leave.
    pub fn room(&self) -> u32 {
        u32::from(self.channels) - bits::size(self.glued)
    }

    /// Worth before note 6: the size of the largest part of `set` that is independent by days,
    /// kind and channels.
    fn rank_before(&self, set: u64) -> u32 {
        let channels = u32::from(self.channels);
        let set = set & self.usable;
        match &self.kind {
            Kind::Caps(classes) => classes.rank(set).min(channels),
            Kind::Loops(graph) => graph.rank(set, channels),
            Kind::Mounts(bipartite) => bipartite.rank(set, channels),
        }
    }

    /// Whether the whole set was independent before note 6.
    pub fn independent_before(&self, set: u64) -> bool {
        self.rank_before(set) == bits::size(set)
    }

    /// The instruments outside an independent bundle that may join it.
    pub fn gains(&self, bundle: u64) -> u64 {
        if bits::size(bundle) >= self.room() {
            return 0;
        }
        let joined = bundle | self.glued;
        let gains = match &self.kind {
            Kind::Caps(classes) => classes.gains(joined),
            Kind::Loops(graph) => graph.gains(joined),
            Kind::Mounts(bipartite) => bipartite.gains(joined),
        };
        gains & self.usable & !self.all_glued
    }

    /// Channels aside: the members of an independent bundle of which one must leave
    /// before `item` joins (its fundamental circuit), or nothing when it joins freely.
    /// For an instrument that is glued or not usable no member makes room; glued instruments
    /// do not leave.
    pub fn circuit(&self, bundle: u64, item: usize) -> Option<u64> {
        if !bits::has(self.usable & !self.all_glued, item) {
            return Some(0);
        }
        let joined = bundle | self.glued;
        let circuit = match &self.kind {
            Kind::Caps(classes) => classes.circuit(joined, item),
            Kind::Loops(graph) => graph.circuit(joined, item),
            Kind::Mounts(bipartite) => bipartite.circuit(joined, item),
        };
        circuit.map(|members| members & !self.glued)
    }
}

impl Classes {
    /// The cap of a class; 0 when the plan names none.
    pub fn cap_of(&self, class: usize) -> u32 {
        self.cap[class].map_or(0, u32::from)
    }

    /// Each class counts up to its cap.
    fn rank(&self, set: u64) -> u32 {
        let classes = self.members.iter().enumerate();
        classes
            .map(|(class, members)| bits::size(members & set).min(self.cap_of(class)))
            .sum()
    }

    /// The instruments of classes with room left.
    fn gains(&self, bundle: u64) -> u64 {
        let classes = self.members.iter().enumerate();
        classes
            .filter(|(class, members)| bits::size(*members & bundle) < self.cap_of(*class))
            .fold(0, |sum, (_, members)| sum | (members & !bundle))
    }

    /// The held part of a full class.
    fn circuit(&self, bundle: u64, item: usize) -> Option<u64> {
        let Some(class) = self.class_of[item].map(usize::from) else {
            return Some(0);
        };
        let held = self.members[class] & bundle;
        (bits::size(held) >= self.cap_of(class)).then_some(held)
    }
}

impl Graph {
    /// A scan in rising order that keeps what closes no loop, up to `most`.
    fn rank(&self, set: u64, most: u32) -> u32 {
        let mut groups = UnionFind::new();
        let mut kept = 0;
        for (a, b) in bits::members(set).filter_map(|item| self.ends[item]) {
            if kept == most {
                break;
            }
            kept += u32::from(groups.join(a, b));
        }
        kept
    }

    /// The instruments that join two groups of joints.
    fn gains(&self, bundle: u64) -> u64 {
        let mut groups = UnionFind::new();
        for (a, b) in bits::members(bundle).filter_map(|item| self.ends[item]) {
            groups.join(a, b);
        }
        let mut gains = 0;
        for (item, ends) in self.ends.iter().enumerate() {
            if let Some((a, b)) = *ends {
                if groups.root(a) != groups.root(b) {
                    gains |= bits::one(item);
                }
            }
        }
        gains
    }

    /// The way through a loop-free bundle from one end of `item` to the other.
    fn circuit(&self, bundle: u64, item: usize) -> Option<u64> {
        let Some((from, to)) = self.ends[item] else {
            return Some(0);
        };
        self.way(bundle, from, to)
    }

    /// Depth-first from joint to joint; instruments that lead nowhere are dropped again.
    fn way(&self, bundle: u64, from: u8, to: u8) -> Option<u64> {
        if from == to {
            return Some(0);
        }
        for item in bits::members(self.touching[usize::from(from)] & bundle) {
            let (a, b) = self.ends[item]?;
            let next = if a == from { b } else { a };
            if let Some(rest) = self.way(bundle & !bits::one(item), next, to) {
                return Some(rest | bits::one(item));
            }
        }
        None
    }
}

impl Bipartite {
    /// The mounts of an instrument; none when the plan names none.
    pub fn mounts_of(&self, item: usize) -> u32 {
        self.fits[item].unwrap_or(0)
    }

    /// A matching that takes the instruments in rising order where it can, up to `most`.
    fn matching(&self, set: u64, most: u32) -> Matching<'_> {
        let mut matching = Matching::new(self);
        for item in bits::members(set) {
            if matching.size() == most {
                break;
            }
            matching.augment(item);
        }
        matching
    }

    /// The size of a largest matching, up to `most`.
    fn rank(&self, set: u64, most: u32) -> u32 {
        self.matching(set, most).size()
    }

    /// The instruments that fit a mount which is free or can be made free.
    fn gains(&self, bundle: u64) -> u64 {
        let open = self.matching(bundle, u32::MAX).freeable();
        let joins = |item: &usize| self.mounts_of(*item) & open != 0;
        let gains = (0..self.fits.len()).filter(joins).map(bits::one);
        gains.fold(0, |sum, item| sum | item) & !bundle
    }

    /// The members reached by alternating paths from `item`, if none ends at a free mount.
    fn circuit(&self, bundle: u64, item: usize) -> Option<u64> {
        self.matching(bundle, u32::MAX).circuit(item)
    }
}
