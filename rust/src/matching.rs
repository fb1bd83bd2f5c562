//! Matchings of instruments into mounts, made larger by augmenting paths.

use crate::bits;
use crate::plan::{Bipartite, MOUNTS};

/// Different mounts for different instruments, each instrument on one that it fits.
pub struct Matching<'a> {
    bipartite: &'a Bipartite,
    /// The mounts in use, bit k for mount k.
    used: u32,
    /// The instrument on each mount in use.
    on: [u8; MOUNTS],
}

impl<'a> Matching<'a> {
    /// No instrument on any mount.
    pub fn new(bipartite: &'a Bipartite) -> Self {
        Matching {
            bipartite,
            used: 0,
            on: [0; MOUNTS],
        }
    }

    /// The number of instruments that have a mount.
    pub fn size(&self) -> u32 {
        self.used.count_ones()
    }

    /// Gives an instrument a mount, others being moved where they must; false, with nothing
    /// changed, when it can have none.
    pub fn augment(&mut self, item: usize) -> bool {
        self.augment_past(item, &mut 0)
    }

    /// The same without the mounts already seen.
    fn augment_past(&mut self, item: usize, seen: &mut u32) -> bool {
        let mounts = self.bipartite.mounts_of(item);
        let free = mounts & !self.used;
        if free != 0 {
            self.set(free.trailing_zeros() as usize, item);
            return true;
        }
        while mounts & !*seen != 0 {
            let mount = (mounts & !*seen).trailing_zeros() as usize;
            *seen |= 1 << mount;
            if self.augment_past(self.item_on(mount), seen) {
                self.set(mount, item);
                return true;
            }
        }
        false
    }

    /// The mounts that are free or that moves of others can make free.
    pub fn freeable(&self) -> u32 {
        let mut open = !self.used;
        loop {
            let movable = members(self.used & !open)
                .filter(|&mount| self.bipartite.mounts_of(self.item_on(mount)) & open != 0);
            let more = movable.fold(open, |sum, mount| sum | 1 << mount);
            if more == open {
                return open;
            }
            open = more;
        }
    }

    /// The instruments whose mounts alternating paths from `item` reach, or nothing when one
    /// of these paths ends at a free mount.
    pub fn circuit(&self, item: usize) -> Option<u64> {
        let mut reached = self.bipartite.mounts_of(item);
        let (mut seen, mut found) = (0, 0);
        while reached & !seen != 0 {
            if reached & !self.used != 0 {
                return None;
            }
            let mount = (reached & !seen).trailing_zeros() as usize;
            seen |= 1 << mount;
            found |= bits::one(self.item_on(mount));
            reached |= self.bipartite.mounts_of(self.item_on(mount));
        }
        Some(found)
    }

    /// Puts an instrument on a mount.
    fn set(&mut self, mount: usize, item: usize) {
        self.on[mount] = item as u8;
        self.used |= 1 << mount;
    }

    /// The instrument on a mount in use.
    fn item_on(&self, mount: usize) -> usize {
        usize::from(self.on[mount])
    }
}

/// The mounts of a mask, rising.
fn members(mounts: u32) -> impl Iterator<Item = usize> {
    bits::members(u64::from(mounts))
}
