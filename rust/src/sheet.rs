//! The layout of a sheet and the writing of one.

use crate::bits;

/// The team byte of an instrument left in the pool.
pub const POOL: u8 = 0xff;

/// Where each command of a sheet stands, for m instruments and n teams.
#[derive(Clone, Copy)]
pub struct Layout {
    pub instruments: usize,
    pub teams: usize,
}

impl Layout {
    /// The length L of the sheet.
    pub fn length(self) -> usize {
        14 + 11 * self.teams + 3 * self.instruments * (self.teams + 1)
    }

    /// The offset of an instrument's GIVE.
    pub fn give(self, item: usize) -> usize {
        4 + 3 * item
    }

    /// The offset of BOUND.
    pub fn bound(self) -> usize {
        self.give(self.instruments)
    }

    /// The offset of a team's SHARE.
    pub fn share(self, team: usize) -> usize {
        self.bound() + 9 + team * (11 + 3 * self.instruments)
    }

    /// The offset of the PART of an instrument in a team's stretch.
    pub fn part(self, team: usize, item: usize) -> usize {
        self.share(team) + 11 + 3 * item
    }
}

/// A team's share with its two certificates: parts that attain it, a set that bounds it.
#[derive(Clone, Debug)]
pub struct ShareProof {
    pub share: u8,
    pub set: u64,
    /// The part of each instrument.
    pub parts: Vec<u8>,
}

impl ShareProof {
    /// What the page of an away team says: share 0, set 0, every instrument in part 0.
    pub fn away(instruments: usize) -> Self {
        ShareProof {
            share: 0,
            set: 0,
            parts: vec![0; instruments],
        }
    }
}

/// What a sheet says.
#[derive(Clone, Debug)]
pub struct Contents {
    /// Each team's instruments.
    pub bundles: Vec<u64>,
    /// The set that bounds the total.
    pub bound: u64,
    pub shares: Vec<ShareProof>,
}

impl Contents {
    /// The number of given instruments.
    pub fn total(&self) -> u32 {
        self.bundles.iter().map(|&bundle| bits::size(bundle)).sum()
    }

    /// The team byte of an instrument.
    fn holder(&self, item: usize) -> u8 {
        let holder = self.bundles.iter().position(|&set| bits::has(set, item));
        holder.map_or(POOL, |team| team as u8)
    }

    /// The sheet as bytes.
    pub fn bytes(&self, instruments: usize) -> Vec<u8> {
        let mut out = vec![0x11, instruments as u8];
        out.extend([self.bundles.len() as u8, self.total() as u8]);
        for item in 0..instruments {
            out.extend([0x12, item as u8, self.holder(item)]);
        }
        out.push(0x13);
        out.extend(self.bound.to_le_bytes());
        for (team, proof) in self.shares.iter().enumerate() {
            out.extend([0x14, team as u8, proof.share]);
            out.extend(proof.set.to_le_bytes());
            for (item, &part) in proof.parts.iter().enumerate() {
                out.extend([0x15, item as u8, part]);
            }
        }
        out.push(0x16);
        out
    }
}

/// The 8 bytes at `offset` as a set.
pub fn set_at(sheet: &[u8], offset: usize) -> u64 {
    let bytes = &sheet[offset..offset + 8];
    bytes
        .iter()
        .rev()
        .fold(0, |word, &byte| word << 8 | u64::from(byte))
}
