//! Build: shares, then a division of greatest total that meets them, then the sheet.

use crate::bits;
use crate::check::layout_of;
use crate::partition::{enlarge, Partition, Seat};
use crate::plan::{self, Plan, Team};
use crate::refusal::Refusal;
use crate::sheet::{Contents, ShareProof};

/// Build as one number: L, or the refusal's code.
pub fn answer(file: &[u8], buffer: &mut [u8]) -> u64 {
    match build(file, buffer) {
        Ok(length) => length as u64,
        Err(refusal) => refusal.code(),
    }
}

/// Build: writes the sheet in the first L bytes of the buffer and answers L.
pub fn build(file: &[u8], buffer: &mut [u8]) -> Result<usize, Refusal> {
    let plan = plan::read(file)?;
    let length = layout_of(&plan).length();
    let place = buffer.get_mut(..length).ok_or(Refusal::new(10, length))?;
    place.copy_from_slice(&contents(&plan).bytes(plan.instruments));
    Ok(length)
}

/// Everything the sheet of a plan says.
pub fn contents(plan: &Plan) -> Contents {
    let teams = plan.teams.iter();
    let shares: Vec<ShareProof> = teams.map(|team| share_proof(plan, team)).collect();
    let floors: Vec<u32> = shares.iter().map(|proof| proof.share.into()).collect();
    let division = divide(plan, &floors);
    Contents {
        bundles: division.bundles,
        bound: division.tight,
        shares,
    }
}

/// A division of greatest total in which each team holds at least its floor.
/// First the bundles are filled up to the floors and no further; enlarging them then
/// never takes an instrument from a team without giving it another.
pub fn divide(plan: &Plan, floors: &[u32]) -> Partition {
    let teams = plan.teams.iter();
    let low: Vec<Seat> = teams.zip(floors).map(|(t, &f)| Seat::new(t, f)).collect();
    let high: Vec<Seat> = plan.teams.iter().map(|t| Seat::new(t, u32::MAX)).collect();
    let none = vec![0; plan.teams.len()];
    let filled = enlarge(&low, plan.instruments, none);
    debug_assert_eq!(filled.total(), floors.iter().sum());
    enlarge(&high, plan.instruments, filled.bundles)
}

/// The share of a team: the maximin share among the teams present, or nothing if it is away.
pub fn share_proof(plan: &Plan, team: &Team) -> ShareProof {
    if team.present() {
        maximin_share(team, plan.present(), plan.instruments)
    } else {
        ShareProof::away(plan.instruments)
    }
}

/// The maximin share of a team among `parts` parts, at least one, by bisection: s is
/// attained when as many bundles truncated at s can be filled, beginning with those of a
/// lower s. The failure at s + 1 leaves the bounding set.
fn maximin_share(team: &Team, parts: usize, instruments: usize) -> ShareProof {
    let mut attained = (0, vec![0; parts]);
    let mut refuted = (instruments / parts + 1, 0);
    while refuted.0 - attained.0 > 1 {
        let middle = (attained.0 + refuted.0) / 2;
        let seats = vec![Seat::new(team, middle as u32); parts];
        let cut = enlarge(&seats, instruments, attained.1.clone());
        if cut.total() as usize == parts * middle {
            attained = (middle, cut.bundles);
        } else {
            refuted = (middle, cut.tight);
        }
    }
    ShareProof {
        share: attained.0 as u8,
        set: refuted.1,
        parts: part_numbers(&attained.1, instruments),
    }
}

/// The part of each instrument; what no part holds goes to part 0.
fn part_numbers(parts: &[u64], instruments: usize) -> Vec<u8> {
    let part_of = |item| parts.iter().position(|&part| bits::has(part, item));
    (0..instruments)
        .map(|item| part_of(item).unwrap_or(0) as u8)
        .collect()
}
