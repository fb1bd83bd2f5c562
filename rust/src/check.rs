//! Check: the rules 11 to 16 in rising order, and Page.

use crate::bits;
use crate::form;
use crate::plan::{self, Plan, Team, MOST_TEAMS};
use crate::refusal::Refusal;
use crate::sheet::{self, Layout};
use std::ops::Range;

/// Check as one number: 0, or the refusal's code.
pub fn answer(file: &[u8], sheet: &[u8]) -> u64 {
    check(file, sheet).err().map_or(0, Refusal::code)
}

/// Check: reads the plan, then judges the sheet.
pub fn check(file: &[u8], sheet: &[u8]) -> Result<(), Refusal> {
    judge(&plan::read(file)?, sheet)
}

/// Page as one number: 65,536 × the length of a team's page + its offset in the sheet; 0 for
/// the empty page.
pub fn page_answer(file: &[u8], sheet: &[u8], team: usize) -> u64 {
    let page = page_range(file, sheet, team);
    page.map_or(0, |page| 65_536 * page.len() as u64 + page.start as u64)
}

/// Page: a team's SHARE and PARTs of an accepted sheet, else the empty stretch.
pub fn page<'a>(file: &[u8], sheet: &'a [u8], team: usize) -> &'a [u8] {
    page_range(file, sheet, team).map_or(&[], |page| &sheet[page])
}

/// Where the page of a team in the plan stands in an accepted sheet.
fn page_range(file: &[u8], sheet: &[u8], team: usize) -> Option<Range<usize>> {
    let plan = plan::read(file).ok()?;
    let accepted = team < plan.teams.len() && judge(&plan, sheet).is_ok();
    let layout = layout_of(&plan);
    accepted.then(|| layout.share(team)..layout.share(team + 1))
}

/// The layout of a plan's sheets.
pub fn layout_of(plan: &Plan) -> Layout {
    Layout {
        instruments: plan.instruments,
        teams: plan.teams.len(),
    }
}

/// Judges a sheet by a plan already read.
pub fn judge(plan: &Plan, sheet: &[u8]) -> Result<(), Refusal> {
    let layout = layout_of(plan);
    if sheet.len() != layout.length() {
        return Err(Refusal::new(11, 0));
    }
    if let Some(offset) = form::first_fault(plan, sheet) {
        return Err(Refusal::new(12, offset));
    }
    let gives = &sheet[layout.give(0)..layout.bound()];
    let bundles = cut(gives);
    let held = &bundles[..plan.teams.len()];
    lowest_team(13, plan, |t, team| team.independent(held[t]))?;
    if !total_holds(plan, held, sheet) {
        return Err(Refusal::new(14, 0));
    }
    lowest_team(15, plan, |t, team| {
        let stretch = &sheet[layout.share(t)..layout.share(t + 1)];
        !team.present() || share_holds(plan, team, stretch)
    })?;
    lowest_team(16, plan, |t, _| {
        bits::size(held[t]) >= u32::from(sheet[layout.share(t) + 2])
    })
}

/// Refuses at the lowest team that fails the test.
fn lowest_team(
    number: u8,
    plan: &Plan,
    passes: impl Fn(usize, &Team) -> bool,
) -> Result<(), Refusal> {
    for (place, team) in plan.teams.iter().enumerate() {
        if !passes(place, team) {
            return Err(Refusal::new(number, place));
        }
    }
    Ok(())
}

/// The sets named by a row of GIVEs or PARTs; the pool is left out.
fn cut(commands: &[u8]) -> [u64; MOST_TEAMS] {
    let mut sets = [0; MOST_TEAMS];
    for (item, command) in commands.chunks_exact(3).enumerate() {
        if let Some(set) = sets.get_mut(usize::from(command[2])) {
            *set |= bits::one(item);
        }
    }
    sets
}

/// Rule 14: the stated total is what is given and what BOUND's set allows.
fn total_holds(plan: &Plan, held: &[u64], sheet: &[u8]) -> bool {
    let stated = u32::from(sheet[3]);
    let given: u32 = held.iter().map(|&bundle| bits::size(bundle)).sum();
    let set = sheet::set_at(sheet, layout_of(plan).bound() + 1);
    let ranks: u32 = plan.teams.iter().map(|team| team.rank(set)).sum();
    stated == given && stated == bits::size(plan.all() & !set) + ranks
}

/// Rule 15 for a present team: every one of the p parts attains the share, and the set
/// shows that no cut does better.
fn share_holds(plan: &Plan, team: &Team, stretch: &[u8]) -> bool {
    let present = plan.present();
    let share = u32::from(stretch[2]);
    let set = sheet::set_at(stretch, 3);
    let parts = cut(&stretch[11..]);
    let attained = parts[..present]
        .iter()
        .all(|&part| team.rank(part) >= share);
    let most = bits::size(plan.all() & !set) + present as u32 * team.rank(set);
    attained && most < present as u32 * (share + 1)
}
