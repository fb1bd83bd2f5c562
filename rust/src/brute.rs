//! Best total and maximin share by a search through all divisions and all cuts.

use crate::bits;
use crate::definition;
use crate::plan::{Plan, Team};

/// Worth by definition of every set of the plan's instruments.
pub fn worth_table(plan: &Plan, team: &Team) -> Vec<u32> {
    let all = plan.all();
    let independent: Vec<bool> = (0..=all)
        .map(|set| definition::independent(plan, team, set))
        .collect();
    let largest = |set| {
        let parts = bits::subsets(set).filter(|&part| independent[part as usize]);
        parts.map(bits::size).max().unwrap_or(0)
    };
    (0..=all).map(largest).collect()
}

/// The greatest sum of worths over all divisions, the pool included.
pub fn best_total(plan: &Plan) -> u32 {
    let tables: Vec<Vec<u32>> = tables(plan);
    let mut best = 0;
    every_division(plan.instruments, plan.teams.len() + 1, &mut |parts| {
        let held = tables.iter().zip(parts);
        best = best.max(held.map(|(table, &set)| table[set as usize]).sum());
    });
    best
}

/// The largest s such that some cut into p parts makes every part worth at least s to a
/// present team; 0 for an away team.
pub fn share(plan: &Plan, team: &Team) -> u32 {
    if !team.present() {
        return 0;
    }
    let table = worth_table(plan, team);
    let mut best = 0;
    every_division(plan.instruments, plan.present(), &mut |parts| {
        let worths = parts.iter().map(|&set| table[set as usize]);
        best = best.max(worths.min().unwrap_or(0));
    });
    best
}

/// Calls `visit` with every way to deal the instruments out to `places` sets.
fn every_division(instruments: usize, places: usize, visit: &mut dyn FnMut(&[u64])) {
    deal(instruments, &mut vec![0; places], visit);
}

/// Deals out the instruments below `left` in every way.
fn deal(left: usize, sets: &mut Vec<u64>, visit: &mut dyn FnMut(&[u64])) {
    if left == 0 {
        return visit(sets);
    }
    for place in 0..sets.len() {
        sets[place] ^= bits::one(left - 1);
        deal(left - 1, sets, visit);
        sets[place] ^= bits::one(left - 1);
    }
}

/// The same best total with teams added one at a time: for each set of instruments the
/// best division of it among the teams so far. Reaches more teams than `best_total`.
pub fn best_total_by_sets(plan: &Plan) -> u32 {
    let start = vec![0; 1 << plan.instruments];
    let last = tables(plan).iter().fold(start, |best, table| {
        combine(&best, table, |rest, own| rest + own)
    });
    last.last().copied().unwrap_or(0)
}

/// The same share with parts added one at a time.
pub fn share_by_sets(plan: &Plan, team: &Team) -> u32 {
    if !team.present() {
        return 0;
    }
    let table = worth_table(plan, team);
    let start = vec![u32::MAX; 1 << plan.instruments];
    let last = (0..plan.present()).fold(start, |best, _| combine(&best, &table, u32::min));
    last.last().copied().unwrap_or(0)
}

/// For each set the best way to split it in two, the second part worth what `table` says.
fn combine(best: &[u32], table: &[u32], join: impl Fn(u32, u32) -> u32) -> Vec<u32> {
    let split = |set: usize| {
        let own_parts = bits::subsets(set as u64).map(|part| part as usize);
        own_parts.map(|own| join(best[set ^ own], table[own])).max()
    };
    (0..best.len()).map(|set| split(set).unwrap_or(0)).collect()
}

/// The worth table of each team.
fn tables(plan: &Plan) -> Vec<Vec<u32>> {
    let teams = plan.teams.iter();
    teams.map(|team| worth_table(plan, team)).collect()
}
