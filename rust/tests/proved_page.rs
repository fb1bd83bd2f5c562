//! Page of the proved library against this crate, on the same plans, sheets and teams.
#![cfg(proved)]

mod common;

use common::away::{week_sheet, with_present, WEEK};
use common::glue::{bridge_sheet, BRIDGE, BRIDGE_EDITS};
use common::proved::proved_build;
use common::*;
use pool::check::{answer as check, page, page_answer};
use pool::family::FAMILIES;
use pool::random::Random;
use pool::sample::{any_plan, days_plan, glue_plan, mounts_plan};
use pool::writer::{plan_a, PlanWriter};
use pool::{examples, ffi};

/// Both give the same page, and this is where it stands.
fn same_page(file: &[u8], sheet: &[u8], team: usize) -> u64 {
    let own = page_answer(file, sheet, team);
    let proved = ffi::page(file, sheet, team);
    assert_eq!(proved, own, "Page {team} of {sheet:x?} by {file:x?}");
    own
}

/// The bytes that an answer names.
fn named(sheet: &[u8], answer: u64) -> &[u8] {
    let (length, offset) = ((answer >> 16) as usize, (answer & 0xffff) as usize);
    &sheet[offset..offset + length]
}

/// A page is the team's SHARE and its PARTs, one for each instrument, rising.
fn is_a_page(bytes: &[u8], team: usize, instruments: usize) {
    assert_eq!(bytes.len(), 11 + 3 * instruments);
    assert_eq!(bytes[..2], [0x14, team as u8]);
    for (item, part) in bytes[11..].chunks_exact(3).enumerate() {
        assert_eq!(part[..2], [0x15, item as u8]);
    }
}

/// The pages of an accepted sheet: each team has its own, no other team has one.
fn same_pages(random: &mut Random, file: &[u8], sheet: &[u8]) {
    let plan = read(file);
    for team in 0..plan.teams.len() {
        let bytes = named(sheet, same_page(file, sheet, team));
        is_a_page(bytes, team, plan.instruments);
        assert_eq!(bytes, page(file, sheet, team));
    }
    let wrapped = 1 << random.pick(&[8, 16, 32, 63]) | random.below(12);
    let next = plan.teams.len();
    for team in [next, next + random.below(300), wrapped, usize::MAX] {
        assert_eq!(same_page(file, sheet, team), 0);
    }
}

/// The pages of this crate's sheet of a plan and of the proved one.
fn same_pages_of_plan(random: &mut Random, file: &[u8]) {
    let own = own_sheet(file);
    let proved = proved_build(file, own.len(), 41).expect("a sheet");
    same_pages(random, file, &own);
    same_pages(random, file, &proved);
}

/// Any bytes as plan and sheet: there is a page exactly if Check accepts and the team is in the
/// plan. Counts Check's answer.
fn page_if_accepted(random: &mut Random, file: &[u8], sheet: &[u8], tally: &mut Tally) {
    let verdict = check(file, sheet);
    tally.count(verdict);
    let teams = pool::plan::read(file).map_or(0, |plan| plan.teams.len());
    let any = random.below(13);
    for team in [0, any, teams, usize::MAX] {
        let found = same_page(file, sheet, team);
        assert_eq!(found != 0, verdict == 0 && team < teams, "{file:x?}");
    }
}

#[test]
fn every_size() {
    let mut random = Random::new(951);
    for m in 0..=64 {
        for n in 1..=12 {
            let file = any_plan(&mut random, m, n);
            same_pages_of_plan(&mut random, &file);
        }
    }
}

#[test]
fn every_sort_of_plan() {
    let mut random = Random::new(952);
    for round in 0..cases() / 8 {
        let m = random.below(if round % 16 == 0 { 65 } else { 9 });
        let n = random.between(1, 5);
        let sort = random.pick(&[any_plan, days_plan, glue_plan, mounts_plan]);
        let file = sort(&mut random, m, n);
        same_pages_of_plan(&mut random, &file);
    }
}

#[test]
fn every_family_and_example() {
    let mut random = Random::new(953);
    for family in FAMILIES {
        let file = (family.plan)(&mut random, 64, 12);
        same_pages_of_plan(&mut random, &file);
    }
    for example in examples::all() {
        same_pages_of_plan(&mut random, &example.plan);
    }
    same_pages_of_plan(&mut random, &longest_plan().end());
}

/// The offsets of the papers' layout: after HEAD, the GIVEs and BOUND, one page after another.
#[test]
fn pages_where_the_papers_have_them() {
    let sheet = own_sheet(&plan_a());
    assert_eq!(same_page(&plan_a(), &sheet, 0), 65_536 * 17 + 19);
    assert_eq!(same_page(&plan_a(), &sheet, 1), 65_536 * 17 + 36);
    assert_eq!(same_page(&plan_a(), &sheet, 2), 0);
    let bridge = (hex(BRIDGE), bridge_sheet());
    for (team, offset) in [25, 48, 71].into_iter().enumerate() {
        assert_eq!(same_page(&bridge.0, &bridge.1, team), 65_536 * 23 + offset);
    }
    let empty = PlanWriter::start(0).caps(0).end();
    assert_eq!(same_page(&empty, &own_sheet(&empty), 0), 65_536 * 11 + 13);
    let largest = longest_plan().end();
    let last = same_page(&largest, &own_sheet(&largest), 11);
    assert_eq!(last, 65_536 * 203 + 2438);
}

#[test]
fn pages_of_away_teams() {
    let mut random = Random::new(954);
    same_pages(&mut random, &hex(WEEK), &week_sheet());
    for pattern in 0..8 {
        let file = with_present(&hex(WEEK), |team| pattern >> team & 1 == 1);
        same_pages_of_plan(&mut random, &file);
        let mut tally = Tally::default();
        page_if_accepted(&mut random, &file, &week_sheet(), &mut tally);
    }
}

#[test]
fn pages_of_the_bridge() {
    let mut random = Random::new(955);
    let mut tally = Tally::default();
    for (at, value, _, _) in BRIDGE_EDITS {
        let mut sheet = bridge_sheet();
        sheet[at] = value;
        page_if_accepted(&mut random, &hex(BRIDGE), &sheet, &mut tally);
    }
    tally.seen([0, 12, 13, 14, 15, 16].into_iter());
}

#[test]
fn pages_of_damaged_sheets() {
    let mut tally = Tally::default();
    sweeps::damaged_sheets(&mut Random::new(956), |random, file, sheet| {
        page_if_accepted(random, file, sheet, &mut tally)
    });
    tally.seen([0].into_iter().chain(11..=16));
}

#[test]
fn pages_of_every_byte_of_small_sheets() {
    let mut random = Random::new(957);
    let mut tally = Tally::default();
    let empty = PlanWriter::start(0).loops(0).end();
    for file in [plan_a(), empty, some_plan(&mut random, 4, 2)] {
        sweeps::every_byte_of_sheet(&file, |sheet| {
            page_if_accepted(&mut random, &file, sheet, &mut tally)
        });
    }
    tally.seen([0, 12, 13, 14, 15].into_iter());
}

#[test]
fn pages_by_damaged_plans() {
    let mut tally = Tally::default();
    sweeps::damaged_plans(&mut Random::new(958), |random, file, sheet| {
        page_if_accepted(random, file, sheet, &mut tally)
    });
    tally.seen((0..=9).chain([11, 17, 18]));
}

#[test]
fn pages_of_any_bytes() {
    let mut random = Random::new(959);
    let mut tally = Tally::default();
    sweeps::any_bytes(&mut random, |random, file, sheet| {
        page_if_accepted(random, file, sheet, &mut tally)
    });
    let longer = [&own_sheet(&plan_a())[..], &[0x16]].concat();
    page_if_accepted(&mut random, &plan_a(), &longer, &mut tally);
    tally.seen([1, 11, 12].into_iter());
}
