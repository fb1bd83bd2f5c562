//! The proved library against this crate on plans with glued gauges.
#![cfg(proved)]

mod common;

use common::days::damage_days;
use common::glue::{
    bridge_sheet, damage_glue, damage_naming, first_glued, without_glue, BRIDGE, BRIDGE_EDITS,
    GLUE_ACCEPTED, GLUE_FAULTS, NOT_INDEPENDENT, WORTHS,
};
use common::nets::loops_plan;
use common::proved::{
    damaged_bytes_of, damaged_fields_of, every_bounding_set, every_bundle, every_byte,
    every_byte_of_plan, growing_bundle, proved_build, same_reading, same_sheets, same_verdict,
};
use common::*;
use pool::check::layout_of;
use pool::glue::with_glue;
use pool::random::Random;
use pool::refusal::Refusal;
use pool::sample::{any_glue_plan, glue_plan};
use pool::sheet::POOL;
use pool::writer::{plan_a, PlanWriter};
use pool::{bits, brute, build, definition, ffi};

/// A random plan with glued gauges of at most this size.
fn some_glue_plan(random: &mut Random, instruments: usize, teams: usize) -> Vec<u8> {
    let m = random.below(instruments + 1);
    let n = random.between(1, teams);
    glue_plan(random, m, n)
}

/// The sheet that the proved Build writes.
fn proved_sheet(file: &[u8]) -> Vec<u8> {
    let length = layout_of(&read(file)).length();
    proved_build(file, length, 73).expect("a sheet")
}

/// The total and the shares that a sheet states.
fn stated(file: &[u8], sheet: &[u8]) -> (u32, Vec<u32>) {
    let layout = layout_of(&read(file));
    let shares = (0..layout.teams).map(|team| sheet[layout.share(team) + 2].into());
    (sheet[3].into(), shares.collect())
}

#[test]
fn refused_plans() {
    let mut tally = Tally::default();
    for (text, number, place) in GLUE_FAULTS {
        let file = hex(text);
        let expected = Refusal::new(number, place).code();
        assert_eq!(ffi::check(&file, &[]), expected, "{text}");
        same_reading(&file, &mut tally);
    }
    for text in NOT_INDEPENDENT {
        let start = hex(text);
        for rest in ["07", "07 00", "07 07", "07 0C 00 07"] {
            let file = [start.clone(), hex(rest)].concat();
            let expected = Refusal::new(18, start.len()).code();
            assert_eq!(ffi::check(&file, &[]), expected, "{text} {rest}");
            same_reading(&file, &mut tally);
        }
        same_reading(&start, &mut tally);
    }
    tally.seen([1, 2, 3, 4, 5, 6, 8, 9, 17, 18].into_iter());
}

#[test]
fn accepted_plans() {
    let mut tally = Tally::default();
    for (text, total, shares) in GLUE_ACCEPTED {
        let file = hex(text);
        same_sheets(&file, 1, 79);
        let expected = (total, shares.to_vec());
        assert_eq!(stated(&file, &proved_sheet(&file)), expected, "{text}");
        same_reading(&[&file[..], &[0x0c]].concat(), &mut tally);
        every_byte_of_plan(&file, &mut tally);
    }
    tally.seen((1..=6).chain([9, 18]));
}

/// Every byte as a command in place of GLUE, and every byte as its instrument.
#[test]
fn every_byte_as_command_and_as_instrument() {
    let mut tally = Tally::default();
    for byte in 0..=255 {
        let file = PlanWriter::start(1).caps(9).add(&[byte, 0]).end();
        same_reading(&file, &mut tally);
        for count in [0, 1, 2, 39, 40, 63, 64] {
            let mut plan = PlanWriter::start(count);
            plan.caps(9).glue(byte.into()).class(0, 1);
            same_reading(&plan.put(byte.into(), 0).end(), &mut tally);
            let early = PlanWriter::start(count).glue(byte.into()).caps(9).end();
            same_reading(&early, &mut tally);
        }
    }
    tally.seen([3, 4, 5, 11].into_iter());
}

/// A second GLUE of each instrument in any two of twelve teams.
#[test]
fn glued_twice_in_any_two_teams() {
    let mut tally = Tally::default();
    for item in [0, 1, 31, 32, 63] {
        for first in 0..12 {
            for second in first..12 {
                let mut plan = PlanWriter::start(64);
                for team in 0..12 {
                    plan.add(&[[0x02, 0x03, 0x08][team % 3], 9]);
                    for _ in 0..usize::from(team == first) + usize::from(team == second) {
                        plan.glue(item);
                    }
                }
                same_reading(&plan.end(), &mut tally);
            }
        }
    }
    tally.seen([6].into_iter());
}

/// BOUND with the sets of the table: accepted where (instruments outside T) + the worths of T
/// by the definition is the total, and only there.
#[test]
fn sets_of_the_worths_as_bounds() {
    let mut tally = Tally::default();
    for (text, _, set, _) in WORTHS {
        let file = hex(text);
        let plan = read(&file);
        let mut found = build::contents(&plan);
        found.bound = set & plan.all();
        let worths = plan.teams.iter();
        let sum: u32 = worths
            .map(|team| definition::worth(&plan, team, found.bound))
            .sum();
        let most = bits::size(plan.all() & !found.bound) + sum;
        let verdict = same_verdict(&file, &found.bytes(plan.instruments));
        assert_eq!(verdict == 0, most == found.total(), "{text} {set:b}");
        tally.count(verdict);
    }
    tally.seen([0, 14].into_iter());
}

#[test]
fn bytes_of_the_bridge() {
    let (file, sheet) = (hex(BRIDGE), bridge_sheet());
    assert_eq!(same_verdict(&file, &sheet), 0);
    same_sheets(&file, 2, 89);
    for (at, value, number, place) in BRIDGE_EDITS {
        let mut other = sheet.clone();
        other[at] = value;
        let expected = Refusal::new(number, place).code();
        assert_eq!(same_verdict(&file, &other), expected, "{at} {value:x}");
    }
}

#[test]
fn the_first_gauges_glued() {
    for m in [0, 1, 2, 5, 9, 32] {
        for count in 0..=m {
            let file = first_glued(m, count);
            same_sheets(&file, 0, 83);
            let left = (m - count) as u32;
            let expected = (left, vec![left / 3; 3]);
            assert_eq!(stated(&file, &proved_sheet(&file)), expected);
        }
    }
}

#[test]
fn plans_with_glue_of_every_size() {
    let mut random = Random::new(1121);
    for m in 0..=64 {
        for n in 1..=12 {
            let file = glue_plan(&mut random, m, n);
            same_sheets(&file, random.below(3), random.byte());
        }
    }
}

#[test]
fn small_plans_with_glue() {
    let mut random = Random::new(1122);
    for _ in 0..cases() {
        let file = some_glue_plan(&mut random, 8, 4);
        same_sheets(&file, random.below(3), random.byte());
    }
}

#[test]
fn large_plans_with_glue() {
    let mut random = Random::new(1123);
    for _ in 0..cases() / 100 {
        let (m, n) = (random.between(48, 64), random.between(8, 12));
        same_sheets(&glue_plan(&mut random, m, n), 0, 97);
        let loops = loops_plan(&mut random, m, n);
        same_sheets(&with_glue(&mut random, &loops), 0, 101);
    }
}

#[test]
fn small_plans_with_glue_against_all_divisions() {
    let mut random = Random::new(1124);
    for _ in 0..cases() / 20 {
        let file = some_glue_plan(&mut random, 5, 3);
        let plan = read(&file);
        let teams = plan.teams.iter();
        let shares = teams.map(|team| brute::share(&plan, team)).collect();
        let expected = (brute::best_total(&plan), shares);
        assert_eq!(stated(&file, &proved_sheet(&file)), expected, "{file:x?}");
    }
}

/// Instruments glued to any team, independent or not: the same refusals, or the same sheets.
#[test]
fn plans_with_any_glue() {
    let mut random = Random::new(1125);
    let mut tally = Tally::default();
    for round in 0..cases() {
        let most = if round % 16 == 0 { 64 } else { 8 };
        let (m, n) = (random.below(most + 1), random.between(1, 12));
        let file = any_glue_plan(&mut random, m, n);
        same_reading(&file, &mut tally);
        same_reading(&[&file[..], &[random.byte()]].concat(), &mut tally);
        if pool::plan::read(&file).is_ok() {
            same_sheets(&file, 0, random.byte());
        }
    }
    tally.seen([9, 11, 18].into_iter());
}

#[test]
fn damaged_plans_with_glue() {
    let mut random = Random::new(1126);
    let mut tally = Tally::default();
    let mut last = plan_a();
    for round in 0..cases() {
        let most = if round % 16 == 0 { 64 } else { 6 };
        let file = some_glue_plan(&mut random, most, 12);
        same_reading(&damage(&mut random, &file, &last), &mut tally);
        same_reading(&damage_commands(&mut random, &file), &mut tally);
        for change in [damage_glue, damage_naming, damage_days] {
            if let Some(other) = change(&mut random, &file) {
                same_reading(&other, &mut tally);
            }
        }
        last = file;
    }
    tally.seen((1..=9).chain([11, 17, 18]));
}

#[test]
fn every_byte_of_small_plans_with_glue() {
    let mut random = Random::new(1127);
    let mut tally = Tally::default();
    let mut files = vec![hex(BRIDGE)];
    files.extend((0..12).map(|_| some_glue_plan(&mut random, 4, 3)));
    for file in files {
        every_byte_of_plan(&file, &mut tally);
    }
    tally.seen([1, 2, 3, 4, 5, 6, 8, 9, 11, 17, 18].into_iter());
}

#[test]
fn every_bundle_of_small_plans_with_glue() {
    let mut random = Random::new(1128);
    let mut tally = Tally::default();
    for _ in 0..cases() / 40 {
        every_bundle(&some_glue_plan(&mut random, 8, 1), &mut tally);
    }
    tally.seen([0, 13, 14].into_iter());
}

#[test]
fn growing_bundles_of_large_teams_with_glue() {
    let mut random = Random::new(1129);
    let mut tally = Tally::default();
    for _ in 0..cases() / 200 {
        let file = glue_plan(&mut random, 64, 1);
        growing_bundle(&mut random, &file, &mut tally);
    }
    tally.seen([13, 14].into_iter());
}

#[test]
fn every_bounding_set_of_small_plans_with_glue() {
    let mut random = Random::new(1130);
    let mut tally = Tally::default();
    for _ in 0..cases() / 40 {
        let file = some_glue_plan(&mut random, 7, 3);
        every_bounding_set(&mut random, &file, &mut tally);
    }
    tally.seen([0, 12, 14, 15].into_iter());
}

/// Glued gauges stay in the pool; one given to any team is 13 there.
#[test]
fn a_glued_gauge_given_to_a_team() {
    let mut random = Random::new(1131);
    for _ in 0..cases() / 2 {
        let file = some_glue_plan(&mut random, 12, 5);
        let plan = read(&file);
        let sheet = proved_sheet(&file);
        for item in bits::members(plan.glued()) {
            let at = layout_of(&plan).give(item) + 2;
            assert_eq!(sheet[at], POOL, "{file:x?}");
            let team = random.below(plan.teams.len());
            let mut other = sheet.clone();
            other[at] = team as u8;
            let expected = Refusal::new(13, team).code();
            assert_eq!(same_verdict(&file, &other), expected, "{file:x?}");
        }
    }
}

#[test]
fn damaged_sheets_of_plans_with_glue() {
    let mut random = Random::new(1132);
    let mut tally = Tally::default();
    for round in 0..cases() / 4 {
        let most = if round % 50 == 0 { 64 } else { 8 };
        let file = some_glue_plan(&mut random, most, 12);
        damaged_fields_of(&mut random, &file, &mut tally);
    }
    for _ in 0..cases() / 500 {
        let file = some_glue_plan(&mut random, 64, 12);
        damaged_bytes_of(&mut random, &file, 103, &mut tally);
    }
    tally.seen([0].into_iter().chain(11..=16));
}

#[test]
fn every_byte_of_small_sheets_with_glue() {
    let mut random = Random::new(1133);
    let mut tally = Tally::default();
    every_byte(&hex(BRIDGE), &bridge_sheet(), &mut tally);
    for n in [1, 1, 2, 2, 3, 3] {
        let file = glue_plan(&mut random, 8, n);
        every_byte(&file, &proved_sheet(&file), &mut tally);
    }
    tally.seen([0, 12, 13, 14, 15].into_iter());
}

/// The sheet of a plan is judged alike by the plan with its GLUEs, a naming or its days
/// changed, and without GLUEs.
#[test]
fn sheets_from_before_glue_was_changed() {
    let mut random = Random::new(1134);
    let mut tally = Tally::default();
    for round in 0..cases() / 2 {
        let most = if round % 50 == 0 { 64 } else { 6 };
        let file = some_glue_plan(&mut random, most, 4);
        let (sheet, before) = (proved_sheet(&file), without_glue(&file));
        for change in [damage_glue, damage_naming, damage_days] {
            if let Some(other) = change(&mut random, &file) {
                tally.count(same_verdict(&other, &sheet));
            }
        }
        tally.count(same_verdict(&before, &sheet));
        tally.count(same_verdict(&file, &proved_sheet(&before)));
    }
    tally.seen([0, 4, 5, 6, 13, 14, 15, 17, 18].into_iter());
}
