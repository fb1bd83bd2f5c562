//! The proved library against this crate on plans with loan days.
#![cfg(proved)]

mod common;

use common::days::{
    damage_days, plans_of_one, term_sheet, without_days, DAYS_ACCEPTED, DAYS_FAULTS, TERM,
    TERM_EDITS, WITHIN,
};
use common::nets::loops_plan;
use common::proved::{
    bundle_verdict, damaged_bytes_of, damaged_fields_of, every_bounding_set, every_bundle,
    every_byte, every_byte_of_plan, proved_build, same_reading, same_sheets, same_verdict,
};
use common::*;
use pool::calendar::with_days;
use pool::check::layout_of;
use pool::random::Random;
use pool::refusal::Refusal;
use pool::sample::days_plan;
use pool::writer::{plan_a, PlanWriter};
use pool::{brute, ffi};

/// A random plan with loan days of at most this size.
fn some_days_plan(random: &mut Random, instruments: usize, teams: usize) -> Vec<u8> {
    let m = random.below(instruments + 1);
    let n = random.between(1, teams);
    days_plan(random, m, n)
}

/// The sheet that the proved Build writes.
fn proved_sheet(file: &[u8]) -> Vec<u8> {
    let length = layout_of(&read(file)).length();
    proved_build(file, length, 73).expect("a sheet")
}

#[test]
fn refused_and_accepted_plans() {
    let mut tally = Tally::default();
    for (text, number, place) in DAYS_FAULTS {
        let file = hex(text);
        let expected = Refusal::new(number, place).code();
        assert_eq!(ffi::check(&file, &[]), expected, "{text}");
        same_reading(&file, &mut tally);
    }
    tally.seen([1, 2, 3, 4, 5, 6, 8, 9, 17].into_iter());
    for text in DAYS_ACCEPTED {
        same_sheets(&hex(text), 1, 79);
    }
}

#[test]
fn an_instrument_is_there_on_all_days_of_the_team_or_worth_nothing() {
    for (shelf, days, there) in WITHIN {
        for file in plans_of_one(shelf, days) {
            same_sheets(&file, 0, 83);
            let total = proved_sheet(&file)[3];
            assert_eq!(total, u8::from(there), "{shelf:?} {days:?}");
            let verdict = bundle_verdict(&file, 1);
            assert_eq!(verdict >> 16 != 13, there, "{shelf:?} {days:?}");
        }
    }
}

#[test]
fn from_has_to_be_below_to() {
    let mut tally = Tally::default();
    let ends = [0, 1, 2, 254, 255, 256, 257, 511, 512, 65_534, 65_535];
    for from in ends {
        for to in ends {
            let shelf = PlanWriter::start(1).shelf(0, from, to).caps(1).end();
            same_reading(&shelf, &mut tally);
            let days = PlanWriter::start(1).loops(1).days(from, to).end();
            same_reading(&days, &mut tally);
        }
    }
    tally.seen([11, 17].into_iter());
}

#[test]
fn bytes_of_the_term() {
    let (file, sheet) = (hex(TERM), term_sheet());
    assert_eq!(same_verdict(&file, &sheet), 0);
    same_sheets(&file, 2, 89);
    for (at, value, number, place) in TERM_EDITS {
        let mut other = sheet.clone();
        other[at] = value;
        let expected = Refusal::new(number, place).code();
        assert_eq!(same_verdict(&file, &other), expected, "{at} {value:x}");
    }
}

#[test]
fn plans_with_days_of_every_size() {
    let mut random = Random::new(921);
    for m in 0..=64 {
        for n in 1..=12 {
            let file = days_plan(&mut random, m, n);
            same_sheets(&file, random.below(3), random.byte());
        }
    }
}

#[test]
fn small_plans_with_days() {
    let mut random = Random::new(922);
    for _ in 0..cases() {
        let file = some_days_plan(&mut random, 8, 4);
        same_sheets(&file, random.below(3), random.byte());
    }
}

#[test]
fn large_plans_with_days() {
    let mut random = Random::new(923);
    for _ in 0..cases() / 100 {
        let (m, n) = (random.between(48, 64), random.between(8, 12));
        same_sheets(&days_plan(&mut random, m, n), 0, 97);
        let loops = loops_plan(&mut random, m, n);
        same_sheets(&with_days(&mut random, &loops), 0, 101);
    }
}

#[test]
fn small_plans_with_days_against_all_divisions() {
    let mut random = Random::new(924);
    for _ in 0..cases() / 20 {
        let file = some_days_plan(&mut random, 5, 3);
        let plan = read(&file);
        let (layout, sheet) = (layout_of(&plan), proved_sheet(&file));
        assert_eq!(u32::from(sheet[3]), brute::best_total(&plan), "{file:x?}");
        for (number, team) in plan.teams.iter().enumerate() {
            let stated = sheet[layout.share(number) + 2];
            assert_eq!(u32::from(stated), brute::share(&plan, team), "{file:x?}");
        }
    }
}

#[test]
fn damaged_plans_with_days() {
    let mut random = Random::new(925);
    let mut tally = Tally::default();
    let mut last = plan_a();
    for round in 0..cases() {
        let most = if round % 16 == 0 { 64 } else { 6 };
        let file = some_days_plan(&mut random, most, 12);
        same_reading(&damage(&mut random, &file, &last), &mut tally);
        same_reading(&damage_commands(&mut random, &file), &mut tally);
        if let Some(other) = damage_days(&mut random, &file) {
            same_reading(&other, &mut tally);
        }
        last = file;
    }
    tally.seen((1..=9).chain([11, 17]));
}

#[test]
fn every_byte_of_small_plans_with_days() {
    let mut random = Random::new(926);
    let mut tally = Tally::default();
    let mut files = vec![hex(TERM)];
    files.extend((0..12).map(|_| some_days_plan(&mut random, 4, 3)));
    for file in files {
        every_byte_of_plan(&file, &mut tally);
    }
    tally.seen([1, 2, 3, 4, 5, 6, 8, 9, 11, 17].into_iter());
}

#[test]
fn every_bundle_of_small_plans_with_days() {
    let mut random = Random::new(927);
    let mut tally = Tally::default();
    for _ in 0..cases() / 40 {
        every_bundle(&some_days_plan(&mut random, 8, 1), &mut tally);
    }
    tally.seen([0, 13, 14].into_iter());
}

#[test]
fn every_bounding_set_of_small_plans_with_days() {
    let mut random = Random::new(928);
    let mut tally = Tally::default();
    for _ in 0..cases() / 40 {
        let file = some_days_plan(&mut random, 7, 3);
        every_bounding_set(&mut random, &file, &mut tally);
    }
    tally.seen([0, 12, 14, 15].into_iter());
}

#[test]
fn damaged_sheets_of_plans_with_days() {
    let mut random = Random::new(929);
    let mut tally = Tally::default();
    for round in 0..cases() / 4 {
        let most = if round % 50 == 0 { 64 } else { 8 };
        let file = some_days_plan(&mut random, most, 12);
        damaged_fields_of(&mut random, &file, &mut tally);
    }
    for _ in 0..cases() / 500 {
        let file = some_days_plan(&mut random, 64, 12);
        damaged_bytes_of(&mut random, &file, 103, &mut tally);
    }
    tally.seen([0].into_iter().chain(11..=16));
}

#[test]
fn every_byte_of_small_sheets_with_days() {
    let mut random = Random::new(930);
    let mut tally = Tally::default();
    every_byte(&hex(TERM), &term_sheet(), &mut tally);
    for n in [1, 1, 2, 2, 3, 3] {
        let file = days_plan(&mut random, 8, n);
        every_byte(&file, &proved_sheet(&file), &mut tally);
    }
    tally.seen([0, 12, 13, 14, 15].into_iter());
}

/// The sheet of a plan is judged alike by the plan with an end moved, and without its days.
#[test]
fn sheets_from_before_days_were_changed() {
    let mut random = Random::new(931);
    let mut tally = Tally::default();
    for round in 0..cases() / 2 {
        let most = if round % 50 == 0 { 64 } else { 6 };
        let file = some_days_plan(&mut random, most, 4);
        let (sheet, before) = (proved_sheet(&file), without_days(&file));
        if let Some(other) = damage_days(&mut random, &file) {
            tally.count(same_verdict(&other, &sheet));
        }
        tally.count(same_verdict(&before, &sheet));
        tally.count(same_verdict(&file, &proved_sheet(&before)));
    }
    tally.seen([0, 13, 14, 15, 17].into_iter());
}
