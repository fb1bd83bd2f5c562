//! The proved library against this crate on plans with teams away.
#![cfg(proved)]

mod common;

use common::away::{cases as sheets, damage_away, week_sheet, with_present, WEEK, WEEK_EDITS};
use common::proved::{every_byte, proved_build, same_sheets, same_verdict};
use common::*;
use pool::random::Random;
use pool::refusal::Refusal;
use pool::sample::any_plan;

#[test]
fn sheets_case_by_case() {
    for case in sheets() {
        let verdict = same_verdict(&case.file, &case.sheet);
        assert_eq!(verdict, case.answer, "{}", case.name);
        same_sheets(&case.file, 2, 19);
    }
}

#[test]
fn bytes_of_the_week() {
    let (file, sheet) = (hex(WEEK), week_sheet());
    assert_eq!(same_verdict(&file, &sheet), 0);
    for (at, value, number, place) in WEEK_EDITS {
        let mut other = sheet.clone();
        other[at] = value;
        let expected = Refusal::new(number, place).code();
        assert_eq!(same_verdict(&file, &other), expected, "{at} {value:x}");
    }
}

#[test]
fn none_one_and_half_present_at_every_size() {
    let mut random = Random::new(701);
    for m in 0..=64 {
        for n in 1..=12 {
            let file = any_plan(&mut random, m, n);
            let one = random.below(n);
            same_sheets(&with_present(&file, |_| false), 0, random.byte());
            same_sheets(&with_present(&file, |team| team == one), 1, 23);
            same_sheets(&with_present(&file, |team| team & 1 == one & 1), 0, 29);
        }
    }
}

#[test]
fn every_pattern_of_small_plans() {
    let mut random = Random::new(702);
    for _ in 0..cases() / 200 {
        let m = random.below(7);
        let file = any_plan(&mut random, m, 5);
        for pattern in 0..32 {
            let file = with_present(&file, |team| pattern >> team & 1 == 1);
            same_sheets(&file, 0, random.byte());
        }
    }
}

#[test]
fn every_byte_of_sheets_with_teams_away() {
    let mut random = Random::new(703);
    let mut tally = Tally::default();
    for round in 0..12 {
        let m = random.below(7);
        let file = with_present(&any_plan(&mut random, m, 3), |team| round >> team & 1 == 1);
        let sheet = proved_build(&file, own_sheet(&file).len(), 31).expect("a sheet");
        every_byte(&file, &sheet, &mut tally);
    }
    tally.seen([0, 12, 13, 14, 15].into_iter());
}

#[test]
fn damaged_pages_of_away_teams() {
    let mut random = Random::new(704);
    let mut tally = Tally::default();
    for round in 0..cases() {
        let most = if round % 50 == 0 { 64 } else { 8 };
        let file = some_plan(&mut random, most, 12);
        let plan = read(&file);
        let mut sheet = proved_build(&file, own_sheet(&file).len(), 37).expect("a sheet");
        if let Some(at) = damage_away(&mut random, &plan, &mut sheet) {
            let verdict = same_verdict(&file, &sheet);
            assert_eq!(verdict, Refusal::new(12, at).code(), "{file:x?}");
            tally.count(verdict);
        }
    }
    tally.seen([12].into_iter());
}

/// A sheet of a plan with all teams present is judged alike when some teams have left.
#[test]
fn sheets_from_before_teams_left() {
    let mut random = Random::new(705);
    let mut tally = Tally::default();
    for _ in 0..cases() / 2 {
        let file = with_present(&some_plan(&mut random, 6, 4), |_| true);
        let sheet = own_sheet(&file);
        let stays = random.below(16);
        let left = with_present(&file, |team| stays >> team & 1 == 1);
        tally.count(same_verdict(&left, &sheet));
        tally.count(same_verdict(&file, &own_sheet(&left)));
    }
    tally.seen([0, 12, 13, 14, 15].into_iter());
}
