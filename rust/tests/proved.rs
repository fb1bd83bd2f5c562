//! The proved library against this crate, on the same bytes.
#![cfg(proved)]

mod common;

use common::glue::without_glue;
use common::proved::*;
use common::*;
use pool::build::{contents, divide};
use pool::check::layout_of;
use pool::family::FAMILIES;
use pool::random::Random;
use pool::refusal::Refusal;
use pool::sample::{any_plan, mounts_plan};
use pool::writer::{plan_a, PlanWriter};
use pool::{ffi, listing};

/// The most bytes of the listing of an accepted sheet.
const MOST_LISTED: usize = 512;

#[test]
fn every_size() {
    let mut random = Random::new(101);
    for m in 0..=64 {
        for n in 1..=12 {
            let file = any_plan(&mut random, m, n);
            same_sheets(&file, random.below(3), random.byte());
        }
    }
}

#[test]
fn every_family() {
    let mut random = Random::new(102);
    for family in FAMILIES {
        for n in 1..=12 {
            same_sheets(&(family.plan)(&mut random, 64, n), 0, 1);
        }
    }
}

#[test]
fn small_plans() {
    let mut random = Random::new(103);
    for _ in 0..cases() {
        let file = some_plan(&mut random, 8, 4);
        same_sheets(&file, random.below(3), random.byte());
    }
}

#[test]
fn large_plans() {
    let mut random = Random::new(104);
    for _ in 0..cases() / 100 {
        let m = random.between(48, 64);
        let n = random.between(8, 12);
        same_sheets(&any_plan(&mut random, m, n), 0, 7);
    }
}

#[test]
fn mounts_plans_of_every_size() {
    let mut random = Random::new(123);
    for m in 0..=64 {
        for n in 1..=12 {
            let file = mounts_plan(&mut random, m, n);
            same_sheets(&file, random.below(3), random.byte());
        }
    }
    for _ in 0..cases() / 2 {
        let (m, n) = (random.below(10), random.between(1, 4));
        same_sheets(&mounts_plan(&mut random, m, n), 0, random.byte());
    }
}

#[test]
fn the_longest_plan() {
    let mut tally = Tally::default();
    let file = longest_plan().end();
    assert_eq!(file.len(), 5208);
    same_sheets(&file, 1, 17);
    same_sheets(&without_glue(&file), 1, 17);
    for at in 5168..5208 {
        same_reading(&file[..at], &mut tally);
    }
    for count in [1, 2_983, 2_984, 2_985, 70_000] {
        let longer = [&file[..], &vec![0x09; count]].concat();
        assert_eq!(same_verdict(&longer, &[]), Refusal::new(9, 5208).code());
        same_reading(&longer, &mut tally);
    }
    same_reading(&longest_plan().mounts(1).end(), &mut tally);
    tally.seen([2, 7, 9].into_iter());
}

#[test]
fn every_bundle_of_small_mounts_teams() {
    let mut random = Random::new(124);
    let mut tally = Tally::default();
    for _ in 0..cases() / 40 {
        let m = random.below(9);
        every_bundle(&mounts_plan(&mut random, m, 1), &mut tally);
    }
    tally.seen([0, 13, 14].into_iter());
}

#[test]
fn every_bounding_set_of_small_mounts_teams() {
    let mut random = Random::new(125);
    let mut tally = Tally::default();
    for _ in 0..cases() / 40 {
        let (m, n) = (random.below(9), random.between(1, 3));
        let file = mounts_plan(&mut random, m, n);
        every_bounding_set(&mut random, &file, &mut tally);
    }
    tally.seen([0, 14, 15].into_iter());
}

#[test]
fn growing_bundles_of_large_mounts_teams() {
    let mut random = Random::new(126);
    let mut tally = Tally::default();
    for _ in 0..cases() / 200 {
        let file = mounts_plan(&mut random, 64, 1);
        growing_bundle(&mut random, &file, &mut tally);
    }
    tally.seen([0, 13, 14].into_iter());
}

#[test]
fn damaged_plans() {
    let mut random = Random::new(105);
    let mut tally = Tally::default();
    let mut last = plan_a();
    for round in 0..cases() {
        let most = if round % 16 == 0 { 64 } else { 6 };
        let file = some_plan(&mut random, most, 12);
        same_reading(&damage(&mut random, &file, &last), &mut tally);
        same_reading(&damage_commands(&mut random, &file), &mut tally);
        same_reading(&loose_commands(&mut random), &mut tally);
        last = file;
    }
    tally.seen((1..=9).chain([11, 17, 18]));
}

#[test]
fn faults_of_mounts_plans() {
    let mut tally = Tally::default();
    for (text, number, place) in MOUNTS_FAULTS {
        let file = hex(text);
        let expected = Refusal::new(number, place).code();
        assert_eq!(ffi::check(&file, &[]), expected, "{text}");
        same_reading(&file, &mut tally);
    }
}

#[test]
fn damaged_mounts_plans() {
    let mut random = Random::new(127);
    let mut tally = Tally::default();
    let mut last = plan_a();
    for round in 0..cases() / 2 {
        let m = random.below(if round % 16 == 0 { 65 } else { 7 });
        let n = random.between(1, 12);
        let file = mounts_plan(&mut random, m, n);
        same_reading(&damage(&mut random, &file, &last), &mut tally);
        same_reading(&damage_commands(&mut random, &file), &mut tally);
        last = some_plan(&mut random, 6, 4);
    }
    tally.seen([1, 2, 3, 4, 5, 6, 7, 9, 11].into_iter());
}

#[test]
fn every_byte_of_small_plans() {
    let mut random = Random::new(106);
    let mut tally = Tally::default();
    let mut files = vec![plan_a(), vec![], vec![0x01]];
    files.extend((0..12).map(|_| some_plan(&mut random, 5, 4)));
    files.extend((1..4).map(|n| mounts_plan(&mut random, 4, n)));
    for file in files {
        every_byte_of_plan(&file, &mut tally);
    }
}

#[test]
fn any_bytes() {
    let mut random = Random::new(107);
    let mut tally = Tally::default();
    for _ in 0..cases() {
        let most = random.pick(&[4, 30, 200]);
        let length = random.below(most);
        let file: Vec<u8> = (0..length).map(|_| random.byte() & 15).collect();
        same_reading(&file, &mut tally);
        let plan = some_plan(&mut random, 3, 2);
        let size = layout_of(&read(&plan)).length();
        let sheet: Vec<u8> = (0..size).map(|_| random.byte()).collect();
        same_verdict(&plan, &sheet);
    }
    same_reading(&vec![0x01; 70_000], &mut tally);
    same_reading(&[plan_a(), vec![0x07; 70_000]].concat(), &mut tally);
    same_verdict(&plan_a(), &vec![0x11; 70_000]);
}

/// The six instruments of appendix D.
fn six_instruments() -> Vec<u8> {
    let mut plan = PlanWriter::start(6);
    plan.caps(6).class(0, 1).class(1, 1).class(2, 2);
    plan.put(0, 0).put(1, 0).put(2, 1).put(3, 1);
    plan.put(4, 2).put(5, 2).caps(6).class(0, 6);
    for item in 0..6 {
        plan.put(item, 0);
    }
    plan.end()
}

#[test]
fn every_byte_of_small_sheets() {
    let mut random = Random::new(108);
    let mut tally = Tally::default();
    let empty = PlanWriter::start(0).caps(0).end();
    let mut files = vec![plan_a(), empty, six_instruments()];
    files.extend((0..9).map(|_| some_plan(&mut random, 9, 3)));
    files.extend((1..3).map(|n| mounts_plan(&mut random, 9, n)));
    for file in files {
        let sheet = own_sheet(&file);
        every_byte(&file, &sheet, &mut tally);
    }
    tally.seen([0, 12, 13, 14, 15].into_iter());
}

#[test]
fn damaged_fields() {
    let mut random = Random::new(109);
    let mut tally = Tally::default();
    for round in 0..cases() / 4 {
        let most = if round % 50 == 0 { 64 } else { 8 };
        let file = some_plan(&mut random, most, 12);
        damaged_fields_of(&mut random, &file, &mut tally);
    }
    tally.seen([0, 13, 14, 15, 16].into_iter());
}

#[test]
fn damaged_large_sheets() {
    let mut random = Random::new(110);
    let mut tally = Tally::default();
    for _ in 0..cases() / 500 {
        let m = random.between(32, 64);
        let file = any_plan(&mut random, m, 12);
        damaged_bytes_of(&mut random, &file, 9, &mut tally);
    }
    tally.seen([0, 11, 12].into_iter());
}

#[test]
fn sheets_of_another_plan() {
    let mut random = Random::new(111);
    let mut tally = Tally::default();
    for _ in 0..cases() / 2 {
        let m = random.below(6);
        let n = random.between(1, 3);
        let file = any_plan(&mut random, m, n);
        let other = any_plan(&mut random, m, n);
        tally.count(same_verdict(&file, &own_sheet(&other)));
    }
    tally.seen([0, 13, 14, 15].into_iter());
}

#[test]
fn greatest_total_alone() {
    let mut random = Random::new(112);
    let mut tally = Tally::default();
    for _ in 0..cases() / 2 {
        let file = some_plan(&mut random, 16, 5);
        let plan = read(&file);
        let mut found = contents(&plan);
        found.bundles = divide(&plan, &vec![0; plan.teams.len()]).bundles;
        let verdict = same_verdict(&file, &found.bytes(plan.instruments));
        tally.count(verdict);
    }
    tally.seen([0, 16].into_iter());
}

#[test]
fn lent_buffers_of_every_length() {
    let mut random = Random::new(113);
    for _ in 0..40 {
        let file = some_plan(&mut random, 5, 3);
        let most = layout_of(&read(&file)).length() + 20;
        for length in 0..=most {
            proved_build(&file, length, random.byte());
            proved_build(&damage(&mut random, &file, &[]), length, 5);
        }
    }
}

#[test]
fn lent_buffers_around_the_length() {
    let mut random = Random::new(114);
    for _ in 0..cases() / 1000 {
        let m = random.between(40, 64);
        let file = any_plan(&mut random, m, 12);
        let exact = layout_of(&read(&file)).length();
        for length in [0, 1, exact - 1, exact, exact + 1, exact + 5000] {
            if let Some(sheet) = proved_build(&file, length, random.byte()) {
                assert_eq!(same_verdict(&file, &sheet), 0);
            }
        }
    }
}

/// Calls the proved listing on a buffer of this length between guards. Tests the answer,
/// the text and every byte that must stay; hands back the answer.
fn same_listing(file: &[u8], sheet: &[u8], length: usize, salt: u8) -> u64 {
    let mut expected = pattern(length + 2 * GUARD, salt);
    let mut memory = expected.clone();
    let answer = ffi::list(file, sheet, &mut memory[GUARD..GUARD + length]);
    let own = listing::answer(file, sheet, &mut vec![0; length]);
    assert_eq!(answer, own, "{length} lent: {sheet:x?} by {file:x?}");
    if own < 65_536 {
        let text = listing::text(layout_of(&read(file)), sheet);
        expected[GUARD..][..text.len()].copy_from_slice(text.as_bytes());
    }
    assert_eq!(memory, expected, "{length} lent: {sheet:x?} by {file:x?}");
    answer
}

/// An accepted sheet is listed alike in buffers of all sorts of length.
fn same_listings(random: &mut Random, file: &[u8], sheet: &[u8]) {
    let exact = listing::text(layout_of(&read(file)), sheet).len();
    assert!(exact <= MOST_LISTED, "{exact}: {sheet:x?} by {file:x?}");
    let (shorter, longer) = (random.below(exact), exact + random.between(1, 600));
    for length in [0, shorter, exact - 1, exact, exact + 1, longer] {
        let answer = same_listing(file, sheet, length, random.byte());
        let short = Refusal::new(10, exact).code();
        assert_eq!(answer, if length < exact { short } else { exact as u64 });
    }
}

/// The proved sheet of a plan and this crate's own are both listed alike.
fn same_listings_of_plan(random: &mut Random, file: &[u8]) {
    let own = own_sheet(file);
    let proved = proved_build(file, own.len(), 11).expect("a sheet");
    same_listings(random, file, &own);
    same_listings(random, file, &proved);
}

/// A sheet of any sort is listed, or refused, alike in a buffer of a random length.
fn tally_listing(random: &mut Random, file: &[u8], sheet: &[u8], tally: &mut Tally) {
    let some = random.below(MOST_LISTED);
    let length = random.pick(&[0, some, MOST_LISTED, MOST_LISTED + 40]);
    tally.count(same_listing(file, sheet, length, random.byte()));
}

#[test]
fn listings_of_every_size() {
    let mut random = Random::new(115);
    for m in 0..=64 {
        for n in 1..=12 {
            let file = any_plan(&mut random, m, n);
            same_listings_of_plan(&mut random, &file);
        }
    }
}

#[test]
fn listings_of_every_family() {
    let mut random = Random::new(116);
    for family in FAMILIES {
        for n in 1..=12 {
            let file = (family.plan)(&mut random, 64, n);
            same_listings_of_plan(&mut random, &file);
        }
    }
}

#[test]
fn listings_of_small_plans() {
    let mut random = Random::new(117);
    for _ in 0..cases() {
        let file = some_plan(&mut random, 12, 12);
        same_listings_of_plan(&mut random, &file);
    }
}

#[test]
fn listings_in_buffers_of_every_length() {
    let mut random = Random::new(118);
    for round in 0..40 {
        let most = if round % 4 == 0 { 64 } else { 6 };
        let file = some_plan(&mut random, most, 12);
        let sheet = own_sheet(&file);
        for length in 0..=MOST_LISTED + 20 {
            same_listing(&file, &sheet, length, random.byte());
            same_listing(&file, &sheet[1..], length, random.byte());
        }
    }
}

#[test]
fn listings_of_damaged_sheets() {
    let mut tally = Tally::default();
    sweeps::damaged_sheets(&mut Random::new(119), |random, file, sheet| {
        tally_listing(random, file, sheet, &mut tally)
    });
    tally.seen([0].into_iter().chain(10..=16));
}

#[test]
fn listings_of_every_byte_of_small_sheets() {
    let mut random = Random::new(120);
    let mut tally = Tally::default();
    let empty = PlanWriter::start(0).caps(0).end();
    for file in [plan_a(), empty, six_instruments()] {
        sweeps::every_byte_of_sheet(&file, |sheet| {
            tally_listing(&mut random, &file, sheet, &mut tally)
        });
    }
    tally.seen([0, 10, 12, 13, 14, 15].into_iter());
}

#[test]
fn listings_by_damaged_plans() {
    let mut tally = Tally::default();
    sweeps::damaged_plans(&mut Random::new(121), |random, file, sheet| {
        tally_listing(random, file, sheet, &mut tally)
    });
    tally.seen((0..=11).chain([17, 18]));
}

#[test]
fn listings_of_any_bytes() {
    let mut tally = Tally::default();
    sweeps::any_bytes(&mut Random::new(122), |random, file, sheet| {
        tally_listing(random, file, sheet, &mut tally)
    });
    same_listing(&plan_a(), &own_sheet(&plan_a()), 70_000, 13);
}
