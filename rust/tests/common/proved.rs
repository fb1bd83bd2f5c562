//! Calls of the proved library, each compared with this crate on the same bytes.

use super::{damage, damage_field, own_sheet, read, Tally};
use pool::check::layout_of;
use pool::random::Random;
use pool::{bits, build, check, definition, ffi};

/// Bytes before and after a lent buffer that must stay as they are.
pub const GUARD: usize = 40;

/// The pattern a buffer is filled with beforehand.
pub fn pattern(length: usize, salt: u8) -> Vec<u8> {
    let bytes = 0..length;
    bytes
        .map(|at| (at as u8).wrapping_mul(37).wrapping_add(salt))
        .collect()
}

/// Calls the proved Build on a buffer of this length between guards. Tests the answer
/// and every byte that must stay; hands back the sheet, if one was written.
pub fn proved_build(file: &[u8], length: usize, salt: u8) -> Option<Vec<u8>> {
    let before = pattern(length + 2 * GUARD, salt);
    let mut memory = before.clone();
    let answer = ffi::build(file, &mut memory[GUARD..GUARD + length]);
    let mut scratch = vec![0; length];
    let expected = build::answer(file, &mut scratch);
    assert_eq!(answer, expected, "Build, {length} lent: {file:x?}");
    let written = if answer < 65_536 { answer as usize } else { 0 };
    assert_eq!(memory[..GUARD], before[..GUARD], "{file:x?}");
    let after = GUARD + written;
    assert_eq!(memory[after..], before[after..], "{length}: {file:x?}");
    (answer < 65_536).then(|| memory[GUARD..after].to_vec())
}

/// Both checkers give the same verdict, and this is it.
pub fn same_verdict(file: &[u8], sheet: &[u8]) -> u64 {
    let own = check::answer(file, sheet);
    let proved = ffi::check(file, sheet);
    assert_eq!(proved, own, "Check of {sheet:x?} by {file:x?}");
    own
}

/// Any bytes as a plan: Build without a buffer and Check without a sheet tell all
/// of Read's refusals.
pub fn same_reading(file: &[u8], tally: &mut Tally) {
    assert!(proved_build(file, 0, 3).is_none());
    let verdict = same_verdict(file, &[]);
    tally.count(verdict);
}

/// Reads every beginning of a plan, and the plan with each byte set to each value.
pub fn every_byte_of_plan(file: &[u8], tally: &mut Tally) {
    for at in 0..file.len() {
        same_reading(&file[..at], tally);
        for value in 0..=255 {
            let mut other = file.to_vec();
            other[at] = value;
            same_reading(&other, tally);
        }
    }
}

/// The verdict of both checkers on a sheet of a plan of one team that gives it this bundle.
pub fn bundle_verdict(file: &[u8], bundle: u64) -> u64 {
    let plan = read(file);
    let mut found = build::contents(&plan);
    found.bundles = vec![bundle];
    same_verdict(file, &found.bytes(plan.instruments))
}

/// A bundle of one team of 64 instruments that grows by what it gains, and at each step with
/// any other instrument: Check takes it exactly where it is independent.
pub fn growing_bundle(random: &mut Random, file: &[u8], tally: &mut Tally) {
    let team = &read(file).teams[0];
    let mut bundle = 0;
    loop {
        let gains = team.gains(bundle);
        let item = random.below(64);
        let verdict = bundle_verdict(file, bundle | bits::one(item));
        let free = bits::has(bundle | gains, item);
        assert_eq!(verdict >> 16 != 13, free, "{bundle:b} by {file:x?}");
        tally.count(verdict);
        if gains == 0 {
            break;
        }
        let members: Vec<usize> = bits::members(gains).collect();
        bundle |= bits::one(random.pick(&members));
    }
    tally.count(bundle_verdict(file, bundle));
}

/// Gives the one team of a plan each bundle, and counts the verdicts: 13 where the bundle is not
/// independent by the definition, and only there.
pub fn every_bundle(file: &[u8], tally: &mut Tally) {
    let plan = read(file);
    for bundle in bits::subsets(plan.all()) {
        let verdict = bundle_verdict(file, bundle);
        let free = definition::independent(&plan, &plan.teams[0], bundle);
        assert_eq!(verdict >> 16 != 13, free, "{bundle:b} by {file:x?}");
        tally.count(verdict);
    }
}

/// Bounds the total of a plan's sheet by each set, and counts the verdicts: 14 where the bound by
/// the definition is not the total, and only there. Then each set stands in some team's page.
pub fn every_bounding_set(random: &mut Random, file: &[u8], tally: &mut Tally) {
    let plan = read(file);
    let found = build::contents(&plan);
    for set in bits::subsets(plan.all()) {
        let mut other = build::contents(&plan);
        other.bound = set;
        let worth = |team| definition::worth(&plan, team, set);
        let worths = plan.teams.iter().map(worth);
        let sum = bits::size(plan.all() & !set) + worths.sum::<u32>();
        let verdict = same_verdict(file, &other.bytes(plan.instruments));
        assert_eq!(verdict >> 16 != 14, sum == found.total(), "{file:x?}");
        tally.count(verdict);
        other.bound = found.bound;
        other.shares[random.below(plan.teams.len())].set = set;
        tally.count(same_verdict(file, &other.bytes(plan.instruments)));
    }
}

/// Sets each byte of a sheet to each value, and counts the verdicts of both checkers.
pub fn every_byte(file: &[u8], sheet: &[u8], tally: &mut Tally) {
    for at in 0..sheet.len() {
        for value in 0..=255 {
            let mut other = sheet.to_vec();
            other[at] = value;
            tally.count(same_verdict(file, &other));
        }
    }
}

/// Damages fields of this crate's sheet of a plan, eight times, and counts the verdicts of both.
pub fn damaged_fields_of(random: &mut Random, file: &[u8], tally: &mut Tally) {
    let plan = read(file);
    let sheet = own_sheet(file);
    for _ in 0..8 {
        let mut other = sheet.clone();
        for _ in 0..random.between(1, 4) {
            damage_field(random, &plan, &mut other);
        }
        tally.count(same_verdict(file, &other));
    }
}

/// Damages both sheets of a plan and mixes them, a hundred times, and counts the verdicts.
pub fn damaged_bytes_of(random: &mut Random, file: &[u8], salt: u8, tally: &mut Tally) {
    let sheet = own_sheet(file);
    let proved = proved_build(file, sheet.len(), salt).expect("a sheet");
    for _ in 0..100 {
        let other = damage(random, &sheet, &proved);
        tally.count(same_verdict(file, &other));
        let mut mixed = sheet.clone();
        let at = random.below(sheet.len());
        mixed[at..].copy_from_slice(&proved[at..]);
        tally.count(same_verdict(file, &mixed));
    }
}

/// Total and shares as a sheet states them.
fn stated(file: &[u8], sheet: &[u8]) -> Vec<u8> {
    let layout = layout_of(&read(file));
    let shares = (0..layout.teams).map(|team| sheet[layout.share(team) + 2]);
    std::iter::once(sheet[3]).chain(shares).collect()
}

/// Both sheets are accepted by both checkers and state the same.
pub fn same_sheets(file: &[u8], more: usize, salt: u8) {
    let own = own_sheet(file);
    let proved = proved_build(file, own.len() + more, salt).expect("a sheet");
    assert_eq!(same_verdict(file, &own), 0, "{file:x?}");
    assert_eq!(same_verdict(file, &proved), 0, "{file:x?}");
    assert_eq!(stated(file, &own), stated(file, &proved), "{file:x?}");
}
