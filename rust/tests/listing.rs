//! The weekly listing and the line of a refusal, with expectations written by hand.

mod common;

use common::away::{week_sheet, with_present, WEEK, WEEK_OF_NOBODY};
use common::{hex, own_sheet, read, some_plan};
use pool::build::contents;
use pool::check::{answer as check, layout_of};
use pool::listing::{answer as list, refusal_line, text};
use pool::plan;
use pool::random::Random;
use pool::refusal::Refusal;
use pool::writer::{plan_a, PlanWriter};

/// The listing of plan A, as document 01 prints it.
const LISTING_A: &str = "\
TOTAL 2
TEAM 0 SHARE 1 HOLDS 0
TEAM 1 SHARE 0 HOLDS 1
POOL
";

/// The listing of a sheet that Check accepts.
fn listing(file: &[u8], sheet: &[u8]) -> String {
    assert_eq!(check(file, sheet), 0);
    text(layout_of(&read(file)), sheet)
}

/// The listing of this crate's sheet with these bundles in place of its own.
fn listing_with(file: &[u8], bundles: &[u64]) -> String {
    let plan = read(file);
    let mut found = contents(&plan);
    found.bundles = bundles.to_vec();
    listing(file, &found.bytes(plan.instruments))
}

/// A CAPS team that takes these instruments, up to its channels.
fn taker(plan: &mut PlanWriter, channels: u8, items: impl Iterator<Item = usize>) {
    plan.caps(channels).class(0, 255);
    for item in items {
        plan.put(item, 0);
    }
}

/// A sheet of plan A, written by hand.
fn sheet_a() -> Vec<u8> {
    hex("11 02 02 02 12 00 00 12 01 01 13 00 00 00 00 00 00 00 00
         14 00 01 00 00 00 00 00 00 00 00 15 00 00 15 01 01
         14 01 00 01 00 00 00 00 00 00 00 15 00 00 15 01 01 16")
}

#[test]
fn plan_a_is_the_papers() {
    assert_eq!(listing(&plan_a(), &sheet_a()), LISTING_A);
    assert_eq!(listing(&plan_a(), &own_sheet(&plan_a())), LISTING_A);
}

#[test]
fn a_pool_with_instruments() {
    let mut plan = PlanWriter::start(12);
    taker(&mut plan, 2, 0..12);
    taker(&mut plan, 3, 4..12);
    let expected = "\
TOTAL 5
TEAM 0 SHARE 2 HOLDS 9 10
TEAM 1 SHARE 3 HOLDS 4 5 11
POOL 0 1 2 3 6 7 8
";
    let bundles = [0b0110_0000_0000, 0b1000_0011_0000];
    assert_eq!(listing_with(&plan.end(), &bundles), expected);
}

#[test]
fn nothing_given() {
    let file = PlanWriter::start(3).loops(0).span(1, 0, 1).caps(9).end();
    let expected = "\
TOTAL 0
TEAM 0 SHARE 0 HOLDS
TEAM 1 SHARE 0 HOLDS
POOL 0 1 2
";
    assert_eq!(listing(&file, &own_sheet(&file)), expected);
}

#[test]
fn a_team_away() {
    let expected = "\
TOTAL 4
TEAM 0 SHARE 2 HOLDS 0 1
TEAM 1 SHARE 0 HOLDS
TEAM 2 SHARE 2 HOLDS 2 3
POOL
";
    assert_eq!(listing(&hex(WEEK), &week_sheet()), expected);
    let file = with_present(&hex(WEEK), |_| false);
    assert_eq!(listing(&file, &own_sheet(&file)), WEEK_OF_NOBODY);
}

#[test]
fn no_instruments() {
    let file = PlanWriter::start(0).loops(3).end();
    let sheet = hex("11 00 01 00 13 00 00 00 00 00 00 00 00
                     14 00 00 00 00 00 00 00 00 00 00 16");
    let expected = "TOTAL 0\nTEAM 0 SHARE 0 HOLDS\nPOOL\n";
    assert_eq!(listing(&file, &sheet), expected);
    assert_eq!(listing(&file, &own_sheet(&file)), expected);
}

#[test]
fn twelve_teams() {
    let mut plan = PlanWriter::start(13);
    for team in 0..12 {
        taker(&mut plan, 1, std::iter::once(11 - team));
    }
    let file = plan.end();
    let expected = "\
TOTAL 12
TEAM 0 SHARE 0 HOLDS 11
TEAM 1 SHARE 0 HOLDS 10
TEAM 2 SHARE 0 HOLDS 9
TEAM 3 SHARE 0 HOLDS 8
TEAM 4 SHARE 0 HOLDS 7
TEAM 5 SHARE 0 HOLDS 6
TEAM 6 SHARE 0 HOLDS 5
TEAM 7 SHARE 0 HOLDS 4
TEAM 8 SHARE 0 HOLDS 3
TEAM 9 SHARE 0 HOLDS 2
TEAM 10 SHARE 0 HOLDS 1
TEAM 11 SHARE 0 HOLDS 0
POOL 12
";
    assert_eq!(listing(&file, &own_sheet(&file)), expected);
}

/// The list of all 64 instruments.
const ALL: &str = " 0 1 2 3 4 5 6 7 8 9 10 11 12 13 14 15 16 17 18 19 20 21 22 23 24 25 26 27 28 \
29 30 31 32 33 34 35 36 37 38 39 40 41 42 43 44 45 46 47 48 49 50 51 52 53 54 55 56 57 58 59 60 61 \
62 63";

#[test]
fn sixty_four_instruments() {
    let mut plan = PlanWriter::start(64);
    taker(&mut plan, 64, 0..64);
    let file = plan.end();
    let expected = format!("TOTAL 64\nTEAM 0 SHARE 64 HOLDS{ALL}\nPOOL\n");
    assert_eq!(listing(&file, &own_sheet(&file)), expected);
    let file = PlanWriter::start(64).caps(64).end();
    let expected = format!("TOTAL 0\nTEAM 0 SHARE 0 HOLDS\nPOOL{ALL}\n");
    assert_eq!(listing(&file, &own_sheet(&file)), expected);
}

#[test]
fn the_longest_listing() {
    let mut plan = PlanWriter::start(64);
    for _ in 0..12 {
        taker(&mut plan, 64, 0..64);
    }
    let mut bundles: Vec<u64> = (0..12).map(|team| 0b11111 << (5 * team)).collect();
    bundles[11] |= 0b1111 << 60;
    let found = listing_with(&plan.end(), &bundles);
    let lines: Vec<&str> = found.lines().collect();
    assert_eq!(lines[0], "TOTAL 64");
    assert_eq!(lines[1], "TEAM 0 SHARE 5 HOLDS 0 1 2 3 4");
    assert_eq!(lines[11], "TEAM 10 SHARE 5 HOLDS 50 51 52 53 54");
    let last = "TEAM 11 SHARE 5 HOLDS 55 56 57 58 59 60 61 62 63";
    assert_eq!(lines[12..], [last, "POOL"]);
    assert_eq!(found.len(), 9 + 10 * 21 + 2 * 22 + 5 + 10 * 2 + 54 * 3);
}

#[test]
fn refused_lines() {
    let line = |file: &[u8]| refusal_line(plan::read(file).expect_err("a faulty plan"));
    assert_eq!(line(&[]), "REFUSED 1 0\n");
    assert_eq!(line(&hex("01 01")), "REFUSED 2 0\n");
    assert_eq!(line(&hex("01 01 02 07")), "REFUSED 4 3\n");
    assert_eq!(line(&hex("01 01 41")), "REFUSED 5 0\n");
    assert_eq!(line(&plan_a()[..21]), "REFUSED 2 21\n");
    assert_eq!(line(&[plan_a(), vec![0x00]].concat()), "REFUSED 9 22\n");
    assert_eq!(refusal_line(Refusal::new(16, 11)), "REFUSED 16 11\n");
}

#[test]
fn refusals_in_their_order() {
    let (file, sheet) = (plan_a(), sheet_a());
    let mut other = sheet.clone();
    other[9] = 0x00;
    for length in [0, LISTING_A.len(), 100] {
        let mut buffer = vec![0xa5; length];
        let code = |number, place| Refusal::new(number, place).code();
        assert_eq!(list(&[], &sheet, &mut buffer), code(1, 0));
        assert_eq!(list(&file[..21], &other, &mut buffer), code(2, 21));
        assert_eq!(list(&file, &sheet[..53], &mut buffer), code(11, 0));
        assert_eq!(list(&file, &other, &mut buffer), code(13, 0));
        assert_eq!(buffer, vec![0xa5; length]);
    }
}

#[test]
fn lent_buffers_of_every_length() {
    for length in 0..100 {
        let mut buffer = vec![0xa5; length];
        let answer = list(&plan_a(), &sheet_a(), &mut buffer);
        let mut expected = vec![0xa5; length];
        if length < 59 {
            assert_eq!(answer, 65_536 * 10 + 59);
        } else {
            assert_eq!(answer, 59);
            expected[..59].copy_from_slice(LISTING_A.as_bytes());
        }
        assert_eq!(buffer, expected);
    }
}

#[test]
fn lines_of_random_sheets() {
    let mut random = Random::new(301);
    for _ in 0..2_000 {
        let file = some_plan(&mut random, 64, 12);
        let plan = read(&file);
        let found = listing(&file, &own_sheet(&file));
        assert!(found.len() <= 450 && found.ends_with('\n'));
        let lines: Vec<&str> = found.split_terminator('\n').collect();
        assert_eq!(lines.len(), plan.teams.len() + 2);
        let words: Vec<&str> = found.split([' ', '\n']).collect();
        let fields = 3 + 5 * plan.teams.len() + plan.instruments;
        assert_eq!(words.len(), fields + 1);
        assert!(words[..fields].iter().all(|word| !word.is_empty()));
    }
}
