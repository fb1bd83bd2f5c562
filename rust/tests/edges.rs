//! The edges of document 01, of note 1 and of the longest plan, case by case.

mod common;

use common::days::without_days;
use common::glue::without_glue;
use common::nets::LAST;
use common::{hex, longest_plan, own_sheet, read, MOUNTS_FAULTS};
use pool::build::{answer as build, contents, share_proof};
use pool::check::{answer as check, page};
use pool::plan::{self, Kind};
use pool::refusal::Refusal;
use pool::worth::worth;
use pool::writer::{plan_a, PlanWriter};
use pool::{bits, brute, definition};

/// The refusal of a plan.
fn refusal(file: &[u8]) -> Refusal {
    plan::read(file).expect_err("a faulty plan")
}

/// Shares by the builder, by both searches, and what the sheet says of them.
fn shares(file: &[u8]) -> Vec<u32> {
    let plan = read(file);
    let found: Vec<u32> = plan
        .teams
        .iter()
        .map(|team| share_proof(&plan, team).share.into())
        .collect();
    for (team, &share) in plan.teams.iter().zip(&found) {
        assert_eq!(share, brute::share(&plan, team));
        assert_eq!(share, brute::share_by_sets(&plan, team));
    }
    found
}

#[test]
fn plan_a_is_the_papers() {
    let bytes = "01 01 02 03 02 06 00 01 02 06 01 01 02 02 01 04 00 01 05 01 00 07";
    assert_eq!(plan_a(), hex(bytes));
}

#[test]
fn plan_a_worth_shares_and_total() {
    let file = plan_a();
    assert_eq!(worth(&file, 0, 0b11), Ok(1));
    assert_eq!(worth(&file, 1, 0b01), Ok(0));
    assert_eq!(worth(&file, 2, 0b11), Ok(0));
    assert_eq!(worth(&file, 0, u64::MAX), Ok(1));
    assert_eq!(shares(&file), [1, 0]);
    let found = contents(&read(&file));
    assert_eq!(found.total(), 2);
    assert_eq!(found.bundles, [0b01, 0b10]);
}

#[test]
fn three_spans_in_a_ring() {
    for (channels, expected) in [(9, 2), (1, 1)] {
        let mut plan = PlanWriter::start(3);
        plan.loops(channels).span(0, 1, 2).span(1, 2, 3);
        let file = plan.span(2, 1, 3).end();
        assert_eq!(worth(&file, 0, 0b111), Ok(expected));
        let plan = read(&file);
        assert_eq!(definition::worth(&plan, &plan.teams[0], 0b111), expected);
    }
}

#[test]
fn three_gauges_on_one_pair() {
    let mut plan = PlanWriter::start(3);
    for _ in 0..2 {
        plan.loops(9).span(0, 4, 5).span(1, 4, 5).span(2, 5, 4);
    }
    assert_eq!(shares(&plan.end()), [1, 1]);
}

#[test]
fn four_instruments_in_two_classes() {
    let mut plan = PlanWriter::start(4);
    for _ in 0..2 {
        plan.caps(4).class(0, 1).class(1, 1);
        plan.put(0, 0).put(1, 0).put(2, 0).put(3, 1);
    }
    assert_eq!(shares(&plan.end()), [1, 1]);
}

/// The six instruments of appendix D.
fn six_instruments() -> Vec<u8> {
    let mut plan = PlanWriter::start(6);
    plan.caps(6).class(0, 1).class(1, 1).class(2, 2);
    plan.put(0, 0).put(1, 0).put(2, 1).put(3, 1);
    plan.put(4, 2).put(5, 2);
    plan.caps(6).class(0, 6);
    for item in 0..6 {
        plan.put(item, 0);
    }
    plan.end()
}

#[test]
fn six_instruments_of_appendix_d() {
    let file = six_instruments();
    assert_eq!(shares(&file), [3, 3]);
    let mut found = contents(&read(&file));
    assert_eq!(found.total(), 6);
    assert_eq!(check(&file, &found.bytes(6)), 0);
    found.bundles = vec![0b11_0000, 0b00_1111];
    assert_eq!(found.total(), 6);
    assert_eq!(check(&file, &found.bytes(6)), Refusal::new(16, 0).code());
}

#[test]
fn no_instruments() {
    let file = PlanWriter::start(0).loops(3).end();
    assert_eq!(worth(&file, 0, u64::MAX), Ok(0));
    assert_eq!(shares(&file), [0]);
    let sheet = own_sheet(&file);
    assert_eq!(sheet.len(), 25);
    assert_eq!(check(&file, &sheet), 0);
    assert_eq!(page(&file, &sheet, 0), &sheet[13..24]);
}

#[test]
fn refused_plans() {
    let faults = [
        ("", 1, 0),
        ("00", 1, 0),
        ("07", 1, 0),
        ("01", 2, 0),
        ("01 01", 2, 0),
        ("01 01 02", 2, 3),
        ("01 01 02 07", 4, 3),
        ("01 02 02 02 01 07", 5, 0),
        ("01 01 41 02 01 07", 5, 0),
        ("01 01 02 01 01 02", 4, 3),
        ("01 01 02 01", 2, 3),
        ("01 01 02 00 07", 3, 3),
        ("01 01 02 05 00 00", 4, 3),
        ("01 01 02 03 09 05 00 00 07", 4, 5),
        ("01 01 02 03 09 04 00 00 07", 4, 5),
        ("01 01 02 02 09 06 00 01 02 07", 4, 5),
        ("01 01 02 02 09 04 10 00 07", 5, 5),
        ("01 01 02 02 09 05 02 00 07", 5, 5),
        ("01 01 02 02 09 05 01 10 07", 5, 5),
        ("01 01 02 03 09 06 02 01 02 07", 5, 5),
        ("01 01 02 03 09 06 00 28 02 07", 5, 5),
        ("01 01 02 03 09 06 00 27 28 07", 5, 5),
        ("01 01 02 03 09 06 00 28 28 07", 5, 5),
        ("01 01 02 03 09 06 00 3F 3F 07", 5, 5),
        ("01 01 02 03 09 06 00 27 27 07", 8, 5),
        ("01 01 02 03 09 06 00 01 02 06 00 03 03 07", 8, 9),
        ("01 01 02 03 09 06 00 01 02 06 00 03 04 07", 6, 9),
        ("01 01 02 02 09 05 00 01 05 00 02 07", 6, 8),
        ("01 01 02 02 09 04 00 01 04 00 01 07", 6, 8),
        ("01 01 02 02 09 07 07", 9, 6),
    ];
    for (text, number, place) in faults.into_iter().chain(MOUNTS_FAULTS) {
        assert_eq!(refusal(&hex(text)), Refusal::new(number, place), "{text}");
    }
}

#[test]
fn plan_a_cut_and_extended() {
    let mut file = plan_a();
    file.push(0x00);
    assert_eq!(refusal(&file), Refusal::new(9, 22));
    file.truncate(21);
    assert_eq!(refusal(&file), Refusal::new(2, 21));
    file.truncate(20);
    assert_eq!(refusal(&file), Refusal::new(2, 18));
}

#[test]
fn accepted_edges() {
    for text in [
        "01 01 40 02 00 07",
        "01 01 02 03 FF 06 01 27 00 07",
        "01 01 02 03 FF 06 01 00 27 07",
        "01 01 02 02 FF 04 0F FF 05 00 0F 05 01 03 07",
        "01 01 02 02 01 05 00 00 02 01 05 00 00 07",
        "01 01 00 08 00 07",
        "01 01 02 08 FF 09 01 00 00 00 00 09 00 FF FF FF FF 07",
        "01 01 02 08 01 09 00 01 00 00 00 08 01 09 00 01 00 00 00 02 01 05 00 00 07",
    ] {
        assert!(plan::read(&hex(text)).is_ok(), "{text}");
    }
}

#[test]
fn the_longest_plan() {
    let file = longest_plan().end();
    assert_eq!(file.len(), 3 + 64 * 6 + 12 * (2 + 64 * 6 + 5) + 64 * 2 + 1);
    assert_eq!(file.len(), 5208);
    let sheet = own_sheet(&file);
    assert_eq!(sheet.len(), 2642);
    assert_eq!(check(&file, &sheet), 0);
    assert_eq!(refusal(&file[..5207]), Refusal::new(2, 5207));
    for byte in [0x00, 0x07, 0x09, 0x0a, 0x0b, 0x0c, 0x0d] {
        let longer = [&file[..], &[byte]].concat();
        assert_eq!(refusal(&longer), Refusal::new(9, 5208));
    }
}

/// All instruments are glued: each team has five or six, and all stay in the pool.
#[test]
fn the_longest_plan_leaves_nothing_to_give() {
    let plan = read(&longest_plan().end());
    assert_eq!(plan.glued(), u64::MAX);
    let sizes = plan.teams.iter().map(|team| bits::size(team.glued));
    assert!(sizes.clone().all(|size| size == 5 || size == 6));
    assert_eq!(sizes.sum::<u32>(), 64);
    let found = contents(&plan);
    assert_eq!(found.total(), 0);
    assert!(found.shares.iter().all(|proof| proof.share == 0));
    assert_eq!(plan.present(), 12);
}

#[test]
fn nothing_can_be_added_to_the_longest_plan() {
    let add = |bytes: &str| refusal(&longest_plan().add(&hex(bytes)).end());
    assert_eq!(add("0A 00 00 00 01 00"), Refusal::new(4, 5207));
    assert_eq!(add("0B 00 00 01 00"), Refusal::new(6, 5207));
    assert_eq!(add("09 00 01 00 00 00"), Refusal::new(6, 5207));
    assert_eq!(add("0C 00"), Refusal::new(6, 5207));
    assert_eq!(add("0C 3F"), Refusal::new(6, 5207));
    assert_eq!(add("08 01"), Refusal::new(7, 5207));
}

#[test]
fn a_thirteenth_team() {
    for opening in [0x02, 0x03, 0x08] {
        let more = longest_plan().add(&[opening, 1]).end();
        assert_eq!(refusal(&more), Refusal::new(7, 5207));
        assert_eq!(refusal(&more[..5208]), Refusal::new(2, 5207));
        let mut teams = PlanWriter::start(0);
        for _ in 0..13 {
            teams.add(&[opening, 1]);
        }
        assert_eq!(refusal(&teams.end()), Refusal::new(7, 27));
    }
}

#[test]
fn the_longest_plan_without_glue() {
    let file = without_glue(&longest_plan().end());
    assert_eq!(file.len(), 5080);
    let sheet = own_sheet(&file);
    assert_eq!(check(&file, &sheet), 0);
    assert_eq!(sheet[3], 64);
}

#[test]
fn the_longest_plan_without_glue_and_days() {
    let file = without_days(&without_glue(&longest_plan().end()));
    assert_eq!(file.len(), 4636);
    assert_eq!(check(&file, &own_sheet(&file)), 0);
}

#[test]
fn the_longest_plan_of_loops_alone() {
    let mut plan = PlanWriter::start(64);
    for _ in 0..12 {
        plan.loops(255);
        for item in 0..64 {
            plan.span(item, 0, LAST);
        }
    }
    let file = plan.end();
    assert_eq!(file.len(), 3100);
    assert_eq!(own_sheet(&file).len(), 2642);
}

#[test]
fn lengths_and_short_buffers() {
    let file = plan_a();
    let mut buffer = [0xa5; 60];
    assert_eq!(build(&file, &mut buffer[..53]), Refusal::new(10, 54).code());
    assert_eq!(buffer, [0xa5; 60]);
    assert_eq!(build(&file[..21], &mut []), Refusal::new(2, 21).code());
    assert_eq!(build(&file, &mut buffer), 54);
    assert_eq!(buffer[54..], [0xa5; 6]);
    assert_eq!(check(&file, &buffer[..54]), 0);
    assert_eq!(check(&file, &buffer[..53]), Refusal::new(11, 0).code());
    assert_eq!(check(&file, &buffer[..55]), Refusal::new(11, 0).code());
    assert_eq!(check(&[], &buffer[..54]), Refusal::new(1, 0).code());
}

#[test]
fn pages_of_plan_a() {
    let file = plan_a();
    let sheet = own_sheet(&file);
    assert_eq!(page(&file, &sheet, 0), &sheet[19..36]);
    assert_eq!(page(&file, &sheet, 1), &sheet[36..53]);
    assert_eq!(page(&file, &sheet, 2), &[] as &[u8]);
    assert_eq!(page(&file, &sheet[..53], 0), &[] as &[u8]);
    assert_eq!(page(&[], &sheet, 0), &[] as &[u8]);
}

#[test]
fn exchanges_are_no_half_matrix() {
    let plan = read(&plan_a());
    let may =
        |team: usize, out: u64, new: u64| plan.teams[team].gains(0b11 & !out & !new) & new != 0;
    assert!(may(0, 0b01, 0b10));
    assert!(!may(1, 0b10, 0b01));
}

#[test]
fn two_single_exchanges_need_not_work_together() {
    let mut plan = PlanWriter::start(4);
    plan.caps(2).class(0, 1).class(1, 1).class(2, 1);
    let file = plan.put(0, 0).put(1, 1).put(2, 2).put(3, 2).end();
    let team = &read(&file).teams[0];
    assert!(team.independent(0b0011));
    assert!(team.independent(0b0110) && team.independent(0b1001));
    assert!(!team.independent(0b1100));
}

/// A plan of this many MOUNTS teams alike, instrument k fitting the k-th mask.
fn mounts_teams(teams: usize, channels: u8, masks: &[u32]) -> Vec<u8> {
    let mut plan = PlanWriter::start(masks.len());
    for _ in 0..teams {
        plan.mounts(channels);
        for (item, &mounts) in masks.iter().enumerate() {
            plan.fit(item, mounts);
        }
    }
    plan.end()
}

/// The worth of a set to a MOUNTS team with these masks, by matching and by definition.
fn mounts_worth(channels: u8, masks: &[u32], set: u64) -> u32 {
    let file = mounts_teams(1, channels, masks);
    let found = worth(&file, 0, set).expect("a valid plan");
    let plan = read(&file);
    let defined = definition::worth(&plan, &plan.teams[0], set & plan.all());
    assert_eq!(found, defined);
    found
}

/// The masks as read of the first team, a MOUNTS team.
fn masks_read(file: &[u8]) -> Vec<Option<u32>> {
    let plan = read(file);
    match &plan.teams[0].kind {
        Kind::Mounts(bipartite) => bipartite.fits[..plan.instruments].to_vec(),
        _ => panic!("no MOUNTS team"),
    }
}

#[test]
fn masks_are_read_low_byte_first() {
    let file = hex("01 01 05 08 09 09 00 01 00 00 00 09 03 01 23 45 67
                    09 01 00 00 00 80 09 04 FF FF FF FF 07");
    let expected = [
        Some(1),
        Some(0x8000_0000),
        None,
        Some(0x6745_2301),
        Some(u32::MAX),
    ];
    assert_eq!(masks_read(&file), expected);
}

#[test]
fn no_bits_all_bits_and_no_fit() {
    let none = hex("01 01 01 08 09 09 00 00 00 00 00 07");
    let all = hex("01 01 01 08 09 09 00 FF FF FF FF 07");
    let no_fit = hex("01 01 01 08 09 07");
    let cases = [
        (none, Some(0), 0),
        (all, Some(u32::MAX), 1),
        (no_fit, None, 0),
    ];
    for (file, mask, expected) in cases {
        assert_eq!(masks_read(&file), [mask]);
        assert_eq!(worth(&file, 0, 1), Ok(expected));
        assert_eq!(shares(&file), [expected]);
        assert_eq!(contents(&read(&file)).total(), expected);
    }
}

#[test]
fn two_instruments_on_one_mount() {
    for mount in [0, 7, 8, 31] {
        assert_eq!(mounts_worth(9, &[1 << mount; 2], 0b11), 1);
        assert_eq!(mounts_worth(9, &[1 << mount; 2], 0b10), 1);
    }
    assert_eq!(mounts_worth(9, &[0b11; 3], 0b111), 2);
    assert_eq!(mounts_worth(9, &[0b01, 0b10], u64::MAX), 2);
    assert_eq!(shares(&mounts_teams(2, 9, &[1, 1])), [1, 1]);
    assert_eq!(shares(&mounts_teams(2, 9, &[0b11, 0b11, 0b11])), [1, 1]);
}

#[test]
fn a_chain_of_three_rematchings() {
    let masks = [0b0011, 0b0110, 0b1100, 0b0001, 0b0001];
    assert_eq!(mounts_worth(9, &masks, 0b01111), 4);
    assert_eq!(mounts_worth(9, &masks, 0b11000), 1);
    assert_eq!(mounts_worth(9, &masks, 0b11111), 4);
    let team = &read(&mounts_teams(1, 9, &masks)).teams[0];
    assert_eq!(team.gains(0b00111), 0b11000);
    assert_eq!(team.gains(0b01111), 0);
    assert_eq!(team.circuit(0b01111, 4), Some(0b01000));
    assert_eq!(team.circuit(0b00111, 3), None);
}

#[test]
fn channels_below_the_matching() {
    let masks = [0b001, 0b010, 0b100];
    for channels in 0..5 {
        let expected = u32::from(channels).min(3);
        assert_eq!(mounts_worth(channels, &masks, 0b111), expected);
    }
    assert_eq!(shares(&mounts_teams(1, 2, &masks)), [2]);
    let team = &read(&mounts_teams(1, 2, &masks)).teams[0];
    assert_eq!(team.gains(0b001), 0b110);
    assert_eq!(team.gains(0b011), 0);
}

#[test]
fn thirty_two_mounts() {
    for channels in [31, 32, 33, 255] {
        let file = mounts_teams(1, channels, &[u32::MAX; 64]);
        let most = u32::from(channels).min(32);
        assert_eq!(worth(&file, 0, u64::MAX), Ok(most));
        assert_eq!(contents(&read(&file)).total(), most);
    }
}
