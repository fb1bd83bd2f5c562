//! Worth of the proved library against this crate, on the same plans, teams and sets.
#![cfg(proved)]

mod common;

use common::days::DAYS_FAULTS;
use common::glue::{GLUE_FAULTS, WORTHS};
use common::joints::JOINT_FAULTS;
use common::*;
use pool::family::FAMILIES;
use pool::plan::{commands, Plan};
use pool::random::Random;
use pool::refusal::Refusal;
use pool::sample::{any_glue_plan, any_plan, days_plan, glue_plan, mounts_plan};
use pool::writer::{plan_a, PlanWriter};
use pool::{bits, build, definition, examples, ffi, worth};

/// Teams that no plan has: from the thirteenth on, and such that lose high bits to be a team.
const OTHER_TEAMS: [usize; 9] = [
    12,
    13,
    255,
    256,
    65_536,
    1 << 32,
    1 << 63,
    usize::MAX - 1,
    usize::MAX,
];

/// Both give the same worth or refusal, and this is it.
fn same_worth(file: &[u8], team: usize, set: u64) -> u64 {
    let own = worth::answer(file, team, set);
    let proved = ffi::worth(file, team, set);
    assert_eq!(proved, own, "Worth, team {team}, set {set:x}: {file:x?}");
    own
}

/// Sets of all sorts: dense, sparse, all, none, and bits at or above m alone.
fn any_sets(random: &mut Random, plan: &Plan) -> [u64; 7] {
    let (a, b, c) = (random.word(), random.word(), random.word());
    let all = plan.all();
    [a, a & b & c, a | b | c, u64::MAX, all, !all & b, 0]
}

/// The worths of sets of all sorts to each team of a plan, and to some that are not in it.
fn same_worths(random: &mut Random, file: &[u8]) {
    let plan = read(file);
    for team in 0..plan.teams.len() {
        for set in any_sets(random, &plan) {
            let found = same_worth(file, team, set);
            assert!(found <= u64::from(bits::size(set & plan.all())));
            assert_eq!(same_worth(file, team, set & plan.all()), found);
            assert_eq!(same_worth(file, team, set | !plan.all()), found);
        }
    }
    let beyond = plan.teams.len() + random.below(3);
    let wrapped = 1 << random.pick(&[8, 16, 32, 63]) | random.below(12);
    for team in [beyond, wrapped, random.pick(&OTHER_TEAMS)] {
        assert_eq!(same_worth(file, team, random.word() | 1), 0);
    }
}

#[test]
fn every_size() {
    let mut random = Random::new(901);
    for m in 0..=64 {
        for n in 1..=12 {
            let file = any_plan(&mut random, m, n);
            same_worths(&mut random, &file);
        }
    }
}

#[test]
fn every_sort_of_plan() {
    let mut random = Random::new(902);
    for round in 0..cases() / 4 {
        let m = random.below(if round % 16 == 0 { 65 } else { 12 });
        let n = random.between(1, 4);
        let sort = random.pick(&[any_plan, days_plan, glue_plan, mounts_plan]);
        let file = sort(&mut random, m, n);
        same_worths(&mut random, &file);
    }
}

#[test]
fn every_family() {
    let mut random = Random::new(903);
    for family in FAMILIES {
        for n in 1..=12 {
            let file = (family.plan)(&mut random, 64, n);
            same_worths(&mut random, &file);
        }
    }
}

/// Every set of small plans is worth what the definition says.
#[test]
fn worth_is_the_definition() {
    let mut random = Random::new(904);
    for _ in 0..cases() / 40 {
        let file = some_plan(&mut random, 6, 3);
        let plan = read(&file);
        for (number, team) in plan.teams.iter().enumerate() {
            for set in bits::subsets(plan.all()) {
                let expected = definition::worth(&plan, team, set);
                let found = same_worth(&file, number, set);
                assert_eq!(found, expected.into(), "{set:b} {file:x?}");
            }
        }
    }
}

/// The plan of one team alone that names only the instruments of a set and those glued to it.
fn alone(file: &[u8], plan: &Plan, number: usize, set: u64) -> Vec<u8> {
    let team = &plan.teams[number];
    let kept = set & !plan.glued() | team.glued;
    let (mut opened, mut out) = (0, Vec::new());
    for command in commands(file) {
        opened += usize::from(matches!(command[0], 0x02 | 0x03 | 0x08));
        let stays = match command[0] {
            0x01 | 0x07 | 0x0a => true,
            0x05 | 0x06 | 0x09 => opened == number + 1 && bits::has(kept, command[1].into()),
            _ => opened == number + 1,
        };
        if stays {
            out.extend(command);
        }
    }
    out
}

/// The worth of a set is the total of the proved Build for a team that names no other.
#[test]
fn worth_is_the_total_of_the_team_alone() {
    let mut random = Random::new(905);
    for round in 0..cases() / 10 {
        let most = if round % 8 == 0 { 64 } else { 12 };
        let file = some_plan(&mut random, most, 6);
        let plan = read(&file);
        let (team, set) = (random.below(plan.teams.len()), random.word());
        let mut sheet = [0; 2642];
        let length = ffi::build(&alone(&file, &plan, team, set), &mut sheet);
        assert!(length < 65_536, "{file:x?}");
        assert_eq!(same_worth(&file, team, set), u64::from(sheet[3]));
    }
}

#[test]
fn worths_with_glued_gauges() {
    for (text, team, set, expected) in WORTHS {
        assert_eq!(same_worth(&hex(text), team, set), expected.into(), "{text}");
    }
}

/// What README says of the sets of the examples.
#[test]
fn sets_of_the_examples() {
    let sets: [(&str, usize, &[usize], u64); 4] = [
        ("footbridge", 1, &[7, 8, 9], 0),
        ("suspension", 1, &[6, 7, 8, 9, 10, 11, 12, 13], 1),
        ("aqueduct", 0, &[6, 10, 12, 13], 0),
        ("arch", 0, &[0, 6, 7, 14], 0),
    ];
    for (name, team, members, expected) in sets {
        let all = examples::all();
        let example = all.iter().find(|example| example.name == name);
        let set = members.iter().fold(0, |sum, item| sum | bits::one(*item));
        let file = &example.expect("an example").plan;
        assert_eq!(same_worth(file, team, set), expected, "{name}");
    }
}

#[test]
fn teams_not_in_the_plan() {
    let file = PlanWriter::start(1).caps(9).class(0, 9).put(0, 0).end();
    assert_eq!(same_worth(&file, 0, 1), 1);
    for team in (1..300).chain(OTHER_TEAMS) {
        assert_eq!(same_worth(&file, team, 1), 0);
    }
}

/// A refusal is that of Build, whatever the team and the set.
fn same_refusal(random: &mut Random, file: &[u8], tally: &mut Tally) {
    let team = random.pick(&[0, 0, 1, 11, 12, usize::MAX]);
    let word = random.word();
    let set = random.pick(&[0, u64::MAX, word]);
    let found = same_worth(file, team, set);
    let built = build::answer(file, &mut []);
    match built >> 16 {
        10 => assert!(found <= 64, "{file:x?}"),
        _ => assert_eq!(found, built, "{file:x?}"),
    }
    tally.count(found);
}

#[test]
fn refused_plans() {
    let mut random = Random::new(906);
    let mut tally = Tally::default();
    let faults = MOUNTS_FAULTS.into_iter().chain(DAYS_FAULTS);
    for (text, number, place) in faults.chain(JOINT_FAULTS).chain(GLUE_FAULTS) {
        let expected = Refusal::new(number, place).code();
        for team in [0, 1, usize::MAX] {
            assert_eq!(same_worth(&hex(text), team, 0), expected, "{text}");
        }
    }
    for file in [vec![], vec![0x00; 70_000], vec![0x01; 70_000]] {
        same_refusal(&mut random, &file, &mut tally);
    }
    tally.seen([1, 4].into_iter());
}

#[test]
fn damaged_plans() {
    let mut random = Random::new(907);
    let mut tally = Tally::default();
    let mut last = plan_a();
    for round in 0..cases() {
        let most = if round % 16 == 0 { 64 } else { 6 };
        let file = some_plan(&mut random, most, 12);
        for other in [
            damage(&mut random, &file, &last),
            damage_commands(&mut random, &file),
            loose_commands(&mut random),
            any_glue_plan(&mut random, 4, 2),
        ] {
            same_refusal(&mut random, &other, &mut tally);
        }
        last = file;
    }
    tally.seen((0..=9).chain([17, 18]));
}

#[test]
fn the_longest_plan() {
    let mut random = Random::new(908);
    let mut tally = Tally::default();
    let file = longest_plan().end();
    same_worths(&mut random, &file);
    for count in [1, 2_983, 2_984, 2_985, 70_000] {
        let longer = [&file[..], &vec![0x09; count]].concat();
        let expected = Refusal::new(9, 5208).code();
        assert_eq!(same_worth(&longer, 0, 1), expected);
    }
    for at in 5168..5208 {
        same_refusal(&mut random, &file[..at], &mut tally);
    }
    same_refusal(&mut random, &longest_plan().mounts(1).end(), &mut tally);
    tally.seen([2, 7].into_iter());
}
