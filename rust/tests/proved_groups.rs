//! The proved library against this crate on plans of LOOPS teams.
#![cfg(proved)]

mod common;

use common::nets::{chosen_nets, loops_plan, some_net, Net};
use common::proved::{
    bundle_verdict, damaged_bytes_of, damaged_fields_of, every_bounding_set, every_bundle,
    every_byte, proved_build, same_sheets, same_verdict,
};
use common::*;
use pool::build::contents;
use pool::check::layout_of;
use pool::random::Random;
use pool::writer::PlanWriter;
use pool::{bits, brute};

/// The total that the proved Build states for one team on a net.
fn proved_total(net: &Net, channels: u8) -> u32 {
    let file = net.plan(channels, 1);
    let length = layout_of(&read(&file)).length();
    let sheet = proved_build(&file, length, 41).expect("a sheet");
    sheet[3].into()
}

/// A random plan of LOOPS teams of at most this size.
fn some_loops_plan(random: &mut Random, instruments: usize, teams: usize) -> Vec<u8> {
    let m = random.below(instruments + 1);
    let n = random.between(1, teams);
    loops_plan(random, m, n)
}

/// A plan of 64 instruments whose teams are on one net after another.
fn plan_of_nets(nets: &[(&str, Net, u32)], first: usize, teams: usize) -> Vec<u8> {
    let mut plan = PlanWriter::start(64);
    for (_, net, _) in nets.iter().cycle().skip(first).take(teams) {
        plan.loops(255).add(&net.spans().concat());
    }
    plan.end()
}

#[test]
fn chosen_nets_for_every_number_of_teams() {
    let nets = chosen_nets();
    for (first, (_, net, _)) in nets.iter().enumerate() {
        for teams in 1..=12 {
            same_sheets(&net.plan(255, teams), 0, 43);
            same_sheets(&net.plan(teams as u8, teams), 1, 47);
            same_sheets(&plan_of_nets(&nets, first, teams), 0, 53);
        }
    }
}

#[test]
fn chosen_nets_have_their_worth() {
    for (name, net, worth) in chosen_nets() {
        for channels in [0, 1, 2, 10, 38, 39, 40, 62, 63, 64, 255] {
            let expected = worth.min(channels.into());
            assert_eq!(proved_total(&net, channels), expected, "{name} {channels}");
        }
    }
}

#[test]
fn loops_plans_of_every_size() {
    let mut random = Random::new(821);
    for m in 0..=64 {
        for n in 1..=12 {
            let file = loops_plan(&mut random, m, n);
            same_sheets(&file, random.below(3), random.byte());
        }
    }
}

#[test]
fn small_loops_plans() {
    let mut random = Random::new(822);
    for _ in 0..cases() {
        let file = some_loops_plan(&mut random, 8, 4);
        same_sheets(&file, random.below(3), random.byte());
    }
}

#[test]
fn small_loops_plans_against_all_divisions() {
    let mut random = Random::new(823);
    for _ in 0..cases() / 20 {
        let file = some_loops_plan(&mut random, 5, 3);
        let plan = read(&file);
        let layout = layout_of(&plan);
        let sheet = proved_build(&file, layout.length(), 59).expect("a sheet");
        assert_eq!(u32::from(sheet[3]), brute::best_total(&plan), "{file:x?}");
        for (number, team) in plan.teams.iter().enumerate() {
            let stated = sheet[layout.share(number) + 2];
            assert_eq!(u32::from(stated), brute::share(&plan, team), "{file:x?}");
        }
    }
}

#[test]
fn large_loops_plans() {
    let mut random = Random::new(824);
    for _ in 0..cases() / 100 {
        let (m, n) = (random.between(48, 64), random.between(8, 12));
        same_sheets(&loops_plan(&mut random, m, n), 0, 61);
    }
}

#[test]
fn the_total_of_one_team_is_joints_less_groups() {
    let mut random = Random::new(825);
    for _ in 0..cases() / 4 {
        let net = some_net(&mut random, 64);
        let channels = random.pick(&[255, 255, 63, 40, 39, 38, 20, 5, 1, 0]);
        let expected = net.worth(net.all()).min(channels.into());
        assert_eq!(proved_total(&net, channels), expected, "{net:?} {channels}");
    }
}

/// SPANs are added one by one: the total grows by one exactly where a gauge joins two groups.
#[test]
fn each_gauge_that_joins_two_groups_adds_one() {
    let mut random = Random::new(826);
    for _ in 0..cases() / 200 {
        let net = some_net(&mut random, 64);
        let mut so_far = Net(vec![None; net.size()]);
        let mut total = 0;
        let mut order: Vec<usize> = (0..net.size()).collect();
        random.shuffle(&mut order);
        for item in order {
            let groups = so_far.groups(so_far.all());
            so_far.0[item] = net.0[item];
            total += u32::from(so_far.apart(&groups, item));
            assert_eq!(proved_total(&so_far, 255), total, "{so_far:?}");
        }
    }
}

#[test]
fn every_bundle_of_small_nets() {
    let mut random = Random::new(827);
    let mut tally = Tally::default();
    for _ in 0..cases() / 40 {
        every_bundle(&some_net(&mut random, 8).plan(255, 1), &mut tally);
    }
    tally.seen([0, 13, 14].into_iter());
}

#[test]
fn every_bounding_set_of_small_nets() {
    let mut random = Random::new(828);
    let mut tally = Tally::default();
    for _ in 0..cases() / 40 {
        let file = some_loops_plan(&mut random, 7, 3);
        every_bounding_set(&mut random, &file, &mut tally);
    }
    tally.seen([0, 14].into_iter());
}

/// BOUND's set stands exactly where its worth, by search, and what is outside it make the total.
#[test]
fn bounding_sets_of_large_nets() {
    let mut random = Random::new(829);
    let mut tally = Tally::default();
    for _ in 0..cases() / 4 {
        let net = some_net(&mut random, 64);
        let file = net.plan(255, 1);
        let mut found = contents(&read(&file));
        let drawn = random.word() & random.word() & random.word();
        found.bound = random.pick(&[net.all() & !drawn, (found.bound ^ drawn) & net.all()]);
        let outside = bits::size(net.all() & !found.bound);
        let verdict = same_verdict(&file, &found.bytes(net.size()));
        let tight = outside + net.worth(found.bound) == net.worth(net.all());
        assert_eq!(verdict >> 16 != 14, tight, "{:x} {net:?}", found.bound);
        tally.count(verdict);
    }
    tally.seen([0, 14].into_iter());
}

#[test]
fn growing_bundles_of_large_nets() {
    let mut random = Random::new(830);
    let mut tally = Tally::default();
    for _ in 0..cases() / 200 {
        let net = some_net(&mut random, 64);
        let file = net.plan(255, 1);
        let mut order: Vec<usize> = (0..net.size()).collect();
        random.shuffle(&mut order);
        let mut bundle = 0;
        for item in order {
            let with = bundle | bits::one(item);
            let joins = net.apart(&net.groups(bundle), item);
            let verdict = bundle_verdict(&file, with);
            assert_eq!(verdict >> 16 != 13, joins, "{with:x} {net:?}");
            tally.count(verdict);
            bundle = if joins { with } else { bundle };
        }
    }
    tally.seen([0, 13, 14].into_iter());
}

#[test]
fn damaged_fields_of_loops_plans() {
    let mut random = Random::new(831);
    let mut tally = Tally::default();
    for round in 0..cases() / 4 {
        let most = if round % 50 == 0 { 64 } else { 8 };
        let file = some_loops_plan(&mut random, most, 12);
        damaged_fields_of(&mut random, &file, &mut tally);
    }
    tally.seen([0, 13, 14, 15, 16].into_iter());
}

#[test]
fn damaged_bytes_of_loops_plans() {
    let mut random = Random::new(832);
    let mut tally = Tally::default();
    for _ in 0..cases() / 500 {
        let file = some_loops_plan(&mut random, 64, 12);
        damaged_bytes_of(&mut random, &file, 67, &mut tally);
    }
    tally.seen([0, 11, 12].into_iter());
}

#[test]
fn every_byte_of_small_loops_sheets() {
    let mut random = Random::new(833);
    let mut tally = Tally::default();
    for n in [1, 1, 2, 2, 3, 3] {
        let file = loops_plan(&mut random, 8, n);
        let sheet = proved_build(&file, own_sheet(&file).len(), 71).expect("a sheet");
        every_byte(&file, &sheet, &mut tally);
    }
    tally.seen([0, 12, 13, 14, 15].into_iter());
}

#[test]
fn sheets_of_other_nets() {
    let mut random = Random::new(834);
    let mut tally = Tally::default();
    for round in 0..cases() / 2 {
        let m = random.below(if round % 50 == 0 { 65 } else { 6 });
        let n = random.between(1, 3);
        let file = loops_plan(&mut random, m, n);
        let other = loops_plan(&mut random, m, n);
        tally.count(same_verdict(&file, &own_sheet(&other)));
    }
    tally.seen([0, 13, 14, 15].into_iter());
}
