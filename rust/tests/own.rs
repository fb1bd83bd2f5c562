//! This crate against its own definitions and searches.

mod common;

use common::{cases, damage_field, own_sheet, read, some_plan, two_laws, Tally};
use pool::bits;
use pool::build::{contents, divide};
use pool::check::{answer as check, layout_of, page};
use pool::family::FAMILIES;
use pool::plan::Plan;
use pool::random::Random;
use pool::sample::{any_plan, mounts_plan};
use pool::{brute, definition};

/// The sheet is accepted, and its total and shares are the given ones.
fn sheet_says(file: &[u8], plan: &Plan, total: u32, share: impl Fn(usize) -> u32) {
    let found = contents(plan);
    assert_eq!(check(file, &found.bytes(plan.instruments)), 0, "{file:x?}");
    assert_eq!(found.total(), total, "{file:x?}");
    for (team, proof) in found.shares.iter().enumerate() {
        assert_eq!(u32::from(proof.share), share(team), "{file:x?}");
    }
}

#[test]
fn worth_is_the_definition() {
    let mut random = Random::new(1);
    for _ in 0..cases() {
        let file = some_plan(&mut random, 6, 2);
        let plan = read(&file);
        for team in &plan.teams {
            let table = brute::worth_table(&plan, team);
            for set in bits::subsets(plan.all()) {
                assert_eq!(team.rank(set), table[set as usize], "{file:x?} {set:b}");
            }
            let some = random.word() & plan.all();
            assert_eq!(team.rank(some), definition::worth(&plan, team, some));
        }
    }
}

#[test]
fn matchings_are_the_search() {
    let mut random = Random::new(10);
    for _ in 0..cases() / 10 {
        let m = random.between(6, 9);
        let file = mounts_plan(&mut random, m, 1);
        let plan = read(&file);
        let team = &plan.teams[0];
        let table = brute::worth_table(&plan, team);
        for set in bits::subsets(bits::first(m)) {
            assert_eq!(team.rank(set), table[set as usize], "{file:x?} {set:b}");
        }
    }
}

#[test]
fn gains_and_circuits_are_the_definition() {
    let mut random = Random::new(2);
    for _ in 0..cases() {
        let file = some_plan(&mut random, 10, 1);
        let plan = read(&file);
        let team = &plan.teams[0];
        let bundle = random.word() & random.word() & plan.all();
        let independent = |set| definition::independent(&plan, team, set);
        if !independent(bundle) {
            continue;
        }
        let gains = team.gains(bundle);
        for item in bits::members(plan.all() & !bundle) {
            let with = bundle | bits::one(item);
            let free = independent(with);
            assert_eq!(bits::has(gains, item), free, "{file:x?} {bundle:b} {item}");
            let room = bits::size(bundle) < team.room();
            let leaving = team.circuit(bundle, item);
            assert!(!room || leaving.is_none() == free);
            for out in bits::members(leaving.unwrap_or(0)) {
                assert!(independent(with & !bits::one(out)));
            }
            for out in bits::members(bundle & !leaving.unwrap_or(bundle)) {
                assert!(!independent(with & !bits::one(out)));
            }
        }
    }
}

#[test]
fn the_two_laws_hold() {
    let mut random = Random::new(3);
    for _ in 0..cases() {
        let file = some_plan(&mut random, 9, 1);
        two_laws(&mut random, &file);
    }
}

#[test]
fn small_plans_against_all_divisions() {
    let mut random = Random::new(4);
    for _ in 0..cases() {
        let file = some_plan(&mut random, 6, 3);
        let plan = read(&file);
        sheet_says(&file, &plan, brute::best_total(&plan), |team| {
            brute::share(&plan, &plan.teams[team])
        });
    }
}

#[test]
fn small_plans_with_many_teams() {
    let mut random = Random::new(5);
    for _ in 0..cases() / 40 {
        let file = some_plan(&mut random, 8, 12);
        let plan = read(&file);
        sheet_says(&file, &plan, brute::best_total_by_sets(&plan), |team| {
            brute::share_by_sets(&plan, &plan.teams[team])
        });
    }
}

#[test]
fn the_two_searches_agree() {
    let mut random = Random::new(6);
    for _ in 0..cases() / 20 {
        let plan = read(&some_plan(&mut random, 6, 3));
        assert_eq!(brute::best_total(&plan), brute::best_total_by_sets(&plan));
        for team in &plan.teams {
            let share = brute::share(&plan, team);
            assert_eq!(share, brute::share_by_sets(&plan, team));
        }
    }
}

#[test]
fn every_size_is_built_and_accepted() {
    let mut random = Random::new(7);
    for m in 0..=64 {
        for n in 1..=12 {
            let file = any_plan(&mut random, m, n);
            accepted_with_pages(&file);
        }
    }
    for family in FAMILIES {
        for n in 1..=12 {
            accepted_with_pages(&(family.plan)(&mut random, 64, n));
        }
    }
}

/// The sheet is accepted, and its pages are its stretches.
fn accepted_with_pages(file: &[u8]) {
    let sheet = own_sheet(file);
    let layout = layout_of(&read(file));
    assert_eq!(sheet.len(), layout.length());
    assert_eq!(check(file, &sheet), 0, "{file:x?}");
    for team in 0..layout.teams {
        let length = 11 + 3 * layout.instruments;
        let stretch = &sheet[layout.share(team)..][..length];
        assert_eq!(page(file, &sheet, team), stretch);
    }
    assert!(page(file, &sheet, layout.teams).is_empty());
}

#[test]
fn greatest_total_alone_meets_16() {
    let mut random = Random::new(8);
    let mut short = 0;
    for _ in 0..cases() / 4 {
        let file = some_plan(&mut random, 16, 4);
        let plan = read(&file);
        let mut found = contents(&plan);
        let total = found.total();
        let greedy = divide(&plan, &vec![0; plan.teams.len()]);
        found.bundles = greedy.bundles;
        assert_eq!(found.total(), total);
        let verdict = check(&file, &found.bytes(plan.instruments));
        assert!(verdict == 0 || verdict >> 16 == 16);
        short += usize::from(verdict != 0);
    }
    assert!(short > cases() / 1000, "{short} short teams");
}

#[test]
fn accepted_sheets_are_true() {
    let mut random = Random::new(9);
    let mut tally = Tally::default();
    for _ in 0..cases() / 20 {
        let file = some_plan(&mut random, 5, 3);
        let plan = read(&file);
        let total = brute::best_total(&plan);
        let layout = layout_of(&plan);
        let sheet = own_sheet(&file);
        for _ in 0..40 {
            let mut other = sheet.clone();
            for _ in 0..random.between(1, 3) {
                damage_field(&mut random, &plan, &mut other);
            }
            let verdict = check(&file, &other);
            tally.count(verdict);
            if verdict == 0 {
                assert_eq!(u32::from(other[3]), total);
                for (t, team) in plan.teams.iter().enumerate() {
                    let stated = u32::from(other[layout.share(t) + 2]);
                    assert_eq!(stated, brute::share(&plan, team));
                }
            }
        }
    }
    tally.seen([0, 13, 14, 15, 16].into_iter());
}
