//! The example plans: valid, of growing size, in need of more than the greatest total, and
//! the same as their files.

mod common;

use common::read;
use pool::bits;
use pool::build::{contents, divide};
use pool::check::answer as check;
use pool::examples;
use pool::plan::Plan;
use std::path::Path;

/// Teams below their share when each instrument goes to the first team that gains it.
fn short_when_first_come(plan: &Plan, shares: &[u32]) -> usize {
    let mut bundles = vec![0u64; plan.teams.len()];
    for item in 0..plan.instruments {
        let gains = |t: usize| bits::has(plan.teams[t].gains(bundles[t]), item);
        if let Some(team) = (0..bundles.len()).find(|&t| gains(t)) {
            bundles[team] |= bits::one(item);
        }
    }
    short(&bundles, shares)
}

/// Teams that hold less than their share.
fn short(bundles: &[u64], shares: &[u32]) -> usize {
    let teams = bundles.iter().zip(shares);
    teams
        .filter(|(set, share)| bits::size(**set) < **share)
        .count()
}

#[test]
fn examples_need_levelling() {
    let mut size = 0;
    for example in examples::all() {
        let plan = read(&example.plan);
        let found = contents(&plan);
        assert_eq!(check(&example.plan, &found.bytes(plan.instruments)), 0);
        let shares: Vec<u32> = found.shares.iter().map(|s| s.share.into()).collect();
        let greedy = divide(&plan, &vec![0; shares.len()]);
        assert_eq!(greedy.total(), found.total());
        if example.name != "plan-a" {
            assert!(short(&greedy.bundles, &shares) > 0, "{}", example.name);
            assert!(short_when_first_come(&plan, &shares) > 0);
        }
        assert!(example.plan.len() > size);
        size = example.plan.len();
    }
}

#[test]
fn examples_are_their_files() {
    let folder = Path::new(env!("CARGO_MANIFEST_DIR")).join("../examples");
    for example in examples::all() {
        let file = std::fs::read(folder.join(format!("{}.plan", example.name)));
        assert_eq!(
            file.expect("an example file"),
            example.plan,
            "{}",
            example.name
        );
    }
}
