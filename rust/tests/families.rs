//! The families of the benchmark: older ones make the plans they always made. Note 5 changed
//! the teams on all joints, 64 of them before, in "sparse loops", "mixed" and "all three kinds".

mod common;

use common::read;
use pool::bits;
use pool::family::{Family, FAMILIES};
use pool::random::Random;

/// The FNV-1a sum of a family's plans, ten for each of four sizes.
fn sum(family: usize) -> u64 {
    let mut sum = 0xcbf2_9ce4_8422_2325u64;
    for (m, n) in [(64, 12), (64, 5), (13, 12), (24, 1)] {
        let mut random = Random::new((1000 * m + n) as u64);
        for _ in 0..10 {
            for byte in (FAMILIES[family].plan)(&mut random, m, n) {
                sum = (sum ^ u64::from(byte)).wrapping_mul(0x100_0000_01b3);
            }
        }
    }
    sum
}

#[test]
fn families_keep_their_places_and_plans() {
    let expected = [
        ("dense loops, 6 joints", 0xd95b_8644_7f5b_4e14),
        ("loops, 16 joints", 0xb42d_3d86_fa0e_833b),
        ("sparse loops, 40 joints", 0xe1d6_7c94_fea0_dc14),
        ("caps", 0xaac7_4077_7392_8ac4),
        ("mixed", 0xa862_14b1_6525_736c),
        ("all teams alike", 0x2deb_0c22_4f9d_ac68),
        ("long exchange chains", 0x7905_85be_24af_2351),
        ("chains, shuffled", 0x82c7_3ec3_f719_49a7),
        ("one team takes all", 0x17cb_01ac_cf7f_53c7),
        ("shares use up all", 0xcc33_ecbc_b40d_7839),
        ("mounts", 0x8a0d_1517_9e71_6475),
        ("all three kinds", 0x2334_165f_22c7_90dc),
        ("half the teams away", 0xdf72_e5ae_c945_ee1b),
        ("with loan days", 0x4c46_370d_8a57_1adc),
        ("glued gauges", 0x8438_c3dd_b28d_0238),
    ];
    assert_eq!(FAMILIES.len(), expected.len());
    for (family, (name, value)) in expected.into_iter().enumerate() {
        assert_eq!(FAMILIES[family].name, name);
        assert_eq!(sum(family), value, "{name}");
    }
}

/// The family of this name.
fn named(name: &str) -> &'static Family {
    let found = FAMILIES.iter().find(|family| family.name == name);
    found.expect("a family")
}

#[test]
fn half_of_the_teams_are_away() {
    let family = named("half the teams away");
    let mut random = Random::new(601);
    for n in 1..=12 {
        let plan = read(&(family.plan)(&mut random, 64, n));
        assert_eq!(plan.present(), n.div_ceil(2));
    }
}

#[test]
fn two_gauges_are_glued_to_each_team() {
    let family = named("glued gauges");
    let mut random = Random::new(603);
    for _ in 0..50 {
        let plan = read(&(family.plan)(&mut random, 64, 12));
        assert!(plan.teams.iter().all(|team| bits::size(team.glued) == 2));
        assert_eq!(bits::size(plan.glued()), 24);
    }
}

#[test]
fn teams_can_have_about_half_of_the_instruments() {
    let family = named("with loan days");
    let mut random = Random::new(602);
    let mut usable = 0;
    for _ in 0..50 {
        let plan = read(&(family.plan)(&mut random, 64, 12));
        assert!(plan.teams.iter().all(|team| team.days.is_some()));
        let sizes = plan.teams.iter().map(|team| bits::size(team.usable));
        usable += sizes.sum::<u32>();
    }
    let all = 50 * 12 * 64;
    assert!(
        usable > all * 2 / 5 && usable < all * 3 / 5,
        "{usable} of {all}"
    );
}
