//! Note 5: forty joints, case by case and on random plans.

mod common;

use common::glue::without_glue;
use common::joints::{
    damage_joint, every_byte_after, every_instrument, every_pair, first_fault, one_of_many,
    one_span, out_of_place_or_cut, two_spans, with_any_joints, Reading, FORTY, JOINT_ACCEPTED,
    JOINT_FAULTS,
};
use common::nets::{chosen_nets, loops_plan, LAST};
use common::{cases, hex, own_sheet, read, Tally};
use pool::build::{answer as build, contents};
use pool::check::{answer as check, page};
use pool::family::FAMILIES;
use pool::listing::{answer as list, refusal_line};
use pool::plan::{self, commands, Kind, Team, JOINTS};
use pool::random::Random;
use pool::refusal::Refusal;
use pool::sample::{any_plan, days_plan, two_joints};
use pool::worth::worth;
use pool::writer::PlanWriter;
use pool::{brute, examples};

/// Each plan has the refusal that it has to have, or none.
fn read_as_stated(readings: Vec<Reading>, numbers: &[usize]) {
    let mut tally = Tally::default();
    for (file, expected) in readings {
        let refusal = plan::read(&file).err();
        assert_eq!(refusal, expected, "{file:x?}");
        tally.count(refusal.map_or(0, Refusal::code));
    }
    tally.seen(numbers.iter().copied());
}

/// The joints of an instrument in a LOOPS team.
fn ends(team: &Team, item: usize) -> Option<(u8, u8)> {
    match &team.kind {
        Kind::Loops(graph) => graph.ends[item],
        _ => None,
    }
}

/// The largest joint that a plan names, 0 if it names none.
fn largest(file: &[u8]) -> u8 {
    let spans = commands(file).into_iter().filter(|c| c[0] == 0x06);
    spans.map(|span| span[2].max(span[3])).max().unwrap_or(0)
}

#[test]
fn there_are_forty_joints() {
    assert_eq!(JOINTS, 40);
    assert_eq!((FORTY, LAST), (0x28, 0x27));
}

#[test]
fn refused_plans() {
    for (text, number, place) in JOINT_FAULTS {
        let refusal = plan::read(&hex(text)).expect_err("a faulty plan");
        assert_eq!(refusal, Refusal::new(number, place), "{text}");
    }
}

#[test]
fn accepted_plans() {
    for (text, total) in JOINT_ACCEPTED {
        let file = hex(text);
        assert_eq!(contents(&read(&file)).total(), total, "{text}");
        assert_eq!(check(&file, &own_sheet(&file)), 0, "{text}");
    }
}

#[test]
fn joints_below_forty_at_each_place() {
    for joint in 0..=255 {
        for other in [0, 20, 39] {
            let accepted = joint < 40 && joint != other;
            let first = plan::read(&one_span(joint, other));
            assert_eq!(first.is_ok(), accepted, "{joint} {other}");
            let second = plan::read(&one_span(other, joint));
            assert_eq!(second.is_ok(), accepted, "{other} {joint}");
        }
    }
}

#[test]
fn every_two_bytes_as_joints() {
    read_as_stated(every_pair(), &[0, 5, 8]);
    for (a, b) in [(0, 39), (39, 0), (38, 39), (39, 38)] {
        let file = one_span(a, b);
        assert_eq!(ends(&read(&file).teams[0], 0), Some((a, b)));
        assert_eq!(worth(&file, 0, 1), Ok(1));
    }
}

#[test]
fn the_first_of_two_spans_at_fault() {
    read_as_stated(two_spans(), &[0, 5, 6, 8]);
}

#[test]
fn instruments_are_bounded_by_m_alone() {
    read_as_stated(every_instrument(), &[0, 5, 8]);
}

#[test]
fn spans_out_of_place_and_cut_short() {
    read_as_stated(out_of_place_or_cut(), &[2, 4]);
}

#[test]
fn what_follows_does_not_matter() {
    read_as_stated(every_byte_after(), &[5, 9]);
}

#[test]
fn one_span_of_the_longest_plan_of_loops() {
    read_as_stated(one_of_many(), &[0, 5, 8]);
}

#[test]
fn every_operation_refuses() {
    for (a, b) in [(40, 1), (1, 40), (40, 40), (63, 63), (64, 1), (255, 0)] {
        let file = one_span(a, b);
        let code = 65_536 * 5 + 5;
        let mut buffer = [0xa5; 100];
        assert_eq!(build(&file, &mut []), code);
        assert_eq!(build(&file, &mut buffer), code);
        assert_eq!(list(&file, &[], &mut buffer), code);
        assert_eq!(buffer, [0xa5; 100]);
        let sheet = own_sheet(&one_span(1, 2));
        assert_eq!(check(&file, &sheet), code);
        assert_eq!(check(&file, &[]), code);
        assert!(page(&file, &sheet, 0).is_empty());
        assert_eq!(worth(&file, 0, 1), Err(Refusal::new(5, 5)));
        let refusal = plan::read(&file).expect_err("a faulty plan");
        assert_eq!(refusal_line(refusal), "REFUSED 5 5\n");
    }
}

/// Plans with joints of all sorts against a reading of their SPANs alone.
#[test]
fn random_joints() {
    let mut random = Random::new(1001);
    let mut tally = Tally::default();
    for round in 0..2 * cases() {
        let most = if round % 16 == 0 { 64 } else { 6 };
        let file = with_any_joints(&mut random, most, 4);
        let refusal = plan::read(&file).err();
        assert_eq!(refusal, first_fault(&file), "{file:x?}");
        tally.count(refusal.map_or(0, Refusal::code));
    }
    tally.seen([0, 5, 6, 8].into_iter());
}

/// LOOPS plans with joints from 0 to 63 are accepted exactly where all are below 40.
#[test]
fn random_joints_from_0_to_63() {
    let mut random = Random::new(1002);
    let mut accepted = 0;
    for _ in 0..cases() {
        let (m, teams) = (random.between(1, 3), random.between(1, 2));
        let mut plan = PlanWriter::start(m);
        for _ in 0..teams {
            plan.loops(random.byte());
            for item in 0..m {
                let (a, b) = two_joints(&mut random, 64);
                plan.span(item, a, b);
            }
        }
        let file = plan.end();
        let low = largest(&file) < 40;
        assert_eq!(plan::read(&file).is_ok(), low, "{file:x?}");
        accepted += usize::from(low);
    }
    let rate = 100 * accepted / cases();
    assert!((10..30).contains(&rate), "{accepted} accepted");
}

#[test]
fn joints_are_read_as_they_stand() {
    let mut random = Random::new(1003);
    for _ in 0..cases() {
        let file = any_plan(&mut random, 8, 3);
        let row = commands(&file);
        let first = row.iter().position(|c| matches!(c[0], 2 | 3 | 8));
        let teams = row[first.expect("a team")..].chunk_by(|_, c| !matches!(c[0], 2 | 3 | 8));
        for (team, commands) in read(&file).teams.iter().zip(teams) {
            for item in 0..8 {
                let span = commands.iter().find(|c| c.starts_with(&[0x06, item]));
                let expected = span.map(|span| (span[2], span[3]));
                assert_eq!(ends(team, item.into()), expected, "{file:x?}");
            }
        }
    }
}

/// One joint changed: refusal 5 or 8, or the sheet of the new plan.
#[test]
fn joints_changed() {
    let mut random = Random::new(1004);
    let mut tally = Tally::default();
    for _ in 0..cases() {
        let file = without_glue(&any_plan(&mut random, 5, 3));
        let Some(other) = damage_joint(&mut random, &file) else {
            continue;
        };
        let verdict = check(&other, &own_sheet(&file));
        tally.count(verdict);
        match plan::read(&other) {
            Ok(plan) => {
                let total = brute::best_total_by_sets(&plan);
                assert_eq!(contents(&plan).total(), total, "{other:x?}");
            }
            Err(refusal) => {
                assert_eq!(Some(refusal), first_fault(&other), "{other:x?}");
                assert_eq!(verdict, refusal.code(), "{other:x?}");
            }
        }
    }
    tally.seen([0, 5, 8, 13, 14, 15].into_iter());
}

/// The makers of plans name no joint above 39, and those on all joints name joint 39.
#[test]
fn makers_of_plans_name_joints_up_to_39() {
    let mut random = Random::new(1005);
    for family in FAMILIES {
        let sizes = (0..=64).flat_map(|m| [1, 2, 3, 5, 12].map(|n| (m, n)));
        let made = sizes.map(|(m, n)| largest(&(family.plan)(&mut random, m, n)));
        let most = made.max().unwrap_or(0);
        let all = ["sparse loops, 40 joints", "mixed", "all three kinds"];
        let name = family.name;
        assert_eq!(most == 39, all.contains(&name), "{name}: {most}");
        assert!(most < 40, "{name}: {most}");
    }
    for make in [any_plan, days_plan, loops_plan] {
        let made = (0..200).map(|_| largest(&make(&mut random, 64, 12)));
        assert_eq!(made.max(), Some(39));
    }
    let nets = chosen_nets().into_iter();
    let made = nets.map(|(_, net, _)| largest(&net.plan(255, 1)));
    assert_eq!(made.max(), Some(39));
    let made = examples::all().into_iter().map(|e| largest(&e.plan));
    assert!(made.max() < Some(40));
}
