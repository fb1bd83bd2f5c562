//! The proved library against this crate on plans with joints around the last one.
#![cfg(proved)]

mod common;

use common::glue::without_glue;
use common::joints::{
    damage_joint, every_byte_after, every_instrument, every_pair, first_fault, one_of_many,
    one_span, out_of_place_or_cut, two_spans, with_any_joints, Reading, JOINT_ACCEPTED,
    JOINT_FAULTS,
};
use common::proved::{
    damaged_fields_of, every_byte_of_plan, proved_build, same_reading, same_sheets, same_verdict,
};
use common::*;
use pool::check::layout_of;
use pool::random::Random;
use pool::refusal::Refusal;
use pool::sample::any_plan;
use pool::writer::PlanWriter;
use pool::{ffi, plan};

/// What Check answers for a plan with this refusal, or with none, and no sheet.
fn answer(refusal: Option<Refusal>) -> u64 {
    refusal.unwrap_or(Refusal::new(11, 0)).code()
}

/// Each plan has the refusal that it has to have, or none.
fn read_as_stated(readings: Vec<Reading>, numbers: &[usize]) {
    let mut tally = Tally::default();
    for (file, expected) in readings {
        assert_eq!(ffi::check(&file, &[]), answer(expected), "{file:x?}");
        same_reading(&file, &mut tally);
    }
    tally.seen(numbers.iter().copied());
}

/// The sheet that the proved Build writes.
fn proved_sheet(file: &[u8]) -> Vec<u8> {
    let length = layout_of(&read(file)).length();
    proved_build(file, length, 107).expect("a sheet")
}

#[test]
fn refused_plans() {
    let mut tally = Tally::default();
    for (text, number, place) in JOINT_FAULTS {
        let file = hex(text);
        let expected = Refusal::new(number, place).code();
        assert_eq!(ffi::check(&file, &[]), expected, "{text}");
        assert_eq!(ffi::build(&file, &mut []), expected, "{text}");
        assert_eq!(ffi::list(&file, &[], &mut []), expected, "{text}");
        assert!(proved_build(&file, 3000, 109).is_none());
        same_reading(&file, &mut tally);
    }
    tally.seen([1, 2, 4, 5, 6, 8, 9, 17].into_iter());
}

#[test]
fn accepted_plans() {
    for (text, total) in JOINT_ACCEPTED {
        let file = hex(text);
        same_sheets(&file, 1, 113);
        assert_eq!(u32::from(proved_sheet(&file)[3]), total, "{text}");
    }
}

#[test]
fn joints_below_forty_at_each_place() {
    for joint in 0..=255 {
        for other in [0, 20, 39] {
            let accepted = joint < 40 && joint != other;
            for file in [one_span(joint, other), one_span(other, joint)] {
                let verdict = ffi::check(&file, &[]);
                assert_eq!(verdict == answer(None), accepted, "{joint} {other}");
            }
        }
    }
}

#[test]
fn every_two_bytes_as_joints() {
    read_as_stated(every_pair(), &[5, 8, 11]);
}

#[test]
fn the_first_of_two_spans_at_fault() {
    read_as_stated(two_spans(), &[5, 6, 8, 11]);
}

#[test]
fn instruments_are_bounded_by_m_alone() {
    read_as_stated(every_instrument(), &[5, 8, 11]);
}

#[test]
fn spans_out_of_place_and_cut_short() {
    read_as_stated(out_of_place_or_cut(), &[2, 4]);
}

#[test]
fn what_follows_does_not_matter() {
    read_as_stated(every_byte_after(), &[5, 9]);
}

#[test]
fn one_span_of_the_longest_plan_of_loops() {
    read_as_stated(one_of_many(), &[5, 8, 11]);
}

#[test]
fn every_byte_of_plans_with_the_last_joints() {
    let mut tally = Tally::default();
    let mut plan = PlanWriter::start(64);
    plan.loops(9).span(0, 39, 0).span(63, 38, 39);
    plan.span(40, 0, 38).loops(1).span(40, 39, 38);
    every_byte_of_plan(&plan.end(), &mut tally);
    tally.seen([1, 2, 3, 4, 5, 6, 8, 9, 11].into_iter());
}

#[test]
fn every_two_of_the_forty_joints() {
    for a in 0..40 {
        for b in (0..40).filter(|&b| b != a) {
            let mut plan = PlanWriter::start(3);
            plan.loops(9).span(0, a, b).span(1, b, a);
            let file = plan.span(2, a, (a + 1) % 40).end();
            same_sheets(&file, 0, a ^ b);
            let expected = if (a + 1) % 40 == b { 1 } else { 2 };
            assert_eq!(proved_sheet(&file)[3], expected, "{a} {b}");
        }
    }
}

/// Plans with joints of all sorts against a reading of their SPANs alone.
#[test]
fn random_joints() {
    let mut random = Random::new(1021);
    let mut tally = Tally::default();
    for round in 0..cases() {
        let most = if round % 16 == 0 { 64 } else { 6 };
        let file = with_any_joints(&mut random, most, 4);
        let expected = answer(first_fault(&file));
        assert_eq!(ffi::check(&file, &[]), expected, "{file:x?}");
        same_reading(&file, &mut tally);
        if expected == answer(None) {
            same_sheets(&file, random.below(3), random.byte());
        }
    }
    tally.seen([5, 6, 8, 11].into_iter());
}

#[test]
fn damaged_plans_with_any_joints() {
    let mut random = Random::new(1022);
    let mut tally = Tally::default();
    let mut last = one_span(39, 38);
    for _ in 0..cases() / 2 {
        let file = with_any_joints(&mut random, 6, 12);
        same_reading(&damage(&mut random, &file, &last), &mut tally);
        same_reading(&damage_commands(&mut random, &file), &mut tally);
        last = file;
    }
    tally.seen((1..=9).chain([11, 17]));
}

/// The sheet of a plan is judged alike by the plan with one joint changed.
#[test]
fn sheets_from_before_a_joint_was_changed() {
    let mut random = Random::new(1023);
    let mut tally = Tally::default();
    for round in 0..cases() / 2 {
        let most = if round % 50 == 0 { 64 } else { 6 };
        let m = random.between(1, most);
        let file = without_glue(&any_plan(&mut random, m, 4));
        let sheet = proved_sheet(&file);
        if let Some(other) = damage_joint(&mut random, &file) {
            tally.count(same_verdict(&other, &sheet));
            if plan::read(&other).is_ok() {
                same_sheets(&other, 0, random.byte());
                damaged_fields_of(&mut random, &other, &mut tally);
            }
        }
    }
    tally.seen([0, 5, 8, 13, 14, 15].into_iter());
}
