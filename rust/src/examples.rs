//! Named example plans: plan A and seven others of growing size. In each of those the
//! greatest total alone would leave some team below its share.

use crate::writer::{plan_a, PlanWriter};

/// A plan with the name of its file.
pub struct Example {
    pub name: &'static str,
    pub plan: Vec<u8>,
}

/// All examples, by growing size.
pub fn all() -> Vec<Example> {
    let example = |name, plan| Example { name, plan };
    vec![
        example("plan-a", plan_a()),
        example("footbridge", footbridge()),
        example("arch", arch()),
        example("aqueduct", aqueduct()),
        example("suspension", suspension()),
        example("viaduct", viaduct()),
        example("tunnel", tunnel()),
        example("valley", valley()),
    ]
}

/// Three teams, ten instruments: a survey that logs anything, a truss whose members are
/// measured by strain gauges 0 to 6, and a logger with two strain and two tilt channels.
fn footbridge() -> Vec<u8> {
    let mut plan = PlanWriter::start(10);
    survey(&mut plan, 0..10, 10);
    plan.loops(8);
    let members = [(0, 1), (1, 2), (0, 2), (2, 3), (1, 3), (3, 4), (2, 4)];
    for (item, (a, b)) in members.into_iter().enumerate() {
        plan.span(item, a, b);
    }
    plan.caps(4).class(0, 2).class(1, 2);
    for item in 0..10 {
        plan.put(item, u8::from(item >= 7));
    }
    plan.end()
}

/// Three teams, 15 instruments of an arch bridge: 0 to 6 measure strain, 7 to 11 tilt, 12 to 14
/// water. The strain gauge 6 is on the shelf until day 14. A survey that logs anything takes all
/// days; the water gauge 14 is glued to it. The rib is measured by the strain gauges until day
/// 14; gauge 0 is glued there, on the joints of gauge 6. The springings have two mounts for
/// tilt, of which the meters 9 to 11 fit the first alone, and two for water; the tilt meter 7 is
/// glued there and can have either of the mounts for tilt.
fn arch() -> Vec<u8> {
    let mut plan = PlanWriter::start(15);
    plan.shelf(6, 0, 14);
    survey(&mut plan, 0..15, 15);
    plan.glue(14);
    plan.loops(8).glue(0);
    let members = [(0, 1), (1, 2), (0, 2), (2, 3), (1, 3), (3, 4), (1, 0)];
    for (item, (a, b)) in members.into_iter().enumerate() {
        plan.span(item, a, b);
    }
    plan.days(0, 14);
    let springings = [(7..9, 0b0011), (9..12, 0b0001), (12..15, 0b1100)];
    fitter(&mut plan, &springings, 4);
    plan.glue(7);
    plan.end()
}

/// Three teams, 14 instruments of an aqueduct, in a term of 28 days: 0 to 6 measure strain, 7
/// to 10 tilt, 11 to 13 water. In the week from day 7 to day 14 some are at calibration: the
/// strain gauge 6 and the tilt meter 10 are on the shelf before it, the water gauges 12 and 13
/// after it. A survey that logs anything takes all days. The arch is measured by the strain
/// gauges from day 0 to day 7, and the piers from day 14 to day 28, on two mounts for tilt and
/// two for water.
fn aqueduct() -> Vec<u8> {
    let mut plan = PlanWriter::start(14);
    for (item, from, to) in [(6, 0, 7), (10, 0, 7), (12, 14, 28), (13, 14, 28)] {
        plan.shelf(item, from, to);
    }
    survey(&mut plan, 0..14, 14);
    ring(&mut plan, 0..7, 4, 1, 7);
    plan.days(0, 7);
    fitter(&mut plan, &[(7..11, 0b0011), (11..14, 0b1100)], 4);
    plan.days(14, 28);
    plan.end()
}

/// Three teams, 14 instruments of a suspension bridge: 0 to 5 measure tilt, 6 to 9
/// acceleration, 10 to 13 the tension of hangers. A logger has three channels for each sort.
/// The towers have two mounts on saddles, two on legs and one on the cross-beam; the hangers
/// have three clamps for tension cells and two for accelerometers.
fn suspension() -> Vec<u8> {
    let mut plan = PlanWriter::start(14);
    logger(&mut plan, &[(0..6, 3), (6..10, 3), (10..14, 3)], 9);
    let towers = [(0..4, 0b00011), (4..6, 0b01100), (6..10, 0b10000)];
    fitter(&mut plan, &towers, 6);
    let hangers = [
        (6..10, 0b11000),
        (10..11, 0b00011),
        (11..12, 0b00110),
        (12..14, 0b00100),
    ];
    fitter(&mut plan, &hangers, 4);
    plan.end()
}

/// Five teams, 18 instruments of a viaduct: 0 to 7 measure strain, 8 to 12 tilt, 13 to 17
/// acceleration. A survey logs anything, the truss is measured by the strain gauges, and the
/// piers have three mounts for tilt and two for acceleration. The teams of the bearings and
/// of the deck are away.
fn viaduct() -> Vec<u8> {
    let mut plan = PlanWriter::start(18);
    survey(&mut plan, 0..18, 18);
    ring(&mut plan, 0..8, 5, 1, 8);
    fitter(&mut plan, &[(8..13, 0b0011), (13..18, 0b1100)], 0);
    logger(&mut plan, &[(0..8, 4), (13..18, 2)], 0);
    fitter(&mut plan, &[(8..13, 0b00111), (13..18, 0b11000)], 5);
    plan.end()
}

/// Six teams, 28 instruments: 0 to 15 measure lengths, 16 to 23 tilt, 24 to 27 water.
fn tunnel() -> Vec<u8> {
    let mut plan = PlanWriter::start(28);
    survey(&mut plan, 0..28, 28);
    ring(&mut plan, 0..16, 5, 1, 12);
    ring(&mut plan, 0..16, 6, 2, 12);
    logger(&mut plan, &[(0..16, 2), (16..24, 2), (24..28, 1)], 5);
    logger(&mut plan, &[(16..24, 3), (24..28, 2)], 4);
    ring(&mut plan, 0..24, 8, 3, 6);
    plan.end()
}

/// Twelve teams, 64 instruments: 0 to 39 measure lengths, 40 to 51 tilt, 52 to 59 water,
/// 60 to 63 wind. Two surveys log much, five teams watch networks of joints, five log
/// classes.
fn valley() -> Vec<u8> {
    let mut plan = PlanWriter::start(64);
    survey(&mut plan, 0..64, 64);
    survey(&mut plan, 20..64, 30);
    for (joints, stride) in [(6, 1), (7, 2), (9, 4), (12, 5), (16, 3)] {
        ring(&mut plan, 0..40, joints, stride, 2 * joints as u8);
    }
    logger(&mut plan, &[(0..20, 2), (20..40, 2), (40..52, 2)], 6);
    logger(&mut plan, &[(40..52, 3), (52..60, 2), (60..64, 1)], 5);
    logger(&mut plan, &[(0..40, 3), (52..60, 1)], 8);
    logger(&mut plan, &[(30..44, 4), (44..58, 4), (58..64, 2)], 9);
    logger(&mut plan, &[(60..64, 2), (0..10, 1), (10..30, 2)], 4);
    plan.end()
}

/// A CAPS team that takes any of these instruments, up to its channels.
fn survey(plan: &mut PlanWriter, items: std::ops::Range<usize>, channels: u8) {
    logger(plan, &[(items, channels)], channels);
}

/// A CAPS team with a class for each stretch of instruments.
fn logger(plan: &mut PlanWriter, classes: &[(std::ops::Range<usize>, u8)], channels: u8) {
    plan.caps(channels);
    for (class, (items, cap)) in classes.iter().enumerate() {
        plan.class(class as u8, *cap);
        for item in items.clone() {
            plan.put(item, class as u8);
        }
    }
}

/// A LOOPS team: instruments laid around a ring of joints, each round reaching further.
fn ring(
    plan: &mut PlanWriter,
    items: std::ops::Range<usize>,
    joints: usize,
    stride: usize,
    channels: u8,
) {
    plan.loops(channels);
    for item in items {
        let from = item * stride % joints;
        let reach = 1 + item / joints % (joints - 1);
        plan.span(item, from as u8, ((from + reach) % joints) as u8);
    }
}

/// A MOUNTS team with the mounts that each stretch of instruments fits.
fn fitter(plan: &mut PlanWriter, mounts: &[(std::ops::Range<usize>, u32)], channels: u8) {
    plan.mounts(channels);
    for (items, mounts) in mounts {
        for item in items.clone() {
            plan.fit(item, *mounts);
        }
    }
}
