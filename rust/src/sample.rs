//! Random plans with teams of every sort.

use crate::bits;
use crate::calendar::with_days;
use crate::glue::{with_any_glue, with_glue};
use crate::plan::JOINTS;
use crate::random::Random;
use crate::writer::PlanWriter;

/// The bytes that open a CAPS, a LOOPS and a MOUNTS team.
const ALL_KINDS: [u8; 3] = [0x02, 0x03, 0x08];

/// A random plan of this size, its teams of every kind and sort, present and away. Half of
/// the plans have loan days, half have glued instruments.
pub fn any_plan(random: &mut Random, instruments: usize, teams: usize) -> Vec<u8> {
    let plan = plan_with_leave(random, instruments, teams, &ALL_KINDS);
    let plan = half_with_days(random, plan);
    half_with_glue(random, plan)
}

/// A random plan with MOUNTS teams, present and away. Half of the plans have loan days, half
/// have glued instruments.
pub fn mounts_plan(random: &mut Random, instruments: usize, teams: usize) -> Vec<u8> {
    let plan = plan_with_leave(random, instruments, teams, &[0x08]);
    let plan = half_with_days(random, plan);
    half_with_glue(random, plan)
}

/// A random plan with loan days, its teams of every kind and sort, present and away.
pub fn days_plan(random: &mut Random, instruments: usize, teams: usize) -> Vec<u8> {
    let plan = plan_with_leave(random, instruments, teams, &ALL_KINDS);
    with_days(random, &plan)
}

/// A random plan with glued instruments, its teams of every kind and sort, present and away.
/// Half of the plans have loan days.
pub fn glue_plan(random: &mut Random, instruments: usize, teams: usize) -> Vec<u8> {
    let plan = plan_with_leave(random, instruments, teams, &ALL_KINDS);
    let plan = half_with_days(random, plan);
    with_glue(random, &plan)
}

/// The same with instruments glued to any team, so that many of the plans are refused.
pub fn any_glue_plan(random: &mut Random, instruments: usize, teams: usize) -> Vec<u8> {
    let plan = plan_with_leave(random, instruments, teams, &ALL_KINDS);
    let plan = half_with_days(random, plan);
    with_any_glue(random, &plan)
}

/// A random plan with teams of every kind for the benchmark, few of them away.
pub fn all_kinds_plan(random: &mut Random, instruments: usize, teams: usize) -> Vec<u8> {
    plan_of(random, instruments, teams, &ALL_KINDS, |_, drawn| drawn)
}

/// A random plan with CAPS and LOOPS teams for the benchmark, few of them away.
pub fn caps_and_loops_plan(random: &mut Random, instruments: usize, teams: usize) -> Vec<u8> {
    plan_of(random, instruments, teams, &[0x02, 0x03], |_, drawn| drawn)
}

/// Gives half of the plans loan days.
fn half_with_days(random: &mut Random, plan: Vec<u8>) -> Vec<u8> {
    if random.chance(1, 2) {
        with_days(random, &plan)
    } else {
        plan
    }
}

/// Gives half of the plans glued instruments.
fn half_with_glue(random: &mut Random, plan: Vec<u8>) -> Vec<u8> {
    if random.chance(1, 2) {
        with_glue(random, &plan)
    } else {
        plan
    }
}

/// A random plan whose teams are opened by these bytes. In half of the plans all teams are
/// present, in most others a quarter is away, now and then all are.
fn plan_with_leave(
    random: &mut Random,
    instruments: usize,
    teams: usize,
    openings: &[u8],
) -> Vec<u8> {
    let away = random.pick(&[0, 0, 0, 0, 0, 0, 0, 0, 1, 1, 1, 1, 1, 1, 1, 4]);
    plan_of(random, instruments, teams, openings, |random, drawn| {
        if random.chance(away, 4) {
            0
        } else {
            drawn.max(1)
        }
    })
}

/// A random plan whose teams are opened by these bytes and have the channels that `leave`
/// makes of the drawn ones.
fn plan_of(
    random: &mut Random,
    instruments: usize,
    teams: usize,
    openings: &[u8],
    leave: impl Fn(&mut Random, u8) -> u8,
) -> Vec<u8> {
    let mut plan = PlanWriter::start(instruments);
    let alike = random.chance(1, 4).then(|| random.word());
    for _ in 0..teams {
        let mut own = Random::new(alike.unwrap_or_else(|| random.word()));
        let channels = leave(random, any_channels(&mut own, instruments));
        let (opening, commands) = any_team(&mut own, instruments, openings);
        plan.add(&[opening, channels]).add(&commands);
    }
    plan.end()
}

/// The channels of a random team.
fn any_channels(random: &mut Random, instruments: usize) -> u8 {
    let few = random.below(instruments / 2 + 2) as u8;
    random.pick(&[255, 255, 64, few, few, 0])
}

/// The opening byte of a random team and its commands in a random order.
fn any_team(random: &mut Random, instruments: usize, openings: &[u8]) -> (u8, Vec<u8>) {
    let rate = random.pick(&[4, 4, 3, 2]);
    let opening = random.pick(openings);
    let mut commands = match opening {
        0x02 => caps_commands(random, instruments, rate),
        0x03 => loops_commands(random, instruments, rate),
        _ => mounts_commands(random, instruments, rate),
    };
    random.shuffle(&mut commands);
    (opening, commands.concat())
}

/// CLASS and PUT commands; `rate` of 4 instruments are put.
fn caps_commands(random: &mut Random, instruments: usize, rate: usize) -> Vec<Vec<u8>> {
    let classes = random.between(1, 16);
    let most = random.pick(&[1, 2, 4, 8]);
    let mut commands = Vec::new();
    for class in 0..classes {
        if random.chance(9, 10) {
            commands.push(vec![0x04, class as u8, random.between(0, most) as u8]);
        }
    }
    for item in 0..instruments {
        if random.chance(rate, 4) {
            commands.push(vec![0x05, item as u8, random.below(classes) as u8]);
        }
    }
    commands
}

/// SPAN commands; `rate` of 4 instruments have one.
fn loops_commands(random: &mut Random, instruments: usize, rate: usize) -> Vec<Vec<u8>> {
    let few = random.between(2, 6);
    let joints = random.pick(&[2, few, 8, 16, JOINTS]);
    let mut commands = Vec::new();
    for item in 0..instruments {
        if random.chance(rate, 4) {
            let (a, b) = two_joints(random, joints);
            commands.push(vec![0x06, item as u8, a, b]);
        }
    }
    commands
}

/// FIT commands; `rate` of 4 instruments have one.
fn mounts_commands(random: &mut Random, instruments: usize, rate: usize) -> Vec<Vec<u8>> {
    let few = random.between(1, 6);
    let mounts = random.pick(&[few, few, 8, 16, 32]);
    let sort = random.below(5);
    let mut commands = Vec::new();
    for item in 0..instruments {
        if random.chance(rate, 4) {
            let [a, b, c, d] = any_mounts(random, mounts, sort).to_le_bytes();
            commands.push(vec![0x09, item as u8, a, b, c, d]);
        }
    }
    commands
}

/// Some of the first `mounts` mounts: sparse for the sorts 0 to 2, dense for the others; now
/// and then none, or all 32 bits.
fn any_mounts(random: &mut Random, mounts: usize, sort: usize) -> u32 {
    if random.chance(1, 16) {
        return random.pick(&[0, 0, u32::MAX]);
    }
    if sort > 2 {
        return (random.word() >> 32) as u32 & bits::first(mounts) as u32;
    }
    let first = 1 << random.below(mounts);
    (0..sort).fold(first, |sum, _| sum | 1 << random.below(mounts))
}

/// Two different joints below `joints`.
pub fn two_joints(random: &mut Random, joints: usize) -> (u8, u8) {
    let a = random.below(joints);
    let b = (a + 1 + random.below(joints - 1)) % joints;
    (a as u8, b as u8)
}
