//! Families of plans for the benchmark.

use crate::glue::with_counts;
use crate::plan::JOINTS;
use crate::random::Random;
use crate::sample::{all_kinds_plan, caps_and_loops_plan, two_joints};
use crate::writer::PlanWriter;

/// A family of plans for the benchmark: a name and a maker.
pub struct Family {
    pub name: &'static str,
    pub plan: fn(&mut Random, usize, usize) -> Vec<u8>,
}

/// The families of the benchmark.
pub const FAMILIES: [Family; 15] = [
    Family {
        name: "dense loops, 6 joints",
        plan: |random, m, n| loops_on(random, m, n, 6),
    },
    Family {
        name: "loops, 16 joints",
        plan: |random, m, n| loops_on(random, m, n, 16),
    },
    Family {
        name: "sparse loops, 40 joints",
        plan: |random, m, n| loops_on(random, m, n, JOINTS),
    },
    Family {
        name: "caps",
        plan: all_caps,
    },
    Family {
        name: "mixed",
        plan: caps_and_loops_plan,
    },
    Family {
        name: "all teams alike",
        plan: all_alike,
    },
    Family {
        name: "long exchange chains",
        plan: |_, m, n| row_of_places(&(0..m).rev().collect::<Vec<_>>(), n),
    },
    Family {
        name: "chains, shuffled",
        plan: shuffled_chains,
    },
    Family {
        name: "one team takes all",
        plan: one_takes_all,
    },
    Family {
        name: "shares use up all",
        plan: tight_shares,
    },
    Family {
        name: "mounts",
        plan: all_mounts,
    },
    Family {
        name: "all three kinds",
        plan: all_kinds_plan,
    },
    Family {
        name: "half the teams away",
        plan: half_away,
    },
    Family {
        name: "with loan days",
        plan: loan_days,
    },
    Family {
        name: "glued gauges",
        plan: glued_gauges,
    },
];

/// LOOPS teams only, on this many joints, channels never short.
fn loops_on(random: &mut Random, instruments: usize, teams: usize, joints: usize) -> Vec<u8> {
    let mut plan = PlanWriter::start(instruments);
    for _ in 0..teams {
        plan.loops(255);
        spans(random, &mut plan, instruments, joints);
    }
    plan.end()
}

/// A SPAN for every instrument, on this many joints.
fn spans(random: &mut Random, plan: &mut PlanWriter, instruments: usize, joints: usize) {
    for item in 0..instruments {
        let (a, b) = two_joints(random, joints);
        plan.span(item, a, b);
    }
}

/// CAPS teams only.
fn all_caps(random: &mut Random, instruments: usize, teams: usize) -> Vec<u8> {
    let mut plan = PlanWriter::start(instruments);
    for _ in 0..teams {
        plan.caps(random.between(4, 12) as u8);
        puts(random, &mut plan, instruments);
    }
    plan.end()
}

/// Eight classes of small caps, and a PUT for every instrument.
fn puts(random: &mut Random, plan: &mut PlanWriter, instruments: usize) {
    for class in 0..8 {
        plan.class(class, random.between(0, 2) as u8);
    }
    for item in 0..instruments {
        plan.put(item, random.below(8) as u8);
    }
}

/// One random graph that every team shares.
fn all_alike(random: &mut Random, instruments: usize, teams: usize) -> Vec<u8> {
    let seed = random.word();
    let mut plan = PlanWriter::start(instruments);
    for _ in 0..teams {
        let mut own = Random::new(seed);
        plan.loops(255);
        spans(&mut own, &mut plan, instruments, 8);
    }
    plan.end()
}

/// Places in a row, place k taking one of the neighbours k and k + 1 and belonging to
/// team k mod n: a late instrument moves all others along the row. Even teams are CAPS
/// with a class for each place, odd ones LOOPS with a pair of joints for each.
fn row_of_places(order: &[usize], teams: usize) -> Vec<u8> {
    let width = teams.min(2);
    let mut plan = PlanWriter::start(order.len());
    for team in 0..teams {
        let even = team & 1 == 0;
        if even {
            plan.caps(255);
        } else {
            plan.loops(255);
        }
        let places = (team..order.len()).step_by(teams);
        for (class, place) in places.take(16).enumerate() {
            let neighbours = order.iter().skip(place).take(width);
            one_place(&mut plan, even, class as u8, neighbours);
        }
    }
    plan.end()
}

/// The row with its instruments in a random order.
fn shuffled_chains(random: &mut Random, instruments: usize, teams: usize) -> Vec<u8> {
    let mut order: Vec<usize> = (0..instruments).collect();
    random.shuffle(&mut order);
    row_of_places(&order, teams)
}

/// A class of cap 1, or a pair of joints: a place that takes one of these instruments.
fn one_place<'a>(
    plan: &mut PlanWriter,
    caps: bool,
    class: u8,
    items: impl Iterator<Item = &'a usize>,
) {
    if caps {
        plan.class(class, 1);
    }
    for &item in items {
        if caps {
            plan.put(item, class);
        } else {
            plan.span(item, 2 * class, 2 * class + 1);
        }
    }
}

/// The first team takes anything, the others are choosy: the greatest total alone
/// leaves them short.
fn one_takes_all(random: &mut Random, instruments: usize, teams: usize) -> Vec<u8> {
    let mut plan = PlanWriter::start(instruments);
    plan.caps(255).class(0, 255);
    for item in 0..instruments {
        plan.put(item, 0);
    }
    for _ in 1..teams {
        plan.loops(255);
        spans(random, &mut plan, instruments, 7);
    }
    plan.end()
}

/// The shares add up to all usable instruments. The first team takes any of them, each
/// other one at most one of each of its classes (or pairs of joints), dealt at random.
fn tight_shares(random: &mut Random, instruments: usize, teams: usize) -> Vec<u8> {
    let classes = (instruments / teams).min(16);
    let mut usable: Vec<usize> = (0..classes * teams).collect();
    let mut plan = PlanWriter::start(instruments);
    plan.caps(255).class(0, 255);
    for &item in &usable {
        plan.put(item, 0);
    }
    for team in 1..teams {
        let even = team & 1 == 0;
        if even {
            plan.caps(255);
        } else {
            plan.loops(255);
        }
        random.shuffle(&mut usable);
        for (class, members) in usable.chunks(teams).enumerate() {
            one_place(&mut plan, even, class as u8, members.iter());
        }
    }
    plan.end()
}

/// MOUNTS teams only, channels never short.
fn all_mounts(random: &mut Random, instruments: usize, teams: usize) -> Vec<u8> {
    let mut plan = PlanWriter::start(instruments);
    for _ in 0..teams {
        plan.mounts(255);
        fits(random, &mut plan, instruments);
    }
    plan.end()
}

/// A FIT for every instrument: one to three of eight mounts, so that many a set has to be
/// matched anew.
fn fits(random: &mut Random, plan: &mut PlanWriter, instruments: usize) {
    for item in 0..instruments {
        let mounts = (0..3).fold(0, |sum, _| sum | 1 << random.below(8));
        plan.fit(item, mounts);
    }
}

/// Teams of the three kinds in turn, channels never short: the odd ones are away.
fn half_away(random: &mut Random, instruments: usize, teams: usize) -> Vec<u8> {
    let mut plan = PlanWriter::start(instruments);
    for team in 0..teams {
        let channels = if team & 1 == 0 { 255 } else { 0 };
        match team % 3 {
            0 => puts(random, plan.caps(channels), instruments),
            1 => spans(random, plan.loops(channels), instruments, 16),
            _ => fits(random, plan.mounts(channels), instruments),
        }
    }
    plan.end()
}

/// Teams of the three kinds in turn, channels never short, in a term of 14 days. Shelf days
/// and teams' days lack a few at either end, so that a team can have about half of the
/// instruments.
fn loan_days(random: &mut Random, instruments: usize, teams: usize) -> Vec<u8> {
    let mut plan = PlanWriter::start(instruments);
    for item in 0..instruments {
        let (from, to) = (random.below(3), random.between(12, 14));
        plan.shelf(item, from as u16, to as u16);
    }
    for team in 0..teams {
        match team % 3 {
            0 => puts(random, plan.caps(255), instruments),
            1 => spans(random, plan.loops(255), instruments, 16),
            _ => fits(random, plan.mounts(255), instruments),
        }
        let (from, to) = (random.below(4), random.between(11, 14));
        plan.days(from as u16, to as u16);
    }
    plan.end()
}

/// Teams of the three kinds in turn, channels never short, with up to two instruments glued to
/// each.
fn glued_gauges(random: &mut Random, instruments: usize, teams: usize) -> Vec<u8> {
    let mut plan = PlanWriter::start(instruments);
    for team in 0..teams {
        match team % 3 {
            0 => puts(random, plan.caps(255), instruments),
            1 => spans(random, plan.loops(255), instruments, 16),
            _ => fits(random, plan.mounts(255), instruments),
        }
    }
    with_counts(random, &plan.end(), &[2])
}
