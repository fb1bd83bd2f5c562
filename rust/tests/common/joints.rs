//! Note 5: plans with joints around the last one, the refusals that their SPANs meet, and ways
//! to change the joints of a plan.

use super::glue::without_glue;
use super::{hex, some_plan};
use pool::plan::commands;
use pool::random::Random;
use pool::refusal::Refusal;
use pool::writer::PlanWriter;

/// The number of joints as note 5 states it.
pub const FORTY: u8 = 40;

/// Joints at the edges: the first ones, those around the last, and those allowed before.
pub const EDGES: [u8; 12] = [0, 1, 38, 39, 40, 41, 62, 63, 64, 65, 254, 255];

/// Faulty plans with SPAN: the bytes, the refusal's number and its place.
pub const JOINT_FAULTS: [(&str, u8, usize); 78] = [
    // 1: before START.
    ("06 00 28 01 07", 1, 0),
    // 2: operands cut short, also where the instrument or the first joint is out of range, and
    // where SPAN is out of its place; no END.
    ("01 01 02 03 09 06", 2, 5),
    ("01 01 02 03 09 06 00", 2, 5),
    ("01 01 02 03 09 06 02", 2, 5),
    ("01 01 02 03 09 06 00 27", 2, 5),
    ("01 01 02 03 09 06 00 28", 2, 5),
    ("01 01 02 03 09 06 00 FF", 2, 5),
    ("01 01 02 03 09 06 02 28", 2, 5),
    ("01 01 02 02 09 06 00 28", 2, 5),
    ("01 01 02 08 09 06 00 28", 2, 5),
    ("01 01 02 06 00 28", 2, 3),
    ("01 01 02 03 09 06 00 01 02 06 00 28", 2, 9),
    ("01 01 02 03 09 06 00 27 26", 2, 9),
    ("01 01 02 03 09 06 00 00 27", 2, 9),
    // 4: before any team, and in a CAPS or MOUNTS team, also after a LOOPS team.
    ("01 01 02 06 00 28 01 07", 4, 3),
    ("01 01 02 06 00 01 28 03 09 07", 4, 3),
    ("01 01 02 06 02 28 28 03 09 07", 4, 3),
    ("01 01 02 02 09 06 00 28 01 07", 4, 5),
    ("01 01 02 02 09 06 00 01 28 07", 4, 5),
    ("01 01 02 02 09 06 02 3F 3F 07", 4, 5),
    ("01 01 02 08 09 06 00 28 01 07", 4, 5),
    ("01 01 02 08 09 06 00 01 FF 07", 4, 5),
    ("01 01 02 08 09 06 00 40 40 07", 4, 5),
    ("01 01 02 03 09 02 09 06 00 28 01 07", 4, 7),
    ("01 01 02 03 09 06 00 27 01 08 09 06 00 28 01 07", 4, 11),
    ("01 01 02 0A 01 00 00 07 00 06 00 28 01 03 09 07", 4, 9),
    // 5: the first joint.
    ("01 01 02 03 09 06 00 28 01 07", 5, 5),
    ("01 01 02 03 09 06 00 28 27 07", 5, 5),
    ("01 01 02 03 09 06 00 29 01 07", 5, 5),
    ("01 01 02 03 09 06 00 3F 01 07", 5, 5),
    ("01 01 02 03 09 06 00 40 01 07", 5, 5),
    ("01 01 02 03 09 06 00 FF 01 07", 5, 5),
    // The second joint.
    ("01 01 02 03 09 06 00 01 28 07", 5, 5),
    ("01 01 02 03 09 06 00 27 28 07", 5, 5),
    ("01 01 02 03 09 06 00 01 29 07", 5, 5),
    ("01 01 02 03 09 06 00 01 3F 07", 5, 5),
    ("01 01 02 03 09 06 00 01 40 07", 5, 5),
    ("01 01 02 03 09 06 00 01 FF 07", 5, 5),
    // Both, also equal ones, which are 8 below 28 alone.
    ("01 01 02 03 09 06 00 28 29 07", 5, 5),
    ("01 01 02 03 09 06 00 3F 28 07", 5, 5),
    ("01 01 02 03 09 06 00 28 28 07", 5, 5),
    ("01 01 02 03 09 06 00 3F 3F 07", 5, 5),
    ("01 01 02 03 09 06 00 40 40 07", 5, 5),
    ("01 01 02 03 09 06 00 FF FF 07", 5, 5),
    // An instrument not below m, also with equal joints; m is no bound for joints, nor is 40
    // for instruments.
    ("01 01 02 03 09 06 02 27 01 07", 5, 5),
    ("01 01 02 03 09 06 02 28 01 07", 5, 5),
    ("01 01 02 03 09 06 02 01 01 07", 5, 5),
    ("01 01 02 03 09 06 FF 28 28 07", 5, 5),
    ("01 01 00 03 09 06 00 27 26 07", 5, 5),
    ("01 01 28 03 09 06 28 27 26 07", 5, 5),
    ("01 01 40 03 09 06 40 27 26 07", 5, 5),
    ("01 01 40 03 09 06 3F 28 26 07", 5, 5),
    ("01 01 40 03 09 06 3F 00 3F 07", 5, 5),
    // A second SPAN of an instrument, which is 6 otherwise.
    ("01 01 02 03 09 06 00 01 02 06 00 28 02 07", 5, 9),
    ("01 01 02 03 09 06 00 01 02 06 00 02 3F 07", 5, 9),
    ("01 01 02 03 09 06 00 01 02 06 00 28 28 07", 5, 9),
    // Another instrument, another team, a team that is away, and after SHELF and DAYS.
    ("01 01 02 03 09 06 00 27 26 06 01 28 27 07", 5, 9),
    ("01 01 02 03 09 06 00 27 26 03 09 06 00 27 28 07", 5, 11),
    ("01 01 02 03 00 06 00 28 01 07", 5, 5),
    (
        "01 01 02 0A 01 00 00 07 00 03 09 0B 00 00 07 00 06 01 28 05 07",
        5,
        16,
    ),
    // The bytes of END and of other commands as joints.
    ("01 01 02 03 09 06 00 28 07", 5, 5),
    ("01 01 02 03 09 06 00 07 28", 5, 5),
    ("01 01 02 03 09 06 00 28 06 00 01 02 07", 5, 5),
    // What comes later is not reported first: no END, bytes after END, other faults.
    ("01 01 02 03 09 06 00 28 01", 5, 5),
    ("01 01 02 03 09 06 00 28 01 07 07", 5, 5),
    ("01 01 02 03 09 06 00 01 3F 07 00 FF", 5, 5),
    ("01 01 02 03 09 06 00 28 01 0D", 5, 5),
    ("01 01 02 03 09 06 00 28 01 06 00", 5, 5),
    ("01 01 02 03 09 06 00 28 01 06 01 03 03 07", 5, 5),
    ("01 01 02 03 09 06 00 28 01 06 00 01 02 07", 5, 5),
    ("01 01 02 03 09 06 00 28 01 04 00 01 07", 5, 5),
    // Nor is a joint reported where something before it is at fault.
    ("01 01 02 03 09 06 00 01 01 06 01 28 01 07", 8, 5),
    ("01 01 02 03 09 0B 07 00 07 00 06 00 28 01 07", 17, 5),
    ("01 01 02 03 09 06 00 27 01 07 06 01 28 01 07", 9, 10),
    ("01 01 02 03 09 06 00 27 01 07 28", 9, 10),
    // 8: equal joints, also in a second SPAN; 6: a second SPAN.
    ("01 01 02 03 09 06 00 27 27 07", 8, 5),
    ("01 01 02 03 09 06 00 27 00 06 00 27 27 07", 8, 9),
    ("01 01 02 03 09 06 00 27 00 06 00 00 27 07", 6, 9),
];

/// Plans with SPAN that are accepted, and their greatest totals.
pub const JOINT_ACCEPTED: [(&str, u32); 11] = [
    // The last joint first and second, with the first joint and with the last but one.
    ("01 01 02 03 09 06 00 27 00 07", 1),
    ("01 01 02 03 09 06 00 00 27 07", 1),
    ("01 01 02 03 09 06 01 27 26 07", 1),
    ("01 01 02 03 09 06 01 26 27 07", 1),
    // Two gauges that close a loop, and two that do not.
    ("01 01 02 03 09 06 00 27 00 06 01 00 27 07", 1),
    ("01 01 02 03 09 06 00 27 00 06 01 27 26 07", 2),
    // The same joints in two teams, and in a team that is away.
    ("01 01 02 03 09 06 00 27 26 03 09 06 00 27 26 07", 1),
    ("01 01 02 03 00 06 00 27 26 07", 0),
    // Instruments from 40 on.
    ("01 01 29 03 09 06 28 27 00 07", 1),
    ("01 01 40 03 FF 06 3F 27 26 06 28 26 25 06 27 25 27 07", 2),
    // Only joints are bounded by 40: channels, classes' caps, days and mounts with more.
    (
        "01 01 29 0A 28 28 00 3F 00 02 28 04 00 40 05 28 00
         03 3F 06 28 27 00 0B 28 00 3F 00 08 40 09 28 28 3F 40 FF 07",
        1,
    ),
];

/// A plan, and the refusal of its reading; nothing where it is accepted.
pub type Reading = (Vec<u8>, Option<Refusal>);

/// What is wrong with a SPAN in its place whose instrument no SPAN before it names.
pub fn span_fault(instruments: u8, item: u8, a: u8, b: u8) -> Option<u8> {
    if item >= instruments || a >= FORTY || b >= FORTY {
        Some(5)
    } else {
        (a == b).then_some(8)
    }
}

/// The first SPAN at fault in a plan in which nothing else is.
pub fn first_fault(file: &[u8]) -> Option<Refusal> {
    let mut at = 0;
    let mut named = Vec::new();
    for command in commands(file) {
        if let [0x06, item, a, b] = command[..] {
            let twice = named.contains(&item).then_some(6);
            if let Some(number) = span_fault(file[2], item, a, b).or(twice) {
                return Some(Refusal::new(number, at));
            }
            named.push(item);
        } else if matches!(command[0], 0x02 | 0x03 | 0x08) {
            named.clear();
        }
        at += command.len();
    }
    None
}

/// A plan of two instruments and a LOOPS team with a SPAN for the first; it starts at 5.
pub fn one_span(a: u8, b: u8) -> Vec<u8> {
    PlanWriter::start(2).loops(9).span(0, a, b).end()
}

/// All pairs of these values.
fn pairs(values: &[u8]) -> Vec<(u8, u8)> {
    let firsts = values.iter();
    firsts
        .flat_map(|&a| values.iter().map(move |&b| (a, b)))
        .collect()
}

/// One SPAN with every two bytes as its joints.
pub fn every_pair() -> Vec<Reading> {
    let bytes: Vec<u8> = (0..=255).collect();
    let read = |(a, b)| {
        let fault = span_fault(2, 0, a, b);
        (one_span(a, b), fault.map(|number| Refusal::new(number, 5)))
    };
    pairs(&bytes).into_iter().map(read).collect()
}

/// Two SPANs with joints at the edges, for two instruments and for one.
pub fn two_spans() -> Vec<Reading> {
    let mut readings = Vec::new();
    for (a, b) in pairs(&EDGES) {
        for (c, d) in pairs(&EDGES) {
            for item in 0..2 {
                let mut plan = PlanWriter::start(2);
                let file = plan.loops(9).span(0, a, b).span(item.into(), c, d).end();
                let twice = (item == 0).then_some(6);
                let second = span_fault(2, item, c, d).or(twice);
                let second = second.map(|number| Refusal::new(number, 9));
                let first = span_fault(2, 0, a, b).map(|number| Refusal::new(number, 5));
                readings.push((file, first.or(second)));
            }
        }
    }
    readings
}

/// A SPAN for every byte as its instrument, among few and many, with joints at the edges.
pub fn every_instrument() -> Vec<Reading> {
    let mut readings = Vec::new();
    for count in [0, 1, 39, 40, 41, 63, 64] {
        for item in 0..=255 {
            for (a, b) in [(0, 39), (39, 0), (40, 0), (0, 40), (39, 39), (40, 40)] {
                let mut plan = PlanWriter::start(count.into());
                let file = plan.loops(9).span(item.into(), a, b).end();
                let fault = span_fault(count, item, a, b);
                readings.push((file, fault.map(|number| Refusal::new(number, 5))));
            }
        }
    }
    readings
}

/// A SPAN with every byte as a joint where none may stand: before any team, in a CAPS and in a
/// MOUNTS team. Then SPANs cut short, in a LOOPS team and where none may stand.
pub fn out_of_place_or_cut() -> Vec<Reading> {
    let mut readings = Vec::new();
    for joint in 0..=255 {
        for opening in ["", "02 09", "08 09", "03 09 02 09", "03 09 08 09"] {
            let start = hex(&format!("01 01 02 {opening}"));
            for span in [[0x06, 0, joint, 1], [0x06, 0, 1, joint]] {
                let file = [&start[..], &span, &[0x07]].concat();
                readings.push((file, Some(Refusal::new(4, start.len()))));
            }
            for cut in [&[0x06, 0, joint][..], &[0x06, joint]] {
                for opening in [&[][..], &[0x03, 9]] {
                    let start = [&start[..], opening].concat();
                    let place = Refusal::new(2, start.len());
                    readings.push(([&start[..], cut].concat(), Some(place)));
                }
            }
        }
    }
    readings
}

/// A joint at an edge with every byte after END, and with every byte in place of END.
pub fn every_byte_after() -> Vec<Reading> {
    let mut readings = Vec::new();
    for joint in EDGES {
        let file = one_span(joint, 2);
        let fault = span_fault(2, 0, joint, 2).map(|number| Refusal::new(number, 5));
        for byte in 0..=255 {
            let longer = [&file[..], &[byte]].concat();
            readings.push((longer, fault.or(Some(Refusal::new(9, 10)))));
            let other = [&file[..9], &[byte]].concat();
            if fault.is_some() {
                readings.push((other, fault));
            }
        }
    }
    readings
}

/// Plans of 64 instruments and twelve LOOPS teams. All SPANs but one are on the last two
/// joints; that one, somewhere in the plan, is on joints at an edge.
pub fn one_of_many() -> Vec<Reading> {
    let mut plan = PlanWriter::start(64);
    for _ in 0..12 {
        plan.loops(255);
        for item in 0..64 {
            plan.span(item, 38, 39);
        }
    }
    let whole = plan.end();
    let mut readings = Vec::new();
    for (team, item) in [(0, 0), (0, 63), (5, 40), (11, 0), (11, 63)] {
        let place = 3 + team * (2 + 64 * 4) + 2 + item * 4;
        for (a, b) in pairs(&EDGES) {
            let mut file = whole.clone();
            file[place + 2..place + 4].copy_from_slice(&[a, b]);
            let fault = span_fault(64, item as u8, a, b);
            readings.push((file, fault.map(|number| Refusal::new(number, place))));
        }
    }
    readings
}

/// A random plan with other joints, drawn from 0 to 39, from 0 to 40 or from 0 to 63, and now
/// and then another instrument, and without GLUEs. Nothing but SPANs can be at fault.
pub fn with_any_joints(random: &mut Random, instruments: usize, teams: usize) -> Vec<u8> {
    let mut row = commands(&without_glue(&some_plan(random, instruments, teams)));
    let joints = random.pick(&[40, 41, 64, 64]);
    let rate = random.pick(&[1, 2, 4]);
    let others = random.below(2);
    for command in row.iter_mut().filter(|command| command[0] == 0x06) {
        for place in [2, 3] {
            if random.chance(rate, 4) {
                command[place] = random.below(joints) as u8;
            }
        }
        if random.chance(others, 40) {
            command[1] = random.below(instruments + 1) as u8;
        }
    }
    row.concat()
}

/// Changes a joint of some SPAN of a plan: by one, to an edge, or to the other joint; nothing
/// if the plan has none.
pub fn damage_joint(random: &mut Random, file: &[u8]) -> Option<Vec<u8>> {
    let mut row = commands(file);
    let mut spans: Vec<&mut Vec<u8>> = row.iter_mut().filter(|c| c[0] == 0x06).collect();
    if spans.is_empty() {
        return None;
    }
    let at = random.below(spans.len());
    let place = random.between(2, 3);
    let (joint, other) = (spans[at][place], spans[at][5 - place]);
    let (more, less) = (joint.wrapping_add(1), joint.wrapping_sub(1));
    let edge = random.pick(&EDGES);
    spans[at][place] = random.pick(&[more, less, edge, edge, other]);
    Some(row.concat())
}
