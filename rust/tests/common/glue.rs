//! Note 6: plans with glued gauges, what sets are worth there, sheets, and ways to change the
//! GLUEs of a plan.

use super::{hex, read};
use pool::plan::commands;
use pool::random::Random;
use pool::refusal::Refusal;
use pool::writer::PlanWriter;
use pool::{bits, definition};

/// Faulty plans with GLUE, 18 aside: the bytes, the refusal's number and its place.
pub const GLUE_FAULTS: [(&str, u8, usize); 49] = [
    // 1: before START.
    ("0C", 1, 0),
    ("0C 00 01 01 02 02 09 07", 1, 0),
    // 2: operands cut short, also where GLUE is out of its place; no END.
    ("01 01 02 0C", 2, 3),
    ("01 01 02 02 09 0C", 2, 5),
    ("01 01 02 03 00 0C", 2, 5),
    ("01 01 02 02 09 0C 00 0C", 2, 7),
    ("01 01 02 02 09 0C 00", 2, 7),
    ("01 01 08 02 09 0C 07", 2, 7),
    // 3: begins at 0D.
    ("01 01 02 0D", 3, 3),
    ("01 01 02 0D 00 02 09 07", 3, 3),
    ("01 01 02 02 09 0D 00 07", 3, 5),
    ("01 01 02 02 09 0C 00 0D", 3, 7),
    ("01 01 02 02 09 0E 00 07", 3, 5),
    ("01 01 02 02 09 FF 00 07", 3, 5),
    // 4: before any team, after SHELFs too, also where the instrument is not below m; END with
    // no team.
    ("01 01 02 0C 00 02 09 07", 4, 3),
    ("01 01 02 0C 02 02 09 07", 4, 3),
    ("01 01 02 0C FF 07", 4, 3),
    ("01 01 00 0C 00 07", 4, 3),
    ("01 01 02 0C 00 0C 00 02 09 07", 4, 3),
    ("01 01 02 0A 00 00 00 07 00 0C 00 02 09 07", 4, 9),
    ("01 01 02 0A 00 00 00 07 00 0C 02 02 09 07", 4, 9),
    ("01 01 02 07", 4, 3),
    ("01 01 02 02 09 0C 00 0A 00 00 00 07 00 07", 4, 7),
    ("01 01 02 02 09 0C 00 06 00 01 02 07", 4, 7),
    ("01 01 02 02 09 0C 00 01 01 02 07", 4, 7),
    // 5: an instrument not below m, the byte of END included.
    ("01 01 02 02 09 0C 02 07", 5, 5),
    ("01 01 02 03 09 0C FF 07", 5, 5),
    ("01 01 00 08 09 0C 00 07", 5, 5),
    ("01 01 40 02 00 0C 40 07", 5, 5),
    ("01 01 02 02 09 0C 07", 5, 5),
    ("01 01 02 02 09 0C 01 0C 02 07", 5, 7),
    // 6: a second one in the same team, also after others, and before 18 is tested.
    ("01 01 02 02 09 0C 00 0C 00 07", 6, 7),
    ("01 01 02 02 09 04 00 01 05 00 00 0C 00 0C 00 07", 6, 13),
    ("01 01 02 03 09 06 00 01 02 0C 00 0C 01 0C 00 07", 6, 13),
    ("01 01 02 08 00 0C 01 0C 01 07", 6, 7),
    // In a later team of the same kind and of the others, away or not.
    ("01 01 02 02 09 0C 00 02 09 0C 00 07", 6, 9),
    ("01 01 02 02 09 0C 01 03 00 0C 01 07", 6, 9),
    ("01 01 02 03 09 0C 01 08 09 0C 00 0C 01 07", 6, 11),
    ("01 01 02 08 09 0C 01 03 09 02 09 0C 01 07", 6, 11),
    // Namings are counted for themselves.
    ("01 01 02 02 09 05 00 00 0C 00 05 00 01 07", 6, 10),
    ("01 01 02 02 09 0C 00 05 00 00 05 00 00 07", 6, 10),
    ("01 01 02 03 09 06 00 01 02 0C 00 06 00 01 03 07", 6, 11),
    (
        "01 01 02 08 09 0C 00 09 00 01 00 00 00 09 00 01 00 00 00 07",
        6,
        13,
    ),
    (
        "01 01 02 02 09 0B 00 00 07 00 0C 00 0B 00 00 07 00 07",
        6,
        12,
    ),
    // Other rules after GLUE.
    ("01 01 02 03 09 0C 00 06 00 05 05 07", 8, 7),
    ("01 01 02 02 09 0C 00 0B 07 00 07 00 07", 17, 7),
    ("01 01 02 02 09 04 00 01 05 00 00 0C 00 07 00", 9, 14),
    ("01 01 02 02 09 04 00 01 05 00 00 0C 00 07 0C 00", 9, 14),
    ("01 01 02 03 09 0C 00 06 00 01 02 07 07", 9, 12),
];

/// Plans with a team whose glued gauges were not independent before: the bytes up to END, whose
/// offset is the place of refusal 18.
pub const NOT_INDEPENDENT: [&str; 36] = [
    // CAPS: no PUT, or one in another team alone.
    "01 01 02 02 09 0C 00",
    "01 01 02 02 09 04 00 01 0C 00",
    "01 01 02 02 09 04 00 01 05 01 00 0C 00",
    "01 01 02 02 09 04 00 01 05 00 00 02 09 04 00 01 0C 00",
    "01 01 02 02 09 04 00 01 0C 00 02 09 04 00 01 05 00 00",
    // A class without CLASS, and one with cap 0.
    "01 01 02 02 09 04 00 01 05 00 01 0C 00",
    "01 01 02 02 09 04 00 00 05 00 00 0C 00",
    // More than the cap, and more than the channels, also with none.
    "01 01 02 02 09 04 00 01 05 00 00 05 01 00 0C 00 0C 01",
    "01 01 03 02 09 04 00 02 0C 02 05 00 00 05 01 00 05 02 00 0C 00 0C 01",
    "01 01 02 02 01 04 00 02 05 00 00 05 01 00 0C 00 0C 01",
    "01 01 02 02 01 04 00 01 04 01 01 05 00 00 05 01 01 0C 00 0C 01",
    "01 01 02 02 00 04 00 01 05 00 00 0C 00",
    // LOOPS: no SPAN, a loop of two and of three, more than the channels.
    "01 01 02 03 09 0C 00",
    "01 01 02 03 09 06 01 01 02 0C 00",
    "01 01 02 03 09 06 00 01 02 03 09 0C 00",
    "01 01 02 03 09 06 00 01 02 06 01 02 01 0C 00 0C 01",
    "01 01 03 03 09 06 00 01 02 06 01 02 03 06 02 03 01 0C 00 0C 01 0C 02",
    "01 01 04 03 09 0C 03 06 00 27 00 06 01 00 26 06 02 05 06 06 03 26 27 0C 00 0C 01",
    "01 01 02 03 01 06 00 01 02 06 01 02 03 0C 00 0C 01",
    "01 01 02 03 00 06 00 01 02 0C 00",
    // MOUNTS: no FIT, one with no bits, two on one mount, three on two, more than the channels.
    "01 01 02 08 09 0C 00",
    "01 01 02 08 09 09 01 01 00 00 00 0C 00",
    "01 01 02 08 09 09 00 00 00 00 00 0C 00",
    "01 01 02 08 09 09 00 01 00 00 00 09 01 01 00 00 00 0C 00 0C 01",
    "01 01 03 08 09 09 00 03 00 00 00 09 01 03 00 00 00 09 02 03 00 00 00 0C 00 0C 01 0C 02",
    "01 01 02 08 01 09 00 01 00 00 00 09 01 02 00 00 00 0C 00 0C 01",
    "01 01 02 08 00 09 00 01 00 00 00 0C 00",
    // Shelf days that do not hold the days of the team: DAYS before GLUE and after it, none.
    "01 01 02 0A 00 00 00 07 00 02 09 04 00 01 05 00 00 0B 00 00 08 00 0C 00",
    "01 01 02 0A 00 01 00 07 00 02 09 04 00 01 05 00 00 0C 00 0B 00 00 07 00",
    "01 01 02 0A 00 00 00 07 00 03 09 06 00 01 02 0C 00",
    "01 01 02 0A 00 00 00 07 00 08 09 09 00 01 00 00 00 0C 00 0B 07 00 0E 00",
    // In a later team, in the first alone, and in both.
    "01 01 02 02 09 04 00 01 05 00 00 0C 00 03 09 0C 01",
    "01 01 02 03 09 0C 01 02 09 04 00 01 05 00 00 0C 00",
    "01 01 02 03 09 0C 01 08 09 0C 00",
    "01 01 02 02 09 02 09 03 09 08 09 02 00 0C 01 08 09",
    // Independent by itself, not together with another one.
    "01 01 02 08 09 0C 01 09 00 10 00 00 00 09 01 10 00 00 00 0C 00 03 09 02 09",
];

/// A plan that is accepted, its greatest total and its shares.
pub type Accepted = (&'static str, u32, &'static [u32]);

/// Plans with GLUE that are accepted.
pub const GLUE_ACCEPTED: [Accepted; 21] = [
    // Before and after PUT, SPAN and FIT.
    ("01 01 02 02 09 04 00 01 05 00 00 0C 00 07", 0, &[0]),
    ("01 01 02 02 09 0C 00 04 00 01 05 00 00 07", 0, &[0]),
    ("01 01 02 03 09 06 01 27 00 0C 01 06 00 01 02 07", 1, &[1]),
    ("01 01 02 03 09 0C 01 06 00 01 02 06 01 27 00 07", 1, &[1]),
    ("01 01 01 08 09 09 00 00 00 00 80 0C 00 07", 0, &[0]),
    ("01 01 01 08 09 0C 00 09 00 00 00 00 80 07", 0, &[0]),
    // The last instrument.
    ("01 01 40 02 09 04 00 01 05 3F 00 0C 3F 07", 0, &[0]),
    // A cap and channels used up: the team is present.
    (
        "01 01 02 02 09 04 00 01 05 00 00 05 01 00 0C 00 07",
        0,
        &[0],
    ),
    (
        "01 01 02 02 01 04 00 02 05 00 00 05 01 00 0C 00 07",
        0,
        &[0],
    ),
    ("01 01 02 03 01 06 00 01 02 06 01 02 03 0C 00 07", 0, &[0]),
    (
        "01 01 03 02 09 04 00 01 05 00 00 05 01 00 0C 02 05 02 00
         02 09 04 00 09 05 00 00 05 01 00 07",
        2,
        &[0, 1],
    ),
    // A cap and channels of which one is left.
    (
        "01 01 03 02 02 04 00 09 05 00 00 05 01 00 05 02 00 0C 00 07",
        1,
        &[1],
    ),
    (
        "01 01 03 02 09 04 00 02 05 00 00 05 01 00 05 02 00 0C 01 07",
        1,
        &[1],
    ),
    // Glued to one team, named by another one, before and after.
    (
        "01 01 01 02 09 04 00 01 05 00 00 0C 00 02 09 04 00 01 05 00 00 07",
        0,
        &[0, 0],
    ),
    (
        "01 01 01 03 09 06 00 01 02 08 09 09 00 01 00 00 00 0C 00 07",
        0,
        &[0, 0],
    ),
    // Days that are just held, and days of another team that are not.
    (
        "01 01 01 0A 00 07 00 0E 00 02 09 04 00 01 05 00 00 0C 00 0B 07 00 0E 00 07",
        0,
        &[0],
    ),
    (
        "01 01 01 0A 00 07 00 0E 00 02 09 0B 08 00 0D 00 0C 00 04 00 01 05 00 00 03 09 07",
        0,
        &[0, 0],
    ),
    // Mounts and joints: all of them used up.
    (
        "01 01 02 08 09 09 00 03 00 00 00 0C 01 09 01 02 00 00 00 0C 00 07",
        0,
        &[0],
    ),
    (
        "01 01 03 03 09 0C 00 0C 02 06 00 01 02 06 01 03 01 06 02 02 03 07",
        0,
        &[0],
    ),
    // An away team beside a team with a glued gauge: the share is that of one part.
    (
        "01 01 03 02 00 04 00 09 05 00 00 02 09 04 00 09 05 00 00 05 01 00 05 02 00 0C 01 07",
        2,
        &[0, 2],
    ),
    // A team away by its channels alone, without a glued gauge.
    (
        "01 01 01 02 00 02 01 04 00 01 05 00 00 0C 00 03 00 07",
        0,
        &[0, 0, 0],
    ),
];

/// Three instruments in a class of cap 2, the first glued, channels 9.
const TWO_OF_A_CLASS: &str = "01 01 03 02 09 04 00 02 05 00 00 05 01 00 05 02 00 0C 00 07";
/// The same with channels for the glued one alone.
const ONE_CHANNEL: &str = "01 01 03 02 01 04 00 02 05 00 00 05 01 00 05 02 00 0C 00 07";
/// A ring of the joints 1, 2 and 3, instrument 3 beside instrument 0, which is glued, and
/// instrument 4 from joint 3 to joint 4.
const RING: &str = "01 01 05 03 09 06 00 01 02 06 01 02 03 06 02 03 01 06 03 01 02
    06 04 03 04 0C 00 07";
/// Instrument 0, which is glued, fits the mounts 0 and 1, instrument 1 the mount 0 alone, and
/// instrument 2 the mount 1 alone.
const MOVED: &str = "01 01 03 08 09 09 00 03 00 00 00 09 01 01 00 00 00 09 02 02 00 00 00 0C 00 07";
/// A chain: the glued instruments 0 and 1 move along for instrument 2, not for both 2 and 3.
const MOVED_TWICE: &str = "01 01 04 08 09 0C 00 0C 01 09 00 03 00 00 00 09 01 06 00 00 00
    09 02 01 00 00 00 09 03 04 00 00 00 07";
/// Two teams that take anything, instrument 1 glued to the second.
const OF_ANOTHER: &str = "01 01 02 02 09 04 00 02 05 00 00 05 01 00
    02 09 04 00 02 05 00 00 05 01 00 0C 01 07";

/// What sets are worth: a plan, a team, a set and its worth.
pub const WORTHS: [(&str, usize, u64, u32); 29] = [
    // What is glued counts nothing and takes up a cap and a channel.
    (TWO_OF_A_CLASS, 0, 0b001, 0),
    (TWO_OF_A_CLASS, 0, 0b010, 1),
    (TWO_OF_A_CLASS, 0, 0b110, 1),
    (TWO_OF_A_CLASS, 0, 0b111, 1),
    (TWO_OF_A_CLASS, 0, u64::MAX, 1),
    (ONE_CHANNEL, 0, 0b010, 0),
    (ONE_CHANNEL, 0, 0b111, 0),
    // A loop with the glued gauge.
    (RING, 0, 0b01000, 0),
    (RING, 0, 0b00010, 1),
    (RING, 0, 0b00100, 1),
    (RING, 0, 0b00110, 1),
    (RING, 0, 0b01110, 1),
    (RING, 0, 0b10110, 2),
    (RING, 0, 0b00001, 0),
    (RING, 0, 0b11111, 2),
    (RING, 0, !0b11111, 0),
    // The glued gauge moves to its other mount.
    (MOVED, 0, 0b010, 1),
    (MOVED, 0, 0b100, 1),
    (MOVED, 0, 0b110, 1),
    (MOVED, 0, 0b111, 1),
    (MOVED_TWICE, 0, 0b0100, 1),
    (MOVED_TWICE, 0, 0b1000, 1),
    (MOVED_TWICE, 0, 0b1100, 1),
    // What is glued to another team is worth nothing and takes up nothing.
    (OF_ANOTHER, 0, 0b10, 0),
    (OF_ANOTHER, 0, 0b11, 1),
    (OF_ANOTHER, 1, 0b10, 0),
    (OF_ANOTHER, 1, 0b01, 1),
    (OF_ANOTHER, 1, u64::MAX, 1),
    // A team not in the plan.
    (OF_ANOTHER, 2, 0b11, 0),
];

/// Four instruments and a team of each kind. Instrument 3 is glued to team 1, where it joins
/// the same joints as instrument 0, and 0, 1 and 2 close a loop. Team 0 takes any instrument;
/// on the two mounts of team 2 there is room for any two, and 3 fits a third.
pub const BRIDGE: &str = "01 01 04 02 04 04 00 04 05 00 00 05 01 00 05 02 00 05 03 00
    03 04 0C 03 06 00 01 02 06 01 02 03 06 02 03 01 06 03 02 01
    08 04 09 00 01 00 00 00 09 01 03 00 00 00 09 02 02 00 00 00 09 03 04 00 00 00 07";

/// The sheet of the bridge. Offsets: BOUND 16, SHAREs 25, 48 and 71, their PARTs 36, 59 and 82.
pub fn bridge_sheet() -> Vec<u8> {
    hex(
        "11 04 03 03 12 00 02 12 01 01 12 02 00 12 03 FF 13 08 00 00 00 00 00 00 00
         14 00 01 08 00 00 00 00 00 00 00 15 00 00 15 01 01 15 02 02 15 03 00
         14 01 00 09 00 00 00 00 00 00 00 15 00 00 15 01 00 15 02 00 15 03 00
         14 02 01 08 00 00 00 00 00 00 00 15 00 00 15 01 01 15 02 02 15 03 02 16",
    )
}

/// The listing of the bridge.
pub const BRIDGE_LISTING: &str = "\
TOTAL 3
TEAM 0 SHARE 1 HOLDS 2
TEAM 1 SHARE 0 HOLDS 1
TEAM 2 SHARE 1 HOLDS 0
POOL 3
";

/// Bytes of the bridge's sheet: offset, another value, the refusal's number and its place.
pub const BRIDGE_EDITS: [(usize, u8, u8, usize); 35] = [
    // The glued gauge for its own team, for another, and for a team not in the plan.
    (15, 0x01, 13, 1),
    (15, 0x00, 13, 0),
    (15, 0x02, 13, 2),
    (15, 0x03, 12, 15),
    // Gauges that close a loop with it.
    (6, 0x01, 13, 1),
    (12, 0x01, 13, 1),
    // Other gauges for other teams; a team without its share.
    (9, 0x00, 0, 0),
    (9, 0x02, 0, 0),
    (6, 0x00, 16, 2),
    (12, 0x02, 16, 0),
    // One fewer is given; another total.
    (9, 0xff, 14, 0),
    (3, 0x02, 14, 0),
    (3, 0x04, 14, 0),
    // BOUND: (instruments outside T) + the worths of T has to be 3.
    (17, 0x00, 14, 0),
    (17, 0x01, 14, 0),
    (17, 0x09, 14, 0),
    (17, 0x0f, 14, 0),
    (17, 0x18, 12, 17),
    // SHARE of team 0: (instruments outside T) + 3 x v(T) has to be below 6.
    (28, 0x00, 0, 0),
    (28, 0x01, 15, 0),
    (28, 0x09, 0, 0),
    (28, 0x0f, 15, 0),
    (27, 0x00, 15, 0),
    (27, 0x02, 15, 0),
    // SHARE of team 1: below 3.
    (51, 0x01, 15, 1),
    (51, 0x08, 15, 1),
    (51, 0x0b, 15, 1),
    (51, 0x0f, 15, 1),
    (50, 0x01, 15, 1),
    // PARTs: the glued gauge may be in any part, and is worth nothing there.
    (47, 0x02, 0, 0),
    (47, 0x03, 12, 47),
    (44, 0x00, 15, 0),
    (93, 0x01, 0, 0),
    (90, 0x00, 15, 2),
    (87, 0x02, 15, 2),
];

/// Whether a command opens a team.
pub fn opens(command: &[u8]) -> bool {
    matches!(command[0], 0x02 | 0x03 | 0x08)
}

/// The same plan without its GLUEs.
pub fn without_glue(file: &[u8]) -> Vec<u8> {
    let mut row = commands(file);
    row.retain(|command| command[0] != 0x0c);
    row.concat()
}

/// The gauges glued to each team, as the bytes of a plan say.
pub fn glued_sets(file: &[u8]) -> Vec<u64> {
    let mut sets = Vec::new();
    for command in commands(file) {
        match (command[0], sets.last_mut()) {
            (0x02 | 0x03 | 0x08, _) => sets.push(0),
            (0x0c, Some(set)) => *set |= bits::one(command[1].into()),
            _ => {}
        }
    }
    sets
}

/// The refusal of a small plan in which nothing but GLUEs can be at fault.
pub fn glue_fault(file: &[u8]) -> Option<Refusal> {
    let (mut at, mut teams, mut named) = (0, 0, Vec::new());
    for command in commands(file) {
        if command[0] == 0x0c {
            let item = command[1];
            let faults = [
                (teams == 0, 4),
                (item >= file[2], 5),
                (named.contains(&item), 6),
            ];
            if let Some((_, number)) = faults.into_iter().find(|(fault, _)| *fault) {
                return Some(Refusal::new(number, at));
            }
            named.push(item);
        }
        teams += usize::from(opens(&command));
        at += command.len();
    }
    let plan = read(&without_glue(file));
    let mut teams = plan.teams.iter().zip(glued_sets(file));
    let free = teams.all(|(team, set)| definition::independent_before(&plan, team, set));
    (!free).then_some(Refusal::new(18, at - 1))
}

/// Changes a GLUE of a plan: left out, for another instrument, moved, or repeated; nothing if the
/// plan has none.
pub fn damage_glue(random: &mut Random, file: &[u8]) -> Option<Vec<u8>> {
    let mut row = commands(file);
    let glues: Vec<usize> = (0..row.len()).filter(|&at| row[at][0] == 0x0c).collect();
    if glues.is_empty() {
        return None;
    }
    let at = random.pick(&glues);
    let glue = row[at].clone();
    let to = random.between(1, row.len() - 2);
    match random.below(6) {
        0 => drop(row.remove(at)),
        1 => row[at][1] = random.below(usize::from(file[2]) + 1) as u8,
        2 => row[at][1] = random.pick(&[file[2], 63, 64, 255]),
        3 => row.insert(to, glue),
        _ => {
            row.remove(at);
            row.insert(to, glue);
        }
    }
    Some(row.concat())
}

/// Changes what makes a glued gauge independent: its PUT, SPAN or FIT is left out, or the
/// channels of its team are made fewer; nothing if the plan has no GLUE.
pub fn damage_naming(random: &mut Random, file: &[u8]) -> Option<Vec<u8>> {
    let mut row = commands(file);
    let glues: Vec<usize> = (0..row.len()).filter(|&at| row[at][0] == 0x0c).collect();
    if glues.is_empty() {
        return None;
    }
    let at = random.pick(&glues);
    let item = row[at][1];
    let start = (0..at).rev().find(|&at| opens(&row[at])).expect("a team");
    let named = |command: &[u8]| matches!(command[0], 5 | 6 | 9) && command[1] == item;
    let naming = (start + 1..row.len()).find(|&at| named(&row[at]));
    match random.below(3) {
        0 => drop(row.remove(naming.expect("a naming"))),
        1 => row[start][1] = random.below(4) as u8,
        _ => row[start][1] -= 1,
    }
    Some(row.concat())
}

/// A plan of this many instruments and one team of each kind that would take any of them, with
/// the first `count` glued to the teams in turn.
pub fn first_glued(instruments: usize, count: usize) -> Vec<u8> {
    let mut plan = PlanWriter::start(instruments);
    for team in 0..3 {
        match team {
            0 => plan.caps(255).class(0, 255),
            1 => plan.loops(255),
            _ => plan.mounts(255),
        };
        for item in 0..instruments {
            match team {
                0 => plan.put(item, 0),
                1 => plan.span(item, 0, item as u8 + 1),
                _ => plan.fit(item, 1 << item),
            };
        }
        for item in (team..count).step_by(3) {
            plan.glue(item);
        }
    }
    plan.end()
}
