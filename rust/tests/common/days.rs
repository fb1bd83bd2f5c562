//! Note 4: plans with loan days, which instruments a team can have, sheets, and ways to
//! change the days of a plan.

use super::hex;
use pool::plan::commands;
use pool::random::Random;
use pool::writer::PlanWriter;

/// Faulty plans with SHELF and DAYS: the bytes, the refusal's number and its place.
pub const DAYS_FAULTS: [(&str, u8, usize); 61] = [
    // 1: before START.
    ("0A 00 00 00 07 00 01 01 02 02 09 07", 1, 0),
    ("0B 00 00 07 00", 1, 0),
    // 2: operands cut short, where SHELF is out of its place too; no END.
    ("01 01 02 0A", 2, 3),
    ("01 01 02 0A 01", 2, 3),
    ("01 01 02 0A 01 00 00", 2, 3),
    ("01 01 02 0A 01 00 00 07", 2, 3),
    ("01 01 02 0A 01 00 00 07 00", 2, 9),
    ("01 01 02 0A 02 07 00 07", 2, 3),
    ("01 01 02 02 09 0A 01 00 00 07", 2, 5),
    ("01 01 02 02 09 0B", 2, 5),
    ("01 01 02 02 09 0B 00", 2, 5),
    ("01 01 02 02 09 0B 00 00 07", 2, 5),
    ("01 01 02 02 09 0B 07 00 07", 2, 5),
    ("01 01 02 02 09 0B 00 00 07 00", 2, 10),
    ("01 01 02 02 09 0B 00 00 00 07", 2, 10),
    ("01 01 02 0B 00 00 07", 2, 3),
    // 3: begins at 0D.
    ("01 01 02 0D", 3, 3),
    ("01 01 02 0D 00 00 00 07 00 02 09 07", 3, 3),
    ("01 01 02 02 09 0D 00 00 07 00 07", 3, 5),
    ("01 01 02 02 09 0E", 3, 5),
    // 4: a SHELF after a team, a DAYS with no team, also where other rules are broken.
    ("01 01 02 02 09 0A 01 00 00 07 00 07", 4, 5),
    ("01 01 02 03 09 0A 01 00 00 07 00 07", 4, 5),
    ("01 01 02 08 09 0A 01 00 00 07 00 07", 4, 5),
    ("01 01 02 02 00 0A 01 00 00 07 00 07", 4, 5),
    ("01 01 02 02 09 0A 02 00 00 07 00 07", 4, 5),
    ("01 01 02 02 09 0A 01 07 00 07 00 07", 4, 5),
    ("01 01 02 02 09 0A 02 07 00 07 00 07", 4, 5),
    (
        "01 01 02 0A 01 00 00 07 00 02 09 0A 01 00 00 07 00 07",
        4,
        11,
    ),
    ("01 01 02 02 09 0B 00 00 07 00 0A 01 00 00 07 00 07", 4, 10),
    ("01 01 02 0B 00 00 07 00 02 09 07", 4, 3),
    ("01 01 02 0B 07 00 07 00 02 09 07", 4, 3),
    ("01 01 02 0A 01 00 00 07 00 0B 00 00 07 00 02 09 07", 4, 9),
    ("01 01 02 0A 01 00 00 07 00 07", 4, 9),
    ("01 01 02 0A 01 00 00 07 00 05 01 00 02 09 07", 4, 9),
    ("01 01 02 0A 01 00 00 07 00 01 01 02 02 09 07", 4, 9),
    // 5: an instrument not below m, also where its from is not below its to.
    ("01 01 02 0A 02 00 00 07 00 02 09 07", 5, 3),
    ("01 01 02 0A FF 00 00 07 00 02 09 07", 5, 3),
    ("01 01 00 0A 00 00 00 07 00 02 09 07", 5, 3),
    ("01 01 40 0A 40 00 00 07 00 02 09 07", 5, 3),
    ("01 01 02 0A 02 07 00 07 00 02 09 07", 5, 3),
    ("01 01 02 0A 02 08 00 07 00 02 09 07", 5, 3),
    // 17: from equal to its to, or above it, by the low byte or by the high one.
    ("01 01 02 0A 01 07 00 07 00 02 09 07", 17, 3),
    ("01 01 02 0A 01 08 00 07 00 02 09 07", 17, 3),
    ("01 01 02 0A 01 00 00 00 00 02 09 07", 17, 3),
    ("01 01 02 0A 01 FF FF FF FF 02 09 07", 17, 3),
    ("01 01 02 0A 01 00 01 FF 00 02 09 07", 17, 3),
    ("01 01 02 02 09 0B 07 00 07 00 07", 17, 5),
    ("01 01 02 03 09 0B 08 00 07 00 07", 17, 5),
    ("01 01 02 08 09 0B FF FF 00 00 07", 17, 5),
    ("01 01 02 02 00 0B 00 01 01 00 07", 17, 5),
    ("01 01 02 02 09 0B 01 01 00 01 07", 17, 5),
    // 17 also where it is a second one, which is 6 otherwise.
    (
        "01 01 02 0A 01 00 00 07 00 0A 01 07 00 07 00 02 09 07",
        17,
        9,
    ),
    ("01 01 02 02 09 0B 00 00 07 00 0B 09 00 07 00 07", 17, 10),
    // 6: a second one, the days without a SHELF or DAYS included.
    (
        "01 01 02 0A 01 00 00 07 00 0A 01 00 00 07 00 02 09 07",
        6,
        9,
    ),
    (
        "01 01 02 0A 01 00 00 FF FF 0A 01 00 00 FF FF 02 09 07",
        6,
        9,
    ),
    (
        "01 01 02 0A 01 00 00 07 00 0A 00 00 00 07 00 0A 01 05 00 06 00 02 09 07",
        6,
        15,
    ),
    ("01 01 02 02 09 0B 00 00 07 00 0B 00 00 07 00 07", 6, 10),
    ("01 01 02 03 09 0B 00 00 FF FF 0B 00 00 FF FF 07", 6, 10),
    (
        "01 01 02 08 00 0B 05 00 06 00 09 00 01 00 00 00 0B 00 00 01 00 07",
        6,
        16,
    ),
    // Other rules after SHELF and DAYS.
    (
        "01 01 02 0A 01 00 00 07 00 02 09 0B 00 00 07 00 07 00",
        9,
        17,
    ),
    (
        "01 01 02 0A 01 00 00 07 00 03 09 0B 00 00 07 00 06 01 05 05 07",
        8,
        16,
    ),
];

/// Plans with SHELF and DAYS that are accepted.
pub const DAYS_ACCEPTED: [&str; 12] = [
    // One day, all days, the first and the last.
    "01 01 02 0A 01 00 00 01 00 02 09 07",
    "01 01 02 0A 01 00 00 FF FF 02 09 07",
    "01 01 02 0A 00 FE FF FF FF 0A 01 00 00 01 00 02 09 07",
    // From and to are compared as numbers of two bytes.
    "01 01 02 0A 00 FF 00 00 01 02 09 0B FF 01 00 02 07",
    "01 01 40 0A 3F 01 00 00 01 02 00 07",
    // DAYS in each kind of team, one for each, before, between and after other commands.
    "01 01 02 02 09 0B 00 00 01 00 04 00 01 05 00 00 07",
    "01 01 02 02 09 04 00 01 0B 00 00 01 00 05 00 00 07",
    "01 01 02 03 09 06 00 01 02 0B 00 00 01 00 06 01 02 03 07",
    "01 01 02 08 09 09 00 01 00 00 00 0B 00 00 01 00 07",
    "01 01 02 02 09 0B 00 00 01 00 03 09 0B 00 00 01 00 08 00 0B 00 00 01 00 02 09 07",
    // SHELFs in any order, and no instruments.
    "01 01 03 0A 02 00 00 01 00 0A 00 00 00 01 00 0A 01 00 00 01 00 02 09 07",
    "01 01 00 02 00 0B 00 00 01 00 07",
];

/// From and to of a SHELF or DAYS, if there is one.
pub type Ends = Option<(u16, u16)>;

/// Shelf days of an instrument, days of a team, and whether the team can have the instrument.
pub const WITHIN: [(Ends, Ends, bool); 30] = [
    // Neither has days.
    (None, None, true),
    // Equal ends, at both sides and at one.
    (Some((7, 14)), Some((7, 14)), true),
    (Some((7, 14)), Some((7, 13)), true),
    (Some((7, 14)), Some((8, 14)), true),
    (Some((7, 14)), Some((8, 13)), true),
    // One day off, at either side and at both.
    (Some((7, 14)), Some((6, 14)), false),
    (Some((7, 14)), Some((7, 15)), false),
    (Some((7, 14)), Some((6, 15)), false),
    (Some((7, 14)), Some((6, 13)), false),
    (Some((7, 14)), Some((8, 15)), false),
    // One day each, the same or the next one.
    (Some((7, 8)), Some((7, 8)), true),
    (Some((7, 8)), Some((8, 9)), false),
    (Some((7, 8)), Some((6, 7)), false),
    // Apart: before and after.
    (Some((7, 14)), Some((0, 7)), false),
    (Some((7, 14)), Some((14, 21)), false),
    // A team without DAYS wants all days.
    (Some((0, 65_535)), None, true),
    (Some((0, 65_534)), None, false),
    (Some((1, 65_535)), None, false),
    (Some((7, 14)), None, false),
    // An instrument without a SHELF is there on all days.
    (None, Some((0, 65_535)), true),
    (None, Some((65_534, 65_535)), true),
    (None, Some((0, 1)), true),
    // Both name all days.
    (Some((0, 65_535)), Some((0, 65_535)), true),
    (Some((0, 65_534)), Some((0, 65_534)), true),
    // Low byte first: 256 and 1, 255 and 256, 512 and 258.
    (Some((1, 512)), Some((256, 258)), true),
    (Some((256, 512)), Some((1, 258)), false),
    (Some((0, 256)), Some((0, 255)), true),
    (Some((0, 255)), Some((0, 256)), false),
    (Some((0, 258)), Some((0, 512)), false),
    (Some((255, 512)), Some((256, 511)), true),
];

/// The bytes of the three kinds of team, each of which finds instrument 0 worth 1.
pub const TAKERS: [(u8, &str); 3] = [
    (0x02, "04 00 01 05 00 00"),
    (0x03, "06 00 01 02"),
    (0x08, "09 00 00 01 00 00"),
];

/// Plans of one instrument and one team of each kind with these days, DAYS standing before
/// the team's other commands and after them.
pub fn plans_of_one(shelf: Ends, days: Ends) -> Vec<Vec<u8>> {
    let mut files = Vec::new();
    for (opening, text) in TAKERS {
        for late in [false, true] {
            let mut plan = PlanWriter::start(1);
            if let Some((from, to)) = shelf {
                plan.shelf(0, from, to);
            }
            plan.add(&[opening, 9]);
            if late {
                plan.add(&hex(text));
            }
            if let Some((from, to)) = days {
                plan.days(from, to);
            }
            if !late {
                plan.add(&hex(text));
            }
            files.push(plan.end());
        }
    }
    files
}

/// Four instruments and a team of each kind that would take any of them. Instrument 2 is on
/// the shelf from 0 to 7 and instrument 3 from 7 to 14. Team 0 wants the days 0 to 7 and can
/// have 0, 1 and 2; team 1 wants 7 to 14 and can have 0, 1 and 3; team 2 has no DAYS and can
/// have 0 and 1.
pub const TERM: &str = "01 01 04 0A 02 00 00 07 00 0A 03 07 00 0E 00
    02 04 04 00 04 05 00 00 05 01 00 05 02 00 05 03 00 0B 00 00 07 00
    03 04 0B 07 00 0E 00 06 00 01 02 06 01 02 03 06 02 03 04 06 03 04 05
    08 04 09 00 01 00 00 00 09 01 02 00 00 00 09 02 04 00 00 00 09 03 08 00 00 00 07";

/// The sheet of the term. Offsets: BOUND 16, SHAREs 25, 48 and 71, their PARTs 36, 59 and 82.
pub fn term_sheet() -> Vec<u8> {
    hex(
        "11 04 03 04 12 00 02 12 01 02 12 02 00 12 03 01 13 00 00 00 00 00 00 00 00
         14 00 01 00 00 00 00 00 00 00 00 15 00 00 15 01 01 15 02 02 15 03 02
         14 01 01 00 00 00 00 00 00 00 00 15 00 00 15 01 01 15 02 02 15 03 02
         14 02 00 0C 00 00 00 00 00 00 00 15 00 00 15 01 00 15 02 00 15 03 00 16",
    )
}

/// The listing of the term.
pub const TERM_LISTING: &str = "\
TOTAL 4
TEAM 0 SHARE 1 HOLDS 2
TEAM 1 SHARE 1 HOLDS 3
TEAM 2 SHARE 0 HOLDS 0 1
POOL
";

/// Bytes of the term's sheet: offset, another value, the refusal's number and its place.
pub const TERM_EDITS: [(usize, u8, u8, usize); 22] = [
    // An instrument out of a team's days.
    (15, 0x00, 13, 0),
    (12, 0x01, 13, 1),
    (12, 0x02, 13, 2),
    (15, 0x02, 13, 2),
    // Instruments that are there on its days.
    (6, 0x00, 0, 0),
    (9, 0x01, 0, 0),
    // One fewer is given.
    (15, 0xff, 14, 0),
    // BOUND: (instruments outside T) + the worths of T has to be 4.
    (17, 0x04, 0, 0),
    (17, 0x08, 0, 0),
    (17, 0x0c, 0, 0),
    (17, 0x01, 14, 0),
    (17, 0x0f, 14, 0),
    // SHARE of team 2: (instruments outside T) + 3 x v(T) has to be below 3.
    (74, 0x00, 15, 2),
    (74, 0x04, 15, 2),
    (74, 0x0f, 15, 2),
    (73, 0x01, 15, 2),
    // SHARE of team 0: below 6; instrument 3 is worth nothing to it.
    (28, 0x08, 0, 0),
    (28, 0x0c, 0, 0),
    (28, 0x03, 15, 0),
    // PARTs: a part with nothing but what is out of the team's days is worth nothing.
    (44, 0x00, 15, 0),
    (47, 0x00, 0, 0),
    (70, 0x01, 15, 1),
];

/// Whether a command is SHELF or DAYS.
fn has_days(command: &[u8]) -> bool {
    matches!(command[0], 0x0a | 0x0b)
}

/// The same plan without its SHELFs and DAYS.
pub fn without_days(file: &[u8]) -> Vec<u8> {
    let mut row = commands(file);
    row.retain(|command| !has_days(command));
    row.concat()
}

/// Changes an end of some SHELF or DAYS of a plan: by a day, to the other end, or with both
/// its bytes or both ends exchanged; nothing if the plan has none.
pub fn damage_days(random: &mut Random, file: &[u8]) -> Option<Vec<u8>> {
    let mut row = commands(file);
    let mut some: Vec<&mut Vec<u8>> = row.iter_mut().filter(|command| has_days(command)).collect();
    if some.is_empty() {
        return None;
    }
    let at = random.below(some.len());
    let command = &mut some[at];
    let start = command.len() - 4;
    let mut ends = [day(&command[start..]), day(&command[start + 2..])];
    let end = random.below(2);
    match random.below(8) {
        0..3 => ends[end] = ends[end].wrapping_add(1),
        3..6 => ends[end] = ends[end].wrapping_sub(1),
        6 => ends[end] = random.pick(&[ends[1 - end], ends[end].swap_bytes()]),
        _ => ends.swap(0, 1),
    }
    command.truncate(start);
    command.extend(ends.map(u16::to_le_bytes).concat());
    Some(row.concat())
}

/// The day in the first two bytes, low byte first.
pub fn day(bytes: &[u8]) -> u16 {
    u16::from_le_bytes([bytes[0], bytes[1]])
}
