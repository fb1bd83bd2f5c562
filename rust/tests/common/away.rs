//! Note 2: plans with teams away, sheets for them, and what Check answers.

use super::{hex, teams_where};
use pool::check::layout_of;
use pool::plan::{commands, Plan};
use pool::random::Random;
use pool::refusal::Refusal;

/// A set of no instruments, as bytes.
const NONE: &str = "00 00 00 00 00 00 00 00";

/// Three teams and four instruments: teams 0 and 2 take any, team 1 is away. Cut in two
/// parts the share is 2, cut in three it would be 1.
pub const WEEK: &str = "01 01 04 02 04 04 00 04 05 00 00 05 01 00 05 02 00 05 03 00
    03 00 06 00 01 02 06 01 02 03 06 02 03 04 06 03 04 05
    02 04 04 00 04 05 00 00 05 01 00 05 02 00 05 03 00 07";

/// The sheet of the week. Offsets: BOUND 16, SHAREs 25, 48 and 71, their PARTs 36, 59 and 82.
pub fn week_sheet() -> Vec<u8> {
    let parts = "15 00 00 15 01 00 15 02 01 15 03 01";
    hex(&format!(
        "11 04 03 04 12 00 00 12 01 00 12 02 02 12 03 02 13 {NONE} 14 00 02 {NONE} {parts}
         14 01 00 {NONE} 15 00 00 15 01 00 15 02 00 15 03 00 14 02 02 {NONE} {parts} 16"
    ))
}

/// The listing of the week where nobody is present.
pub const WEEK_OF_NOBODY: &str = "\
TOTAL 0
TEAM 0 SHARE 0 HOLDS
TEAM 1 SHARE 0 HOLDS
TEAM 2 SHARE 0 HOLDS
POOL 0 1 2 3
";

/// Bytes of the week's sheet: offset, another value, the refusal's number and its place.
pub const WEEK_EDITS: [(usize, u8, u8, usize); 37] = [
    // The share of the away team.
    (50, 0x01, 12, 50),
    (50, 0xff, 12, 50),
    // Each byte of its set, bits below m included.
    (51, 0x01, 12, 51),
    (51, 0x08, 12, 51),
    (51, 0x10, 12, 51),
    (52, 0x01, 12, 52),
    (53, 0x01, 12, 53),
    (54, 0x01, 12, 54),
    (55, 0x01, 12, 55),
    (56, 0x01, 12, 56),
    (57, 0x01, 12, 57),
    (58, 0x80, 12, 58),
    // Its PARTs, parts below p and below n included.
    (61, 0x01, 12, 61),
    (61, 0x02, 12, 61),
    (64, 0x01, 12, 64),
    (67, 0x01, 12, 67),
    (70, 0x01, 12, 70),
    (70, 0xff, 12, 70),
    // Its command bytes, its number and its instruments are tested as before.
    (48, 0x00, 12, 48),
    (49, 0x00, 12, 49),
    (59, 0x00, 12, 59),
    (60, 0x01, 12, 60),
    (63, 0x00, 12, 63),
    // A PART of a present team: p is too much, another part below p is a matter of 15.
    (38, 0x02, 12, 38),
    (93, 0x02, 12, 93),
    (93, 0xff, 12, 93),
    (38, 0x01, 15, 0),
    (93, 0x00, 15, 2),
    // The share of a present team: that of three parts, and more than two parts allow.
    (27, 0x01, 15, 0),
    (27, 0x03, 15, 0),
    (73, 0x01, 15, 2),
    // The set of a present team: 2 x v(T) + (instruments outside T) has to be below 6.
    (28, 0x01, 0, 0),
    (28, 0x03, 15, 0),
    // An instrument for the away team, for a team not in the plan, and a set for 14.
    (6, 0x01, 13, 1),
    (15, 0x03, 12, 15),
    (16, 0x00, 12, 16),
    (17, 0x0f, 14, 0),
];

/// A plan, a sheet and the answer of Check.
pub struct Case {
    pub name: &'static str,
    pub file: Vec<u8>,
    pub sheet: Vec<u8>,
    pub answer: u64,
}

/// A case from bytes in hexadecimal; an accepted sheet has number 0.
fn case(name: &'static str, file: &str, sheet: &str, number: u8, place: usize) -> Case {
    Case {
        name,
        file: hex(file),
        sheet: hex(sheet),
        answer: Refusal::new(number, place).code(),
    }
}

/// Every case of note 2.
pub fn cases() -> Vec<Case> {
    let mut all = all_away();
    all.extend(few_present());
    all.extend(worthless_but_present());
    all.extend(sheets_from_before());
    all
}

/// Nobody is present: every page is 0, everything is in the pool.
fn all_away() -> Vec<Case> {
    let empty = "01 01 00 02 00 03 00 07";
    let page = |team: &str| format!("14 {team} 00 {NONE}");
    let pages = format!("{} {}", page("00"), page("01"));
    let no_items = format!("11 00 02 00 13 {NONE} {pages} 16");
    let share = format!("11 00 02 00 13 {NONE} {} 14 01 01 {NONE} 16", page("00"));
    let three = "01 01 03 02 00 04 00 03 05 00 00 08 00 09 02 01 00 00 00 07";
    let head = "11 03 02 00 12 00 FF 12 01 FF 12 02 FF";
    let parts = "15 00 00 15 01 00 15 02 00";
    let rest = format!("{} {parts} {} {parts} 16", page("00"), page("01"));
    let pool = format!("{head} 13 07 00 00 00 00 00 00 00 {rest}");
    let bound = format!("{head} 13 {NONE} {rest}");
    let given = pool.replacen("12 01 FF", "12 01 01", 1);
    let part = pool.replacen("15 02 00", "15 02 01", 1);
    vec![
        case("all away, m = 0", empty, &no_items, 0, 0),
        case("all away, m = 0, a share", empty, &share, 12, 26),
        case("all away", three, &pool, 0, 0),
        case("all away, BOUND without a set", three, &bound, 14, 0),
        case("all away, one given", three, &given, 13, 1),
        case("all away, a part", three, &part, 12, 41),
    ]
}

/// One team of twelve is present, number 7: it has one part, the whole.
fn few_present() -> Vec<Case> {
    let away = |count| "02 00 ".repeat(count);
    let taker = "02 09 04 00 09 05 00 00 05 01 00";
    let file = format!("01 01 02 {} {taker} {} 07", away(7), away(4));
    let sheet = |share: &str, part: &str| {
        let page = |team: usize| match team {
            7 => format!("14 07 {share} {NONE} 15 00 00 15 01 {part} "),
            _ => format!("14 {team:02X} 00 {NONE} 15 00 00 15 01 00 "),
        };
        let pages: String = (0..12).map(page).collect();
        format!("11 02 0C 02 12 00 07 12 01 07 13 {NONE} {pages} 16")
    };
    vec![
        case("one of twelve", &file, &sheet("02", "00"), 0, 0),
        case("one of twelve, part 1", &file, &sheet("02", "01"), 12, 154),
        case("one of twelve, share 1", &file, &sheet("01", "00"), 15, 7),
        case("one of twelve, share 0", &file, &sheet("00", "00"), 15, 7),
        case("one of twelve, share 3", &file, &sheet("03", "00"), 15, 7),
    ]
}

/// Team 1 has channels, yet finds every set worthless: it is present, and p is 2.
fn worthless_but_present() -> Vec<Case> {
    let sheet = |share: &str, parts: &str, set: &str| {
        format!(
            "11 02 02 02 12 00 00 12 01 00 13 {NONE} 14 00 {share} {NONE} {parts}
             14 01 00 {set} 00 00 00 00 00 00 00 15 00 00 15 01 01 16"
        )
    };
    let halves = "15 00 00 15 01 01";
    let whole = "15 00 00 15 01 00";
    let mut cases = Vec::new();
    for team in ["02 03", "03 09", "08 05 09 00 00 00 00 00"] {
        let file = format!("01 01 02 02 02 04 00 02 05 00 00 05 01 00 {team} 07");
        let mut add = |name, sheet: &str, number, place| {
            cases.push(case(name, &file, sheet, number, place));
        };
        add("worthless", &sheet("01", halves, "03"), 0, 0);
        add("worthless, no set", &sheet("01", halves, "00"), 15, 1);
        add("worthless, not counted", &sheet("02", whole, "03"), 15, 0);
    }
    cases
}

/// Sheets that were right before note 2, with parts and sums for n.
fn sheets_from_before() -> Vec<Case> {
    let thirds = "15 00 00 15 01 01 15 02 02 15 03 00";
    let week = format!(
        "11 04 03 04 12 00 00 12 01 00 12 02 02 12 03 02 13 {NONE} 14 00 01 {NONE} {thirds}
         14 01 00 0F 00 00 00 00 00 00 00 15 00 00 15 01 00 15 02 00 15 03 00
         14 02 01 {NONE} {thirds} 16"
    );
    let two = "01 01 02 02 02 04 00 02 05 00 00 05 01 00 03 00
               02 02 04 00 02 05 00 00 05 01 00 07";
    let parts = "15 00 00 15 01 00";
    let low = format!(
        "11 02 03 02 12 00 00 12 01 02 13 {NONE} 14 00 00 {NONE} {parts}
         14 01 00 {NONE} {parts} 14 02 00 {NONE} {parts} 16"
    );
    let first = "01 01 02 03 00 02 02 04 00 02 05 00 00 05 01 00 07";
    let set = format!(
        "11 02 02 02 12 00 01 12 01 01 13 {NONE} 14 00 00 01 00 00 00 00 00 00 00 {parts}
         14 01 01 {NONE} 15 00 00 15 01 01 16"
    );
    vec![
        case("before: part 2 of three", WEEK, &week, 12, 44),
        case("before: too low a share", two, &low, 15, 0),
        case("before: the set of an away team", first, &set, 12, 22),
    ]
}

/// A plan with the channels of some teams made 0, and at least 1 for the others. GLUEs of teams
/// with channels 0, which would be refused, are left out.
pub fn with_present(file: &[u8], present: impl Fn(usize) -> bool) -> Vec<u8> {
    let mut row = commands(file);
    let (mut teams, mut channels) = (0, 0);
    for command in &mut row {
        if matches!(command[0], 2 | 3 | 8) {
            channels = if present(teams) { command[1].max(1) } else { 0 };
            command[1] = channels;
            teams += 1;
        } else if command[0] == 0x0c && channels == 0 {
            command.clear();
        }
    }
    row.concat()
}

/// Makes a byte of an away team's share, set or PARTs other than 0 and hands back its
/// offset; nothing if all teams are present.
pub fn damage_away(random: &mut Random, plan: &Plan, sheet: &mut [u8]) -> Option<usize> {
    let teams = teams_where(plan, |team| !team.present());
    if teams.is_empty() {
        return None;
    }
    let (layout, team) = (layout_of(plan), random.pick(&teams));
    let field = random.below(9 + plan.instruments);
    let at = match field {
        0..9 => layout.share(team) + 2 + field,
        _ => layout.part(team, field - 9) + 2,
    };
    let (bit, any) = (1 << random.below(8), random.between(1, 255) as u8);
    sheet[at] = random.pick(&[1, bit, any]);
    Some(at)
}
