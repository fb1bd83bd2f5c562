//! Shared by the tests: how many cases, and ways to damage plans and sheets.

#![allow(dead_code)]

pub mod away;
pub mod days;
pub mod glue;
pub mod joints;
pub mod nets;
#[cfg(proved)]
pub mod proved;
pub mod sweeps;
pub mod texts;

use pool::check::layout_of;
use pool::plan::{commands, operand_count, Plan, Team};
use pool::random::Random;
use pool::sample::any_plan;
use pool::sheet::Layout;
use pool::writer::PlanWriter;
use pool::{bits, definition};

/// The number of small cases; POOL_CASES asks for a longer run.
pub fn cases() -> usize {
    let asked = std::env::var("POOL_CASES").ok();
    asked.and_then(|text| text.parse().ok()).unwrap_or(20_000)
}

/// A reading that is known to succeed.
pub fn read(file: &[u8]) -> Plan {
    pool::plan::read(file).expect("a valid plan")
}

/// A random plan of at most this size.
pub fn some_plan(random: &mut Random, instruments: usize, teams: usize) -> Vec<u8> {
    let m = random.below(instruments + 1);
    let n = random.between(1, teams);
    any_plan(random, m, n)
}

/// Bytes from hexadecimal, spaces allowed.
pub fn hex(text: &str) -> Vec<u8> {
    let bytes = text.split_whitespace();
    bytes
        .map(|byte| u8::from_str_radix(byte, 16).expect("hexadecimal"))
        .collect()
}

/// Faulty plans with MOUNTS and FIT: the bytes, the refusal's number and its place.
pub const MOUNTS_FAULTS: [(&str, u8, usize); 35] = [
    ("08 09 07", 1, 0),
    ("09 00 01 00 00 00", 1, 0),
    ("01 01 02 08", 2, 3),
    ("01 01 02 08 09", 2, 5),
    ("01 01 02 08 09 09", 2, 5),
    ("01 01 02 08 09 09 00", 2, 5),
    ("01 01 02 08 09 09 00 01", 2, 5),
    ("01 01 02 08 09 09 00 01 00", 2, 5),
    ("01 01 02 08 09 09 00 01 00 00", 2, 5),
    ("01 01 02 08 09 09 00 01 00 00 00", 2, 11),
    ("01 01 02 08 09 09 00 01 00 00 07", 2, 11),
    ("01 01 02 08 09 09 02 01 00 07", 2, 5),
    ("01 01 02 02 09 09 00 01 00 07", 2, 5),
    ("01 01 02 09 00 01", 2, 3),
    ("01 01 02 0D", 3, 3),
    ("01 01 02 08 09 0D 00 01 00 00 00 07", 3, 5),
    ("01 01 02 08 09 FF", 3, 5),
    ("01 01 02 09 00 01 00 00 00 07", 4, 3),
    ("01 01 02 02 09 09 00 01 00 00 00 07", 4, 5),
    ("01 01 02 03 09 09 02 01 00 00 00 07", 4, 5),
    ("01 01 02 08 09 02 09 09 00 01 00 00 00 07", 4, 7),
    ("01 01 02 08 09 04 10 01 07", 4, 5),
    ("01 01 02 08 09 05 02 00 07", 4, 5),
    ("01 01 02 08 09 06 00 01 01 07", 4, 5),
    ("01 01 02 08 09 01 01 02 07", 4, 5),
    ("01 01 02 08 09 09 02 01 00 00 00 07", 5, 5),
    ("01 01 02 08 09 09 FF 00 00 00 00 07", 5, 5),
    ("01 01 00 08 09 09 00 01 00 00 00 07", 5, 5),
    ("01 01 41 08 09 07", 5, 0),
    (
        "01 01 02 08 09 09 01 01 00 00 00 09 01 01 00 00 00 07",
        6,
        11,
    ),
    (
        "01 01 02 08 09 09 01 00 00 00 00 09 01 02 00 00 00 07",
        6,
        11,
    ),
    (
        "01 01 02 08 09 09 01 02 00 00 00 09 01 00 00 00 00 07",
        6,
        11,
    ),
    (
        "01 01 02 08 09 09 01 00 00 00 00 09 01 00 00 00 00 07",
        6,
        11,
    ),
    (
        "01 01 02 08 09 09 00 FF FF FF FF 09 00 FF FF FF FF 07",
        6,
        11,
    ),
    ("01 01 02 08 09 07 00", 9, 6),
];

/// The longest plan before its END: shelf days for each instrument, and twelve MOUNTS teams,
/// each instrument fitting two mounts, with their days. All days lack a few of three weeks at
/// either end, so that a team can have some of the instruments. Each instrument is glued to a
/// team whose days are its shelf days, before its FIT or after it.
pub fn longest_plan() -> PlanWriter {
    let days = |team: usize| ((team % 7) as u16, 21 - (team % 5) as u16);
    let mut plan = PlanWriter::start(64);
    for item in 0..64 {
        let (from, to) = days(item % 12);
        plan.shelf(item, from, to);
    }
    for team in 0..12 {
        plan.mounts(255);
        for item in 0..64 {
            let glued = item % 12 == team;
            if glued && item < 32 {
                plan.glue(item);
            }
            plan.fit(item, 1 << (item % 32) | 1 << ((item + 1) % 32));
            if glued && item >= 32 {
                plan.glue(item);
            }
        }
        let (from, to) = days(team);
        plan.days(from, to);
    }
    plan
}

/// A sheet built by this crate.
pub fn own_sheet(file: &[u8]) -> Vec<u8> {
    let plan = read(file);
    pool::build::contents(&plan).bytes(plan.instruments)
}

/// How often each refusal number came up.
#[derive(Default)]
pub struct Tally([usize; 19]);

impl Tally {
    /// Counts an answer of Check, or a refused Build.
    pub fn count(&mut self, answer: u64) {
        self.0[(answer >> 16) as usize] += 1;
    }

    /// Every one of these numbers must have come up.
    pub fn seen(&self, numbers: impl Iterator<Item = usize>) {
        for number in numbers {
            assert!(self.0[number] > 0, "refusal {number} never came up");
        }
    }
}

/// Damages bytes: flips, cuts, additions and splices.
pub fn damage(random: &mut Random, bytes: &[u8], other: &[u8]) -> Vec<u8> {
    let mut out = bytes.to_vec();
    let at = random.below(out.len() + 1);
    let to = random.between(at, out.len());
    match random.below(7) {
        0 if at < out.len() => out[at] ^= 1 << random.below(8),
        1 if at < out.len() => out[at] = random.byte(),
        2 => out.truncate(at),
        3 => out.extend((0..random.between(1, 4)).map(|_| random.byte())),
        4 => out.insert(at, random.byte()),
        5 => drop(out.drain(at..to.min(at + 6))),
        _ => {
            let from = random.below(other.len() + 1);
            let until = random.between(from, other.len());
            out.splice(at..to, other[from..until].iter().copied());
        }
    }
    out
}

/// Damages a plan command by command: left out, repeated, moved, an operand at an edge.
pub fn damage_commands(random: &mut Random, plan: &[u8]) -> Vec<u8> {
    let mut row = commands(plan);
    let at = random.below(row.len());
    let to = random.below(row.len());
    match random.below(5) {
        0 => drop(row.remove(at)),
        1 => row.insert(to, row[at].clone()),
        2 => row.swap(at, to),
        3 => {
            let place = random.below(row[at].len());
            let edges = [0, 1, 15, 16, 39, 40, 63, 64, 65, 254, 255, plan[2]];
            row[at][place] = random.pick(&edges);
        }
        _ => {
            let opening = random.pick(&[0x02, 0x03, 0x08]);
            let more = random.between(1, 13);
            row.splice(at..at, (0..more).map(|_| vec![opening, 9]));
        }
    }
    row.concat()
}

/// Commands in any order with operands near their edges; START and END mostly there.
pub fn loose_commands(random: &mut Random) -> Vec<u8> {
    let count = random.pick(&[0u8, 1, 2, 5, 64, 65]);
    let mut out = vec![];
    if random.chance(15, 16) {
        out.extend([0x01, random.pick(&[1, 1, 1, 1, 1, 1, 0, 2]), count]);
    }
    for _ in 0..random.pick(&[0, 0, 0, 1, 2, 3]) {
        loose_command(random, 0x0a, &mut out);
    }
    for _ in 0..random.below(24) {
        let usual = random.pick(&[
            2, 2, 3, 3, 3, 4, 4, 5, 5, 5, 6, 6, 6, 6, 6, 8, 8, 9, 9, 9, 11, 11, 12,
        ]);
        let byte = if random.chance(1, 16) {
            random.pick(&[1, 7, 0, 10, 13, 255])
        } else {
            usual
        };
        loose_command(random, byte, &mut out);
    }
    if random.chance(7, 8) {
        out.push(0x07);
    }
    out
}

/// A command with operands near their edges; days mostly with a low from.
fn loose_command(random: &mut Random, byte: u8, out: &mut Vec<u8>) {
    out.push(byte);
    for _ in 0..operand_count(byte).unwrap_or(0) {
        out.push(random.pick(&[0, 0, 1, 1, 2, 3, 4, 15, 16, 39, 40, 63, 64]));
    }
    if matches!(byte, 0x0a | 0x0b) && random.chance(3, 4) {
        let end = out.len();
        out[end - 3] = 0;
    }
}

/// Changes one field of a sheet and keeps its form: the verdict is then about content.
pub fn damage_field(random: &mut Random, plan: &Plan, sheet: &mut [u8]) {
    let teams = teams_where(plan, Team::present);
    if teams.is_empty() || random.chance(4, 7) {
        damage_division(random, layout_of(plan), sheet);
    } else {
        let team = random.pick(&teams);
        damage_page(random, layout_of(plan), team, teams.len(), sheet);
    }
}

/// The numbers of the teams that pass a test.
pub fn teams_where(plan: &Plan, passes: impl Fn(&Team) -> bool) -> Vec<usize> {
    let teams = 0..plan.teams.len();
    teams.filter(|&team| passes(&plan.teams[team])).collect()
}

/// Changes a GIVE, two GIVEs, the set of BOUND or the total.
fn damage_division(random: &mut Random, layout: Layout, sheet: &mut [u8]) {
    let (m, n) = (layout.instruments, layout.teams);
    let item = random.below(m);
    match random.below(4) {
        0 if m > 0 => {
            let holder = random.below(n + 1) as u8;
            sheet[layout.give(item) + 2] = if holder == n as u8 { 0xff } else { holder };
        }
        1 if m > 0 => {
            let other = random.below(m);
            sheet.swap(layout.give(item) + 2, layout.give(other) + 2);
        }
        2 if m > 0 => {
            sheet[layout.bound() + 1 + item / 8] ^= 1 << (item % 8);
        }
        _ => step(random, &mut sheet[3]),
    }
}

/// Changes the set, a PART or the share in the page of a present team, one of `present`.
fn damage_page(random: &mut Random, layout: Layout, team: usize, present: usize, sheet: &mut [u8]) {
    let item = random.below(layout.instruments);
    match random.below(5) {
        0 | 1 if layout.instruments > 0 => {
            sheet[layout.share(team) + 3 + item / 8] ^= 1 << (item % 8);
        }
        2 | 3 if layout.instruments > 0 => {
            sheet[layout.part(team, item) + 2] = random.below(present) as u8;
        }
        _ => step(random, &mut sheet[layout.share(team) + 2]),
    }
}

/// Makes a byte a little larger or smaller.
fn step(random: &mut Random, byte: &mut u8) {
    *byte = byte.wrapping_add(random.pick(&[1, 255, 2, 254, 10]));
}

/// The two laws for two random sets and the first team of a plan: a part of an independent set
/// is independent, and a smaller one gains a member of a larger.
pub fn two_laws(random: &mut Random, file: &[u8]) {
    let plan = read(file);
    let team = &plan.teams[0];
    let independent = |set| definition::independent(&plan, team, set);
    let (a, b) = (random.word() & plan.all(), random.word() & plan.all());
    assert!(independent(0));
    assert!(!independent(a) || independent(a & b));
    if independent(a) && independent(b) && bits::size(a) < bits::size(b) {
        assert!(bits::members(b & !a).any(|item| independent(a | bits::one(item))));
    }
}
