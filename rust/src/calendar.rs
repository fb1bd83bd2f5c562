//! Loan days for random plans. Their ends are drawn from few days, so that they are often
//! equal and often one day apart.

use crate::plan::commands;
use crate::random::Random;

/// Five rising days.
type Calendar = [u16; 5];

/// The first days, days of a fortnight, days around a change of the high byte, days whose low
/// bytes do not rise with them, and days at both ends.
const CALENDARS: [Calendar; 5] = [
    [0, 1, 2, 3, 4],
    [0, 7, 8, 14, 15],
    [0, 255, 256, 257, 512],
    [2, 257, 258, 512, 65_535],
    [0, 1, 65_533, 65_534, 65_535],
];

/// A valid plan without loan days, given some: SHELFs in any order before the first team, and
/// DAYS anywhere in a team.
pub fn with_days(random: &mut Random, file: &[u8]) -> Vec<u8> {
    let calendar = random.pick(&CALENDARS);
    let rate = random.pick(&[2, 3, 4, 4]);
    let row = commands(file);
    let mut out = row[0].clone();
    out.extend(shelves(random, &calendar, file[2]).concat());
    let teams = &row[1..row.len() - 1];
    for team in teams.chunk_by(|_, next| !matches!(next[0], 0x02 | 0x03 | 0x08)) {
        let mut team = team.to_vec();
        if random.chance(rate, 4) {
            let at = random.between(1, team.len());
            team.insert(at, [vec![0x0b], any_days(random, &calendar)].concat());
        }
        out.extend(team.concat());
    }
    out.push(0x07);
    out
}

/// SHELF commands in a random order, for some or all instruments.
fn shelves(random: &mut Random, calendar: &Calendar, instruments: u8) -> Vec<Vec<u8>> {
    let rate = random.pick(&[1, 2, 3, 4]);
    let mut commands = Vec::new();
    for item in 0..instruments {
        if random.chance(rate, 4) {
            commands.push([vec![0x0a, item], shelf_days(random, calendar)].concat());
        }
    }
    random.shuffle(&mut commands);
    commands
}

/// The operands of shelf days, which are mostly long.
fn shelf_days(random: &mut Random, calendar: &Calendar) -> Vec<u8> {
    if random.chance(1, 3) {
        return any_days(random, calendar);
    }
    let (from, to) = (random.below(2), random.between(3, 4));
    operands(calendar[from], calendar[to])
}

/// The operands of any two different days of a calendar.
fn any_days(random: &mut Random, calendar: &Calendar) -> Vec<u8> {
    let from = random.below(4);
    let to = random.between(from + 1, 4);
    operands(calendar[from], calendar[to])
}

/// Two days, low bytes first.
fn operands(from: u16, to: u16) -> Vec<u8> {
    [from.to_le_bytes(), to.to_le_bytes()].concat()
}
