//! The weekly listing of an accepted sheet, and the line of a refusal.

use crate::check::{judge, layout_of};
use crate::plan;
use crate::refusal::Refusal;
use crate::sheet::{Layout, POOL};

/// The listing as one number: its length, or the refusal's code.
pub fn answer(file: &[u8], sheet: &[u8], buffer: &mut [u8]) -> u64 {
    match list(file, sheet, buffer) {
        Ok(length) => length as u64,
        Err(refusal) => refusal.code(),
    }
}

/// Writes the listing of an accepted sheet in the first bytes of the buffer and answers
/// its length. Check's refusals come first; a shorter buffer is 10, place the length.
pub fn list(file: &[u8], sheet: &[u8], buffer: &mut [u8]) -> Result<usize, Refusal> {
    let plan = plan::read(file)?;
    judge(&plan, sheet)?;
    let listing = text(layout_of(&plan), sheet);
    let length = listing.len();
    let place = buffer.get_mut(..length).ok_or(Refusal::new(10, length))?;
    place.copy_from_slice(listing.as_bytes());
    Ok(length)
}

/// The listing of a sheet of this layout: the total, a line for each team, the pool.
pub fn text(layout: Layout, sheet: &[u8]) -> String {
    let team_lines = (0..layout.teams).map(|team| team_line(layout, sheet, team));
    let (total, teams) = (sheet[3], team_lines.collect::<String>());
    let pool = instruments(layout, sheet, POOL);
    format!("TOTAL {total}\n{teams}POOL{pool}\n")
}

/// The line of a team: its number, its share, its instruments.
fn team_line(layout: Layout, sheet: &[u8], team: usize) -> String {
    let share = sheet[layout.share(team) + 2];
    let held = instruments(layout, sheet, team as u8);
    format!("TEAM {team} SHARE {share} HOLDS{held}\n")
}

/// The instruments whose GIVE has this team byte, rising, a space before each.
fn instruments(layout: Layout, sheet: &[u8], holder: u8) -> String {
    (0..layout.instruments)
        .filter(|&item| sheet[layout.give(item) + 2] == holder)
        .map(|item| format!(" {item}"))
        .collect()
}

/// The line of a refusal: its number and its place.
pub fn refusal_line(refusal: Refusal) -> String {
    format!("REFUSED {} {}\n", refusal.number, refusal.place)
}
