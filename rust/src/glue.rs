//! Glued instruments for random plans.

use crate::bits;
use crate::plan::{self, commands, Team};
use crate::random::Random;

/// A valid plan without GLUEs, given some, anywhere in a team: in most plans few instruments,
/// in some as many as can be are glued to a team, and they are independent for it.
pub fn with_glue(random: &mut Random, file: &[u8]) -> Vec<u8> {
    let few = [0, 1, 2];
    let counts = random.pick(&[[0, 0, 1], [0, 1, 1], few, few, [1, 2, 3], [0, 0, 64]]);
    with_counts(random, file, &counts)
}

/// The same with one of these numbers of instruments glued to each team, or as many as can be.
pub fn with_counts(random: &mut Random, file: &[u8], counts: &[usize]) -> Vec<u8> {
    let plan = plan::read(file).expect("a valid plan");
    let mut left = plan.all();
    let mut glued = Vec::new();
    for team in &plan.teams {
        let count = random.pick(counts);
        let set = grown(random, team, left, count);
        left &= !set;
        glued.push(set);
    }
    glued_to(random, file, &glued)
}

/// A valid plan without GLUEs, given some, anywhere in a team: some or all instruments are
/// glued to any team, independent or not.
pub fn with_any_glue(random: &mut Random, file: &[u8]) -> Vec<u8> {
    let plan = plan::read(file).expect("a valid plan");
    let rate = random.pick(&[1, 1, 2, 4, 8]);
    let mut glued = vec![0; plan.teams.len()];
    for item in 0..plan.instruments {
        if random.chance(rate, 8) {
            glued[random.below(plan.teams.len())] |= bits::one(item);
        }
    }
    glued_to(random, file, &glued)
}

/// An independent set of up to `count` of the instruments left, drawn one by one.
fn grown(random: &mut Random, team: &Team, left: u64, count: usize) -> u64 {
    let mut set = 0;
    for _ in 0..count {
        let gains: Vec<usize> = bits::members(team.gains(set) & left).collect();
        if gains.is_empty() {
            break;
        }
        set |= bits::one(random.pick(&gains));
    }
    set
}

/// The plan with GLUEs for these sets, one for each team, at random places in the team.
fn glued_to(random: &mut Random, file: &[u8], glued: &[u64]) -> Vec<u8> {
    let opens = |command: &[u8]| matches!(command[0], 0x02 | 0x03 | 0x08);
    let row = commands(file);
    let first = row.iter().position(|command| opens(command));
    let (before, rest) = row.split_at(first.expect("a team"));
    let teams = rest[..rest.len() - 1].chunk_by(|_, next| !opens(next));
    let mut out = before.concat();
    for (team, &set) in teams.zip(glued) {
        let mut team = team.to_vec();
        for item in bits::members(set) {
            let at = random.between(1, team.len());
            team.insert(at, vec![0x0c, item as u8]);
        }
        out.extend(team.concat());
    }
    out.push(0x07);
    out
}
