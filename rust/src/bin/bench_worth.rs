//! Worth and gains at 64 instruments in nanoseconds a call: this crate and, when linked, the
//! proved functions, on the same sets in the same run.

use pool::bits;
use pool::plan::{Classes, Kind, Team, JOINTS};
use pool::random::Random;
use pool::sample::two_joints;
use pool::writer::PlanWriter;
use std::hint::black_box;
use std::time::Instant;

/// Calls in a timed stretch, and stretches of which the shortest counts.
const CALLS: u64 = 20_000;
const STRETCHES: usize = 100;
/// The word before the first set.
const FIRST: u64 = 88_172_645_463_325_252;

/// A row of the table: a plan of one team, and the two functions of that team in this crate.
struct Row {
    name: &'static str,
    plan: Vec<u8>,
    worth: fn(&Team, u64) -> u64,
    gains: fn(&Team, u64) -> u64,
}

fn main() {
    println!("Shortest of {STRETCHES} stretches of {CALLS} calls, in ns a call; m = 64.");
    println!("Sets for worth: random words. Sets for gains: independent, grown one by one.");
    if !cfg!(probe) {
        println!("The archive of probe is not linked: Rust alone.");
    }
    println!(
        "\n{:44}{:>10}{:>10}{:>13}",
        "", "Rust", "proved", "proved/Rust"
    );
    for row in rows() {
        let team = team_of(&row.plan);
        let worths = |rounds| worths(&team, row.worth, rounds);
        compare("worth", &row, worths, |rounds| {
            proved::worth(&row.plan, rounds)
        });
        let gains = |rounds| gains(&team, row.gains, rounds);
        compare("gains", &row, gains, |rounds| {
            proved::gains(&row.plan, rounds)
        });
    }
}

/// The teams timed.
fn rows() -> Vec<Row> {
    let mut random = Random::new(4);
    let rank = |team: &Team, set| u64::from(team.rank(set));
    let gains = |team: &Team, set| team.gains(set);
    let caps = caps(&mut random);
    let on = |name, plan| Row {
        name,
        plan,
        worth: rank,
        gains,
    };
    vec![
        on("CAPS, class words made once", caps.clone()),
        Row {
            name: "CAPS, from the table at each call",
            plan: caps,
            worth: table_worth,
            gains: table_gains,
        },
        on("LOOPS, sparse: 40 joints", loops(&mut random, JOINTS)),
        on("LOOPS, 16 joints", loops(&mut random, 16)),
        on("LOOPS, dense: 6 joints", loops(&mut random, 6)),
        on(
            "MOUNTS, sparse: 2 of 32 mounts",
            mounts(|_| 1 << random.below(32) | 1 << random.below(32)),
        ),
        on(
            "MOUNTS, dense: half of 32 mounts",
            mounts(|_| random.word() as u32),
        ),
        on(
            "MOUNTS, neighbours in a row",
            mounts(|item| 1 << (item / 2) | 1 << ((item / 2 + 1) % 32)),
        ),
    ]
}

/// A plan of one CAPS team with sixteen classes, channels never short.
fn caps(random: &mut Random) -> Vec<u8> {
    let mut plan = PlanWriter::start(64);
    plan.caps(255);
    for class in 0..16 {
        plan.class(class, random.between(1, 4) as u8);
    }
    for item in 0..64 {
        plan.put(item, random.below(16) as u8);
    }
    plan.end()
}

/// A plan of one LOOPS team on this many joints, channels never short.
fn loops(random: &mut Random, joints: usize) -> Vec<u8> {
    let mut plan = PlanWriter::start(64);
    plan.loops(255);
    for item in 0..64 {
        let (a, b) = two_joints(random, joints);
        plan.span(item, a, b);
    }
    plan.end()
}

/// A plan of one MOUNTS team, channels never short, with the mounts that each instrument fits.
fn mounts(mut fits: impl FnMut(usize) -> u32) -> Vec<u8> {
    let mut plan = PlanWriter::start(64);
    plan.mounts(255);
    for item in 0..64 {
        plan.fit(item, fits(item));
    }
    plan.end()
}

/// The team of a plan of one team.
fn team_of(plan: &[u8]) -> Team {
    let mut plan = pool::plan::read(plan).expect("a valid plan");
    plan.teams.pop().expect("a team")
}

/// The word after x, by three shifts.
fn next(x: u64) -> u64 {
    let a = x ^ (x << 13);
    let b = a ^ (a >> 7);
    b ^ (b << 17)
}

/// The worths of that many words, added up.
fn worths(team: &Team, worth: fn(&Team, u64) -> u64, rounds: u64) -> u64 {
    let mut word = FIRST;
    let mut sum: u64 = 0;
    for _ in 0..rounds {
        word = next(word);
        sum = sum.wrapping_add(worth(black_box(team), word));
    }
    sum
}

/// The gains of that many independent sets, added up.
fn gains(team: &Team, gains: fn(&Team, u64) -> u64, rounds: u64) -> u64 {
    let mut word = FIRST;
    let mut set = 0;
    let mut sum: u64 = 0;
    for _ in 0..rounds {
        word = next(word);
        let joining = gains(black_box(team), set);
        sum = sum.wrapping_add(joining);
        set = grown(set, joining, word);
    }
    sum
}

/// An independent set with one of its gains, of those in the word if there are any, and the
/// empty set where it has none.
fn grown(set: u64, gains: u64, word: u64) -> u64 {
    let some = if gains & word == 0 {
        gains
    } else {
        gains & word
    };
    match some.trailing_zeros() {
        64 => 0,
        item => set | 1 << item,
    }
}

/// The classes of a CAPS team.
fn classes(team: &Team) -> &Classes {
    match &team.kind {
        Kind::Caps(classes) => classes,
        _ => unreachable!("a CAPS team"),
    }
}

/// The members of each class, from the table of classes.
fn class_words(classes: &Classes) -> [u64; 16] {
    let mut words = [0; 16];
    for (item, class) in classes.class_of.iter().enumerate() {
        if let Some(class) = class {
            words[usize::from(*class)] |= bits::one(item);
        }
    }
    words
}

/// Worth to a CAPS team, its class words made at the call.
fn table_worth(team: &Team, set: u64) -> u64 {
    let classes = classes(team);
    let counts = class_words(classes).map(|word| bits::size(word & set));
    let of_class = counts.iter().enumerate();
    let sum: u32 = of_class
        .map(|(c, count)| (*count).min(classes.cap_of(c)))
        .sum();
    u64::from(sum.min(u32::from(team.channels)))
}

/// Gains of a CAPS team, its class words made at the call.
fn table_gains(team: &Team, set: u64) -> u64 {
    if bits::size(set) >= u32::from(team.channels) {
        return 0;
    }
    let classes = classes(team);
    let words = class_words(classes);
    let mut room = 0;
    for (c, word) in words.iter().enumerate() {
        if bits::size(word & set) < classes.cap_of(c) {
            room |= word;
        }
    }
    room & !set
}

/// One line of the table. Both sides add up to the same.
fn compare(
    operation: &str,
    row: &Row,
    own: impl Fn(u64) -> u64,
    proved: impl Fn(u64) -> Option<u64>,
) {
    let label = format!("{operation}, {}", row.name);
    let (mut least, mut least_proved) = (f64::MAX, f64::MAX);
    for _ in 0..STRETCHES {
        let (sum, time) = timed(|| own(CALLS));
        least = least.min(time);
        let (other, time) = timed(|| proved(CALLS));
        least_proved = least_proved.min(time);
        assert!(
            other.is_none_or(|other| other == sum),
            "{label}: sums differ"
        );
    }
    print!("{label:44}{least:10.1}");
    if cfg!(probe) {
        print!("{least_proved:10.1}{:13.2}", least_proved / least);
    }
    println!();
}

/// An answer, and the nanoseconds that each of its calls took.
fn timed<T>(call: impl Fn() -> T) -> (T, f64) {
    let start = Instant::now();
    let answer = black_box(call());
    (answer, start.elapsed().as_nanos() as f64 / CALLS as f64)
}

/// The two functions of the crate `probe`, on the first team of a plan.
#[cfg(probe)]
mod proved {
    extern "C" {
        fn probe_worth(plan: *const u8, length: usize, team: u64, rounds: u64) -> u64;
        fn probe_gains(plan: *const u8, length: usize, team: u64, rounds: u64) -> u64;
    }

    /// The worths of that many words, added up.
    pub fn worth(plan: &[u8], rounds: u64) -> Option<u64> {
        // SAFETY: the pointer is good for the length and is only read.
        Some(unsafe { probe_worth(plan.as_ptr(), plan.len(), 0, rounds) })
    }

    /// The gains of that many independent sets, added up.
    pub fn gains(plan: &[u8], rounds: u64) -> Option<u64> {
        // SAFETY: as above.
        Some(unsafe { probe_gains(plan.as_ptr(), plan.len(), 0, rounds) })
    }
}

/// Without the archive there is nothing to compare with.
#[cfg(not(probe))]
mod proved {
    /// No answer.
    pub fn worth(_plan: &[u8], _rounds: u64) -> Option<u64> {
        None
    }

    /// No answer.
    pub fn gains(_plan: &[u8], _rounds: u64) -> Option<u64> {
        None
    }
}
