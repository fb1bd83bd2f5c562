//! Build and Check timed side by side: this crate and, when linked, the proved library.

use pool::family::{Family, FAMILIES};
use pool::random::Random;
use std::hint::black_box;
use std::time::Instant;

/// Plans made for each row of a table.
const PLANS: usize = 10;
/// The most timed calls for a plan, and the nanoseconds after which no more are made.
const MOST_CALLS: usize = 50;
const ENOUGH: u128 = 60_000_000;

/// One implementation of the two C functions.
struct Engine {
    name: &'static str,
    build: fn(&[u8], &mut [u8]) -> u64,
    check: fn(&[u8], &[u8]) -> u64,
}

/// This crate, and the proved library if its archive was there.
fn engines() -> Vec<Engine> {
    vec![
        Engine {
            name: "Rust",
            build: pool::build::answer,
            check: pool::check::answer,
        },
        #[cfg(proved)]
        Engine {
            name: "proved",
            build: pool::ffi::build,
            check: pool::ffi::check,
        },
    ]
}

fn main() {
    let engines = engines();
    println!("Median microseconds per call over {PLANS} plans a row, the same plans for all.");
    println!("Each lent buffer has exactly L bytes and is cleared to A5 before every Build,");
    println!("outside the timed part. Both checkers judge the sheet built by Rust.");
    if engines.len() == 1 {
        println!("The proved archive is not linked: Rust alone.");
    }
    families(&engines);
    growth(&engines, "mixed");
    growth(&engines, "long exchange chains");
}

/// Every family at the greatest size.
fn families(engines: &[Engine]) {
    println!("\n64 instruments, 12 teams");
    heading(engines, "family");
    for family in &FAMILIES {
        row(engines, family.name, family, 64, 12);
    }
}

/// One family as the number of instruments and the number of teams grow.
fn growth(engines: &[Engine], name: &str) {
    let found = FAMILIES.iter().find(|family| family.name == name);
    let family = found.expect("a family");
    println!("\n{name}, 12 teams");
    heading(engines, "instruments");
    for m in [4, 8, 16, 24, 32, 40, 48, 56, 64] {
        row(engines, &m.to_string(), family, m, 12);
    }
    println!("\n{name}, 64 instruments");
    heading(engines, "teams");
    for n in [1, 2, 3, 4, 6, 8, 10, 12] {
        row(engines, &n.to_string(), family, 64, n);
    }
}

/// The heading of a table.
fn heading(engines: &[Engine], first: &str) {
    print!("{first:24}");
    for operation in ["Build", "Check"] {
        for engine in engines {
            print!("{:>14}", format!("{operation} {}", engine.name));
        }
        if engines.len() > 1 {
            print!("{:>13}", "proved/Rust");
        }
    }
    println!();
}

/// One line: the medians of both operations for each engine, and their ratio.
fn row(engines: &[Engine], label: &str, family: &Family, m: usize, n: usize) {
    let mut random = Random::new((1000 * m + n) as u64);
    let plans: Vec<Vec<u8>> = (0..PLANS)
        .map(|_| (family.plan)(&mut random, m, n))
        .collect();
    print!("{label:24}");
    print_times(&builds(engines, &plans));
    print_times(&checks(engines, &plans));
    println!();
}

/// Prints medians and, for two of them, the second by the first.
fn print_times(samples: &[Vec<u128>]) {
    let medians: Vec<f64> = samples.iter().map(|times| median(times)).collect();
    for time in &medians {
        print!("{time:14.1}");
    }
    if let [own, proved] = medians[..] {
        print!("{:13.2}", proved / own);
    }
}

/// The middle sample, in microseconds.
fn median(times: &[u128]) -> f64 {
    let mut sorted = times.to_vec();
    sorted.sort_unstable();
    sorted[sorted.len() / 2] as f64 / 1000.0
}

/// The sheet of a plan, built by this crate.
fn sheet_of(plan: &[u8]) -> Vec<u8> {
    let read = pool::plan::read(plan).expect("a valid plan");
    pool::build::contents(&read).bytes(read.instruments)
}

/// Times Build, the engines taking turns on each plan.
fn builds(engines: &[Engine], plans: &[Vec<u8>]) -> Vec<Vec<u128>> {
    take_turns(engines, plans, |engine, plan, sheet, buffer| {
        buffer.fill(0xa5);
        let start = Instant::now();
        let answer = (engine.build)(black_box(plan), black_box(buffer));
        let time = start.elapsed().as_nanos();
        assert_eq!(answer, sheet.len() as u64);
        assert_eq!(pool::check::answer(plan, buffer), 0);
        time
    })
}

/// Times Check on the sheet built by Rust.
fn checks(engines: &[Engine], plans: &[Vec<u8>]) -> Vec<Vec<u128>> {
    take_turns(engines, plans, |engine, plan, sheet, _| {
        let start = Instant::now();
        let answer = (engine.check)(black_box(plan), black_box(sheet));
        let time = start.elapsed().as_nanos();
        assert_eq!(answer, 0);
        time
    })
}

/// Calls `timed` for every plan and engine in turn, after one call that is not counted.
fn take_turns(
    engines: &[Engine],
    plans: &[Vec<u8>],
    timed: impl Fn(&Engine, &[u8], &[u8], &mut [u8]) -> u128,
) -> Vec<Vec<u128>> {
    let mut samples = vec![Vec::new(); engines.len()];
    for plan in plans {
        let sheet = sheet_of(plan);
        let mut buffer = vec![0; sheet.len()];
        let start = Instant::now();
        for call in 0..=MOST_CALLS {
            for (engine, times) in engines.iter().zip(&mut samples) {
                let time = timed(engine, plan, &sheet, &mut buffer);
                if call > 0 {
                    times.push(time);
                }
            }
            if call > 2 && start.elapsed().as_nanos() > ENOUGH {
                break;
            }
        }
    }
    samples
}
