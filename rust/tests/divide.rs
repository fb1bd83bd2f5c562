//! The program `divide`, run on plans: what it prints on standard output.

mod common;

use common::days::{plans_of_one, DAYS_FAULTS, TERM, WITHIN};
use common::glue::{BRIDGE, GLUE_ACCEPTED, GLUE_FAULTS, NOT_INDEPENDENT};
use common::joints::{one_span, JOINT_ACCEPTED, JOINT_FAULTS};
use common::*;
use pool::build::contents;
use pool::check::{answer as check, layout_of};
use pool::listing::{refusal_line, text};
use pool::random::Random;
use pool::writer::{plan_a, PlanWriter};
use pool::{bits, examples, plan};
use std::io::{ErrorKind, Write};
use std::path::{Path, PathBuf};
use std::process::{Command, Stdio};
use std::sync::LazyLock;

/// The program, if it is there; if not, these tests pass without it and a note says so.
static DIVIDE: LazyLock<Option<PathBuf>> = LazyLock::new(|| {
    let path = program_path();
    if path.is_file() {
        return Some(path);
    }
    // Written past the test harness, which would keep the note of a passed test to itself.
    let _ = writeln!(std::io::stderr(), "note: no program divide: not tested");
    None
});

/// The program named by POOL_DIVIDE, or the usual place beside this package.
fn program_path() -> PathBuf {
    match std::env::var_os("POOL_DIVIDE") {
        Some(path) => PathBuf::from(path),
        None => Path::new(env!("CARGO_MANIFEST_DIR")).join("../target/bin/divide"),
    }
}

/// What the program prints for a plan on standard input; it may leave bytes unread.
fn printed(program: &Path, file: &[u8]) -> String {
    let mut command = Command::new(program);
    command.stdin(Stdio::piped()).stdout(Stdio::piped());
    let mut run = command.spawn().expect("the program starts");
    let mut input = run.stdin.take().expect("standard input");
    if let Err(error) = input.write_all(file) {
        assert_eq!(error.kind(), ErrorKind::BrokenPipe, "{file:x?}");
    }
    drop(input);
    let output = run.wait_with_output().expect("the program ends");
    assert!(output.status.code().is_some(), "a signal: {file:x?}");
    String::from_utf8(output.stdout).expect("text")
}

/// The instruments that each line of a team names after HOLDS.
fn bundles(listing: &str) -> Vec<u64> {
    let lists = listing.lines().filter_map(|line| line.split_once(" HOLDS"));
    let one = |item: &str| bits::one(item.parse().expect("a number"));
    let set = |list: &str| list.split_whitespace().map(one).fold(0, |a, b| a | b);
    lists.map(|(_, list)| set(list)).collect()
}

/// The output is the listing of a good division: with the bundles it names and this
/// crate's certificates a sheet is accepted, and the listing of that sheet is the output.
fn lists_a_good_division(file: &[u8], output: &str) {
    let plan = read(file);
    let mut found = contents(&plan);
    found.bundles = bundles(output);
    let sheet = found.bytes(plan.instruments);
    assert_eq!(check(file, &sheet), 0, "{output}{file:x?}");
    assert_eq!(output, text(layout_of(&plan), &sheet), "{file:x?}");
}

/// The output is the listing of the sheet that the proved Build writes.
#[cfg(proved)]
fn lists_the_proved_sheet(file: &[u8], output: &str) {
    let layout = layout_of(&read(file));
    let mut sheet = vec![0; layout.length()];
    let answer = pool::ffi::build(file, &mut sheet);
    assert_eq!(answer, layout.length() as u64, "{file:x?}");
    assert_eq!(output, text(layout, &sheet), "{file:x?}");
}

/// Runs the program on any bytes and tests what it prints; hands back the refusal's
/// number, or 0.
fn right_output(program: &Path, file: &[u8]) -> u8 {
    let output = printed(program, file);
    match plan::read(file) {
        Err(refusal) => {
            assert_eq!(output, refusal_line(refusal), "{file:x?}");
            refusal.number
        }
        Ok(_) => {
            lists_a_good_division(file, &output);
            #[cfg(proved)]
            lists_the_proved_sheet(file, &output);
            0
        }
    }
}

#[test]
fn plan_a_is_the_papers() {
    let Some(program) = &*DIVIDE else { return };
    let expected = "\
TOTAL 2
TEAM 0 SHARE 1 HOLDS 0
TEAM 1 SHARE 0 HOLDS 1
POOL
";
    assert_eq!(printed(program, &plan_a()), expected);
}

#[test]
fn teams_away() {
    let Some(program) = &*DIVIDE else { return };
    for case in away::cases() {
        assert_eq!(right_output(program, &case.file), 0, "{}", case.name);
    }
    for present in [|_| true, |team| team != 1, |team| team == 2] {
        let file = away::with_present(&hex(away::WEEK), present);
        assert_eq!(right_output(program, &file), 0);
    }
    let none = away::with_present(&hex(away::WEEK), |_| false);
    assert_eq!(printed(program, &none), away::WEEK_OF_NOBODY);
}

#[test]
fn loan_days() {
    let Some(program) = &*DIVIDE else { return };
    for (shelf, days, there) in WITHIN {
        for file in plans_of_one(shelf, days) {
            let total = format!("TOTAL {}\n", u8::from(there));
            let output = printed(program, &file);
            assert!(output.starts_with(&total), "{output}{file:x?}");
        }
    }
    assert_eq!(right_output(program, &hex(TERM)), 0);
}

#[test]
fn glued_gauges() {
    let Some(program) = &*DIVIDE else { return };
    for (bytes, total, _) in GLUE_ACCEPTED {
        let total = format!("TOTAL {total}\n");
        let output = printed(program, &hex(bytes));
        assert!(output.starts_with(&total), "{output}{bytes}");
        assert_eq!(right_output(program, &hex(bytes)), 0);
    }
    assert_eq!(right_output(program, &hex(BRIDGE)), 0);
    for text in NOT_INDEPENDENT {
        let start = hex(text);
        let line = format!("REFUSED 18 {}\n", start.len());
        for rest in [&[0x07][..], &[0x07, 0x07]] {
            let file = [&start[..], rest].concat();
            assert_eq!(printed(program, &file), line, "{text}");
        }
    }
}

#[test]
fn forty_joints() {
    let Some(program) = &*DIVIDE else { return };
    for (bytes, total) in JOINT_ACCEPTED {
        let total = format!("TOTAL {total}\n");
        let output = printed(program, &hex(bytes));
        assert!(output.starts_with(&total), "{output}{bytes}");
        assert_eq!(right_output(program, &hex(bytes)), 0);
    }
    for joint in 0..=255 {
        for file in [one_span(joint, 39), one_span(39, joint)] {
            let expected = match joint {
                39 => 8,
                0..40 => 0,
                _ => 5,
            };
            assert_eq!(right_output(program, &file), expected, "{joint}");
        }
    }
}

#[test]
fn refusals_of_each_number() {
    let Some(program) = &*DIVIDE else { return };
    let faults = [
        ("", "REFUSED 1 0\n"),
        ("02 01 07", "REFUSED 1 0\n"),
        ("01 01", "REFUSED 2 0\n"),
        ("01 01 02 03 02", "REFUSED 2 5\n"),
        ("01 01 02 02 09 0D 07", "REFUSED 3 5\n"),
        ("01 01 02 07", "REFUSED 4 3\n"),
        ("01 01 41", "REFUSED 5 0\n"),
        ("01 01 02 03 09 06 00 27 28 07", "REFUSED 5 5\n"),
        ("01 01 02 02 09 05 01 00 05 01 00 07", "REFUSED 6 8\n"),
        ("01 01 02 03 09 06 00 01 01 07", "REFUSED 8 5\n"),
        ("01 01 02 03 09 07 07", "REFUSED 9 6\n"),
        ("01 01 02 03 09 0B 07 00 07 00 07", "REFUSED 17 5\n"),
        ("01 01 02 03 09 0C 00 07 07", "REFUSED 18 7\n"),
    ];
    for (bytes, line) in faults {
        assert_eq!(printed(program, &hex(bytes)), line, "{bytes}");
    }
    let faults = MOUNTS_FAULTS.into_iter().chain(DAYS_FAULTS);
    let faults = faults.chain(JOINT_FAULTS).chain(GLUE_FAULTS);
    for (bytes, number, place) in faults {
        let line = format!("REFUSED {number} {place}\n");
        assert_eq!(printed(program, &hex(bytes)), line, "{bytes}");
    }
    let mut plan = PlanWriter::start(0);
    for _ in 0..13 {
        plan.caps(1);
    }
    assert_eq!(printed(program, &plan.end()), "REFUSED 7 27\n");
}

#[test]
fn long_input() {
    let Some(program) = &*DIVIDE else { return };
    let more = |byte, count| [plan_a(), vec![byte; count]].concat();
    for count in [4_074, 8_169, 8_170, 8_171, 70_000, 1_000_000] {
        assert_eq!(printed(program, &more(0x07, count)), "REFUSED 9 22\n");
        assert_eq!(printed(program, &vec![0x00; count]), "REFUSED 1 0\n");
        assert_eq!(printed(program, &vec![0x01; count]), "REFUSED 4 3\n");
    }
    let longest = longest_plan().end();
    assert_eq!(right_output(program, &longest), 0);
    for count in [1, 2_983, 2_984, 2_985, 70_000] {
        let longer = [&longest[..], &vec![0x09; count]].concat();
        assert_eq!(printed(program, &longer), "REFUSED 9 5208\n");
    }
}

#[test]
fn example_plans() {
    let Some(program) = &*DIVIDE else { return };
    for example in examples::all() {
        assert_eq!(right_output(program, &example.plan), 0);
    }
}

#[test]
fn random_plans() {
    let Some(program) = &*DIVIDE else { return };
    let mut random = Random::new(401);
    for round in 0..cases() / 20 {
        let most = if round % 4 == 0 { 64 } else { 9 };
        let file = some_plan(&mut random, most, 12);
        assert_eq!(right_output(program, &file), 0);
    }
}

#[test]
fn damaged_plans() {
    let Some(program) = &*DIVIDE else { return };
    let mut random = Random::new(402);
    let mut tally = Tally::default();
    let mut last = plan_a();
    for _ in 0..cases() / 40 {
        let file = some_plan(&mut random, 6, 12);
        for bytes in [
            damage(&mut random, &file, &last),
            damage_commands(&mut random, &file),
            loose_commands(&mut random),
        ] {
            tally.count(u64::from(right_output(program, &bytes)) << 16);
        }
        last = file;
    }
    tally.seen((0..=9).chain([17, 18]));
}
