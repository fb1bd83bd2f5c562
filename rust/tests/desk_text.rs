//! The desk program's `write` and `show`, run on texts and plans and compared with this crate:
//! exit status, standard output, standard error and the file written.

mod common;

use common::days::DAYS_FAULTS;
use common::glue::GLUE_FAULTS;
use common::joints::JOINT_FAULTS;
use common::texts::{damage_text, dressed, loose_text, widest_plan};
use common::*;
use pool::examples;
use pool::listing::refusal_line;
use pool::random::Random;
use pool::refusal::Refusal;
use pool::sample::{any_glue_plan, days_plan, glue_plan, mounts_plan};
use pool::show::show;
use pool::text::{write, Fault, MOST_TEXT};
use pool::writer::plan_a;
use std::fs;
use std::io::{ErrorKind, Write};
use std::path::{Path, PathBuf};
use std::process::{Command, Stdio};

/// The line that stands for the words of a refusal, which this crate does not have.
const WORDS: &str = "(words)\n";

/// What a run of the program gave: its exit status, what it printed on standard output and on
/// standard error, and the bytes of the file that it may write.
#[derive(Debug, PartialEq, Eq)]
struct Run {
    status: Option<i32>,
    output: String,
    errors: String,
    file: Option<Vec<u8>>,
}

/// The program, and a folder of its own for a test.
struct Desk {
    program: PathBuf,
    folder: PathBuf,
}

impl Desk {
    /// The program named by DESK, or the usual place beside this package.
    fn new(test: &str) -> Self {
        let package = Path::new(env!("CARGO_MANIFEST_DIR"));
        let program = match std::env::var_os("DESK") {
            Some(path) => PathBuf::from(path),
            None => package.join("../target/desk_c/desk"),
        };
        assert!(
            program.is_file(),
            "no desk program {}: build it with `make -C desk_c`, or name another one by DESK",
            program.display()
        );
        let name = format!("desk-text-{}-{test}", std::process::id());
        let folder = Path::new(env!("CARGO_TARGET_TMPDIR")).join(name);
        fs::create_dir_all(&folder).expect("a folder");
        Desk { program, folder }
    }

    /// Runs the program in the folder with these bytes on standard input, of which it may leave
    /// some unread.
    fn run(&self, arguments: &[&str], input: &[u8]) -> Run {
        let mut command = Command::new(&self.program);
        command.args(arguments).current_dir(&self.folder);
        command.stdin(Stdio::piped());
        command.stdout(Stdio::piped()).stderr(Stdio::piped());
        let mut run = command.spawn().expect("the program starts");
        let mut stdin = run.stdin.take().expect("standard input");
        if let Err(error) = stdin.write_all(input) {
            assert_eq!(error.kind(), ErrorKind::BrokenPipe);
        }
        drop(stdin);
        let output = run.wait_with_output().expect("the program ends");
        Run {
            status: output.status.code(),
            output: String::from_utf8(output.stdout).expect("text"),
            errors: String::from_utf8(output.stderr).expect("text"),
            file: fs::read(self.folder.join("plan")).ok(),
        }
    }

    /// Runs `write` on a text, from a file or from standard input, where the plan's file has these
    /// bytes before or is not there; tests what it gives.
    fn same_write(&self, text: &[u8], from_file: bool, before: Option<&[u8]>) -> Run {
        self.prepare("plan", before);
        self.prepare("text", from_file.then_some(text));
        let found = if from_file {
            self.run(&["write", "text", "plan"], &[])
        } else {
            self.run(&["write", "-", "plan"], text)
        };
        let name = if from_file { "text" } else { "standard input" };
        let expected = expected_write(text, name, before);
        let found = without_words(found, 1);
        assert_eq!(found, expected, "{}", text.escape_ascii());
        found
    }

    /// Runs `show` on a plan, from a file or from standard input; tests what it gives.
    fn same_show(&self, plan: &[u8], from_file: bool) -> Run {
        self.prepare("plan", from_file.then_some(plan));
        let mut found = if from_file {
            self.run(&["show", "plan"], &[])
        } else {
            self.run(&["show", "-"], plan)
        };
        let (lines, expected) = expected_show(plan);
        found.file = None;
        let found = without_words(found, lines + 1);
        assert_eq!(found, expected, "{plan:x?}");
        found
    }

    /// Gives a file of the folder these bytes, or removes it.
    fn prepare(&self, name: &str, bytes: Option<&[u8]>) {
        let path = self.folder.join(name);
        match bytes {
            Some(bytes) => fs::write(path, bytes).expect("a file"),
            None => drop(fs::remove_file(path)),
        }
    }

    /// Tests that the program left no other files, and removes the folder.
    fn end(self) {
        let entries = fs::read_dir(&self.folder).expect("the folder");
        let names = entries.map(|entry| entry.expect("an entry").file_name());
        let other = names.filter(|name| name != "plan" && name != "text");
        assert_eq!(other.count(), 0, "{}", self.folder.display());
        fs::remove_dir_all(self.folder).expect("the folder");
    }
}

/// Puts the same line for the words of a refusal, which are the line of this number and not empty.
fn without_words(mut run: Run, number: usize) -> Run {
    if run.status != Some(1) {
        return run;
    }
    let mut lines: Vec<&str> = run.output.split_inclusive('\n').collect();
    if let Some(line) = lines.get_mut(number) {
        assert!(line.trim() != "", "no words");
        *line = WORDS;
    }
    run.output = lines.concat();
    run
}

/// What `write` has to give for a text of this name, by this crate.
fn expected_write(text: &[u8], name: &str, before: Option<&[u8]>) -> Run {
    let (status, output, errors, plan) = match write(text, name) {
        Ok(plan) => (0, String::new(), String::new(), Some(plan)),
        Err(Fault::Trouble(words)) => (2, String::new(), format!("desk: {words}\n"), None),
        Err(Fault::Refused(refusal, line)) => {
            let output = format!("{}{WORDS}{line}\n", refusal_line(refusal));
            (1, output, String::new(), None)
        }
    };
    Run {
        status: Some(status),
        output,
        errors,
        file: plan.or(before.map(<[u8]>::to_vec)),
    }
}

/// What `show` has to give for a plan, by this crate, and how many commands it prints.
fn expected_show(plan: &[u8]) -> (usize, Run) {
    let (lines, refusal) = show(plan);
    let refused = |refusal| refusal_line(refusal) + WORDS;
    let run = Run {
        status: Some(refusal.is_some().into()),
        output: lines.clone() + &refusal.map_or(String::new(), refused),
        errors: String::new(),
        file: None,
    };
    (lines.lines().count(), run)
}

/// How often each exit status came up.
#[derive(Default)]
struct Statuses([usize; 3]);

impl Statuses {
    /// Counts a run.
    fn count(&mut self, run: &Run) {
        let status = run.status.expect("no signal");
        self.0[status as usize] += 1;
    }

    /// Each status must have come up this often.
    fn seen(&self, least: usize) {
        assert!(self.0.iter().all(|count| *count >= least), "{:?}", self.0);
    }
}

/// Runs `write` on a text in a way that is drawn, and counts its exit status.
fn some_write(random: &mut Random, desk: &Desk, text: &[u8], statuses: &mut Statuses) {
    let before = random.pick(&[None, Some(&b""[..]), Some(b"an older plan")]);
    let from_file = random.chance(1, 2);
    statuses.count(&desk.same_write(text, from_file, before));
}

/// A random plan of any sort, few of them large.
fn drawn_plan(random: &mut Random) -> Vec<u8> {
    let most = random.pick(&[2, 5, 5, 5, 5, 12, 12, 64]);
    let (m, n) = (random.below(most + 1), random.between(1, 5));
    match random.below(5) {
        0 => days_plan(random, m, n),
        1 => glue_plan(random, m, n),
        2 => mounts_plan(random, m, n),
        _ => some_plan(random, most, 12),
    }
}

#[test]
fn texts_of_the_examples() {
    let desk = Desk::new("examples");
    let folder = Path::new(env!("CARGO_MANIFEST_DIR")).join("../examples");
    for example in examples::all() {
        let text = fs::read(folder.join(format!("{}.txt", example.name)));
        let run = desk.same_write(&text.expect("a text"), true, None);
        assert_eq!(run.file, Some(example.plan.clone()), "{}", example.name);
        assert_eq!(desk.same_show(&example.plan, true).status, Some(0));
    }
    desk.end();
}

#[test]
fn texts_of_random_plans() {
    let desk = Desk::new("random");
    let mut random = Random::new(1101);
    for _ in 0..cases() / 40 {
        let file = drawn_plan(&mut random);
        let text = dressed(&mut random, &file);
        let from_file = random.chance(1, 2);
        let run = desk.same_write(&text, from_file, Some(b"before"));
        assert_eq!(run.file, Some(file));
    }
    desk.end();
}

#[test]
fn damaged_texts() {
    let desk = Desk::new("damaged");
    let mut random = Random::new(1102);
    let mut statuses = Statuses::default();
    for _ in 0..cases() / 20 {
        let file = drawn_plan(&mut random);
        let mut text = dressed(&mut random, &file);
        for _ in 0..random.pick(&[1, 1, 1, 2, 4]) {
            text = damage_text(&mut random, &text);
        }
        some_write(&mut random, &desk, &text, &mut statuses);
    }
    statuses.seen(cases() / 400);
    desk.end();
}

#[test]
fn texts_of_any_words() {
    let desk = Desk::new("words");
    let mut random = Random::new(1103);
    let mut statuses = Statuses::default();
    for _ in 0..cases() / 40 {
        let mut text = loose_text(&mut random);
        if random.chance(1, 4) {
            let file = some_plan(&mut random, 3, 2);
            text = [dressed(&mut random, &file), b"\n".to_vec(), text].concat();
        }
        some_write(&mut random, &desk, &text, &mut statuses);
    }
    desk.end();
}

/// Faulty plans of every number, random ones and those of the other tests.
fn refused_plans(random: &mut Random) -> Vec<Vec<u8>> {
    let faults = MOUNTS_FAULTS.into_iter().chain(DAYS_FAULTS);
    let faults = faults.chain(JOINT_FAULTS).chain(GLUE_FAULTS);
    let mut plans: Vec<Vec<u8>> = faults.map(|(bytes, _, _)| hex(bytes)).collect();
    for _ in 0..cases() / 80 {
        let file = some_plan(random, 6, 12);
        plans.push(file[..file.len() - 1].to_vec());
        plans.push(damage_commands(random, &file));
        plans.push(loose_commands(random));
        plans.push(any_glue_plan(random, 4, 2));
    }
    plans
}

/// The texts of plans that Read refuses, if they are whole commands.
#[test]
fn texts_of_refused_plans() {
    let desk = Desk::new("refused");
    let mut random = Random::new(1104);
    let mut statuses = Statuses::default();
    let mut tally = Tally::default();
    for plan in refused_plans(&mut random) {
        if let Some(text) = all_printed(&plan) {
            some_write(&mut random, &desk, text.as_bytes(), &mut statuses);
            let answer = pool::plan::read(&plan);
            tally.count(answer.err().map_or(0, Refusal::code));
        }
    }
    tally.seen([1, 2, 4, 5, 6, 7, 8, 9, 17, 18].into_iter());
    desk.end();
}

/// The printed form of any whole commands, refused or not; nothing if one is no whole command.
fn all_printed(file: &[u8]) -> Option<String> {
    let (mut rest, mut text) = (file, String::new());
    while let Some(&byte) = rest.first() {
        let length = 1 + pool::plan::operand_count(byte)?;
        text += &pool::show::printed(rest.get(..length)?);
        text += "\n";
        rest = &rest[length..];
    }
    Some(text)
}

#[test]
fn long_texts() {
    let desk = Desk::new("long");
    let mut random = Random::new(1105);
    let mut statuses = Statuses::default();
    let largest = [longest_plan().end(), widest_plan().end()];
    for file in &largest {
        for _ in 0..4 {
            let text = dressed(&mut random, file);
            let damaged = damage_text(&mut random, &text);
            let more = [&text[..], b"\n", &text[..]].concat();
            let wrong = [&more[..], b"\nPUT x"].concat();
            for text in [text, damaged, more, wrong] {
                some_write(&mut random, &desk, &text, &mut statuses);
            }
        }
    }
    for text in lengthy_texts() {
        for from_file in [false, true] {
            statuses.count(&desk.same_write(&text, from_file, Some(b"before")));
        }
    }
    statuses.seen(4);
    desk.end();
}

/// Texts around the greatest length, with long lines, words and numbers, and with more commands
/// than any plan has.
fn lengthy_texts() -> Vec<Vec<u8>> {
    let plan = b"START 1 0\nCAPS 1\nEND\n#".to_vec();
    let filled = |start: &[u8], length: usize, byte: u8| {
        let mut text = start.to_vec();
        text.resize(length, byte);
        text
    };
    let caps = |count: usize| "CAPS 1\n".repeat(count).into_bytes();
    let fits = "FIT 0 1 2\n".repeat(1_400).into_bytes();
    vec![
        filled(&plan, MOST_TEXT - 1, b'x'),
        filled(&plan, MOST_TEXT, b'x'),
        filled(&plan, MOST_TEXT, b'\n'),
        filled(&plan, MOST_TEXT + 1, b'x'),
        filled(&plan, MOST_TEXT + 70_000, b'\n'),
        filled(b"FOO\n", MOST_TEXT + 1, b'\n'),
        filled(b"", MOST_TEXT, b'x'),
        filled(b"CAPS 1", MOST_TEXT, b'0'),
        filled(b"CAPS ", MOST_TEXT, b'0'),
        filled(b"START 1 0\nCAPS ", MOST_TEXT, b'0'),
        filled(b"", MOST_TEXT, 0),
        filled(b"FIT 0 1 2\nEND ", 40_000, b' '),
        caps(4_096),
        [caps(4_095), fits.clone(), caps(9)].concat(),
        [b"START 1 2\nMOUNTS 1\n".to_vec(), fits.clone()].concat(),
        [
            b"START 1 2\nMOUNTS 1\n".to_vec(),
            fits,
            b"FIT 0 32".to_vec(),
        ]
        .concat(),
        [caps(20_000), b"END 1\nFOO".to_vec()].concat(),
    ]
}

#[test]
fn shown_plans() {
    let desk = Desk::new("show");
    let mut random = Random::new(1106);
    let mut tally = Tally::default();
    let mut last = plan_a();
    for plan in refused_plans(&mut random) {
        desk.same_show(&plan, true);
        let answer = pool::plan::read(&plan);
        tally.count(answer.err().map_or(0, Refusal::code));
    }
    for _ in 0..cases() / 100 {
        let file = drawn_plan(&mut random);
        for other in [
            damage(&mut random, &file, &last),
            damage_commands(&mut random, &file),
            loose_commands(&mut random),
            any_glue_plan(&mut random, 4, 2),
        ] {
            let from_file = random.chance(1, 2);
            desk.same_show(&other, from_file);
            let answer = pool::plan::read(&other);
            tally.count(answer.err().map_or(0, Refusal::code));
        }
        desk.same_show(&file, true);
        last = file;
    }
    tally.seen((0..=9).chain([17, 18]));
    desk.end();
}

#[test]
fn shown_long_plans() {
    let desk = Desk::new("show-long");
    let longest = longest_plan().end();
    let mut plans = vec![vec![], longest.clone(), widest_plan().end()];
    for count in [1, 2_983, 2_984, 2_985, 70_000] {
        plans.push([&longest[..], &vec![0x09; count]].concat());
        plans.push(vec![0x01; count]);
    }
    plans.extend((5_190..5_208).map(|at| longest[..at].to_vec()));
    for plan in plans {
        for from_file in [false, true] {
            desk.same_show(&plan, from_file);
        }
    }
    desk.end();
}
