//! The text of a plan: examples, round trips, every message, and the line of a refusal.

mod common;

use common::texts::{damage_text, dressed, loose_text, squeezed, widest_plan};
use common::*;
use pool::examples;
use pool::family::FAMILIES;
use pool::plan::{self, commands};
use pool::random::Random;
use pool::refusal::Refusal;
use pool::sample::{any_glue_plan, any_plan, days_plan, glue_plan, mounts_plan};
use pool::show::{printed, show, COMMANDS};
use pool::text::{parse, write, Fault, MOST_TEXT};
use pool::writer::{plan_a, PlanWriter};
use std::path::{Path, PathBuf};

/// The end of the message about a word that is no command.
const ARE: &str = "commands are START, CAPS, LOOPS, CLASS, PUT, SPAN, END, MOUNTS, FIT, SHELF, \
DAYS and GLUE";

/// The bytes of a text without trouble.
fn bytes_of(text: &[u8]) -> Vec<u8> {
    parse(text, "t").expect("a text").plan
}

/// The message about a text.
fn message_of(text: &[u8]) -> String {
    parse(text, "t").expect_err("trouble")
}

/// A file of the folder of examples.
fn example_file(name: &str) -> PathBuf {
    let folder = Path::new(env!("CARGO_MANIFEST_DIR")).join("../examples");
    folder.join(name)
}

/// The text in a file of the folder of examples.
fn example_text(name: &str) -> String {
    std::fs::read_to_string(example_file(name)).expect("an example text")
}

#[test]
fn texts_of_the_examples() {
    for example in examples::all() {
        let text = example_text(&format!("{}.txt", example.name));
        let plan = write(text.as_bytes(), "t").expect("a plan");
        assert_eq!(plan, example.plan, "{}", example.name);
        let shown = show(&example.plan);
        assert_eq!(shown, (squeezed(&text), None), "{}", example.name);
        assert!(text.ends_with("\nEND\n"), "{}", example.name);
    }
}

/// The texts of the week joined: START, each team, END.
#[test]
fn the_week_in_parts() {
    let teams = ["team-0.txt", "team-1.txt", "team-2.txt"];
    let teams = teams.map(|name| example_text(&format!("week/{name}")));
    let openings = ["CAPS ", "LOOPS ", "MOUNTS "];
    for team in &teams {
        assert!(openings.iter().any(|opening| team.starts_with(opening)));
        assert!(team.ends_with('\n'));
    }
    let (week, end) = (example_text("week/week.txt"), example_text("week/end.txt"));
    assert!(squeezed(&week) == "START 1 10\n" && week.ends_with('\n') && end == "END\n");
    let joined = week + &teams.concat() + &end;
    assert_eq!(
        write(joined.as_bytes(), "t"),
        Ok(example_plan("footbridge"))
    );
    let files = std::fs::read_dir(example_file("week"));
    assert_eq!(files.expect("the folder").count(), 5);
}

/// The plan of an example.
fn example_plan(name: &str) -> Vec<u8> {
    let mut all = examples::all().into_iter();
    let found = all.find(|example| example.name == name);
    found.expect("an example").plan
}

/// A plan goes to text and back, plainly and as people write it.
fn round_trip(random: &mut Random, file: &[u8]) {
    let (text, refusal) = show(file);
    assert_eq!(refusal, None, "{file:x?}");
    assert_eq!(write(text.as_bytes(), "t").as_deref(), Ok(file));
    assert_eq!(text.lines().count(), commands(file).len());
    let other = dressed(random, file);
    let found = parse(&other, "t").expect("a text");
    assert_eq!(found.plan, file, "{}", String::from_utf8_lossy(&other));
    lines_name_commands(&other, &found);
}

/// Each line named has the command at its offset, as its words say.
fn lines_name_commands(text: &[u8], found: &pool::text::Text) {
    let lines: Vec<&[u8]> = text.split(|&byte| byte == b'\n').collect();
    let mut offset = 0;
    for (line, command) in found.lines.iter().zip(commands(&found.plan)) {
        assert_eq!(line.offset, offset);
        assert_eq!(bytes_of(lines[line.number - 1]), command);
        offset += command.len();
    }
    assert_eq!(offset, found.plan.len());
}

#[test]
fn round_trips_of_every_size() {
    let mut random = Random::new(1001);
    for m in 0..=64 {
        for n in 1..=12 {
            let file = any_plan(&mut random, m, n);
            round_trip(&mut random, &file);
        }
    }
}

#[test]
fn round_trips_of_every_sort() {
    let mut random = Random::new(1002);
    for _ in 0..cases() / 4 {
        let (m, n) = (random.below(10), random.between(1, 4));
        let sort = random.pick(&[any_plan, days_plan, glue_plan, mounts_plan]);
        let file = sort(&mut random, m, n);
        round_trip(&mut random, &file);
    }
    for family in FAMILIES {
        let file = (family.plan)(&mut random, 64, 12);
        round_trip(&mut random, &file);
    }
}

#[test]
fn round_trips_at_the_largest_size() {
    let mut random = Random::new(1003);
    let (longest, widest) = (longest_plan().end(), widest_plan().end());
    assert_eq!((longest.len(), widest.len()), (5208, 5080));
    for _ in 0..20 {
        round_trip(&mut random, &longest);
        round_trip(&mut random, &widest);
    }
    let (text, _) = show(&widest);
    assert_eq!(text.lines().next_back(), Some("END"));
    let fit =
        "FIT 63 0 1 2 3 4 5 6 7 8 9 10 11 12 13 14 15 16 17 18 19 20 21 22 23 24 25 26 27 28 \
               29 30 31";
    assert_eq!(text.lines().filter(|line| *line == fit).count(), 12);
}

/// Every command with every value of each of its bytes.
#[test]
fn round_trips_of_every_byte() {
    for command in &COMMANDS {
        let count: usize = command.operands.iter().map(|operand| operand.bytes).sum();
        for (place, value) in (0..count.max(1)).flat_map(|at| (0..=255).map(move |v| (at, v))) {
            let mut bytes = vec![0; 1 + count];
            bytes[0] = command.byte;
            if place < count {
                bytes[1 + place] = value;
            }
            assert_eq!(bytes_of(printed(&bytes).as_bytes()), bytes);
        }
    }
}

/// The table of commands is that of the reader.
#[test]
fn the_table_is_the_readers() {
    for (at, command) in COMMANDS.iter().enumerate() {
        assert_eq!(usize::from(command.byte), at + 1);
        let count: usize = command.operands.iter().map(|operand| operand.bytes).sum();
        assert_eq!(plan::operand_count(command.byte), Some(count));
    }
    assert_eq!(plan::operand_count(0x0d), None);
}

#[test]
fn words_and_lines() {
    let file = PlanWriter::start(2).caps(1).class(0, 1).put(1, 0).end();
    for text in [
        "START 1 2\nCAPS 1\nCLASS 0 1\nPUT 1 0\nEND\n",
        "START 1 2\nCAPS 1\nCLASS 0 1\nPUT 1 0\nEND",
        "START 1 2\r\nCAPS 1\r\nCLASS 0 1\r\nPUT 1 0\r\nEND\r\n",
        "\n\n START\t1\t\t2 \n\n\tCAPS 1#x\n# CAPS 2\nCLASS 0 1#\nPUT 1\r0\n \t\r\nEND#",
        "START 01 002\nCAPS 0000000001\nCLASS 00 1\nPUT 1 0\nEND\n#\u{ff}",
    ] {
        assert_eq!(bytes_of(text.as_bytes()), file, "{text:?}");
    }
    for text in ["", "\n", "#", "# END", " \t\r", "\n\n#\n\n"] {
        assert_eq!(bytes_of(text.as_bytes()), [0; 0], "{text:?}");
    }
}

#[test]
fn sets_in_any_order() {
    assert_eq!(bytes_of(b"FIT 3 0 4 31"), hex("09 03 11 00 00 80"));
    assert_eq!(bytes_of(b"FIT 3 31 4 0"), hex("09 03 11 00 00 80"));
    assert_eq!(bytes_of(b"FIT 3 031 0000 4"), hex("09 03 11 00 00 80"));
    assert_eq!(bytes_of(b"FIT 3"), hex("09 03 00 00 00 00"));
    assert_eq!(bytes_of(b"FIT 3#4"), hex("09 03 00 00 00 00"));
    assert_eq!(printed(&hex("09 03 11 00 00 80")), "FIT 3 0 4 31");
    assert_eq!(printed(&hex("09 03 00 00 00 00")), "FIT 3");
    assert_eq!(printed(&hex("0A 3F 01 02 FF FF")), "SHELF 63 513 65535");
    assert_eq!(printed(&hex("07")), "END");
}

/// Numbers that the bytes can hold are no trouble, allowed or not.
#[test]
fn numbers_that_bytes_can_hold() {
    for (text, bytes) in [
        ("CLASS 16 2", "04 10 02"),
        ("START 255 255", "01 FF FF"),
        ("SPAN 255 255 255", "06 FF FF FF"),
        ("SHELF 255 65535 00065535", "0A FF FF FF FF FF"),
        ("DAYS 256 255", "0B 00 01 FF 00"),
        ("GLUE 000000000000000000000000000000000000000255", "0C FF"),
    ] {
        assert_eq!(bytes_of(text.as_bytes()), hex(bytes), "{text}");
    }
}

#[test]
fn words_that_are_no_command() {
    let found = |word: &str| format!("line 1: expected a command, found '{word}'; {ARE}");
    let long = "abcdefghijklmnopqrstuvwxyzabcdef";
    let words: [(&[u8], &str); 14] = [
        (b"FOO", "FOO"),
        (b"caps 1", "caps"),
        (b"CAP 1", "CAP"),
        (b"CAPSS 1", "CAPSS"),
        (b"1", "1"),
        (b"\tEN#D", "EN"),
        (b"START,1", "START,1"),
        (b"\xc3\xa9", "\\xC3\\xA9"),
        (b"E\x00\x0b\x7f\x1b", "E\\x00\\x0B\\x7F\\x1B"),
        (b"'\\\"~!", "'\\\"~!"),
        (b"\xef\xbb\xbfSTART 1 2", "\\xEF\\xBB\\xBFSTART"),
        (long.as_bytes(), long),
        (
            b"abcdefghijklmnopqrstuvwxyzabcdefg",
            "abcdefghijklmnopqrstuvwxyzabcdef...",
        ),
        (
            b"\x80abcdefghijklmnopqrstuvwxyzabcdefg",
            "\\x80abcdefghijklmnopqrstuvwxyzabcde...",
        ),
    ];
    for (text, word) in words {
        assert_eq!(message_of(text), found(word));
    }
}

/// Texts of one faulty line, and the message about each.
const MESSAGES: [(&str, &str); 40] = [
    ("CLASS 0 x", "line 1: CLASS takes 2 numbers, found 'x'"),
    ("CLASS x", "line 1: CLASS takes 2 numbers, found 'x'"),
    (
        "CLASS 1 2 3 -4 y",
        "line 1: CLASS takes 2 numbers, found '-4'",
    ),
    ("CLASS 256 2 z", "line 1: CLASS takes 2 numbers, found 'z'"),
    (
        "CLASS CLASS",
        "line 1: CLASS takes 2 numbers, found 'CLASS'",
    ),
    ("CAPS +1", "line 1: CAPS takes 1 number, found '+1'"),
    ("CAPS 1.0", "line 1: CAPS takes 1 number, found '1.0'"),
    ("END x", "line 1: END takes no numbers, found 'x'"),
    ("FIT x", "line 1: FIT takes 1 number or more, found 'x'"),
    (
        "FIT 1 2 3-4",
        "line 1: FIT takes 1 number or more, found '3-4'",
    ),
    ("CLASS 1", "line 1: CLASS takes 2 numbers, found 1"),
    ("CLASS", "line 1: CLASS takes 2 numbers, found 0"),
    ("CLASS 256", "line 1: CLASS takes 2 numbers, found 1"),
    ("CAPS 1 2 3", "line 1: CAPS takes 1 number, found 3"),
    ("END 1", "line 1: END takes no numbers, found 1"),
    ("FIT", "line 1: FIT takes 1 number or more, found 0"),
    ("FIT # 3", "line 1: FIT takes 1 number or more, found 0"),
    ("SPAN 1 2", "line 1: SPAN takes 3 numbers, found 2"),
    ("START 256 2", "line 1: START takes 1 as version, found 256"),
    (
        "START 1 256",
        "line 1: START takes 0 to 64 as instruments, found 256",
    ),
    (
        "CAPS 256",
        "line 1: CAPS takes 0 to 255 as channels, found 256",
    ),
    (
        "LOOPS 0256",
        "line 1: LOOPS takes 0 to 255 as channels, found 0256",
    ),
    (
        "MOUNTS 999",
        "line 1: MOUNTS takes 0 to 255 as channels, found 999",
    ),
    (
        "CLASS 256 256",
        "line 1: CLASS takes 0 to 15 as class, found 256",
    ),
    (
        "CLASS 16 256",
        "line 1: CLASS takes 0 to 255 as cap, found 256",
    ),
    (
        "PUT 256 0",
        "line 1: PUT takes 0 to 63 as instrument, found 256",
    ),
    ("PUT 0 256", "line 1: PUT takes 0 to 15 as class, found 256"),
    (
        "SPAN 0 0 256",
        "line 1: SPAN takes 0 to 39 as joint, found 256",
    ),
    (
        "SPAN 0 300 256",
        "line 1: SPAN takes 0 to 39 as joint, found 300",
    ),
    (
        "FIT 256 32",
        "line 1: FIT takes 0 to 63 as instrument, found 256",
    ),
    ("FIT 0 32", "line 1: FIT takes 0 to 31 as mounts, found 32"),
    (
        "FIT 0 4 4 32",
        "line 1: FIT takes each of its mounts once, found 4 again",
    ),
    (
        "FIT 0 32 4 4",
        "line 1: FIT takes 0 to 31 as mounts, found 32",
    ),
    (
        "FIT 0 4 5 04",
        "line 1: FIT takes each of its mounts once, found 04 again",
    ),
    (
        "FIT 0 32 32",
        "line 1: FIT takes 0 to 31 as mounts, found 32",
    ),
    (
        "SHELF 0 65536 1",
        "line 1: SHELF takes 0 to 65535 as from, found 65536",
    ),
    (
        "SHELF 0 1 65536",
        "line 1: SHELF takes 0 to 65535 as to, found 65536",
    ),
    (
        "DAYS 65536 1",
        "line 1: DAYS takes 0 to 65535 as from, found 65536",
    ),
    (
        "DAYS 1 65536",
        "line 1: DAYS takes 0 to 65535 as to, found 65536",
    ),
    (
        "GLUE 256",
        "line 1: GLUE takes 0 to 63 as instrument, found 256",
    ),
];

#[test]
fn every_message() {
    for (text, message) in MESSAGES {
        assert_eq!(message_of(text.as_bytes()), message, "{text}");
    }
}

#[test]
fn long_numbers() {
    let found = |number: &str| format!("line 1: CAPS takes 0 to 255 as channels, found {number}");
    for number in [
        "4294967296",
        "18446744073709551615",
        "18446744073709551616",
        "18446744073709551617",
        "99999999999999999999999999",
        "12345678901234567890123456789012",
    ] {
        assert_eq!(
            message_of(format!("CAPS {number}").as_bytes()),
            found(number)
        );
    }
    let more = "CAPS 123456789012345678901234567890123";
    let cut = found("12345678901234567890123456789012...");
    assert_eq!(message_of(more.as_bytes()), cut);
    let power = format!("CAPS 1{}", "0".repeat(64));
    let cut = found(&format!("1{}...", "0".repeat(31)));
    assert_eq!(message_of(power.as_bytes()), cut);
    let zeros = format!("FIT 0 4 {}4", "0".repeat(40));
    let cut = format!("found {}... again", "0".repeat(32));
    assert!(message_of(zeros.as_bytes()).ends_with(&cut));
    let long = format!("CAPS {}7", "0".repeat(100_000));
    assert_eq!(bytes_of(long.as_bytes()), [0x02, 7]);
}

/// The first faulty line is reported, also behind a plan that is refused.
#[test]
fn the_first_faulty_line() {
    let third = "line 3: END takes no numbers, found 1";
    assert_eq!(message_of(b"CAPS 1\n# CAPS\nEND 1\nFOO"), third);
    assert_eq!(message_of(b"\r\n\nEND 1"), third);
    let long = "CAPS 1\n".repeat(9_000) + "END 1\nFOO";
    assert_eq!(
        message_of(long.as_bytes()),
        "line 9001: END takes no numbers, found 1"
    );
}

#[test]
fn texts_of_every_length() {
    let mut text = b"START 1 0\nCAPS 1\nEND\n#".to_vec();
    text.resize(MOST_TEXT, b'\n');
    assert_eq!(bytes_of(&text), PlanWriter::start(0).caps(1).end());
    text.push(b'\n');
    let message = |name| {
        Err(format!(
            "cannot read {name}: It has more than 1048576 bytes"
        ))
    };
    assert_eq!(parse(&text, "week.txt"), message("week.txt"));
    text[0] = b'x';
    assert_eq!(parse(&text, "standard input"), message("standard input"));
}

/// Texts of refused plans: the refusal's number, its place, and the line about the text.
const REFUSED: [(&str, u8, usize, &str); 15] = [
    ("", 1, 0, "The text has no commands."),
    ("# END\n\n", 1, 0, "The text has no commands."),
    ("\nEND\n", 1, 0, "Line 2 of the text: END"),
    (
        "START 1 2",
        2,
        3,
        "Line 1 of the text, the last command: START 1 2",
    ),
    (
        "START 1 2\nCAPS 1\n\nPUT 0 07 # x\n\n",
        2,
        8,
        "Line 4 of the text, the last command: PUT 0 7",
    ),
    ("START 1 2\nEND", 4, 3, "Line 2 of the text: END"),
    (
        "START 1 2\n\nSTART 1 2\nEND",
        4,
        3,
        "Line 3 of the text: START 1 2",
    ),
    ("START 1 65\nFIT 0", 5, 0, "Line 1 of the text: START 1 65"),
    (
        "START 1 2\n\nCAPS 7\nPUT 2 0\nEND",
        5,
        5,
        "Line 4 of the text: PUT 2 0",
    ),
    (
        "START 1 2\nMOUNTS 7\nFIT 2 9 1\nEND",
        5,
        5,
        "Line 3 of the text: FIT 2 1 9",
    ),
    (
        "START 1 2\nCAPS 7\nPUT 1 0\nPUT 1 0\nEND",
        6,
        8,
        "Line 4 of the text: PUT 1 0",
    ),
    (
        "START 1 2\nLOOPS 7\nSPAN 1 4 4\nEND",
        8,
        5,
        "Line 3 of the text: SPAN 1 4 4",
    ),
    (
        "START 1 2\nCAPS 7\nEND\n# x\nEND",
        9,
        6,
        "Line 5 of the text: END",
    ),
    (
        "START 1 2\nCAPS 7\nDAYS 7 7\nEND",
        17,
        5,
        "Line 3 of the text: DAYS 7 7",
    ),
    (
        "START 1 2\nCAPS 7\nGLUE 1\nEND",
        18,
        7,
        "Line 4 of the text: END",
    ),
];

#[test]
fn lines_of_refusals() {
    for (text, number, place, line) in REFUSED {
        let expected = Fault::Refused(Refusal::new(number, place), line.to_string());
        assert_eq!(write(text.as_bytes(), "t"), Err(expected), "{text:?}");
    }
    let text = "START 1 2\n".to_string() + &"CAPS 1\n".repeat(9_000);
    let expected = Fault::Refused(Refusal::new(7, 27), "Line 14 of the text: CAPS 1".into());
    assert_eq!(write(text.as_bytes(), "t"), Err(expected));
}

/// What is shown of a refused plan are its commands before the place of the refusal.
#[test]
fn shown_before_a_refusal() {
    for (bytes, lines, number, place) in [
        ("", "", 1, 0),
        ("02 01", "", 1, 0),
        ("01 01", "", 2, 0),
        ("01 01 02", "START 1 2\n", 2, 3),
        ("01 01 02 02 01 05 00", "START 1 2\nCAPS 1\n", 2, 5),
        ("01 01 02 0D", "START 1 2\n", 3, 3),
        ("01 01 02 02 07 07 07", "START 1 2\nCAPS 7\nEND\n", 9, 6),
        (
            "01 01 02 02 07 0C 01 07",
            "START 1 2\nCAPS 7\nGLUE 1\n",
            18,
            7,
        ),
    ] {
        let expected = (lines.to_string(), Some(Refusal::new(number, place)));
        assert_eq!(show(&hex(bytes)), expected, "{bytes}");
    }
}

/// Any bytes as a plan: what is shown, taken as text, is what stands before the refusal.
#[test]
fn shown_plans_of_any_bytes() {
    let mut random = Random::new(1004);
    let mut tally = Tally::default();
    let mut last = plan_a();
    for _ in 0..cases() {
        let file = some_plan(&mut random, 6, 12);
        for other in [
            damage(&mut random, &file, &last),
            damage_commands(&mut random, &file),
            loose_commands(&mut random),
            any_glue_plan(&mut random, 4, 2),
        ] {
            let (text, refusal) = show(&other);
            let end = refusal.map_or(other.len(), |refusal| refusal.place);
            assert_eq!(bytes_of(text.as_bytes()), other[..end], "{other:x?}");
            tally.count(refusal.map_or(0, Refusal::code));
        }
        last = file;
    }
    tally.seen((0..=9).chain([17, 18]));
}

/// Damaged texts: the sentence about a refusal names a line that has the command there, and a
/// message names a line that is faulty after lines that are not.
#[test]
fn damaged_texts() {
    let mut random = Random::new(1005);
    let mut tally = Tally::default();
    for _ in 0..cases() / 2 {
        let file = some_plan(&mut random, 5, 4);
        let text = dressed(&mut random, &file);
        for other in [damage_text(&mut random, &text), loose_text(&mut random)] {
            match write(&other, "t") {
                Ok(plan) => assert_eq!(plan, bytes_of(&other)),
                Err(Fault::Refused(refusal, _)) => {
                    assert_eq!(plan::read(&bytes_of(&other)), Err(refusal));
                    tally.count(refusal.code());
                }
                Err(Fault::Trouble(words)) => the_line_is_faulty(&other, &words),
            }
        }
    }
    tally.seen([1, 2, 4, 5, 6, 9].into_iter());
}

/// The line that a message names is the first one with trouble, and the message is about it.
fn the_line_is_faulty(text: &[u8], words: &str) {
    let (number, rest) = words[5..].split_once(": ").expect("a line");
    let number: usize = number.parse().expect("a number");
    let lines: Vec<&[u8]> = text.split(|&byte| byte == b'\n').collect();
    assert_eq!(message_of(lines[number - 1]), format!("line 1: {rest}"));
    bytes_of(&lines[..number - 1].join(&b'\n'));
}
