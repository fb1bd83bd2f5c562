//! Texts of plans: as people write them, damaged, and of any words.

use pool::plan::commands;
use pool::random::Random;
use pool::show::{printed, COMMANDS};
use std::ops::Range;

/// Words that change a text: numbers at edges and beyond, words that are nearly a command or a
/// number, long words, bytes that are not printable, comments.
pub const WORDS: [&[u8]; 46] = [
    b"0",
    b"1",
    b"2",
    b"04",
    b"15",
    b"16",
    b"31",
    b"32",
    b"031",
    b"39",
    b"40",
    b"63",
    b"64",
    b"255",
    b"256",
    b"257",
    b"0000000000000000000000000000000000000007",
    b"65535",
    b"65536",
    b"4294967295",
    b"4294967296",
    b"4294967297",
    b"18446744073709551615",
    b"18446744073709551616",
    b"18446744073709551617",
    b"99999999999999999999999999",
    b"10000000000000000000000000000000000000000000000000000000000000000",
    b"12345678901234567890123456789012",
    b"123456789012345678901234567890123",
    b"x",
    b"1x",
    b"-1",
    b"+1",
    b"1.5",
    b"0x10",
    b"1,2",
    b"FOO",
    b"Caps",
    b"ENDE",
    b"STAR",
    b"abcdefghijklmnopqrstuvwxyzabcdef",
    b"abcdefghijklmnopqrstuvwxyzabcdefg",
    b"\xc3\xa9\x00\x7f\x0b'\\",
    b"1\xb2",
    b"4#x",
    b"#",
];

/// How a text is written: how often out of 8 there is more than one space, a comment, a line
/// without a command, a line that ends with a carriage return, a leading zero.
struct Style {
    gaps: usize,
    comments: usize,
    blanks: usize,
    returns: usize,
    zeros: usize,
}

/// A text of a valid plan with spaces, tabs, comments, blank lines and carriage returns, and the
/// members of a set in any order. Some texts have none of these; some have no last line feed.
pub fn dressed(random: &mut Random, file: &[u8]) -> Vec<u8> {
    let mut rate = || random.pick(&[0, 0, 1, 4]);
    let style = Style {
        gaps: rate(),
        comments: rate(),
        blanks: rate(),
        returns: rate(),
        zeros: rate(),
    };
    let mut text = Vec::new();
    for command in commands(file) {
        if random.chance(style.blanks, 8) {
            line_without_command(random, &style, &mut text);
        }
        line_with_command(random, &style, &command, &mut text);
    }
    if random.chance(1, 8) {
        text.pop();
    }
    text
}

/// A line with spaces alone, or with a comment too.
fn line_without_command(random: &mut Random, style: &Style, text: &mut Vec<u8>) {
    if random.chance(1, 2) {
        gap(random, style, text);
    }
    end_of_line(random, style, text);
}

/// A line with a command, its words apart as the style says.
fn line_with_command(random: &mut Random, style: &Style, command: &[u8], text: &mut Vec<u8>) {
    let line = printed(command);
    let mut words: Vec<&str> = line.split(' ').collect();
    if command[0] == 0x09 {
        random.shuffle(&mut words[2..]);
    }
    if random.chance(style.gaps, 8) {
        gap(random, style, text);
    }
    for (at, word) in words.into_iter().enumerate() {
        if at > 0 {
            gap(random, style, text);
        }
        if at > 0 && random.chance(style.zeros, 8) {
            let zeros = random.pick(&[1, 1, 2, 40]);
            text.extend(vec![b'0'; zeros]);
        }
        text.extend(word.as_bytes());
    }
    end_of_line(random, style, text);
}

/// One space, or several spaces and tabs.
fn gap(random: &mut Random, style: &Style, text: &mut Vec<u8>) {
    if !random.chance(style.gaps, 8) {
        text.push(b' ');
        return;
    }
    for _ in 0..random.between(1, 5) {
        text.push(random.pick(b"  \t\r"));
    }
}

/// The end of a line, with a comment before it or not.
fn end_of_line(random: &mut Random, style: &Style, text: &mut Vec<u8>) {
    if random.chance(style.gaps, 8) {
        gap(random, style, text);
    }
    if random.chance(style.comments, 8) {
        text.extend(random.pick(&[&b"#"[..], b"# PUT 1 2", b"#END", b"## \xc3\xa9 \x00 # x"]));
    }
    if random.chance(style.returns, 8) {
        text.push(b'\r');
    }
    text.push(b'\n');
}

/// The places of what stands between these bytes.
fn stretches(text: &[u8], between: &[u8]) -> Vec<Range<usize>> {
    let mut out = Vec::new();
    let mut start = 0;
    for part in text.split(|byte| between.contains(byte)) {
        out.push(start..start + part.len());
        start += part.len() + 1;
    }
    out.retain(|range| !range.is_empty());
    out
}

/// Damages a text at a byte, at a word or at a line.
pub fn damage_text(random: &mut Random, text: &[u8]) -> Vec<u8> {
    match random.below(4) {
        0 => damage_byte(random, text),
        1 => damage_line(random, text),
        _ => damage_word(random, text),
    }
}

/// Changes a byte, leaves it out or puts one in; cuts the text off; joins two lines.
fn damage_byte(random: &mut Random, text: &[u8]) -> Vec<u8> {
    let mut out = text.to_vec();
    if out.is_empty() {
        return vec![random.byte()];
    }
    let at = random.below(out.len());
    let feed = out[at..].iter().position(|&byte| byte == b'\n');
    let other = random.pick(b"#\n\r\t \x00\x0b\x0c\x7f09aZ,");
    match random.below(7) {
        0 => out[at] = random.byte(),
        1 => out[at] = other,
        2 => drop(out.remove(at)),
        3 => out.insert(at, other),
        4 => out.truncate(at),
        5 => drop(out.remove(at + feed.unwrap_or(0))),
        _ => out[at + feed.unwrap_or(0)] = b' ',
    }
    out
}

/// Leaves a word out, doubles it, puts another in its place or beside it, or makes it small.
fn damage_word(random: &mut Random, text: &[u8]) -> Vec<u8> {
    let words = stretches(text, b" \t\r\n");
    if words.is_empty() {
        return random.pick(&WORDS).to_vec();
    }
    let at = words[random.below(words.len())].clone();
    let word = &text[at.clone()];
    let names = COMMANDS.map(|command| command.name.as_bytes());
    let (name, any) = (random.pick(&names), random.pick(&WORDS));
    let other = random.pick(&[name, any]);
    let new = match random.below(8) {
        0 => vec![],
        1 => [word, b" ", word].concat(),
        2 => [word, b" ", other].concat(),
        3 => [other, b" ", word].concat(),
        4 => word.to_ascii_lowercase(),
        5 => [word, word].concat(),
        6 => [word, &b"00000000000000000000000000000000"[..]].concat(),
        _ => other.to_vec(),
    };
    [&text[..at.start], &new, &text[at.end..]].concat()
}

/// Leaves a line out, doubles it, or moves it.
fn damage_line(random: &mut Random, text: &[u8]) -> Vec<u8> {
    let mut lines: Vec<&[u8]> = text.split_inclusive(|&byte| byte == b'\n').collect();
    if lines.is_empty() {
        return b"\n".to_vec();
    }
    let (at, to) = (random.below(lines.len()), random.below(lines.len()));
    let line = lines[at];
    match random.below(3) {
        0 => drop(lines.remove(at)),
        1 => lines.insert(to, line),
        _ => lines.swap(at, to),
    }
    lines.concat()
}

/// A text of any words, most of them numbers, most lines with a command.
pub fn loose_text(random: &mut Random) -> Vec<u8> {
    let mut text = Vec::new();
    for _ in 0..random.below(6) {
        if random.chance(15, 16) {
            text.extend(
                random
                    .pick(&COMMANDS.map(|command| command.name))
                    .as_bytes(),
            );
        }
        for _ in 0..random.pick(&[0, 1, 1, 2, 2, 2, 3, 3, 5, 40]) {
            text.push(b' ');
            let number = random.below(70).to_string();
            let word = random.pick(&WORDS);
            let other = random.chance(1, 8);
            text.extend(if other { word } else { number.as_bytes() });
        }
        text.push(b'\n');
    }
    text
}

/// The commands of a text without comments and blank lines, with one space between words.
pub fn squeezed(text: &str) -> String {
    let before = |line: &str| line.split('#').next().unwrap_or("").to_string();
    let words = |line: String| line.split_whitespace().collect::<Vec<_>>().join(" ");
    let lines = text.lines().map(before).map(words);
    lines
        .filter(|line| !line.is_empty())
        .map(|line| line + "\n")
        .collect()
}

/// The largest plan in text: every FIT with all 32 mounts, shelf days and days of five digits, no
/// END. No instrument is glued.
pub fn widest_plan() -> pool::writer::PlanWriter {
    let mut plan = pool::writer::PlanWriter::start(64);
    for item in 0..64 {
        plan.shelf(item, 10_000, 65_535);
    }
    for _ in 0..12 {
        plan.mounts(255);
        for item in 0..64 {
            plan.fit(item, u32::MAX);
        }
        plan.days(10_000, 65_535);
    }
    plan
}
