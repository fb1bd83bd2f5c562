//! The text of a plan, a line for each command: its bytes, the first trouble with it in words,
//! and the line that a refusal of its plan is about.

use crate::plan;
use crate::refusal::Refusal;
use crate::show::{printed, Command, Operand, COMMANDS};

/// The most bytes of a text.
pub const MOST_TEXT: usize = 1_048_576;
/// The most bytes of a word that a message prints.
const MOST_PRINTED: usize = 32;

/// A text without trouble: the bytes of its commands, and the line of each one.
#[derive(Debug, Default, PartialEq, Eq)]
pub struct Text {
    pub plan: Vec<u8>,
    pub lines: Vec<Line>,
}

/// A line with a command: its number, counted from 1, and the offset of the command in the plan.
#[derive(Clone, Copy, Debug, PartialEq, Eq)]
pub struct Line {
    pub number: usize,
    pub offset: usize,
}

/// Why a text makes no plan.
#[derive(Debug, PartialEq, Eq)]
pub enum Fault {
    /// Trouble with the text, in words.
    Trouble(String),
    /// Read's refusal of the plan, and the sentence that names the line.
    Refused(Refusal, String),
}

/// The plan of the text that was read from the file of this name, if Read accepts it.
pub fn write(text: &[u8], name: &str) -> Result<Vec<u8>, Fault> {
    let found = parse(text, name).map_err(Fault::Trouble)?;
    match plan::read(&found.plan) {
        Ok(_) => Ok(found.plan),
        Err(refusal) => Err(Fault::Refused(refusal, found.place_in_words(refusal.place))),
    }
}

/// The commands of a text, or the first trouble with it in words.
pub fn parse(text: &[u8], name: &str) -> Result<Text, String> {
    if text.len() > MOST_TEXT {
        return Err(format!(
            "cannot read {name}: It has more than {MOST_TEXT} bytes"
        ));
    }
    let mut found = Text::default();
    for (at, line) in text.split(|&byte| byte == b'\n').enumerate() {
        let number = at + 1;
        let offset = found.plan.len();
        let command = parse_line(line).map_err(|words| format!("line {number}: {words}"))?;
        if !command.is_empty() {
            found.plan.extend(command);
            found.lines.push(Line { number, offset });
        }
    }
    Ok(found)
}

impl Text {
    /// The sentence about a place in the plan: the line of the command there, of the last command
    /// where the place is the end of the plan.
    fn place_in_words(&self, place: usize) -> String {
        let Some(last) = self.lines.last() else {
            return "The text has no commands.".to_string();
        };
        let at_place = self.lines.iter().find(|line| line.offset == place);
        let (line, which) = match at_place {
            Some(line) => (line, ""),
            None => (last, ", the last command"),
        };
        let command = printed(&self.plan[line.offset..]);
        format!("Line {} of the text{which}: {command}", line.number)
    }
}

/// The bytes of the command in a line, none for a blank line.
fn parse_line(line: &[u8]) -> Result<Vec<u8>, String> {
    let words = words_of(line);
    let Some((name, operands)) = words.split_first() else {
        return Ok(vec![]);
    };
    let named = COMMANDS
        .iter()
        .find(|command| command.name.as_bytes() == *name);
    let command = named.ok_or_else(|| no_command(name))?;
    all_numbers(command, operands)?;
    right_count(command, operands)?;
    encode(command, operands)
}

/// The words of a line before its comment.
fn words_of(line: &[u8]) -> Vec<&[u8]> {
    let comment = line.iter().position(|&byte| byte == b'#');
    let before = &line[..comment.unwrap_or(line.len())];
    let parts = before.split(|byte| matches!(byte, b' ' | b'\t' | b'\r'));
    parts.filter(|word| !word.is_empty()).collect()
}

/// The first word is no command.
fn no_command(word: &[u8]) -> String {
    let names: Vec<&str> = COMMANDS.iter().map(|command| command.name).collect();
    let (last, others) = names.split_last().expect("commands");
    format!(
        "expected a command, found '{}'; commands are {} and {last}",
        shown(word),
        others.join(", ")
    )
}

/// Each operand is a number.
fn all_numbers(command: &Command, words: &[&[u8]]) -> Result<(), String> {
    let number = |word: &&[u8]| word.iter().all(u8::is_ascii_digit);
    match words.iter().find(|word| !number(word)) {
        Some(word) => Err(format!("{}, found '{}'", takes(command), shown(word))),
        None => Ok(()),
    }
}

/// There are as many operands as the command takes.
fn right_count(command: &Command, words: &[&[u8]]) -> Result<(), String> {
    let (fixed, more) = counts(command);
    if words.len() == fixed || more && words.len() > fixed {
        return Ok(());
    }
    Err(format!("{}, found {}", takes(command), words.len()))
}

/// How many operands of a command are numbers, and whether a set follows these.
fn counts(command: &Command) -> (usize, bool) {
    let sets = command.operands.iter().filter(|operand| operand.set);
    let sets = sets.count();
    (command.operands.len() - sets, sets > 0)
}

/// What a command takes, in words.
fn takes(command: &Command) -> String {
    let (fixed, more) = counts(command);
    let count = match fixed {
        0 => "no numbers".to_string(),
        1 => "1 number".to_string(),
        _ => format!("{fixed} numbers"),
    };
    let more = if more { " or more" } else { "" };
    format!("{} takes {count}{more}", command.name)
}

/// The bytes of a command whose operands are numbers and as many as it takes.
fn encode(command: &Command, words: &[&[u8]]) -> Result<Vec<u8>, String> {
    let mut bytes = vec![command.byte];
    let mut rest = words;
    for operand in command.operands {
        let count = if operand.set { rest.len() } else { 1 };
        let (own, others) = rest.split_at(count);
        let value = if operand.set {
            set_of(command, operand, own)?
        } else {
            value_of(command, operand, own[0], 1 << (8 * operand.bytes))?
        };
        bytes.extend(&value.to_le_bytes()[..operand.bytes]);
        rest = others;
    }
    Ok(bytes)
}

/// The set with these members, each named once.
fn set_of(command: &Command, operand: &Operand, words: &[&[u8]]) -> Result<u64, String> {
    let mut set = 0;
    for word in words {
        let member = value_of(command, operand, word, 8 * operand.bytes as u64)?;
        if set >> member & 1 == 1 {
            let (name, members, word) = (command.name, operand.name, shown(word));
            return Err(format!(
                "{name} takes each of its {members} once, found {word} again"
            ));
        }
        set |= 1 << member;
    }
    Ok(set)
}

/// The value of a number of any length, if it is below `end`.
fn value_of(command: &Command, operand: &Operand, word: &[u8], end: u64) -> Result<u64, String> {
    let digits = word.iter().map(|digit| u64::from(digit - b'0'));
    let value = digits.fold(0, |sum: u64, digit| {
        sum.saturating_mul(10).saturating_add(digit)
    });
    if value < end {
        return Ok(value);
    }
    let (name, operand, range) = (command.name, operand.name, operand.range);
    Err(format!(
        "{name} takes {range} as {operand}, found {}",
        shown(word)
    ))
}

/// A word in a message: its first bytes, those that are not printable in hexadecimal.
fn shown(word: &[u8]) -> String {
    let first = word.iter().take(MOST_PRINTED);
    let text: String = first.map(|&byte| shown_byte(byte)).collect();
    if word.len() > MOST_PRINTED {
        text + "..."
    } else {
        text
    }
}

/// A byte in a message.
fn shown_byte(byte: u8) -> String {
    match byte {
        b' '..=b'~' => char::from(byte).to_string(),
        _ => format!("\\x{byte:02X}"),
    }
}
