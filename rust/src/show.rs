//! The printed form of a plan: what a command looks like in a text, and what `show` prints.

use crate::plan;
use crate::refusal::Refusal;

/// One operand of a command: its name, the values it may have in words, its bytes, and whether
/// these are a set, with bit k for member k.
pub struct Operand {
    pub name: &'static str,
    pub range: &'static str,
    pub bytes: usize,
    pub set: bool,
}

/// One command of a plan: its byte, its name and its operands.
pub struct Command {
    pub byte: u8,
    pub name: &'static str,
    pub operands: &'static [Operand],
}

const VERSION: Operand = number("version", "1", 1);
const INSTRUMENTS: Operand = number("instruments", "0 to 64", 1);
const CHANNELS: Operand = number("channels", "0 to 255", 1);
const CLASS: Operand = number("class", "0 to 15", 1);
const CAP: Operand = number("cap", "0 to 255", 1);
const INSTRUMENT: Operand = number("instrument", "0 to 63", 1);
const JOINT: Operand = number("joint", "0 to 39", 1);
const FROM: Operand = number("from", "0 to 65535", 2);
const TO: Operand = number("to", "0 to 65535", 2);
const MOUNTS: Operand = Operand {
    name: "mounts",
    range: "0 to 31",
    bytes: 4,
    set: true,
};

/// The commands in the order of their bytes.
pub const COMMANDS: [Command; 12] = [
    command(0x01, "START", &[VERSION, INSTRUMENTS]),
    command(0x02, "CAPS", &[CHANNELS]),
    command(0x03, "LOOPS", &[CHANNELS]),
    command(0x04, "CLASS", &[CLASS, CAP]),
    command(0x05, "PUT", &[INSTRUMENT, CLASS]),
    command(0x06, "SPAN", &[INSTRUMENT, JOINT, JOINT]),
    command(0x07, "END", &[]),
    command(0x08, "MOUNTS", &[CHANNELS]),
    command(0x09, "FIT", &[INSTRUMENT, MOUNTS]),
    command(0x0a, "SHELF", &[INSTRUMENT, FROM, TO]),
    command(0x0b, "DAYS", &[FROM, TO]),
    command(0x0c, "GLUE", &[INSTRUMENT]),
];

/// An operand that is one number.
const fn number(name: &'static str, range: &'static str, bytes: usize) -> Operand {
    Operand {
        name,
        range,
        bytes,
        set: false,
    }
}

/// A row of the table.
const fn command(byte: u8, name: &'static str, operands: &'static [Operand]) -> Command {
    Command {
        byte,
        name,
        operands,
    }
}

/// The printed form of each whole command before the place of Read's refusal, or of all of them
/// if Read accepts the plan; and the refusal.
pub fn show(file: &[u8]) -> (String, Option<Refusal>) {
    let refusal = plan::read(file).err();
    let end = refusal.map_or(file.len(), |refusal| refusal.place);
    let rows = plan::commands(&file[..end]);
    let lines = rows.iter().map(|row| printed(row) + "\n");
    (lines.collect(), refusal)
}

/// The printed form of a whole command: its name and its operands, a space before each.
pub fn printed(bytes: &[u8]) -> String {
    let found = COMMANDS.iter().find(|command| command.byte == bytes[0]);
    let command = found.expect("a command");
    let mut line = command.name.to_string();
    let mut at = 1;
    for operand in command.operands {
        line += &printed_operand(operand, &bytes[at..at + operand.bytes]);
        at += operand.bytes;
    }
    line
}

/// A number, or the members of a set rising, with a space before each.
fn printed_operand(operand: &Operand, bytes: &[u8]) -> String {
    let low_last = bytes.iter().rev();
    let value = low_last.fold(0, |sum: u64, &byte| sum << 8 | u64::from(byte));
    if !operand.set {
        return format!(" {value}");
    }
    let members = (0..8 * bytes.len()).filter(|member| value >> member & 1 == 1);
    members.map(|member| format!(" {member}")).collect()
}
