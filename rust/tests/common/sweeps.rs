//! Plans and sheets to try an operation on that takes both: damaged ones, and any bytes.

use super::*;
use pool::writer::plan_a;

/// Sheets with damaged bytes and damaged fields.
pub fn damaged_sheets(random: &mut Random, mut each: impl FnMut(&mut Random, &[u8], &[u8])) {
    for round in 0..cases() / 4 {
        let most = if round % 50 == 0 { 64 } else { 8 };
        let file = some_plan(random, most, 12);
        let plan = read(&file);
        let sheet = own_sheet(&file);
        for _ in 0..4 {
            let other = damage(random, &sheet, &file);
            each(random, &file, &other);
            let mut other = sheet.clone();
            for _ in 0..random.between(1, 4) {
                damage_field(random, &plan, &mut other);
            }
            each(random, &file, &other);
        }
    }
}

/// The sheet of a plan with every byte at every value.
pub fn every_byte_of_sheet(file: &[u8], mut each: impl FnMut(&[u8])) {
    let sheet = own_sheet(file);
    for at in 0..sheet.len() {
        for value in 0..=255 {
            let mut other = sheet.clone();
            other[at] = value;
            each(&other);
        }
    }
}

/// Sheets by plans that were damaged afterwards, and by commands in any order.
pub fn damaged_plans(random: &mut Random, mut each: impl FnMut(&mut Random, &[u8], &[u8])) {
    let mut last = plan_a();
    for _ in 0..cases() / 2 {
        let file = some_plan(random, 6, 12);
        let sheet = own_sheet(&file);
        for other in [
            damage(random, &file, &last),
            damage_commands(random, &file),
            loose_commands(random),
        ] {
            each(random, &other, &sheet);
        }
        last = file;
    }
}

/// Any bytes as the sheet, as the plan, and very long ones as each.
pub fn any_bytes(random: &mut Random, mut each: impl FnMut(&mut Random, &[u8], &[u8])) {
    for _ in 0..cases() {
        let file = some_plan(random, 3, 2);
        let size = layout_of(&read(&file)).length();
        let other = random.below(200);
        let length = random.pick(&[0, size, size, other]);
        let sheet: Vec<u8> = (0..length).map(|_| random.byte()).collect();
        each(random, &file, &sheet);
        each(random, &sheet, &file);
    }
    let (file, sheet) = (plan_a(), own_sheet(&plan_a()));
    for long in [vec![0x01; 70_000], vec![0x11; 70_000]] {
        each(random, &long, &sheet);
        each(random, &file, &long);
    }
}
