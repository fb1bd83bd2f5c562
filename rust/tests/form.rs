//! The form of a sheet against a list of the bytes allowed at each offset.

mod common;

use common::away::with_present;
use common::{own_sheet, read};
use pool::check::answer as check;
use pool::plan::Plan;
use pool::random::Random;
use pool::refusal::Refusal;
use pool::sample::any_plan;

/// The bytes allowed at each offset of a sheet of a plan.
fn allowed(plan: &Plan) -> Vec<Vec<u8>> {
    let (m, n) = (plan.instruments as u8, plan.teams.len() as u8);
    let holder: Vec<u8> = (0..n).chain([0xff]).collect();
    let mut row = vec![vec![0x11], vec![m], vec![n], any()];
    for item in 0..m {
        row.extend([vec![0x12], vec![item], holder.clone()]);
    }
    row.push(vec![0x13]);
    row.extend(set_bytes(m));
    for (number, team) in plan.teams.iter().enumerate() {
        let parts = plan.present() as u8;
        if team.present() {
            row.extend(page(
                number as u8,
                m,
                any(),
                set_bytes(m),
                (0..parts).collect(),
            ));
        } else {
            row.extend(page(number as u8, m, vec![0], set_bytes(0), vec![0]));
        }
    }
    row.push(vec![0x16]);
    row
}

/// All bytes.
fn any() -> Vec<u8> {
    (0..=255).collect()
}

/// The bytes allowed in a team's page, by those of its share, set and parts.
fn page(team: u8, m: u8, share: Vec<u8>, set: Vec<Vec<u8>>, part: Vec<u8>) -> Vec<Vec<u8>> {
    let mut row = vec![vec![0x14], vec![team], share];
    row.extend(set);
    for item in 0..m {
        row.extend([vec![0x15], vec![item], part.clone()]);
    }
    row
}

/// The bytes allowed in a set of instruments below m.
fn set_bytes(m: u8) -> Vec<Vec<u8>> {
    let bit_fits = |byte: u8, at: u8, bit: u8| byte >> bit & 1 == 0 || 8 * at + bit < m;
    let fits = |at: u8, byte: &u8| (0..8).all(|bit| bit_fits(*byte, at, bit));
    let bytes = (0..8).map(|at| (0..=255).filter(|byte| fits(at, byte)).collect());
    bytes.collect()
}

#[test]
fn every_byte_against_the_list() {
    let mut random = Random::new(201);
    for (m, n) in [(0, 1), (0, 12), (1, 1), (5, 2), (8, 3), (9, 12), (64, 2)] {
        let file = any_plan(&mut random, m, n);
        for present in [|_| true, |team| team % 3 == 1, |_| false] {
            every_byte(&with_present(&file, present));
        }
    }
}

/// Every value at every offset of a plan's sheet is 12 there, or allowed.
fn every_byte(file: &[u8]) {
    let sheet = own_sheet(file);
    let row = allowed(&read(file));
    assert_eq!(row.len(), sheet.len());
    for (at, bytes) in row.iter().enumerate() {
        for value in 0..=255 {
            let mut other = sheet.clone();
            other[at] = value;
            let verdict = check(file, &other);
            let fault = Refusal::new(12, at).code();
            assert_eq!(verdict == fault, !bytes.contains(&value), "{at} {value}");
            assert!(verdict == fault || verdict >> 16 != 12);
        }
    }
}

#[test]
fn the_first_of_two_faults_decides() {
    let mut random = Random::new(202);
    let file = with_present(&any_plan(&mut random, 6, 3), |team| team != 1);
    let row = allowed(&read(&file));
    let sheet = own_sheet(&file);
    for _ in 0..20_000 {
        let mut other = sheet.clone();
        for _ in 0..random.between(2, 5) {
            other[random.below(sheet.len())] = random.byte();
        }
        let mut bytes = other.iter().zip(&row);
        let first = bytes.position(|(byte, allowed)| !allowed.contains(byte));
        let verdict = check(&file, &other);
        match first {
            Some(at) => assert_eq!(verdict, Refusal::new(12, at).code()),
            None => assert_ne!(verdict >> 16, 12),
        }
    }
}
