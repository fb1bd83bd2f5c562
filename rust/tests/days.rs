//! Note 4: loan days, case by case and on random plans.

mod common;

use common::days::{
    damage_days, day, plans_of_one, term_sheet, without_days, DAYS_ACCEPTED, DAYS_FAULTS, TERM,
    TERM_EDITS, TERM_LISTING, WITHIN,
};
use common::{cases, hex, own_sheet, read, some_plan, Tally};
use pool::build::contents;
use pool::check::{answer as check, layout_of};
use pool::days::Days;
use pool::plan::{self, commands, Plan};
use pool::random::Random;
use pool::refusal::Refusal;
use pool::sample::{any_plan, days_plan};
use pool::worth::worth;
use pool::writer::PlanWriter;
use pool::{bits, brute, definition, listing};

/// A random plan with loan days of at most this size.
fn some_days_plan(random: &mut Random, instruments: usize, teams: usize) -> Vec<u8> {
    let m = random.below(instruments + 1);
    let n = random.between(1, teams);
    days_plan(random, m, n)
}

/// The shares that the builder finds.
fn shares(plan: &Plan) -> Vec<u32> {
    let found = contents(plan);
    found.shares.iter().map(|s| s.share.into()).collect()
}

#[test]
fn refused_plans() {
    for (text, number, place) in DAYS_FAULTS {
        let refusal = plan::read(&hex(text)).expect_err("a faulty plan");
        assert_eq!(refusal, Refusal::new(number, place), "{text}");
    }
    assert_eq!(Refusal::new(17, 5).code(), 65_536 * 17 + 5);
}

#[test]
fn accepted_plans() {
    for text in DAYS_ACCEPTED {
        let file = hex(text);
        assert!(plan::read(&file).is_ok(), "{text}");
        assert_eq!(check(&file, &own_sheet(&file)), 0, "{text}");
    }
}

#[test]
fn days_are_read_low_byte_first() {
    let plan = read(&hex(
        "01 01 04 0A 02 01 00 00 01 0A 00 34 12 78 56 0A 03 00 00 FF FF
                          02 09 0B FE 00 00 FF 03 09 08 09 0B 00 00 FF FF 07",
    ));
    let days = |from, to| Days { from, to };
    assert_eq!(plan.shelf.days_of(0), days(0x1234, 0x5678));
    assert_eq!(plan.shelf.days_of(1), days(0, 65_535));
    assert_eq!(plan.shelf.days_of(2), days(0x0001, 0x0100));
    assert_eq!(plan.shelf.days_of(3), days(0, 65_535));
    let named: Vec<Option<Days>> = plan.teams.iter().map(|team| team.days).collect();
    let whole = Days::default();
    assert_eq!(named, [Some(days(0x00fe, 0xff00)), None, Some(whole)]);
    assert_eq!(plan.teams[1].days(), whole);
}

#[test]
fn an_instrument_is_there_on_all_days_of_the_team_or_worth_nothing() {
    for (shelf, days, there) in WITHIN {
        for file in plans_of_one(shelf, days) {
            let expected = u32::from(there);
            let plan = read(&file);
            let team = &plan.teams[0];
            assert_eq!(worth(&file, 0, 1), Ok(expected), "{shelf:?} {days:?}");
            assert_eq!(team.independent(1), there, "{shelf:?} {days:?}");
            assert_eq!(definition::independent(&plan, team, 1), there);
            assert_eq!(team.gains(0), u64::from(there), "{shelf:?} {days:?}");
            assert_eq!(team.circuit(0, 0).is_none(), there, "{shelf:?} {days:?}");
            assert_eq!(contents(&plan).total(), expected, "{shelf:?} {days:?}");
            assert_eq!(shares(&plan), [expected], "{shelf:?} {days:?}");
            assert_eq!(brute::share(&plan, team), expected);
        }
    }
}

/// Whether each of the team's days is one of the shelf's.
fn day_by_day(days: Days, shelf: Days) -> bool {
    (days.from..days.to).all(|day| (shelf.from..shelf.to).contains(&day))
}

#[test]
fn within_is_day_by_day() {
    let marks = [0, 1, 2, 3, 255, 256, 257, 512, 65_533, 65_534, 65_535];
    let ends = marks
        .into_iter()
        .flat_map(|from| marks.map(|to| (from, to)));
    let all: Vec<Days> = ends
        .filter(|(from, to)| from < to)
        .map(|(from, to)| Days { from, to })
        .collect();
    for &days in &all {
        for &shelf in &all {
            let expected = day_by_day(days, shelf);
            assert_eq!(days.within(shelf), expected, "{days:?} {shelf:?}");
        }
    }
}

#[test]
fn from_has_to_be_below_to() {
    let ends = [0, 1, 2, 254, 255, 256, 257, 511, 512, 65_534, 65_535];
    for from in ends {
        for to in ends {
            for (start, file) in [
                (3, PlanWriter::start(1).shelf(0, from, to).caps(1).end()),
                (5, PlanWriter::start(1).caps(1).days(from, to).end()),
            ] {
                let refusal = plan::read(&file).err();
                let expected = (from >= to).then_some(Refusal::new(17, start));
                assert_eq!(refusal, expected, "{from} {to}");
            }
        }
    }
}

#[test]
fn the_term_of_three_teams() {
    let (file, sheet) = (hex(TERM), term_sheet());
    let plan = read(&file);
    let usable: Vec<u64> = plan.teams.iter().map(|team| team.usable).collect();
    assert_eq!(usable, [0b0111, 0b1011, 0b0011]);
    assert_eq!(shares(&plan), [1, 1, 0]);
    assert_eq!(brute::best_total(&plan), 4);
    assert_eq!(check(&file, &sheet), 0);
    assert_eq!(listing::text(layout_of(&plan), &sheet), TERM_LISTING);
    for (at, value, number, place) in TERM_EDITS {
        let mut other = sheet.clone();
        other[at] = value;
        let expected = Refusal::new(number, place).code();
        assert_eq!(check(&file, &other), expected, "{at} {value:x}");
    }
    let plan = read(&without_days(&file));
    assert_eq!(shares(&plan), [1, 1, 1]);
    assert_eq!(check(&without_days(&file), &sheet), 65_536 * 15 + 2);
}

/// A team with channels is present where no instrument is there on its days, and cuts down
/// the shares of the others.
#[test]
fn a_team_with_no_instrument_on_its_days_is_present() {
    for (opening, taker) in [(2, "04 00 02 05 00 00 05 01 00"), (3, ""), (8, "")] {
        let mut plan = PlanWriter::start(2);
        plan.shelf(0, 0, 7).shelf(1, 0, 7);
        plan.caps(2).class(0, 2).put(0, 0).put(1, 0).days(0, 7);
        plan.add(&[opening, 2]).add(&hex(taker)).days(7, 14);
        let file = plan.end();
        let plan = read(&file);
        assert_eq!(plan.present(), 2);
        assert_eq!(plan.teams[1].usable, 0);
        assert_eq!(shares(&plan), [1, 0]);
        assert_eq!(contents(&plan).total(), 2);
        assert_eq!(check(&file, &own_sheet(&file)), 0);
    }
}

/// An away team's days are read and tested, and it stays away.
#[test]
fn days_of_an_away_team() {
    let away = PlanWriter::start(1).caps(0).days(0, 7).end();
    assert_eq!(read(&away).present(), 0);
    assert_eq!(check(&away, &own_sheet(&away)), 0);
    let late = PlanWriter::start(1).caps(0).days(7, 7).end();
    assert_eq!(plan::read(&late), Err(Refusal::new(17, 5)));
    let twice = PlanWriter::start(1).caps(0).days(0, 7).days(0, 7).end();
    assert_eq!(plan::read(&twice), Err(Refusal::new(6, 10)));
}

/// From and to of the SHELF of an instrument, or of the DAYS in a team's commands.
fn ends_of(row: &[Vec<u8>], starts: &[u8]) -> (u16, u16) {
    let found = row.iter().find(|command| command.starts_with(starts));
    found.map_or((0, 65_535), |command| {
        let ends = &command[starts.len()..];
        (day(ends), day(&ends[2..]))
    })
}

#[test]
fn usable_is_what_the_bytes_say() {
    let mut random = Random::new(901);
    for _ in 0..cases() {
        let file = some_plan(&mut random, 12, 4);
        let plan = read(&file);
        let row = commands(&file);
        let first = row.iter().position(|c| matches!(c[0], 2 | 3 | 8));
        let (before, teams) = row.split_at(first.expect("a team"));
        let teams = teams.chunk_by(|_, next| !matches!(next[0], 2 | 3 | 8));
        for (team, commands) in plan.teams.iter().zip(teams) {
            let (from, to) = ends_of(commands, &[0x0b]);
            for item in 0..64 {
                let shelf = ends_of(before, &[0x0a, item as u8]);
                let there = item < plan.instruments && shelf.0 <= from && to <= shelf.1;
                assert_eq!(bits::has(team.usable, item), there, "{file:x?}");
            }
        }
    }
}

/// To a team a set is worth what its usable part was worth before note 4.
#[test]
fn days_restrict_worth() {
    let mut random = Random::new(902);
    for _ in 0..cases() {
        let file = some_days_plan(&mut random, 64, 3);
        let before = read(&without_days(&file));
        for (team, old) in read(&file).teams.iter().zip(&before.teams) {
            assert_eq!(old.usable, before.all());
            let set = random.word();
            assert_eq!(team.rank(set), old.rank(set & team.usable), "{file:x?}");
            let bundle = grown(&mut random, old, team.usable);
            assert!(team.independent(bundle));
            let gains = old.gains(bundle) & team.usable;
            assert_eq!(team.gains(bundle), gains, "{file:x?} {bundle:x}");
        }
    }
}

/// An independent set of some of the instruments, grown one by one.
fn grown(random: &mut Random, team: &plan::Team, from: u64) -> u64 {
    let mut bundle = 0;
    for _ in 0..random.below(20) {
        let gains: Vec<usize> = bits::members(team.gains(bundle) & from).collect();
        if !gains.is_empty() {
            bundle |= bits::one(random.pick(&gains));
        }
    }
    bundle
}

#[test]
fn small_plans_with_days_against_all_divisions() {
    let mut random = Random::new(903);
    for _ in 0..cases() {
        let file = some_days_plan(&mut random, 6, 3);
        let plan = read(&file);
        let found = contents(&plan);
        assert_eq!(check(&file, &found.bytes(plan.instruments)), 0, "{file:x?}");
        assert_eq!(found.total(), brute::best_total(&plan), "{file:x?}");
        let searched: Vec<u32> = plan.teams.iter().map(|t| brute::share(&plan, t)).collect();
        assert_eq!(shares(&plan), searched, "{file:x?}");
    }
}

/// One end moved by a day, or made wrong: refusal 17, or the sheet of the new plan.
#[test]
fn ends_moved_by_a_day() {
    let mut random = Random::new(904);
    let mut tally = Tally::default();
    for _ in 0..cases() {
        let file = some_days_plan(&mut random, 6, 3);
        let Some(other) = damage_days(&mut random, &file) else {
            continue;
        };
        tally.count(check(&other, &own_sheet(&file)));
        if let Ok(plan) = plan::read(&other) {
            let total = brute::best_total_by_sets(&plan);
            assert_eq!(contents(&plan).total(), total, "{other:x?}");
        }
    }
    tally.seen([0, 13, 14, 15, 17].into_iter());
}

/// The same days for all instruments and all teams change nothing.
#[test]
fn equal_days_change_nothing() {
    let mut random = Random::new(905);
    for _ in 0..cases() / 10 {
        let file = without_days(&some_plan(&mut random, 20, 6));
        let ends = [[0, 0, 1, 0], [7, 0, 0, 1], [0xfe, 0xff, 0xff, 0xff]];
        let ends = random.pick(&ends);
        let mut other = file[..3].to_vec();
        for item in 0..file[2] {
            other.extend([0x0a, item]);
            other.extend(ends);
        }
        for command in &commands(&file)[1..] {
            other.extend(command);
            if matches!(command[0], 2 | 3 | 8) {
                other.push(0x0b);
                other.extend(ends);
            }
        }
        assert_eq!(own_sheet(&other), own_sheet(&file), "{other:x?}");
    }
}

/// The order of SHELFs and the place of DAYS in a team change nothing.
#[test]
fn places_of_shelf_and_days_change_nothing() {
    let mut random = Random::new(906);
    for _ in 0..cases() / 10 {
        let file = some_days_plan(&mut random, 12, 4);
        let mut row = commands(&file);
        let shelves = row.iter().filter(|command| command[0] == 0x0a).count();
        random.shuffle(&mut row[1..=shelves]);
        for at in 2 + shelves..row.len() {
            if row[at][0] == 0x0b && !matches!(row[at - 1][0], 2 | 3 | 8) {
                row.swap(at - 1, at);
            }
        }
        assert_eq!(read(&row.concat()), read(&file), "{file:x?}");
    }
}

/// How a team's days stand to the shelf days of an instrument.
fn sort_of(days: Days, shelf: Days) -> &'static str {
    let late = i32::from(shelf.from) - i32::from(days.from);
    let early = i32::from(days.to) - i32::from(shelf.to);
    match (late, early) {
        (0, 0) => "equal",
        (0, ..0) => "equal from",
        (..0, 0) => "equal to",
        (..0, ..0) => "inside",
        (1, ..=0) => "from a day late",
        (..=0, 1) => "to a day early",
        _ => "outside",
    }
}

#[test]
fn random_plans_have_days_of_every_sort() {
    let mut random = Random::new(907);
    let mut counts = std::collections::BTreeMap::new();
    let (mut plans, mut unnamed) = (0, 0);
    for _ in 0..1_000 {
        let file = any_plan(&mut random, 8, 4);
        let plan = read(&file);
        plans += usize::from(file != without_days(&file));
        for team in plan.teams.iter().filter(|_| file != without_days(&file)) {
            unnamed += usize::from(team.days.is_none());
            for item in 0..8 {
                let sort = sort_of(team.days(), plan.shelf.days_of(item));
                *counts.entry(sort).or_insert(0) += 1;
            }
        }
    }
    assert!(plans > 400 && plans < 600, "{plans}");
    assert!(unnamed > 100, "{unnamed}");
    assert_eq!(counts.len(), 7, "{counts:?}");
    assert!(counts.values().all(|&count| count > 500), "{counts:?}");
}
