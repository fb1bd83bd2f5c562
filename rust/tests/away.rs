//! Note 2: teams away for the week, case by case and on random plans.

mod common;

use common::away::{cases as sheets, damage_away, week_sheet, with_present, WEEK, WEEK_EDITS};
use common::{cases, hex, own_sheet, read, some_plan, teams_where};
use pool::brute;
use pool::build::contents;
use pool::check::{answer as check, layout_of, page};
use pool::plan::Plan;
use pool::random::Random;
use pool::refusal::Refusal;
use pool::sample::any_plan;
use pool::writer::PlanWriter;

/// The shares that the builder finds.
fn shares(plan: &Plan) -> Vec<u32> {
    let found = contents(plan);
    found.shares.iter().map(|s| s.share.into()).collect()
}

/// The same plan without its away teams.
fn without_away(plan: &Plan) -> Plan {
    let mut other = plan.clone();
    other.teams.retain(|team| team.present());
    other
}

/// The page of an away team: SHARE and PARTs with nothing but their numbers.
fn empty_page(team: usize, instruments: usize) -> Vec<u8> {
    let mut bytes = vec![0x14, team as u8, 0, 0, 0, 0, 0, 0, 0, 0, 0];
    for item in 0..instruments {
        bytes.extend([0x15, item as u8, 0]);
    }
    bytes
}

#[test]
fn sheets_case_by_case() {
    for case in sheets() {
        assert_eq!(check(&case.file, &case.sheet), case.answer, "{}", case.name);
        assert_eq!(
            check(&case.file, &own_sheet(&case.file)),
            0,
            "{}",
            case.name
        );
    }
}

#[test]
fn bytes_of_the_week() {
    let (file, sheet) = (hex(WEEK), week_sheet());
    assert_eq!(check(&file, &sheet), 0);
    for (at, value, number, place) in WEEK_EDITS {
        let mut other = sheet.clone();
        other[at] = value;
        let expected = Refusal::new(number, place).code();
        assert_eq!(check(&file, &other), expected, "{at} {value:x}");
    }
}

#[test]
fn the_first_of_two_pages_decides() {
    let (file, mut sheet) = (hex(WEEK), week_sheet());
    for at in [93, 70, 58, 50, 38] {
        sheet[at] = 0x02;
        assert_eq!(check(&file, &sheet), Refusal::new(12, at).code());
    }
}

#[test]
fn a_share_grows_when_a_team_leaves() {
    let week = hex(WEEK);
    let all = with_present(&week, |_| true);
    assert_eq!(shares(&read(&all)), [1, 1, 1]);
    assert_eq!(shares(&read(&week)), [2, 0, 2]);
    let one = with_present(&week, |team| team == 2);
    assert_eq!(shares(&read(&one)), [0, 0, 4]);
    let none = with_present(&week, |_| false);
    assert_eq!(shares(&read(&none)), [0, 0, 0]);
}

#[test]
fn pages_of_the_week() {
    let (file, sheet) = (hex(WEEK), week_sheet());
    assert_eq!(page(&file, &sheet, 0), &sheet[25..48]);
    assert_eq!(page(&file, &sheet, 1), empty_page(1, 4));
    assert_eq!(page(&file, &sheet, 2), &sheet[71..94]);
    assert_eq!(page(&file, &sheet, 3), &[] as &[u8]);
}

#[test]
fn channels_decide_and_not_worth() {
    for team in ["02 01", "03 01", "08 01", "02 FF 04 00 00", "08 FF"] {
        let plan = read(&hex(&format!("01 01 03 {team} 02 00 03 00 08 00 07")));
        assert_eq!(plan.present(), 1);
        assert!(plan.teams[0].present());
        assert_eq!(shares(&plan), [0, 0, 0, 0]);
    }
}

#[test]
fn nobody_is_present() {
    for m in [0, 1, 7, 8, 64] {
        for n in [1, 2, 12] {
            let mut plan = PlanWriter::start(m);
            for _ in 0..n {
                plan.caps(0).class(0, 255);
            }
            let file = plan.end();
            let sheet = own_sheet(&file);
            assert_eq!(check(&file, &sheet), 0);
            assert_eq!(sheet[3], 0);
            for team in 0..n {
                assert_eq!(page(&file, &sheet, team), empty_page(team, m));
            }
        }
    }
}

#[test]
fn one_of_twelve_cuts_nothing() {
    let mut random = Random::new(501);
    for round in 0..200 {
        let (m, one) = (random.below(65), round % 12);
        let file = with_present(&any_plan(&mut random, m, 12), |team| team == one);
        let plan = read(&file);
        let mut expected = [0; 12];
        expected[one] = plan.teams[one].rank(plan.all());
        assert_eq!(shares(&plan), expected);
        assert_eq!(check(&file, &own_sheet(&file)), 0);
    }
}

#[test]
fn away_teams_change_nothing_for_the_others() {
    let mut random = Random::new(502);
    for _ in 0..cases() / 10 {
        let plan = read(&some_plan(&mut random, 20, 12));
        if plan.present() == 0 {
            continue;
        }
        let rest = without_away(&plan);
        let here = teams_where(&plan, |team| team.present());
        let found = shares(&plan);
        let kept: Vec<u32> = here.iter().map(|&team| found[team]).collect();
        assert_eq!(kept, shares(&rest));
        assert_eq!(contents(&plan).total(), contents(&rest).total());
    }
}

#[test]
fn the_searches_pass_over_away_teams() {
    let mut random = Random::new(503);
    for _ in 0..cases() / 100 {
        let plan = read(&some_plan(&mut random, 5, 4));
        let rest = without_away(&plan);
        let total = brute::best_total(&plan);
        assert_eq!(total, brute::best_total(&rest));
        for team in &plan.teams {
            let share = brute::share(&plan, team);
            assert_eq!(share, brute::share(&rest, team));
            assert!(team.present() || share == 0);
        }
    }
}

#[test]
fn away_pages_are_empty_and_stay_so() {
    let mut random = Random::new(504);
    let mut damaged = 0;
    for _ in 0..cases() {
        let file = some_plan(&mut random, 12, 12);
        let plan = read(&file);
        let mut sheet = own_sheet(&file);
        for team in teams_where(&plan, |team| !team.present()) {
            let stretch = &sheet[layout_of(&plan).share(team)..];
            let expected = empty_page(team, plan.instruments);
            assert!(stretch.starts_with(&expected), "{file:x?}");
        }
        if let Some(at) = damage_away(&mut random, &plan, &mut sheet) {
            let expected = Refusal::new(12, at).code();
            assert_eq!(check(&file, &sheet), expected, "{file:x?}");
            damaged += 1;
        }
    }
    assert!(damaged > cases() / 5, "{damaged} damaged pages");
}

#[test]
fn random_plans_have_teams_away() {
    let mut random = Random::new(505);
    let (mut whole, mut some, mut none) = (0, 0, 0);
    for _ in 0..1600 {
        let plan = read(&any_plan(&mut random, 6, 6));
        match plan.present() {
            0 => none += 1,
            6 => whole += 1,
            _ => some += 1,
        }
    }
    assert!(whole > 600 && some > 400 && none > 50);
}
