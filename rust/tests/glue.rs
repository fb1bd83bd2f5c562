//! Note 6: glued gauges, case by case and on random plans.

mod common;

use common::days::{damage_days, without_days};
use common::glue::{
    bridge_sheet, damage_glue, damage_naming, first_glued, glue_fault, glued_sets, opens,
    without_glue, BRIDGE, BRIDGE_EDITS, BRIDGE_LISTING, GLUE_ACCEPTED, GLUE_FAULTS,
    NOT_INDEPENDENT, WORTHS,
};
use common::{cases, hex, own_sheet, read, some_plan, two_laws, Tally};
use pool::build::{answer as build, contents};
use pool::check::{answer as check, layout_of, page};
use pool::plan::{self, commands, Kind, Plan, Team};
use pool::random::Random;
use pool::refusal::Refusal;
use pool::sample::{any_glue_plan, any_plan, glue_plan};
use pool::sheet::POOL;
use pool::worth::worth;
use pool::writer::PlanWriter;
use pool::{bits, brute, definition, listing};

/// A random plan with glued gauges of at most this size.
fn some_glue_plan(random: &mut Random, instruments: usize, teams: usize) -> Vec<u8> {
    let m = random.below(instruments + 1);
    let n = random.between(1, teams);
    glue_plan(random, m, n)
}

/// The shares that the builder finds.
fn shares(plan: &Plan) -> Vec<u32> {
    let found = contents(plan);
    found.shares.iter().map(|s| s.share.into()).collect()
}

/// The shares by a search through all cuts.
fn searched_shares(plan: &Plan) -> Vec<u32> {
    plan.teams.iter().map(|t| brute::share(plan, t)).collect()
}

/// The refusal of a plan.
fn refusal(file: &[u8]) -> Refusal {
    plan::read(file).expect_err("a faulty plan")
}

#[test]
fn refused_plans() {
    for (text, number, place) in GLUE_FAULTS {
        assert_eq!(refusal(&hex(text)), Refusal::new(number, place), "{text}");
    }
    assert_eq!(Refusal::new(18, 5).code(), 65_536 * 18 + 5);
}

/// The place of 18 is that of END, whatever follows it; without END the plan is cut short.
#[test]
fn glued_gauges_that_are_not_independent() {
    for text in NOT_INDEPENDENT {
        let start = hex(text);
        let end = start.len();
        assert_eq!(refusal(&start), Refusal::new(2, end), "{text}");
        for rest in ["07", "07 00", "07 07", "07 0C 00 07"] {
            let file = [start.clone(), hex(rest)].concat();
            assert_eq!(refusal(&file), Refusal::new(18, end), "{text} {rest}");
        }
        let file = [&start[..], &[0x07]].concat();
        assert_eq!(glue_fault(&file), Some(Refusal::new(18, end)), "{text}");
        assert!(plan::read(&without_glue(&file)).is_ok(), "{text}");
        let unknown = [&start[..], &[0x0d]].concat();
        assert_eq!(refusal(&unknown), Refusal::new(3, end), "{text}");
    }
}

#[test]
fn accepted_plans() {
    for (text, total, expected) in GLUE_ACCEPTED {
        let file = hex(text);
        let plan = read(&file);
        let sheet = own_sheet(&file);
        assert_eq!(check(&file, &sheet), 0, "{text}");
        assert_eq!(u32::from(sheet[3]), total, "{text}");
        assert_eq!(shares(&plan), expected, "{text}");
        if plan.instruments < 6 {
            assert_eq!(brute::best_total(&plan), total, "{text}");
            assert_eq!(searched_shares(&plan), expected, "{text}");
        }
        let longer = [&file[..], &[0x0c]].concat();
        assert_eq!(refusal(&longer), Refusal::new(9, file.len()), "{text}");
    }
}

#[test]
fn every_operation_refuses() {
    let file = hex("01 01 02 03 09 0C 01 07");
    let code = 65_536 * 18 + 7;
    let sheet = own_sheet(&without_glue(&file));
    let mut buffer = [0xa5; 100];
    assert_eq!(build(&file, &mut []), code);
    assert_eq!(build(&file, &mut buffer), code);
    assert_eq!(listing::answer(&file, &sheet, &mut buffer), code);
    assert_eq!(buffer, [0xa5; 100]);
    assert_eq!(check(&file, &sheet), code);
    assert_eq!(check(&file, &[]), code);
    assert!(page(&file, &sheet, 0).is_empty());
    assert_eq!(worth(&file, 0, 1), Err(Refusal::new(18, 7)));
    assert_eq!(listing::refusal_line(refusal(&file)), "REFUSED 18 7\n");
}

/// Every byte as a command in place of GLUE, and every byte as its instrument.
#[test]
fn every_byte_as_command_and_as_instrument() {
    for byte in 0x0d..=255 {
        let file = PlanWriter::start(1).caps(9).add(&[byte, 0]).end();
        assert_eq!(refusal(&file), Refusal::new(3, 5), "{byte:x}");
    }
    for count in [0, 1, 2, 39, 40, 63, 64] {
        for item in 0..=255 {
            let mut plan = PlanWriter::start(count);
            plan.caps(9).glue(item).class(0, 1);
            let file = plan.put(item, 0).end();
            let expected = (item >= count).then_some(Refusal::new(5, 5));
            assert_eq!(plan::read(&file).err(), expected, "{item} of {count}");
            let early = PlanWriter::start(count).glue(item).caps(9).end();
            assert_eq!(refusal(&early), Refusal::new(4, 3), "{item} of {count}");
        }
    }
}

/// A second GLUE of an instrument is 6 in any two teams of any kinds, with others in between.
#[test]
fn glued_twice_in_any_two_teams() {
    for first in [0x02, 0x03, 0x08] {
        for second in [0x02, 0x03, 0x08] {
            for between in 0..11 {
                let mut plan = PlanWriter::start(64);
                plan.add(&[first, 9]).glue(63);
                for item in 0..between {
                    plan.caps(9).glue(item);
                }
                let file = plan.add(&[second, 9]).glue(63).end();
                let place = file.len() - 3;
                assert_eq!(refusal(&file), Refusal::new(6, place), "{file:x?}");
            }
        }
    }
}

#[test]
fn worths_case_by_case() {
    for (text, team, set, expected) in WORTHS {
        let file = hex(text);
        let plan = read(&file);
        assert_eq!(worth(&file, team, set), Ok(expected), "{text} {set:b}");
        if let Some(team) = plan.teams.get(team) {
            let set = set & plan.all();
            let defined = definition::worth(&plan, team, set);
            assert_eq!(defined, expected, "{text} {set:b}");
        }
    }
}

#[test]
fn the_bridge_of_three_teams() {
    let (file, sheet) = (hex(BRIDGE), bridge_sheet());
    let plan = read(&file);
    let glued: Vec<u64> = plan.teams.iter().map(|team| team.glued).collect();
    assert_eq!(glued, [0, 0b1000, 0]);
    assert_eq!(shares(&plan), [1, 0, 1]);
    assert_eq!(searched_shares(&plan), [1, 0, 1]);
    assert_eq!(brute::best_total(&plan), 3);
    assert_eq!(check(&file, &sheet), 0);
    assert_eq!(listing::text(layout_of(&plan), &sheet), BRIDGE_LISTING);
    for (at, value, number, place) in BRIDGE_EDITS {
        let mut other = sheet.clone();
        other[at] = value;
        let expected = Refusal::new(number, place).code();
        assert_eq!(check(&file, &other), expected, "{at} {value:x}");
    }
    let before = without_glue(&file);
    assert_eq!(shares(&read(&before)), [1, 1, 1]);
    assert_eq!(check(&before, &sheet), 65_536 * 14);
}

/// Glued gauges use up the channels: every set is worth nothing, and yet the team is present and
/// cuts down the shares of the others.
#[test]
fn a_team_whose_channels_are_used_up_is_present() {
    let mut plan = PlanWriter::start(4);
    plan.loops(2).glue(0).glue(1);
    for item in 0..4 {
        plan.span(item, item as u8, item as u8 + 1);
    }
    plan.caps(2).class(0, 2).put(2, 0).put(3, 0);
    let file = plan.end();
    let plan = read(&file);
    let team = &plan.teams[0];
    assert_eq!((team.room(), plan.present()), (0, 2));
    assert_eq!((team.rank(0b1111), team.gains(0)), (0, 0));
    assert_eq!(shares(&plan), [0, 1]);
    assert_eq!(contents(&plan).bundles, [0, 0b1100]);
    assert_eq!(check(&file, &own_sheet(&file)), 0);
}

#[test]
fn all_gauges_glued() {
    for m in [0, 1, 2, 3, 5, 8, 32] {
        let file = first_glued(m, m);
        let plan = read(&file);
        assert_eq!(plan.glued(), plan.all());
        let found = contents(&plan);
        assert_eq!((found.total(), shares(&plan)), (0, vec![0; 3]));
        let sheet = own_sheet(&file);
        let layout = layout_of(&plan);
        assert!((0..m).all(|item| sheet[layout.give(item) + 2] == POOL));
        assert_eq!(check(&file, &sheet), 0);
    }
}

/// Teams that would take any instrument share those that are not glued.
#[test]
fn the_first_gauges_glued() {
    for m in [1, 2, 5, 9, 32] {
        for count in 0..=m {
            let plan = read(&first_glued(m, count));
            let left = m - count;
            assert_eq!(contents(&plan).total() as usize, left);
            let expected = vec![(left / 3) as u32; 3];
            assert_eq!(shares(&plan), expected, "{count} of {m}");
        }
    }
}

#[test]
fn glued_is_what_the_bytes_say() {
    let mut random = Random::new(1101);
    for _ in 0..cases() {
        let file = some_plan(&mut random, 64, 5);
        let sets = glued_sets(&file);
        let all = sets.iter().fold(0, |sum, set| sum | set);
        let plan = read(&file);
        assert_eq!(plan.teams.len(), sets.len());
        for (team, set) in plan.teams.iter().zip(sets) {
            assert_eq!((team.glued, team.all_glued), (set, all), "{file:x?}");
        }
        assert_eq!(plan.glued(), all, "{file:x?}");
    }
}

/// GLUEs alone decide, by a reading of them and the definition of before.
#[test]
fn any_glue_against_the_definition() {
    let mut random = Random::new(1102);
    let mut tally = Tally::default();
    for _ in 0..cases() {
        let (m, n) = (random.below(8), random.between(1, 4));
        let file = any_glue_plan(&mut random, m, n);
        let refusal = plan::read(&file).err();
        assert_eq!(refusal, glue_fault(&file), "{file:x?}");
        tally.count(refusal.map_or(0, Refusal::code));
        let longer = [&file[..], &[random.byte()]].concat();
        let nine = Refusal::new(9, file.len());
        let expected = refusal.or(Some(nine));
        assert_eq!(plan::read(&longer).err(), expected, "{longer:x?}");
    }
    tally.seen([0, 18].into_iter());
}

/// One GLUE changed: the refusal by a reading of the GLUEs, or the sheet of the new plan.
#[test]
fn glue_changed() {
    let mut random = Random::new(1103);
    let mut tally = Tally::default();
    for _ in 0..cases() {
        let file = some_glue_plan(&mut random, 6, 3);
        let Some(other) = damage_glue(&mut random, &file) else {
            continue;
        };
        let verdict = check(&other, &own_sheet(&file));
        tally.count(verdict);
        match plan::read(&other) {
            Ok(plan) => {
                assert_eq!(glue_fault(&other), None, "{other:x?}");
                let total = brute::best_total_by_sets(&plan);
                assert_eq!(contents(&plan).total(), total, "{other:x?}");
            }
            Err(refusal) => {
                assert_eq!(Some(refusal), glue_fault(&other), "{other:x?}");
                assert_eq!(verdict, refusal.code(), "{other:x?}");
            }
        }
    }
    tally.seen([0, 4, 5, 6, 13, 14, 15, 18].into_iter());
}

/// A naming of a glued gauge, channels or days changed: 18 at END, or the sheet of the new plan.
#[test]
fn what_makes_glued_gauges_independent_changed() {
    let mut random = Random::new(1104);
    let mut tally = Tally::default();
    for round in 0..cases() {
        let file = some_glue_plan(&mut random, 6, 3);
        let damage = if round % 2 == 0 {
            damage_naming
        } else {
            damage_days
        };
        let Some(other) = damage(&mut random, &file) else {
            continue;
        };
        tally.count(check(&other, &own_sheet(&file)));
        match plan::read(&other) {
            Ok(plan) => {
                assert_eq!(glue_fault(&other), None, "{other:x?}");
                assert_eq!(contents(&plan).total(), brute::best_total_by_sets(&plan));
            }
            Err(refusal) if refusal.number == 18 => {
                assert_eq!(Some(refusal), glue_fault(&other), "{other:x?}");
            }
            Err(refusal) => assert_eq!(refusal.number, 17, "{other:x?}"),
        }
    }
    tally.seen([0, 13, 14, 17, 18].into_iter());
}

/// Worth is the worth of before, what is glued to other teams left out and the team's own glued
/// gauges put in, less the number of those.
#[test]
fn glue_contracts_worth() {
    let mut random = Random::new(1105);
    for _ in 0..cases() {
        let file = some_glue_plan(&mut random, 64, 3);
        let (plan, before) = (read(&file), read(&without_glue(&file)));
        let all = plan.glued();
        for (team, old) in plan.teams.iter().zip(&before.teams) {
            assert_eq!((old.glued, old.all_glued), (0, 0));
            assert!(old.independent(team.glued), "{file:x?}");
            let own = bits::size(team.glued);
            let set = random.word();
            let joined = set & !all | team.glued;
            assert_eq!(team.rank(set), old.rank(joined) - own, "{file:x?} {set:x}");
            let bundle = grown(&mut random, team);
            assert!(old.independent(bundle | team.glued), "{file:x?}");
            let gains = old.gains(bundle | team.glued) & !all;
            assert_eq!(team.gains(bundle), gains, "{file:x?} {bundle:x}");
        }
    }
}

/// An independent set grown one by one.
fn grown(random: &mut Random, team: &Team) -> u64 {
    let mut bundle = 0;
    for _ in 0..random.below(20) {
        let gains: Vec<usize> = bits::members(team.gains(bundle)).collect();
        if !gains.is_empty() {
            bundle |= bits::one(random.pick(&gains));
        }
    }
    assert!(team.independent(bundle));
    bundle
}

#[test]
fn worth_is_the_definition() {
    let mut random = Random::new(1106);
    for _ in 0..cases() / 2 {
        let file = some_glue_plan(&mut random, 7, 3);
        let plan = read(&file);
        for team in &plan.teams {
            let table = brute::worth_table(&plan, team);
            for set in bits::subsets(plan.all()) {
                assert_eq!(team.rank(set), table[set as usize], "{file:x?} {set:b}");
                let free = definition::independent(&plan, team, set);
                assert_eq!(team.independent(set), free, "{file:x?} {set:b}");
            }
        }
    }
}

#[test]
fn gains_and_circuits_are_the_definition() {
    let mut random = Random::new(1107);
    for _ in 0..cases() {
        let file = some_glue_plan(&mut random, 10, 2);
        let plan = read(&file);
        let team = &plan.teams[random.below(plan.teams.len())];
        let independent = |set| definition::independent(&plan, team, set);
        let bundle = grown(&mut random, team);
        assert!(independent(bundle), "{file:x?} {bundle:b}");
        for item in bits::members(plan.all() & !bundle) {
            let with = bundle | bits::one(item);
            let free = independent(with);
            assert_eq!(bits::has(team.gains(bundle), item), free, "{file:x?}");
            let leaving = team.circuit(bundle, item);
            assert!(bits::size(bundle) == team.room() || leaving.is_none() == free);
            for out in bits::members(bundle) {
                let swapped = independent(with & !bits::one(out));
                let listed = leaving.is_none_or(|set| bits::has(set, out));
                assert_eq!(swapped, listed, "{file:x?} {bundle:b} {item} {out}");
            }
        }
    }
}

/// The two laws with glued gauges in any teams: parts of independent sets are independent, and
/// a smaller one gains a member of a larger.
#[test]
fn the_two_laws_hold() {
    let mut random = Random::new(1108);
    for _ in 0..cases() {
        let file = some_glue_plan(&mut random, 9, 2);
        two_laws(&mut random, &file);
    }
}

#[test]
fn small_plans_with_glue_against_all_divisions() {
    let mut random = Random::new(1109);
    for _ in 0..cases() {
        let file = some_glue_plan(&mut random, 6, 3);
        let plan = read(&file);
        let found = contents(&plan);
        assert_eq!(check(&file, &found.bytes(plan.instruments)), 0, "{file:x?}");
        assert_eq!(found.total(), brute::best_total(&plan), "{file:x?}");
        assert_eq!(shares(&plan), searched_shares(&plan), "{file:x?}");
    }
}

#[test]
fn plans_with_glue_of_every_size() {
    let mut random = Random::new(1110);
    for m in 0..=64 {
        for n in 1..=12 {
            let file = glue_plan(&mut random, m, n);
            assert_eq!(check(&file, &own_sheet(&file)), 0, "{file:x?}");
        }
    }
}

/// Glued gauges stay in the pool; one given to any team is 13 there.
#[test]
fn a_glued_gauge_given_to_a_team() {
    let mut random = Random::new(1111);
    let mut given = 0;
    for _ in 0..cases() {
        let file = some_glue_plan(&mut random, 12, 5);
        let plan = read(&file);
        let sheet = own_sheet(&file);
        for item in bits::members(plan.glued()) {
            let at = layout_of(&plan).give(item) + 2;
            assert_eq!(sheet[at], POOL, "{file:x?}");
            let team = random.below(plan.teams.len());
            let mut other = sheet.clone();
            other[at] = team as u8;
            let expected = Refusal::new(13, team).code();
            assert_eq!(check(&file, &other), expected, "{file:x?}");
            given += 1;
        }
    }
    assert!(given > cases(), "{given} glued gauges given");
}

/// The place of a GLUE in its team changes nothing.
#[test]
fn places_of_glue_change_nothing() {
    let mut random = Random::new(1112);
    for _ in 0..cases() / 10 {
        let file = some_glue_plan(&mut random, 12, 4);
        let mut row = commands(&file);
        for _ in 0..20 {
            let at = random.between(1, row.len() - 1);
            if row[at][0] == 0x0c && !opens(&row[at - 1]) {
                row.swap(at - 1, at);
            }
        }
        assert_eq!(read(&row.concat()), read(&file), "{file:x?}");
    }
}

/// A CAPS or LOOPS team written without its GLUEs that finds every set worth the same: caps
/// lowered by the glued gauges, their joints made one, and neither they nor gauges on one joint
/// named; no such team is written for MOUNTS.
fn written_without_glue(plan: &mut PlanWriter, team: &Team) -> bool {
    let room = team.room() as u8;
    let named = |item: &usize| !bits::has(team.all_glued, *item);
    match &team.kind {
        Kind::Caps(classes) => {
            plan.caps(room);
            for class in 0..16 {
                let used = bits::size(classes.members[usize::from(class)] & team.glued);
                plan.class(class, (classes.cap_of(class.into()) - used) as u8);
            }
            for item in (0..64).filter(named) {
                if let Some(class) = classes.class_of[item] {
                    plan.put(item, class);
                }
            }
        }
        Kind::Loops(graph) => {
            plan.loops(room);
            let mut joint: Vec<u8> = (0..40).collect();
            for (a, b) in bits::members(team.glued).filter_map(|item| graph.ends[item]) {
                let (old, new) = (joint[usize::from(a)], joint[usize::from(b)]);
                assert_ne!(old, new, "a loop of glued gauges");
                joint
                    .iter_mut()
                    .filter(|j| **j == old)
                    .for_each(|j| *j = new);
            }
            for item in (0..64).filter(named) {
                if let Some((a, b)) = graph.ends[item] {
                    let (a, b) = (joint[usize::from(a)], joint[usize::from(b)]);
                    if a != b {
                        plan.span(item, a, b);
                    }
                }
            }
        }
        Kind::Mounts(_) => return false,
    }
    true
}

/// Caps lowered and joints made one give the same worths as glued gauges.
#[test]
fn glued_gauges_as_lower_caps_and_fewer_joints() {
    let mut random = Random::new(1113);
    let mut compared = 0;
    for _ in 0..cases() {
        let file = without_days(&some_glue_plan(&mut random, 64, 2));
        let plan = read(&file);
        for team in plan.teams.iter().filter(|team| team.glued != 0) {
            let mut other = PlanWriter::start(plan.instruments);
            if !written_without_glue(&mut other, team) {
                continue;
            }
            let other = read(&other.end());
            for _ in 0..4 {
                let set = random.word() & plan.all();
                assert_eq!(team.rank(set), other.teams[0].rank(set), "{file:x?}");
            }
            compared += 1;
        }
    }
    assert!(compared > cases() / 4, "{compared} teams");
}

#[test]
fn random_plans_have_glue_of_every_sort() {
    let mut random = Random::new(1114);
    let (mut plans, mut before, mut after, mut many) = (0, 0, 0, 0);
    let mut kinds = [0; 3];
    for _ in 0..1_000 {
        let file = any_plan(&mut random, 8, 4);
        let plan = read(&file);
        plans += usize::from(plan.glued() != 0);
        many += usize::from(bits::size(plan.glued()) >= 4);
        for team in plan.teams.iter().filter(|team| team.glued != 0) {
            kinds[match team.kind {
                Kind::Caps(_) => 0,
                Kind::Loops(_) => 1,
                Kind::Mounts(_) => 2,
            }] += 1;
        }
        let row = commands(&file);
        for team in row.chunk_by(|_, next| !opens(next)) {
            for (at, glue) in team.iter().enumerate().filter(|(_, c)| c[0] == 0x0c) {
                let named = |c: &Vec<u8>| matches!(c[0], 5 | 6 | 9) && c[1] == glue[1];
                if team[..at].iter().any(named) {
                    after += 1;
                } else {
                    before += 1;
                }
            }
        }
    }
    assert!(plans > 350 && plans < 550, "{plans}");
    assert!(kinds.into_iter().all(|count| count > 100), "{kinds:?}");
    assert!(before > 300 && after > 300, "{before} {after}");
    assert!(many > 50 && many < 250, "{many}");
    let faults = (0..1_000).map(|_| plan::read(&any_glue_plan(&mut random, 8, 4)).is_err());
    let refused = faults.filter(|fault| *fault).count();
    assert!(refused > 400 && refused < 950, "{refused}");
}
