//! Note 3: groups of joints carried along, case by case and on random nets.

mod common;

use common::nets::{
    any_net, chosen_nets, circle, complete, doubled, path, rename, rounds, some_net, star,
    two_groups, Groups, Net, LAST, MOST,
};
use common::{cases, read};
use pool::bits;
use pool::plan::JOINTS;
use pool::random::Random;
use pool::union_find::UnionFind;
use pool::worth::worth;
use pool::writer::PlanWriter;
use pool::{brute, definition};

/// For each joint the joints that have its root.
fn by_roots(groups: &mut UnionFind) -> Groups {
    let roots: [u8; JOINTS] = std::array::from_fn(|joint| groups.root(joint as u8));
    std::array::from_fn(|joint| set_of((0..JOINTS).filter(|&other| roots[other] == roots[joint])))
}

/// The set of these members.
fn set_of(members: impl Iterator<Item = usize>) -> u64 {
    members.fold(0, |sum, item| sum | bits::one(item))
}

/// Offers an instrument: true if it has a SPAN and joins two groups.
fn offer(net: &Net, groups: &mut UnionFind, item: usize) -> bool {
    net.0[item].is_some_and(|(a, b)| groups.join(a, b))
}

/// Offers instruments in this order; hands back those accepted and the groups.
fn accept(net: &Net, order: &[usize]) -> (u64, UnionFind) {
    let mut groups = UnionFind::new();
    let mut accepted = 0;
    for &item in order {
        if offer(net, &mut groups, item) {
            accepted |= bits::one(item);
        }
    }
    (accepted, groups)
}

/// The members of a set in a random order.
fn shuffled(random: &mut Random, set: u64) -> Vec<usize> {
    let mut order: Vec<usize> = bits::members(set).collect();
    random.shuffle(&mut order);
    order
}

/// The members of a set in rising, in falling and in random order.
fn orders(random: &mut Random, set: u64) -> [Vec<usize>; 4] {
    let rising: Vec<usize> = bits::members(set).collect();
    let falling = rising.iter().rev().copied().collect();
    [
        rising,
        falling,
        shuffled(random, set),
        shuffled(random, set),
    ]
}

/// The groups with those of two joints made one.
fn united(groups: Groups, (a, b): (u8, u8)) -> Groups {
    let whole = groups[usize::from(a)] | groups[usize::from(b)];
    groups.map(|group| if group & whole == 0 { group } else { whole })
}

/// The instruments of a net outside a bundle that join two of its groups.
fn between_groups(net: &Net, bundle: u64) -> u64 {
    let groups = net.groups(bundle);
    let outside = bits::members(net.all() & !bundle);
    set_of(outside.filter(|&item| net.apart(&groups, item)))
}

/// What the operation Worth says of a set, channels never short.
fn worth_of(net: &Net, set: u64) -> u32 {
    worth(&net.plan(255, 1), 0, set).expect("a valid plan")
}

#[test]
fn groups_are_what_accepted_gauges_lead_to() {
    let mut random = Random::new(801);
    for _ in 0..cases() / 10 {
        let net = some_net(&mut random, 64);
        let mut groups = UnionFind::new();
        let (mut accepted, mut searched) = (0, net.groups(0));
        for item in shuffled(&mut random, net.all()) {
            let apart = net.apart(&searched, item);
            assert_eq!(offer(&net, &mut groups, item), apart, "{net:?} {item}");
            if apart {
                accepted |= bits::one(item);
                searched = net.groups(accepted);
            }
            assert_eq!(by_roots(&mut groups), searched, "{net:?} {accepted:x}");
        }
    }
}

#[test]
fn the_next_groups_come_from_the_last_and_two_joints() {
    let mut random = Random::new(802);
    for _ in 0..cases() / 10 {
        let net = some_net(&mut random, 64);
        let mut groups = UnionFind::new();
        let mut last = by_roots(&mut groups);
        for item in shuffled(&mut random, net.all()) {
            let joined = offer(&net, &mut groups, item);
            let next = by_roots(&mut groups);
            let ends = net.0[item].unwrap_or((0, 0));
            assert_eq!(next, united(last, ends), "{net:?} {item}");
            assert_eq!(joined, next != last, "{net:?} {item}");
            last = next;
        }
    }
}

#[test]
fn every_order_accepts_as_many_as_rank() {
    let mut random = Random::new(803);
    for _ in 0..cases() {
        let net = some_net(&mut random, 64);
        let part = random.word() & net.all();
        let set = random.pick(&[net.all(), part]);
        let rank = net.team(255).rank(set);
        let searched = net.groups(set);
        for order in orders(&mut random, set) {
            let (accepted, mut groups) = accept(&net, &order);
            assert_eq!(bits::size(accepted), rank, "{net:?} {order:?}");
            assert_eq!(by_roots(&mut groups), searched, "{net:?} {order:?}");
        }
    }
}

#[test]
fn every_order_accepts_as_many_as_the_definition() {
    let mut random = Random::new(804);
    for _ in 0..cases() / 10 {
        let net = some_net(&mut random, 7);
        let plan = read(&net.plan(255, 1));
        let team = &plan.teams[0];
        let table = brute::worth_table(&plan, team);
        for set in bits::subsets(net.all()) {
            let order = shuffled(&mut random, set);
            let accepted = accept(&net, &order).0;
            assert!(definition::independent(&plan, team, accepted), "{net:?}");
            let most = table[set as usize];
            assert_eq!(bits::size(accepted), most, "{net:?} {order:?}");
            assert_eq!(team.rank(set), most, "{net:?} {set:b}");
        }
    }
}

#[test]
fn worth_is_joints_less_groups_up_to_the_channels() {
    let mut random = Random::new(805);
    for _ in 0..cases() {
        let net = some_net(&mut random, 64);
        let channels = random.pick(&[0, 1, 2, 5, 15, 38, 39, 40, 62, 63, 64, 255]);
        let file = net.plan(channels, 1);
        let set = random.word();
        let expected = net.worth(set & net.all()).min(channels.into());
        assert_eq!(worth(&file, 0, set), Ok(expected), "{file:x?} {set:x}");
    }
}

#[test]
fn gains_are_the_gauges_between_groups() {
    let mut random = Random::new(806);
    for _ in 0..cases() {
        let net = some_net(&mut random, 64);
        let order = shuffled(&mut random, net.all());
        let offered = random.between(0, order.len());
        let bundle = accept(&net, &order[..offered]).0;
        let expected = between_groups(&net, bundle);
        assert_eq!(net.team(255).gains(bundle), expected, "{net:?} {bundle:x}");
        let size = bits::size(bundle) as u8;
        assert_eq!(net.team(size).gains(bundle), 0, "{net:?} {bundle:x}");
        assert_eq!(net.team(size + 1).gains(bundle), expected, "{net:?}");
    }
}

#[test]
fn gains_of_small_nets_are_the_definition() {
    let mut random = Random::new(807);
    for _ in 0..cases() / 10 {
        let net = some_net(&mut random, 6);
        let plan = read(&net.plan(255, 1));
        let team = &plan.teams[0];
        let independent = |set: &u64| definition::independent(&plan, team, *set);
        for bundle in bits::subsets(net.all()).filter(independent) {
            let joins = |item: &usize| independent(&(bundle | bits::one(*item)));
            let outside = bits::members(net.all() & !bundle);
            let expected = set_of(outside.filter(joins));
            assert_eq!(team.gains(bundle), expected, "{net:?} {bundle:b}");
            assert_eq!(between_groups(&net, bundle), expected, "{net:?}");
        }
    }
}

#[test]
fn names_turns_and_orders_change_no_worth() {
    let mut random = Random::new(808);
    for _ in 0..cases() {
        let net = some_net(&mut random, 64);
        let mut other = net.clone();
        rename(&mut random, &mut other);
        let (all, channels) = (net.all(), random.pick(&[255, 9]));
        let rank = net.team(channels).rank(all);
        assert_eq!(other.team(channels).rank(all), rank, "{net:?} {other:?}");
    }
}

#[test]
fn the_order_of_spans_changes_no_worth() {
    let mut random = Random::new(812);
    for _ in 0..cases() / 4 {
        let net = some_net(&mut random, 64);
        let mut spans = net.spans();
        random.shuffle(&mut spans);
        let mut plan = PlanWriter::start(net.size());
        let file = plan.loops(255).add(&spans.concat()).end();
        let set = random.word();
        let expected = worth_of(&net, set);
        assert_eq!(worth(&file, 0, set), Ok(expected), "{file:x?} {set:x}");
    }
}

#[test]
fn chosen_nets_have_their_worth_in_every_order() {
    let mut random = Random::new(809);
    for (name, net, expected) in chosen_nets() {
        assert_eq!(worth_of(&net, net.all()), expected, "{name}");
        assert_eq!(net.worth(net.all()), expected, "{name}");
        for order in orders(&mut random, net.all()) {
            let accepted = accept(&net, &order).0;
            assert_eq!(bits::size(accepted), expected, "{name} {order:?}");
        }
    }
}

#[test]
fn a_path_along_all_joints() {
    let (net, team) = (circle(), circle().team(255));
    for count in 0..JOINTS {
        let bundle = bits::first(count);
        assert_eq!(worth_of(&net, bundle), count as u32);
        let whole = count == path().size();
        let rest = if whole { 0 } else { net.all() & !bundle };
        assert_eq!(team.gains(bundle), rest, "{count}");
    }
    assert_eq!(worth_of(&path(), path().all()), MOST);
    assert_eq!(worth_of(&net, net.all()), MOST);
    let (accepted, mut groups) = accept(&path(), &(0..path().size()).rev().collect::<Vec<_>>());
    assert_eq!(accepted, path().all());
    assert_eq!(by_roots(&mut groups), [bits::first(JOINTS); JOINTS]);
    assert!(!offer(&net, &mut groups, LAST.into()));
}

/// However many gauges there are, no set is worth as much as there are joints.
#[test]
fn a_circle_of_64_gauges() {
    let (net, team) = (doubled(circle()), doubled(circle()).team(255));
    assert_eq!(net.size(), 64);
    assert_eq!(worth_of(&net, u64::MAX), MOST);
    for count in 0..=64 {
        let last = u64::MAX.checked_shl(64 - count).unwrap_or(0);
        assert_eq!(worth_of(&net, last), count.min(MOST), "{count}");
        let more = count < MOST;
        assert_eq!(team.gains(last) != 0, more, "{count}");
    }
    for item in 0..64 - JOINTS {
        let pair = bits::one(item) | bits::one(item + JOINTS);
        assert_eq!(worth_of(&net, pair), 1);
        assert_eq!(team.gains(bits::one(item)), !pair);
        assert_eq!(team.gains(bits::one(item + JOINTS)), !pair);
    }
}

#[test]
fn a_circle_without_one_or_two_gauges() {
    let (net, team) = (circle(), circle().team(255));
    for one in 0..net.size() {
        let path = net.all() & !bits::one(one);
        assert_eq!(worth_of(&net, path), MOST);
        assert_eq!(team.gains(path), 0);
        for other in 0..one {
            let two = bits::one(one) | bits::one(other);
            assert_eq!(worth_of(&net, net.all() & !two), MOST - 1);
            assert_eq!(team.gains(net.all() & !two), two);
        }
    }
}

#[test]
fn a_star_at_each_joint() {
    let (last, whole) = (bits::one(LAST.into()), bits::first(LAST.into()));
    for centre in 0..=LAST {
        let leaves = (u8::from(centre == 0), LAST - u8::from(centre == LAST));
        let net = star(centre).and([leaves]);
        let team = net.team(255);
        assert_eq!(worth_of(&net, whole), MOST);
        assert_eq!(worth_of(&net, net.all()), MOST);
        assert_eq!(team.gains(whole), 0);
        assert_eq!(team.gains(whole >> 1), net.all() & !(whole >> 1));
        assert_eq!(team.gains(last), whole);
    }
}

#[test]
fn gauges_on_one_pair() {
    for pair in [(1, 2), (0, LAST), (LAST, 0), (LAST - 1, LAST)] {
        let net = Net::of([pair; 64]);
        let team = net.team(255);
        assert_eq!(worth_of(&net, u64::MAX), 1);
        assert_eq!(team.gains(0), u64::MAX);
        for item in 0..64 {
            assert_eq!(worth_of(&net, bits::one(item)), 1);
            assert_eq!(worth_of(&net, !bits::one(item)), 1);
            assert_eq!(team.gains(bits::one(item)), 0);
        }
    }
}

#[test]
fn two_groups_joined_late() {
    let before = LAST - 1;
    let joined = bits::first(10) | bits::one(before.into()) | bits::one(LAST.into());
    let expected = |joint| match bits::has(joined, joint) {
        true => joined,
        false => bits::one(joint),
    };
    for last in [
        (0, before),
        (9, LAST),
        (5, before),
        (before, 0),
        (LAST, 9),
        (before, 5),
    ] {
        let net = two_groups(last);
        assert_eq!(worth_of(&net, bits::first(10)), 10);
        assert_eq!(net.team(255).gains(bits::first(10)), bits::one(10));
        assert_eq!(worth_of(&net, net.all()), 11);
        let (accepted, mut groups) = accept(&net, &(0..11).collect::<Vec<_>>());
        assert_eq!(accepted, net.all());
        assert_eq!(by_roots(&mut groups), std::array::from_fn(expected));
    }
}

#[test]
fn pairs_joined_in_rounds() {
    let net = rounds();
    let mut groups = UnionFind::new();
    let mut item = 0;
    for size in [2, 4, 8] {
        for _ in 0..JOINTS / size {
            assert!(offer(&net, &mut groups, item));
            item += 1;
        }
        let expected = |joint| bits::first(size) << (joint / size * size);
        assert_eq!(by_roots(&mut groups), std::array::from_fn(expected));
        let worth = JOINTS - JOINTS / size;
        assert_eq!(worth_of(&net, bits::first(item)), worth as u32);
    }
    for size in (16..=JOINTS).step_by(8) {
        assert!(offer(&net, &mut groups, item));
        item += 1;
        let expected = |joint| match joint < size {
            true => bits::first(size),
            false => bits::first(8) << (joint / 8 * 8),
        };
        assert_eq!(by_roots(&mut groups), std::array::from_fn(expected));
        assert_eq!(worth_of(&net, bits::first(item)), item as u32);
    }
    assert_eq!(item, net.size());
    assert_eq!(worth_of(&net, net.all()), MOST);
}

#[test]
fn the_outer_joints() {
    let before = LAST - 1;
    let net = Net::of([(0, LAST), (LAST, 0), (before, 0), (LAST, before), (LAST, 1)]);
    let team = net.team(255);
    for (set, worth, gains) in [
        (0b00001, 1, 0b11100),
        (0b00101, 2, 0b10000),
        (0b10101, 3, 0),
    ] {
        assert_eq!(worth_of(&net, set), worth);
        assert_eq!(team.gains(set), gains);
    }
    assert_eq!(worth_of(&net, 0b00011), 1);
    assert_eq!(worth_of(&net, 0b01101), 2);
    assert_eq!(worth_of(&net, 0b11111), 3);
}

#[test]
fn a_gauge_within_one_group_changes_nothing() {
    let net = Net::of([(1, 2), (2, 3), (3, 1), (3, 4)]);
    let (accepted, mut groups) = accept(&net, &[0, 1, 2, 3]);
    assert_eq!(accepted, 0b1011);
    let (_, mut without) = accept(&net, &[0, 1, 3]);
    assert_eq!(by_roots(&mut groups), by_roots(&mut without));
    assert_eq!(worth_of(&net, 0b0111), 2);
    assert_eq!(worth_of(&net, 0b1011), 3);
    assert_eq!(worth_of(&net, 0b1111), 3);
    assert_eq!(net.team(255).gains(0b0011), 0b1000);
}

#[test]
fn a_triangle_accepts_the_first_two() {
    let net = complete(3);
    for order in [
        [0, 1, 2],
        [0, 2, 1],
        [1, 0, 2],
        [1, 2, 0],
        [2, 0, 1],
        [2, 1, 0],
    ] {
        let (accepted, mut groups) = accept(&net, &order);
        assert_eq!(accepted, bits::one(order[0]) | bits::one(order[1]));
        assert_eq!(by_roots(&mut groups)[0], 0b111);
    }
    assert_eq!(worth_of(&net, 0b111), 2);
    assert_eq!(net.team(1).rank(0b111), 1);
}

#[test]
fn members_from_m_on_are_passed_over() {
    let net = Net::of([(0, 1), (1, 2), (2, 3)]);
    assert_eq!(worth_of(&net, u64::MAX), 3);
    assert_eq!(worth_of(&net, !0b100), 2);
    assert_eq!(worth_of(&net, !0b111), 0);
    assert_eq!(worth_of(&Net(vec![]), u64::MAX), 0);
    let mut random = Random::new(810);
    for instruments in 0..=64 {
        let net = any_net(&mut random, instruments);
        let set = random.word();
        assert_eq!(worth_of(&net, set), worth_of(&net, set & net.all()));
        assert_eq!(worth_of(&net, !net.all()), 0);
    }
}

#[test]
fn instruments_with_no_span_are_never_gained() {
    let (there, back) = (Some((0, LAST)), Some((LAST, 0)));
    let net = Net(vec![None, there, None, back, None]);
    assert_eq!(worth_of(&net, 0b11111), 1);
    assert_eq!(worth_of(&net, 0b10101), 0);
    assert_eq!(net.team(255).gains(0), 0b01010);
    assert_eq!(net.team(255).gains(0b00010), 0);
    assert!(!net.team(255).independent(0b00011));
}

#[test]
fn channels_below_the_forest() {
    for channels in [0, 1, 19, 31, 38, 39, 40, 62, 63, 64, 255] {
        let most = MOST.min(channels.into());
        assert_eq!(circle().team(channels).rank(u64::MAX), most);
        assert_eq!(doubled(circle()).team(channels).rank(u64::MAX), most);
        assert_eq!(star(LAST).team(channels).rank(star(LAST).all()), most);
        assert_eq!(rounds().team(channels).rank(rounds().all()), most);
    }
}

#[test]
fn random_nets_are_of_every_sort() {
    let mut random = Random::new(811);
    let (mut trees, mut dense, mut missing) = (0, 0, 0);
    for _ in 0..1000 {
        let net = some_net(&mut random, 64);
        let (spans, worth) = (net.spans().len() as u32, net.worth(net.all()));
        trees += u32::from(worth == spans && spans > 8);
        dense += u32::from(worth > 0 && 4 * worth < spans);
        missing += u32::from(net.0.contains(&None));
    }
    assert!(
        trees > 50 && dense > 50 && missing > 300,
        "{trees} {dense} {missing}"
    );
}
