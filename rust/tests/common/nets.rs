//! Note 3: nets of gauges between joints, LOOPS plans on them, and groups by search.

use super::read;
use pool::bits;
use pool::plan::{Team, JOINTS};
use pool::random::Random;
use pool::sample::two_joints;
use pool::writer::PlanWriter;

/// The last joint, and half the number of joints.
pub const LAST: u8 = JOINTS as u8 - 1;
pub const HALF: u8 = JOINTS as u8 / 2;

/// What a LOOPS team can find a set worth at most: all joints in one group.
pub const MOST: u32 = LAST as u32;

/// For each joint the joints of its group, bit k for joint k.
pub type Groups = [u64; JOINTS];

/// The two joints of each instrument, or nothing where it has no SPAN.
#[derive(Clone, Debug)]
pub struct Net(pub Vec<Option<(u8, u8)>>);

impl Net {
    /// A net in which every instrument has a SPAN.
    pub fn of(pairs: impl IntoIterator<Item = (u8, u8)>) -> Self {
        Net(pairs.into_iter().map(Some).collect())
    }

    /// This net with more gauges after it.
    pub fn and(mut self, pairs: impl IntoIterator<Item = (u8, u8)>) -> Self {
        self.0.extend(pairs.into_iter().map(Some));
        self
    }

    /// The number of instruments.
    pub fn size(&self) -> usize {
        self.0.len()
    }

    /// The set of all instruments.
    pub fn all(&self) -> u64 {
        bits::first(self.size())
    }

    /// The SPAN commands, rising by instrument.
    pub fn spans(&self) -> Vec<Vec<u8>> {
        let items = self.0.iter().enumerate();
        items
            .filter_map(|(item, ends)| ends.map(|(a, b)| vec![0x06, item as u8, a, b]))
            .collect()
    }

    /// A plan of as many teams on this net.
    pub fn plan(&self, channels: u8, teams: usize) -> Vec<u8> {
        let mut plan = PlanWriter::start(self.size());
        for _ in 0..teams {
            plan.loops(channels).add(&self.spans().concat());
        }
        plan.end()
    }

    /// A team on this net.
    pub fn team(&self, channels: u8) -> Team {
        read(&self.plan(channels, 1)).teams.remove(0)
    }

    /// The joints next to each joint by a gauge of `set`.
    fn neighbours(&self, set: u64) -> Groups {
        let mut next = [0; JOINTS];
        for (a, b) in bits::members(set).filter_map(|item| self.0[item]) {
            next[usize::from(a)] |= bits::one(b.into());
            next[usize::from(b)] |= bits::one(a.into());
        }
        next
    }

    /// For each joint the joints to which gauges of `set` lead from it.
    pub fn groups(&self, set: u64) -> Groups {
        let next = self.neighbours(set);
        std::array::from_fn(|joint| reached(&next, joint))
    }

    /// Whether an instrument has a SPAN whose joints are in different groups.
    pub fn apart(&self, groups: &Groups, item: usize) -> bool {
        self.0[item].is_some_and(|(a, b)| !bits::has(groups[usize::from(a)], b.into()))
    }

    /// Worth with channels never short: the number of joints less the number of groups.
    pub fn worth(&self, set: u64) -> u32 {
        let groups = self.groups(set);
        let own = |joint: &usize| groups[*joint].trailing_zeros() as usize == *joint;
        (JOINTS - (0..JOINTS).filter(own).count()) as u32
    }
}

/// The joints reached from a joint, itself included, by a breadth-first search.
fn reached(next: &Groups, from: usize) -> u64 {
    let mut seen = bits::one(from);
    let mut row = vec![from];
    let mut at = 0;
    while at < row.len() {
        let new = next[row[at]] & !seen;
        seen |= new;
        row.extend(bits::members(new));
        at += 1;
    }
    seen
}

/// Each joint and the next one, from 0 to the last.
pub fn path() -> Net {
    Net::of((0..LAST).map(|joint| (joint, joint + 1)))
}

/// A path along all joints from the outer ones inwards: the first, the last, the second, the
/// last but one and so on.
pub fn path_inwards() -> Net {
    let at = |place: u8| match place & 1 {
        0 => place / 2,
        _ => LAST - place / 2,
    };
    Net::of((0..LAST).map(|place| (at(place), at(place + 1))))
}

/// The path and the gauge that closes it.
pub fn circle() -> Net {
    path().and([(LAST, 0)])
}

/// A net with its first gauges again, turned, up to 64 instruments.
pub fn doubled(net: Net) -> Net {
    let again: Vec<(u8, u8)> = net.0.iter().flatten().map(|&(a, b)| (b, a)).collect();
    let more = 64 - net.size();
    net.and(again.into_iter().take(more))
}

/// A gauge from one joint to each other one.
pub fn star(centre: u8) -> Net {
    let others = (0..=LAST).filter(|&joint| joint != centre);
    Net::of(others.map(|joint| (centre, joint)))
}

/// Pairs of joints, pairs of pairs and groups of eight, then each eight joined to the next.
pub fn rounds() -> Net {
    let round = |step: u8| {
        let firsts = (0..=LAST).step_by(2 * usize::from(step));
        firsts.map(move |joint| (joint + step - 1, joint + 2 * step - 1))
    };
    let ends = (7..LAST).step_by(8);
    Net::of([1, 2, 4].into_iter().flat_map(round)).and(ends.map(|joint| (joint, joint + 8)))
}

/// A group of the joints 0 to 9, one of the last two joints, and a gauge last.
pub fn two_groups(last: (u8, u8)) -> Net {
    Net::of((0..9).map(|joint| (joint, joint + 1))).and([(LAST, LAST - 1), last])
}

/// A gauge between every two of the first joints.
pub fn complete(joints: u8) -> Net {
    Net::of((0..joints).flat_map(|b| (0..b).map(move |a| (a, b))))
}

/// Nets with what all their instruments are worth, channels never short.
pub fn chosen_nets() -> Vec<(&'static str, Net, u32)> {
    let mut nets = trees_and_circles();
    nets.extend(small_nets());
    nets.extend(nets_with_no_span());
    nets
}

/// Nets on all joints.
fn trees_and_circles() -> Vec<(&'static str, Net, u32)> {
    let two_circles = |joint: u8| (joint, joint / HALF * HALF + (joint + 1) % HALF);
    let two_circles = Net::of((0..=LAST).map(two_circles));
    let inwards = path_inwards().and([(0, HALF)]);
    let leaves = star(HALF - 1).and([(0, LAST)]);
    let again = star(HALF - 1).and([(LAST, HALF - 1)]);
    vec![
        ("a path", path(), MOST),
        ("a path inwards", path_inwards(), MOST),
        ("a circle", circle(), MOST),
        ("a circle, closed inwards", inwards, MOST),
        ("a circle, 64 gauges", doubled(circle()), MOST),
        ("two circles", two_circles.clone(), MOST - 1),
        ("two circles, 64 gauges", doubled(two_circles), MOST - 1),
        ("a star at the first joint", star(0), MOST),
        ("a star at the last joint", star(LAST), MOST),
        ("a star, 64 gauges", doubled(star(LAST)), MOST),
        ("a star and two leaves joined", leaves, MOST),
        ("a star and one gauge twice", again, MOST),
        ("pairs of pairs", rounds(), MOST),
        ("pairs of pairs, closed", rounds().and([(LAST, 0)]), MOST),
    ]
}

/// Nets on a few joints.
fn small_nets() -> Vec<(&'static str, Net, u32)> {
    let turned = |item| match item % 2 {
        0 => (0, LAST),
        _ => (LAST, 0),
    };
    let within = [(1, 2), (2, 3), (3, 1), (3, 4)];
    let (larger, smaller) = (two_groups((9, LAST - 1)), two_groups((LAST, 0)));
    vec![
        ("one gauge", Net::of([(LAST, 0)]), 1),
        ("64 on one pair", Net::of([(1, 2); 64]), 1),
        ("64 on the outer pair", Net::of((0..64).map(turned)), 1),
        ("a triangle", Net::of([(1, 2), (2, 3), (1, 3)]), 2),
        ("a gauge within one group", Net::of(within), 3),
        ("late, the larger group first", larger, 11),
        ("late, the smaller group first", smaller, 11),
        ("a complete net", complete(11), 10),
    ]
}

/// Nets in which instruments have no SPAN.
fn nets_with_no_span() -> Vec<(&'static str, Net, u32)> {
    let mut half = circle();
    for ends in half.0.iter_mut().step_by(2) {
        *ends = None;
    }
    let mut around = Net(vec![None]).and([(0, LAST), (LAST, 0)]);
    around.0.push(None);
    vec![
        ("every second gauge of a circle", half, HALF.into()),
        ("no SPAN first and last", around, 1),
        ("no SPAN at all", Net(vec![None; 64]), 0),
    ]
}

/// A random net of at least one instrument and at most this many.
pub fn some_net(random: &mut Random, most: usize) -> Net {
    let few = random.between(1, most.min(12));
    let any = random.between(1, most);
    let instruments = random.pick(&[few, any, any, most]);
    any_net(random, instruments)
}

/// A random net on few, 16 or all joints: gauges along a circle, from one joint to the
/// others, between neighbours, or any. In half of the nets some instruments have no SPAN.
pub fn any_net(random: &mut Random, instruments: usize) -> Net {
    let few = random.between(2, 8);
    let joints = random.pick(&[2, few, few, 16, JOINTS, JOINTS]);
    let sort = random.below(6);
    let rate = random.pick(&[4, 4, 3, 2]);
    let pairs = (0..instruments).map(|item| any_pair(random, sort, item, joints));
    let mut net = Net(pairs.map(Some).collect());
    rename(random, &mut net);
    for ends in &mut net.0 {
        if !random.chance(rate, 4) {
            *ends = None;
        }
    }
    net
}

/// The joints of an instrument in a net of this sort.
fn any_pair(random: &mut Random, sort: usize, item: usize, joints: usize) -> (u8, u8) {
    let near = random.below(joints - 1);
    let (a, b) = match sort {
        0 => (item % joints, (item + 1) % joints),
        1 => (0, 1 + item % (joints - 1)),
        2 => (near, near + 1),
        _ => return two_joints(random, joints),
    };
    (a as u8, b as u8)
}

/// The same net with other names of joints, gauges turned, and instruments in any order.
pub fn rename(random: &mut Random, net: &mut Net) {
    let mut names: Vec<u8> = (0..JOINTS as u8).collect();
    match random.below(3) {
        0 => {}
        1 => names.reverse(),
        _ => random.shuffle(&mut names),
    }
    for (a, b) in net.0.iter_mut().flatten() {
        (*a, *b) = (names[usize::from(*a)], names[usize::from(*b)]);
        if random.chance(1, 2) {
            std::mem::swap(a, b);
        }
    }
    if random.chance(1, 2) {
        random.shuffle(&mut net.0);
    }
}

/// A random plan of LOOPS teams, in a quarter of the plans all on one net. SPANs are in any
/// order, and few teams are away.
pub fn loops_plan(random: &mut Random, instruments: usize, teams: usize) -> Vec<u8> {
    let mut plan = PlanWriter::start(instruments);
    let alike = random.chance(1, 4).then(|| any_net(random, instruments));
    for _ in 0..teams {
        let own = any_net(random, instruments);
        let mut spans = alike.as_ref().unwrap_or(&own).spans();
        random.shuffle(&mut spans);
        let few = random.below(instruments / 2 + 2) as u8;
        let channels = random.pick(&[255, 255, 255, 63, LAST, LAST - 1, few, 1]);
        plan.loops(channels).add(&spans.concat());
    }
    plan.end()
}
