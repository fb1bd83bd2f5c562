//! Independence and worth word for word, for small sets.

use crate::bits;
use crate::plan::{Bipartite, Classes, Graph, Kind, Plan, Team, CLASSES, JOINTS, MOUNTS};

/// Independence: no instrument glued to anyone and, together with the team's glued ones,
/// independent before note 6.
pub fn independent(plan: &Plan, team: &Team, set: u64) -> bool {
    let glued = |item| plan.teams.iter().any(|team| bits::has(team.glued, item));
    !bits::members(set).any(glued) && independent_before(plan, team, set | team.glued)
}

/// Independence before note 6: all on the shelf on the team's days, all named, the kind's own
/// rule, and no more than the channels.
pub fn independent_before(plan: &Plan, team: &Team, set: u64) -> bool {
    let fits = bits::size(set) <= u32::from(team.channels);
    fits && all_on_shelf(plan, team, set)
        && match &team.kind {
            Kind::Caps(classes) => within_caps(classes, set),
            Kind::Loops(graph) => all_span(graph, set) && !closed_loop(graph, set),
            Kind::Mounts(bipartite) => all_mounted(bipartite, set, 0),
        }
}

/// Worth: the size of the largest independent part of `set`.
pub fn worth(plan: &Plan, team: &Team, set: u64) -> u32 {
    bits::subsets(set)
        .filter(|&part| independent(plan, team, part))
        .map(bits::size)
        .max()
        .unwrap_or(0)
}

/// The team's days lie within the shelf days of each instrument.
fn all_on_shelf(plan: &Plan, team: &Team, set: u64) -> bool {
    bits::members(set).all(|item| team.days().within(plan.shelf.days_of(item)))
}

/// Each instrument was PUT and no class has more than its cap.
fn within_caps(classes: &Classes, set: u64) -> bool {
    let mut count = [0u32; CLASSES];
    for item in bits::members(set) {
        match classes.class_of[item] {
            Some(class) => count[usize::from(class)] += 1,
            None => return false,
        }
    }
    (0..CLASSES).all(|class| count[class] <= classes.cap[class].map_or(0, u32::from))
}

/// Each instrument has a SPAN.
fn all_span(graph: &Graph, set: u64) -> bool {
    bits::members(set).all(|item| graph.ends[item].is_some())
}

/// Whether some k different joints, k at least 2, are joined each to the next and the
/// last to the first by k different instruments of `set`.
pub fn closed_loop(graph: &Graph, set: u64) -> bool {
    (0..JOINTS as u8).any(|joint| {
        let walk = Walk {
            graph,
            set,
            start: joint,
        };
        walk.closes(joint, 0, bits::one(usize::from(joint)))
    })
}

/// A search for a closed loop through one joint.
struct Walk<'a> {
    graph: &'a Graph,
    set: u64,
    start: u8,
}

impl Walk<'_> {
    /// Whether the walk that stands at `at`, with these instruments and joints used,
    /// can go on to close a loop.
    fn closes(&self, at: u8, used: u64, seen: u64) -> bool {
        bits::members(self.set & !used).any(|item| {
            let next = match self.graph.ends[item] {
                Some((a, b)) if a == at => b,
                Some((a, b)) if b == at => a,
                _ => return false,
            };
            if next == self.start {
                return true;
            }
            let place = usize::from(next);
            !bits::has(seen, place)
                && self.closes(next, used | bits::one(item), seen | bits::one(place))
        })
    }
}

/// Whether every instrument of `set` can have a mount of its own that it fits, none of the
/// taken ones: a search through all assignments, the instrument with the fewest mounts
/// left first.
pub fn all_mounted(bipartite: &Bipartite, set: u64, taken: u32) -> bool {
    let left = |item: &usize| bipartite.fits[*item].unwrap_or(0) & !taken;
    let Some(item) = bits::members(set).min_by_key(|item| left(item).count_ones()) else {
        return true;
    };
    let rest = set & !bits::one(item);
    let mut mounts = (0..MOUNTS).map(|mount| left(&item) & 1 << mount);
    mounts.any(|mount| mount != 0 && all_mounted(bipartite, rest, taken | mount))
}
