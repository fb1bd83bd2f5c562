//! Matroid partition by push and relabel.
//!
//! Every instrument has a level. An unplaced instrument joins a bundle freely, or takes
//! the place of a member of its fundamental circuit that stands one level lower, or is
//! lifted. The levels keep one invariant: for an instrument g outside a bundle, either g
//! joins it freely and has level 0 or 1, or every member of g's circuit in it stands at
//! most one level below g. When a level empties, nothing above it can be placed any more,
//! and what is above is spanned in each bundle by its own members: a certificate. So is
//! the set of all instruments once every bundle has reached its limit.

use crate::bits;
use crate::plan::{Team, MOST_INSTRUMENTS};

/// A place for one bundle: a team's matroid truncated at a limit.
#[derive(Clone, Copy)]
pub struct Seat<'a> {
    pub team: &'a Team,
    pub limit: u32,
}

impl<'a> Seat<'a> {
    /// A seat whose bundle never grows beyond the channels left to the team or `most`.
    pub fn new(team: &'a Team, most: u32) -> Self {
        let limit = most.min(team.room());
        Seat { team, limit }
    }

    /// The members of the bundle of which one must leave before `item` joins, or nothing
    /// when it joins freely.
    fn circuit(&self, bundle: u64, item: usize) -> Option<u64> {
        let circuit = self.team.circuit(bundle, item);
        if circuit.is_none() && bits::size(bundle) >= self.limit {
            return Some(bundle);
        }
        circuit
    }
}

/// Independent bundles of greatest total size, and a set that shows it:
/// everything outside `tight` is held, and each bundle spans `tight` by its members there.
pub struct Partition {
    pub bundles: Vec<u64>,
    pub tight: u64,
}

impl Partition {
    /// The number of placed instruments.
    pub fn total(&self) -> u32 {
        self.bundles.iter().map(|&bundle| bits::size(bundle)).sum()
    }
}

/// Enlarges independent bundles to the greatest total; no bundle ever gets smaller.
pub fn enlarge(seats: &[Seat], instruments: usize, bundles: Vec<u64>) -> Partition {
    let all = bits::first(instruments);
    let mut levels = Levels::new(all);
    let held = bundles.iter().fold(0, |sum, bundle| sum | bundle);
    let mut state = Placing {
        seats,
        bundles,
        waiting: all & !held,
    };
    while state.waiting != 0 && !state.full() {
        let item = levels.highest(state.waiting);
        state.place(item, &mut levels);
        state.waiting &= !levels.stuck;
    }
    let tight = if state.full() { all } else { levels.stuck };
    let bundles = state.bundles;
    Partition { bundles, tight }
}

/// The bundles and the instruments still to be placed.
struct Placing<'a> {
    seats: &'a [Seat<'a>],
    bundles: Vec<u64>,
    waiting: u64,
}

/// The lowest instrument that may be pushed out: its level, its seat, itself.
type Victim = (usize, usize, usize);

impl Placing<'_> {
    /// Whether every bundle has reached its limit.
    fn full(&self) -> bool {
        let mut seats = self.seats.iter().zip(&self.bundles);
        seats.all(|(seat, &bundle)| bits::size(bundle) == seat.limit)
    }

    /// One step for a waiting instrument: join, push another out, or end up stuck.
    fn place(&mut self, item: usize, levels: &mut Levels) {
        let mut victim: Option<Victim> = None;
        for (seat, rule) in self.seats.iter().enumerate() {
            let Some(circuit) = rule.circuit(self.bundles[seat], item) else {
                self.join(seat, item);
                return;
            };
            let limit = victim.map_or(levels.top + 1, |(level, _, _)| level);
            if let Some((level, out)) = levels.lowest(circuit, levels.of[item], limit) {
                victim = Some((level, seat, out));
                if level + 1 == levels.of[item] && levels.of[item] > 1 {
                    break;
                }
            }
        }
        match victim {
            Some((level, seat, out)) if levels.lift(item, level + 1) => {
                self.bundles[seat] &= !bits::one(out);
                self.waiting |= bits::one(out);
                self.join(seat, item);
            }
            Some(_) => {}
            None => levels.lift_out(item),
        }
    }

    /// Puts a waiting instrument in a bundle.
    fn join(&mut self, seat: usize, item: usize) {
        self.bundles[seat] |= bits::one(item);
        self.waiting &= !bits::one(item);
    }
}

/// The level of each instrument, with the set of instruments at each level.
struct Levels {
    of: [usize; MOST_INSTRUMENTS],
    at: [u64; MOST_INSTRUMENTS + 2],
    /// No instrument stands above this level, the stuck ones aside.
    top: usize,
    /// Instruments above an empty level: lifted out for good.
    stuck: u64,
}

impl Levels {
    /// Every instrument at level 0.
    fn new(all: u64) -> Self {
        let mut at = [0; MOST_INSTRUMENTS + 2];
        at[0] = all;
        Levels {
            of: [0; MOST_INSTRUMENTS],
            at,
            top: 0,
            stuck: 0,
        }
    }

    /// A member of `set`, which is not empty, of the highest level.
    fn highest(&self, set: u64) -> usize {
        let levels = self.at[..=self.top].iter().rev();
        let mut found = levels.map(|at| at & set).filter(|&part| part != 0);
        found.next().unwrap_or(set).trailing_zeros() as usize
    }

    /// The lowest level below `limit` with a member of `set`, and that member.
    /// None stands lower than one below `level`.
    fn lowest(&self, set: u64, level: usize, limit: usize) -> Option<(usize, usize)> {
        (level.saturating_sub(1)..limit).find_map(|at| {
            let part = self.at[at] & set;
            (part != 0).then(|| (at, part.trailing_zeros() as usize))
        })
    }

    /// Lifts an instrument to `level` unless it is there; false when it got stuck.
    fn lift(&mut self, item: usize, level: usize) -> bool {
        let old = self.of[item];
        if old == level {
            return true;
        }
        self.at[old] &= !bits::one(item);
        self.at[level] |= bits::one(item);
        self.of[item] = level;
        self.top = self.top.max(level);
        if old >= 1 && self.at[old] == 0 {
            self.strand(old);
            return false;
        }
        true
    }

    /// Lifts an instrument that nothing can make room for above all levels.
    fn lift_out(&mut self, item: usize) {
        let old = self.of[item];
        self.at[old] &= !bits::one(item);
        self.stuck |= bits::one(item);
        if old >= 1 && self.at[old] == 0 {
            self.strand(old);
        }
    }

    /// Takes out everything above an empty level.
    fn strand(&mut self, empty: usize) {
        for level in empty + 1..=self.top {
            self.stuck |= self.at[level];
            self.at[level] = 0;
        }
        self.top = empty - 1;
    }
}
