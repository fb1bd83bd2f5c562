//! Reading a plan: commands of one byte with their operands.

use crate::bits;
use crate::days::{Days, Shelf};
use crate::refusal::Refusal;

/// The most teams a plan may have.
pub const MOST_TEAMS: usize = 12;
/// The most instruments a plan may have.
pub const MOST_INSTRUMENTS: usize = 64;
/// The number of classes a CAPS team can name.
pub const CLASSES: usize = 16;
/// The number of joints a LOOPS team can name.
pub const JOINTS: usize = 40;
/// The number of mounts a MOUNTS team can name.
pub const MOUNTS: usize = 32;

/// A whole plan: the number of instruments, their shelf days, and the teams in file order.
#[derive(Clone, Debug, PartialEq, Eq)]
pub struct Plan {
    pub instruments: usize,
    pub shelf: Shelf,
    pub teams: Vec<Team>,
}

/// One team: its channels, its rule for independent sets, its loan days and its glued
/// instruments.
#[derive(Clone, Debug, PartialEq, Eq)]
pub struct Team {
    pub channels: u8,
    pub kind: Kind,
    /// The days that its DAYS names.
    pub days: Option<Days>,
    /// The instruments whose shelf days hold the team's days, found at END.
    pub usable: u64,
    /// The instruments that its GLUEs name.
    pub glued: u64,
    /// The instruments glued to any team, found at END.
    pub all_glued: u64,
}

/// The three kinds of team.
#[derive(Clone, Debug, PartialEq, Eq)]
pub enum Kind {
    /// A partition matroid.
    Caps(Box<Classes>),
    /// A graphic matroid.
    Loops(Box<Graph>),
    /// A transversal matroid.
    Mounts(Box<Bipartite>),
}

/// The classes of a CAPS team; a class with no CLASS has cap 0.
#[derive(Clone, Debug, PartialEq, Eq)]
pub struct Classes {
    pub cap: [Option<u8>; CLASSES],
    pub class_of: [Option<u8>; MOST_INSTRUMENTS],
    /// The instruments PUT in each class.
    pub members: [u64; CLASSES],
}

/// The graph of a LOOPS team: instruments are edges between joints.
#[derive(Clone, Debug, PartialEq, Eq)]
pub struct Graph {
    pub ends: [Option<(u8, u8)>; MOST_INSTRUMENTS],
    /// The instruments with an end at each joint.
    pub touching: [u64; JOINTS],
}

/// The bipartite graph of a MOUNTS team: the mounts that each instrument fits, bit k for
/// mount k.
#[derive(Clone, Debug, PartialEq, Eq)]
pub struct Bipartite {
    pub fits: [Option<u32>; MOST_INSTRUMENTS],
}

impl Plan {
    /// The set of all instruments of the plan.
    pub fn all(&self) -> u64 {
        bits::first(self.instruments)
    }

    /// p, the number of teams present.
    pub fn present(&self) -> usize {
        self.teams.iter().filter(|team| team.present()).count()
    }

    /// The instruments glued to any team.
    pub fn glued(&self) -> u64 {
        self.teams.iter().fold(0, |sum, team| sum | team.glued)
    }
}

impl Team {
    /// Whether the team is present: its channels are above 0.
    pub fn present(&self) -> bool {
        self.channels > 0
    }

    /// The days of the team, named or not.
    pub fn days(&self) -> Days {
        self.days.unwrap_or_default()
    }

    /// DAYS: names the days of the team, once.
    fn name_days(&mut self, operands: [u8; 4]) -> Result<(), u8> {
        let days = Days::read(operands)?;
        if self.days.is_some() {
            return Err(6);
        }
        self.days = Some(days);
        Ok(())
    }
}

/// Reads a whole plan, or tells what is wrong with its first faulty command.
pub fn read(file: &[u8]) -> Result<Plan, Refusal> {
    if file.first() != Some(&0x01) {
        return Err(Refusal::new(1, 0));
    }
    let mut reader = Reader::new(file);
    while reader.at < file.len() {
        if reader.command()? {
            return reader.finish();
        }
    }
    Err(Refusal::new(2, file.len()))
}

/// The file, the offset of its next command, and the plan so far.
struct Reader<'a> {
    file: &'a [u8],
    at: usize,
    plan: Plan,
}

impl<'a> Reader<'a> {
    /// A reader at the start of the file.
    fn new(file: &'a [u8]) -> Self {
        let plan = Plan {
            instruments: 0,
            shelf: Shelf::default(),
            teams: Vec::new(),
        };
        Reader { file, at: 0, plan }
    }

    /// The plan after END, unless bytes follow.
    fn finish(self) -> Result<Plan, Refusal> {
        if self.at < self.file.len() {
            return Err(Refusal::new(9, self.at));
        }
        Ok(self.plan)
    }

    /// Reads one command and steps over it; true after END.
    fn command(&mut self) -> Result<bool, Refusal> {
        let byte = self.file[self.at];
        let count = operand_count(byte).ok_or(self.fault(3))?;
        let start = self.at + 1;
        let operands = self.file.get(start..start + count).ok_or(self.fault(2))?;
        if !self.in_place(byte) {
            return Err(self.fault(4));
        }
        self.carry_out(byte, operands)
            .map_err(|number| self.fault(number))?;
        self.at = start + count;
        Ok(byte == 0x07)
    }

    /// A refusal at the present command.
    fn fault(&self, number: u8) -> Refusal {
        Refusal::new(number, self.at)
    }

    /// Whether this command may stand here.
    fn in_place(&self, byte: u8) -> bool {
        let open = self.plan.teams.last().map(|team| &team.kind);
        match byte {
            0x01 => self.at == 0,
            0x04 | 0x05 => matches!(open, Some(Kind::Caps(_))),
            0x06 => matches!(open, Some(Kind::Loops(_))),
            0x09 => matches!(open, Some(Kind::Mounts(_))),
            0x07 | 0x0b | 0x0c => open.is_some(),
            0x0a => open.is_none(),
            _ => true,
        }
    }

    /// Carries out a command that stands in its place, or gives the refusal's number.
    fn carry_out(&mut self, byte: u8, operands: &[u8]) -> Result<(), u8> {
        let count = self.plan.instruments;
        match (byte, operands) {
            (0x01, &[version, instruments]) => self.start(version, instruments),
            (0x02, &[channels]) => self.open(channels, Kind::Caps(Box::default())),
            (0x03, &[channels]) => self.open(channels, Kind::Loops(Box::default())),
            (0x04, &[class, cap]) => self.classes().class(class, cap),
            (0x05, &[item, class]) => self.classes().put(count, item, class),
            (0x06, &[item, a, b]) => self.graph().span(count, item, a, b),
            (0x07, &[]) => self.settle(),
            (0x08, &[channels]) => self.open(channels, Kind::Mounts(Box::default())),
            (0x09, &[item, a, b, c, d]) => {
                let mounts = u32::from_le_bytes([a, b, c, d]);
                self.bipartite().fit(count, item, mounts)
            }
            (0x0a, &[item, a, b, c, d]) => self.plan.shelf.name(count, item, [a, b, c, d]),
            (0x0b, &[a, b, c, d]) => self.team().name_days([a, b, c, d]),
            (0x0c, &[item]) => self.glue(item),
            _ => Ok(()),
        }
    }

    /// START: the version and the number of instruments.
    fn start(&mut self, version: u8, instruments: u8) -> Result<(), u8> {
        if version != 1 || usize::from(instruments) > MOST_INSTRUMENTS {
            return Err(5);
        }
        self.plan.instruments = usize::from(instruments);
        Ok(())
    }

    /// CAPS, LOOPS or MOUNTS: opens the next team.
    fn open(&mut self, channels: u8, kind: Kind) -> Result<(), u8> {
        if self.plan.teams.len() == MOST_TEAMS {
            return Err(7);
        }
        self.plan.teams.push(Team {
            channels,
            kind,
            days: None,
            usable: 0,
            glued: 0,
            all_glued: 0,
        });
        Ok(())
    }

    /// GLUE: marks an instrument in the open team, once in the whole plan.
    fn glue(&mut self, item: u8) -> Result<(), u8> {
        let place = usize::from(item);
        if place >= self.plan.instruments {
            return Err(5);
        }
        if bits::has(self.plan.glued(), place) {
            return Err(6);
        }
        self.team().glued |= bits::one(place);
        Ok(())
    }

    /// END: finds what each team can use and what is glued, and tests that the glued
    /// instruments of each team were independent before note 6.
    fn settle(&mut self) -> Result<(), u8> {
        let all_glued = self.plan.glued();
        for team in &mut self.plan.teams {
            let shelf = &self.plan.shelf;
            team.usable = shelf.usable(self.plan.instruments, team.days());
            team.all_glued = all_glued;
        }
        let mut teams = self.plan.teams.iter();
        if teams.all(|team| team.independent_before(team.glued)) {
            Ok(())
        } else {
            Err(18)
        }
    }

    /// The open team.
    fn team(&mut self) -> &mut Team {
        self.plan.teams.last_mut().expect("the place was tested")
    }

    /// The classes of the open CAPS team.
    fn classes(&mut self) -> &mut Classes {
        match &mut self.team().kind {
            Kind::Caps(classes) => classes,
            _ => unreachable!("the place was tested"),
        }
    }

    /// The graph of the open LOOPS team.
    fn graph(&mut self) -> &mut Graph {
        match &mut self.team().kind {
            Kind::Loops(graph) => graph,
            _ => unreachable!("the place was tested"),
        }
    }

    /// The bipartite graph of the open MOUNTS team.
    fn bipartite(&mut self) -> &mut Bipartite {
        match &mut self.team().kind {
            Kind::Mounts(bipartite) => bipartite,
            _ => unreachable!("the place was tested"),
        }
    }
}

/// The number of operand bytes of a command, if there is such a command.
pub fn operand_count(byte: u8) -> Option<usize> {
    match byte {
        0x07 => Some(0),
        0x02 | 0x03 | 0x08 | 0x0c => Some(1),
        0x01 | 0x04 | 0x05 => Some(2),
        0x06 => Some(3),
        0x0b => Some(4),
        0x09 | 0x0a => Some(5),
        _ => None,
    }
}

/// Cuts a valid plan into its commands.
pub fn commands(plan: &[u8]) -> Vec<Vec<u8>> {
    let mut rest = plan;
    let mut out = Vec::new();
    while let Some(&byte) = rest.first() {
        let length = 1 + operand_count(byte).expect("a command");
        out.push(rest[..length].to_vec());
        rest = &rest[length..];
    }
    out
}

impl Default for Classes {
    fn default() -> Self {
        Classes {
            cap: [None; CLASSES],
            class_of: [None; MOST_INSTRUMENTS],
            members: [0; CLASSES],
        }
    }
}

impl Classes {
    /// CLASS: sets a cap, once.
    fn class(&mut self, class: u8, cap: u8) -> Result<(), u8> {
        let slot = self.cap.get_mut(usize::from(class)).ok_or(5)?;
        if slot.is_some() {
            return Err(6);
        }
        *slot = Some(cap);
        Ok(())
    }

    /// PUT: puts an instrument in a class, once.
    fn put(&mut self, count: usize, item: u8, class: u8) -> Result<(), u8> {
        let place = usize::from(item);
        if place >= count || usize::from(class) >= CLASSES {
            return Err(5);
        }
        if self.class_of[place].is_some() {
            return Err(6);
        }
        self.class_of[place] = Some(class);
        self.members[usize::from(class)] |= bits::one(place);
        Ok(())
    }
}

impl Default for Graph {
    fn default() -> Self {
        Graph {
            ends: [None; MOST_INSTRUMENTS],
            touching: [0; JOINTS],
        }
    }
}

impl Graph {
    /// SPAN: lets an instrument join two different joints, once.
    fn span(&mut self, count: usize, item: u8, a: u8, b: u8) -> Result<(), u8> {
        let place = usize::from(item);
        if place >= count || usize::from(a.max(b)) >= JOINTS {
            return Err(5);
        }
        if a == b {
            return Err(8);
        }
        if self.ends[place].is_some() {
            return Err(6);
        }
        self.ends[place] = Some((a, b));
        self.touching[usize::from(a)] |= bits::one(place);
        self.touching[usize::from(b)] |= bits::one(place);
        Ok(())
    }
}

impl Default for Bipartite {
    fn default() -> Self {
        Bipartite {
            fits: [None; MOST_INSTRUMENTS],
        }
    }
}

impl Bipartite {
    /// FIT: names the mounts of an instrument, none of them also, once.
    fn fit(&mut self, count: usize, item: u8, mounts: u32) -> Result<(), u8> {
        let place = usize::from(item);
        if place >= count {
            return Err(5);
        }
        if self.fits[place].is_some() {
            return Err(6);
        }
        self.fits[place] = Some(mounts);
        Ok(())
    }
}
