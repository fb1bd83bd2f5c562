//! A writer of plan files.

/// Writes a plan command by command.
#[derive(Clone, Default)]
pub struct PlanWriter(Vec<u8>);

impl PlanWriter {
    /// START with this number of instruments.
    pub fn start(instruments: usize) -> Self {
        PlanWriter(vec![0x01, 1, instruments as u8])
    }

    /// CAPS: opens a team with classes.
    pub fn caps(&mut self, channels: u8) -> &mut Self {
        self.add(&[0x02, channels])
    }

    /// LOOPS: opens a team with joints.
    pub fn loops(&mut self, channels: u8) -> &mut Self {
        self.add(&[0x03, channels])
    }

    /// CLASS: caps a class.
    pub fn class(&mut self, class: u8, cap: u8) -> &mut Self {
        self.add(&[0x04, class, cap])
    }

    /// PUT: puts an instrument in a class.
    pub fn put(&mut self, item: usize, class: u8) -> &mut Self {
        self.add(&[0x05, item as u8, class])
    }

    /// SPAN: lets an instrument join two joints.
    pub fn span(&mut self, item: usize, a: u8, b: u8) -> &mut Self {
        self.add(&[0x06, item as u8, a, b])
    }

    /// MOUNTS: opens a team with mounts.
    pub fn mounts(&mut self, channels: u8) -> &mut Self {
        self.add(&[0x08, channels])
    }

    /// FIT: names the mounts an instrument fits, bit k for mount k.
    pub fn fit(&mut self, item: usize, mounts: u32) -> &mut Self {
        self.add(&[0x09, item as u8]).add(&mounts.to_le_bytes())
    }

    /// SHELF: names the shelf days of an instrument.
    pub fn shelf(&mut self, item: usize, from: u16, to: u16) -> &mut Self {
        self.add(&[0x0a, item as u8]).day(from).day(to)
    }

    /// DAYS: names the days of the open team.
    pub fn days(&mut self, from: u16, to: u16) -> &mut Self {
        self.add(&[0x0b]).day(from).day(to)
    }

    /// GLUE: marks an instrument as glued to the open team.
    pub fn glue(&mut self, item: usize) -> &mut Self {
        self.add(&[0x0c, item as u8])
    }

    /// A day in two bytes.
    fn day(&mut self, day: u16) -> &mut Self {
        self.add(&day.to_le_bytes())
    }

    /// END: the finished file.
    pub fn end(&mut self) -> Vec<u8> {
        self.add(&[0x07]);
        std::mem::take(&mut self.0)
    }

    /// Appends bytes as they are.
    pub fn add(&mut self, bytes: &[u8]) -> &mut Self {
        self.0.extend_from_slice(bytes);
        self
    }
}

/// Plan A of document 01.
pub fn plan_a() -> Vec<u8> {
    let mut plan = PlanWriter::start(2);
    plan.loops(2).span(0, 1, 2).span(1, 1, 2);
    plan.caps(1).class(0, 1).put(1, 0);
    plan.end()
}
