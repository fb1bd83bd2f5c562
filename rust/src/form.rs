//! The form of a sheet, byte by byte: refusal 12.

use crate::plan::{Plan, Team};
use crate::sheet::POOL;

/// The offset of the first byte that form, order or range does not allow.
/// The sheet has the length L of this plan.
pub fn first_fault(plan: &Plan, sheet: &[u8]) -> Option<usize> {
    let mut form = Form { sheet, at: 0 };
    form.whole(plan).err().map(|Fault| form.at)
}

/// The largest values that a team's SHARE and PARTs may have.
#[derive(Default)]
struct Page {
    share: u8,
    set: u64,
    part: u8,
}

impl Page {
    /// For a present team any share, any set below m and a part below p; else 0 for all.
    fn new(plan: &Plan, team: &Team) -> Self {
        if !team.present() {
            return Page::default();
        }
        Page {
            share: u8::MAX,
            set: plan.all(),
            part: plan.present() as u8 - 1,
        }
    }
}

/// The byte at the scanner's offset is not allowed.
struct Fault;

/// A scanner that stays at the first byte it does not allow.
struct Form<'a> {
    sheet: &'a [u8],
    at: usize,
}

impl Form<'_> {
    /// HEAD, GIVEs, BOUND, each team's stretch, END.
    fn whole(&mut self, plan: &Plan) -> Result<(), Fault> {
        let teams = plan.teams.len() as u8;
        self.exact(0x11)?;
        self.exact(plan.instruments as u8)?;
        self.exact(teams)?;
        self.byte(|_| true)?;
        for item in 0..plan.instruments {
            self.exact(0x12)?;
            self.exact(item as u8)?;
            self.byte(|team| team < teams || team == POOL)?;
        }
        self.exact(0x13)?;
        self.set(plan.all())?;
        for (number, team) in plan.teams.iter().enumerate() {
            self.stretch(number as u8, plan.instruments, &Page::new(plan, team))?;
        }
        self.exact(0x16)
    }

    /// One team's SHARE and PARTs.
    fn stretch(&mut self, team: u8, instruments: usize, page: &Page) -> Result<(), Fault> {
        self.exact(0x14)?;
        self.exact(team)?;
        self.byte(|share| share <= page.share)?;
        self.set(page.set)?;
        for item in 0..instruments {
            self.exact(0x15)?;
            self.exact(item as u8)?;
            self.byte(|part| part <= page.part)?;
        }
        Ok(())
    }

    /// Eight bytes with no bit outside `most`.
    fn set(&mut self, most: u64) -> Result<(), Fault> {
        for allowed in most.to_le_bytes() {
            self.byte(|byte| byte & !allowed == 0)?;
        }
        Ok(())
    }

    /// One given byte.
    fn exact(&mut self, value: u8) -> Result<(), Fault> {
        self.byte(|byte| byte == value)
    }

    /// One byte that passes the test.
    fn byte(&mut self, allowed: impl Fn(u8) -> bool) -> Result<(), Fault> {
        match self.sheet.get(self.at) {
            Some(&byte) if allowed(byte) => {
                self.at += 1;
                Ok(())
            }
            _ => Err(Fault),
        }
    }
}
