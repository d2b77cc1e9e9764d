//! The calls that are made, from chance alone.
//!
//! A planned call has some of its row's faults on purpose; which refusal is
//! to be given is known from them and the header's order alone. A wild call
//! is thrown together, and only the second decoder knows its answer.

mod assembly;
mod common;
mod desk;
mod documentation;
mod ground;
mod number;
mod record;
mod recording;
mod report;
mod sector;
mod wild;

pub use assembly::goes_by;
pub use record::Record;

use crate::call::Call;
use crate::dice::Dice;
use crate::faults::Faults;
use crate::pool::Pool;
use crate::rows::{Name, ROWS};

/// A call to make.
#[derive(Clone, Debug)]
pub struct Asked {
    pub call: Call,
    /// What `refused` has to be, where the plan says.
    pub wanted: Option<u8>,
}

impl Asked {
    pub fn wild(call: Call) -> Asked {
        Asked { call, wanted: None }
    }

    fn planned(call: Call, faults: &Faults) -> Asked {
        Asked {
            call,
            wanted: Some(faults.first()),
        }
    }
}

pub struct Maker {
    pub dice: Dice,
    pub pool: Pool,
}

impl Maker {
    pub fn new(seed: u64) -> Maker {
        let mut dice = Dice::new(seed);
        let pool = Pool::new(&mut dice);
        Maker { dice, pool }
    }

    /// The next call of the random run.
    pub fn draw(&mut self) -> Asked {
        let name = self.name();
        if self.dice.one_in(8) {
            return Asked::wild(self.wild(name));
        }
        let faults = Faults::draw(&ROWS[name as usize], &mut self.dice);
        self.planned(name, &faults)
    }

    fn name(&mut self) -> Name {
        let all: usize = ROWS.iter().map(|row| weight(row.name)).sum();
        let mut place = self.dice.under(all);
        for row in &ROWS {
            match place.checked_sub(weight(row.name)) {
                Some(rest) => place = rest,
                None => return row.name,
            }
        }
        unreachable!("the place is under the sum");
    }

    /// A call with these faults and no others.
    pub fn planned(&mut self, name: Name, faults: &Faults) -> Asked {
        match name {
            Name::Format => self.format_call(faults),
            Name::Stepped => self.stepped(faults),
            Name::Step => self.step(faults),
            Name::PutSync => self.put_sync(faults),
            Name::Version | Name::Fresh | Name::FreshAssembly | Name::EmptyReport => {
                Asked::planned(Call::new(name, &[], vec![]), faults)
            }
            Name::Read => self.read(faults),
            Name::WriteLine => self.write_line(faults),
            Name::Accepted => self.accepted(faults),
            Name::Answers => self.answers(faults),
            Name::Filler => self.filler(faults),
            Name::Data => self.data(faults),
            Name::Pixels => self.pixels(faults),
            Name::PixelsWide => self.pixels_wide(faults),
            Name::Joined => self.joined(faults),
            Name::Strip => self.strip(faults),
            Name::PutData => self.put_data(faults),
            Name::PutPixels => self.put_pixels(faults),
            Name::PutPixelsWide => self.put_pixels_wide(faults),
            Name::ReadInteger => self.read_integer(faults),
            Name::ReadBcd => self.read_bcd(faults),
            Name::ReadReal | Name::ReadF64 => self.read_r(name, faults),
            Name::PutReal => self.put_real(faults),
            Name::ScanMode | Name::ScannerSelect => self.named(name, faults),
            Name::LineNumbers => self.line_numbers(faults),
            Name::Date => self.date(faults),
            Name::SubCommutation => self.sub_commutation(faults),
            Name::IntegerField | Name::BcdField | Name::RealField | Name::F64Field => {
                self.field(name, faults)
            }
            Name::AddSegment => self.add_segment(faults),
            Name::Revision => self.revision(faults),
            Name::Mapping => self.mapping(faults),
            Name::Albedo | Name::AlbedoF64 | Name::Temperature | Name::TemperatureF64 => {
                self.level(name, faults)
            }
            Name::Elements => self.elements(faults),
            Name::WithLine => self.with_line(faults),
            Name::Together => self.together(faults),
            Name::FreshDesk => self.fresh_desk(faults),
            Name::Take => self.take(faults),
            Name::Publish | Name::Release | Name::Seen => self.of_a_slot(name, faults),
        }
    }
}

/// How often a call is made, of all weights together. The second decoder
/// takes milliseconds for whole lines, so these calls are the rarer ones.
fn weight(name: Name) -> usize {
    match name {
        Name::Version | Name::Fresh | Name::FreshAssembly | Name::EmptyReport => 1,
        Name::WriteLine | Name::Strip | Name::Answers => 4,
        Name::WithLine => 6,
        Name::Joined | Name::PutSync | Name::Format | Name::FreshDesk => 10,
        Name::PutData | Name::PutPixels | Name::PutPixelsWide => 12,
        Name::Accepted | Name::Data | Name::Pixels | Name::PixelsWide => 20,
        Name::Stepped | Name::Step | Name::LineNumbers => 20,
        Name::Filler | Name::ScanMode | Name::ScannerSelect | Name::SubCommutation => 30,
        Name::Date | Name::Revision | Name::Together => 40,
        Name::Take | Name::Publish | Name::Release | Name::Seen => 40,
        Name::IntegerField | Name::BcdField | Name::RealField | Name::F64Field => 30,
        Name::Mapping | Name::Albedo | Name::AlbedoF64 => 40,
        Name::Temperature | Name::TemperatureF64 | Name::Elements => 40,
        Name::AddSegment => 60,
        Name::ReadInteger | Name::ReadBcd | Name::ReadReal | Name::ReadF64 => 60,
        Name::PutReal => 80,
        Name::Read => 180,
    }
}
