//! What the second decoder says of a call. No function of the library is used
//! here; where the two lay an answer out differently, it is turned here into
//! the header's fields.

mod assembly;
mod desk;
mod documentation;
mod ground;
mod number;
mod recording;
mod report;
mod sector;

use second::refusal::Refusal;

use crate::call::{Call, Lent, Outcome};
use crate::rows::Name;

/// The fields of an answer behind `refused`, or the refusal.
type Answer = Result<Vec<u64>, Refusal>;

/// The call by the second decoder.
pub fn expected(call: &Call) -> Outcome {
    let mut lent = call.lent.clone();
    let numbers = match call.name {
        // these four have no `refused`
        Name::Version => ground::version(),
        Name::Fresh => recording::fresh(),
        Name::FreshAssembly => assembly::fresh(),
        Name::EmptyReport => report::empty(),
        _ => match answer(call, &mut lent) {
            Ok(fields) => [vec![0], fields].concat(),
            Err(number) => call.refused(number),
        },
    };
    Outcome {
        numbers,
        lent,
        harm: None,
    }
}

fn answer(call: &Call, lent: &mut [Lent]) -> Answer {
    let n = call.numbers.as_slice();
    match call.name {
        Name::Format => ground::format(n),
        Name::Stepped => ground::stepped(n),
        Name::Step => ground::step(lent),
        Name::PutSync => ground::put_sync(n, lent),
        Name::Read => recording::read(n, lent),
        Name::WriteLine => recording::write_line(n, lent),
        Name::Accepted => sector::accepted(n, lent),
        Name::Answers => sector::answers(n, lent),
        Name::Filler => sector::filler(n, lent),
        Name::Data => sector::data(n, lent),
        Name::Pixels => sector::pixels(n, lent),
        Name::PixelsWide => sector::pixels_wide(n, lent),
        Name::Joined => sector::joined(n, lent),
        Name::Strip => sector::strip(n, lent),
        Name::PutData => sector::put_data(n, lent),
        Name::PutPixels => sector::put_pixels(n, lent),
        Name::PutPixelsWide => sector::put_pixels_wide(n, lent),
        Name::ReadInteger => number::read_integer(n, lent),
        Name::ReadBcd => number::read_bcd(n, lent),
        Name::ReadReal => number::read_real(n, lent),
        Name::ReadF64 => number::read_f64(n, lent),
        Name::PutReal => number::put_real(n, lent),
        Name::ScanMode => documentation::scan_mode(n, lent),
        Name::ScannerSelect => documentation::scanner_select(n, lent),
        Name::LineNumbers => documentation::line_numbers(n, lent),
        Name::Date => documentation::date(n, lent),
        Name::SubCommutation => documentation::sub_commutation(n, lent),
        Name::IntegerField => documentation::integer_field(n, lent),
        Name::BcdField => documentation::bcd_field(n, lent),
        Name::RealField => documentation::real_field(n, lent),
        Name::F64Field => documentation::f64_field(n, lent),
        Name::AddSegment => assembly::add_segment(n, lent),
        Name::Revision => assembly::revision(n, lent),
        Name::Mapping => assembly::mapping(n, lent),
        Name::Albedo => assembly::albedo(n, lent),
        Name::AlbedoF64 => assembly::albedo_f64(n, lent),
        Name::Temperature => assembly::temperature(n, lent),
        Name::TemperatureF64 => assembly::temperature_f64(n, lent),
        Name::Elements => assembly::elements(n, lent),
        Name::WithLine => report::with_line(n, lent),
        Name::Together => report::together(n),
        Name::FreshDesk => desk::fresh(n),
        Name::Take => desk::take(n),
        Name::Publish => desk::publish(n),
        Name::Release => desk::release(n),
        Name::Seen => desk::seen(n),
        Name::Version | Name::Fresh | Name::FreshAssembly | Name::EmptyReport => {
            unreachable!("they cannot be refused")
        }
    }
}

/// The two buffers of a call that has two.
fn two(lent: &mut [Lent]) -> (&mut Lent, &mut Lent) {
    match lent {
        [first, second] => (first, second),
        _ => panic!("two buffers are asked for"),
    }
}

/// A signed number as the outcomes have it.
fn signed(number: impl Into<i64>) -> u64 {
    number.into() as u64
}
