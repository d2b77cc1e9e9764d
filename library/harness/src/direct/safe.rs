//! The safe functions of the crate `hansobrik`. A `Result` is turned into the
//! fields of the answer; the two records, which they change in place, are taken
//! as they stand after the call, refused or not; so is a desk. A report is not
//! changed in place. One with a wrong mark cannot be said there, nor a desk with
//! one, with numbers that say nothing, or a consumer that is none: such a call is
//! made by the declarations once more.

use hansobrik::{self as safe, Refusal};

use super::answers::{assembled, assembly, record, state};
use super::raw::through_rust;
use crate::call::{Call, Lent, Outcome};
use crate::desk::{self, Desk, CAPTURE, FILLING, FREE, HELD, PREVIEW};
use crate::report::{Report, NUMBERS};
use crate::rows::Name;

/// The fields of an answer behind `refused`, or the refusal.
type Answer = Result<Vec<u64>, Refusal>;

/// The call through the safe functions.
pub fn through_safe(call: &Call) -> Outcome {
    let mut lent = call.lent.clone();
    let n = call.numbers.as_slice();
    if reports(call).iter().any(Report::has_wrong_mark) || !desk_is_plain(call) {
        return through_rust(call);
    }
    let numbers = match call.name {
        // these four cannot be refused
        Name::Version => vec![safe::version().into()],
        Name::Fresh => record(safe::fresh()),
        Name::FreshAssembly => assembled(safe::fresh_assembly()),
        Name::EmptyReport => report(safe::report::empty()),
        // and these two change what the caller keeps
        Name::Read => read(n, &mut lent),
        Name::AddSegment => add_segment(n, &mut lent),
        // and these three a desk
        Name::Take => take(n),
        Name::Publish => publish(n),
        Name::Release => release(n),
        _ => match answer(call.name, n, &mut lent) {
            Ok(fields) => [vec![0], fields].concat(),
            Err(Refusal(number)) => call.refused(number),
        },
    };
    Outcome {
        numbers,
        lent,
        harm: None,
    }
}

/// Whether the safe functions can say what is handed in.
fn desk_is_plain(call: &Call) -> bool {
    let n = call.numbers.as_slice();
    match call.name {
        Name::Take | Name::Publish => of_desk(safe_desk(n)) == n[..desk::NUMBERS],
        Name::Release | Name::Seen => {
            of_desk(safe_desk(n)) == n[..desk::NUMBERS] && consumer(n).is_some()
        }
        _ => true,
    }
}

/// A desk out of its numbers. A mark that says nothing becomes one that does.
fn safe_desk(n: &[u64]) -> safe::desk::Desk {
    let desk = Desk::of(n);
    safe::desk::Desk {
        count: desk.count as u32,
        last: desk.last as u32,
        slots: desk.slots.map(|[serial, used, holders]| match used {
            FREE => safe::desk::Slot::Free,
            FILLING => safe::desk::Slot::Filling(serial as u32),
            _ => safe::desk::Slot::Held {
                serial: serial as u32,
                preview: holders & PREVIEW != 0,
                capture: holders & CAPTURE != 0,
            },
        }),
    }
}

/// The numbers of a desk.
fn of_desk(desk: safe::desk::Desk) -> Vec<u64> {
    let desk = Desk {
        count: desk.count.into(),
        last: desk.last.into(),
        slots: desk.slots.map(|slot| match slot {
            safe::desk::Slot::Free => [0, FREE, 0],
            safe::desk::Slot::Filling(serial) => [serial.into(), FILLING, 0],
            safe::desk::Slot::Held {
                serial,
                preview,
                capture,
            } => {
                let holders = u64::from(preview) * PREVIEW + u64::from(capture) * CAPTURE;
                [serial.into(), HELD, holders]
            }
        }),
    };
    desk.numbers()
}

/// The consumer of a release or a look.
fn consumer(n: &[u64]) -> Option<safe::desk::Consumer> {
    match n[desk::NUMBERS + 1] {
        PREVIEW => Some(safe::desk::Consumer::Preview),
        CAPTURE => Some(safe::desk::Consumer::Capture),
        _ => None,
    }
}

fn take(n: &[u64]) -> Vec<u64> {
    let mut desk = safe_desk(n);
    let answer = safe::desk::take(&mut desk, n[desk::NUMBERS] as usize);
    let front = match answer {
        Ok(taken) => [0, taken.serial.into(), taken.slot as u64],
        Err(refusal) => [refusal.0.into(), 0, 0],
    };
    [front.to_vec(), of_desk(desk)].concat()
}

fn publish(n: &[u64]) -> Vec<u64> {
    let mut desk = safe_desk(n);
    let (area, slot) = (n[desk::NUMBERS] as usize, n[desk::NUMBERS + 1] as usize);
    let answer = safe::desk::publish(&mut desk, area, slot, n[desk::NUMBERS + 2] as u32);
    [vec![refused(answer)], of_desk(desk)].concat()
}

fn release(n: &[u64]) -> Vec<u64> {
    let mut desk = safe_desk(n);
    let (area, slot) = (n[desk::NUMBERS] as usize, n[desk::NUMBERS + 2] as usize);
    let consumer = consumer(n).expect("the call is plain");
    let serial = n[desk::NUMBERS + 3] as u32;
    let answer = safe::desk::release(&mut desk, area, consumer, slot, serial);
    [vec![refused(answer)], of_desk(desk)].concat()
}

fn refused(answer: Result<(), Refusal>) -> u64 {
    answer.err().map_or(0, |refusal| refusal.0.into())
}

/// The reports that are handed in.
fn reports(call: &Call) -> Vec<Report> {
    let n = call.numbers.as_slice();
    match call.name {
        Name::WithLine => vec![Report::of(&n[1..])],
        Name::Together => vec![Report::of(n), Report::of(&n[NUMBERS..])],
        _ => vec![],
    }
}

fn read(n: &[u64], lent: &mut [Lent]) -> Vec<u64> {
    let [piece, line] = lent else {
        panic!("two buffers are asked for");
    };
    let mut state = state(&n[2..]);
    let (format, setting) = (n[0] as u8, n[1] as u8);
    let (piece, line) = (piece.bytes(), line.bytes_mut());
    let head = match safe::read(format, setting, &mut state, piece, line) {
        Ok(read) => vec![0, read.complete.into(), read.taken as u64],
        Err(Refusal(number)) => vec![number.into(), 0, 0],
    };
    [head, record(state)].concat()
}

fn add_segment(n: &[u64], lent: &mut [Lent]) -> Vec<u64> {
    let [line, block] = lent else {
        panic!("two buffers are asked for");
    };
    let mut kept = assembly(&n[1..]);
    let (format, number) = (n[0] as u8, n[4] as u8);
    let (line, block) = (line.bytes(), block.bytes_mut());
    let head = match safe::add_segment(format, &mut kept, line, number, block) {
        Ok(added) => vec![0, added.first_copy.into(), added.segment.into()],
        Err(Refusal(number)) => vec![number.into(), 0, 0],
    };
    [head, assembled(kept)].concat()
}

fn answer(name: Name, n: &[u64], lent: &mut [Lent]) -> Answer {
    match lent {
        [] => of_numbers(name, n),
        [one] => of_one(name, n, one),
        [one, two] => of_two(name, n, one, two),
        _ => panic!("no call has so many buffers"),
    }
}

fn of_numbers(name: Name, n: &[u64]) -> Answer {
    match name {
        Name::Format => safe::format(n[0] as u8).map(|f| {
            vec![
                f.number.into(),
                f.check_start.into(),
                f.sync_bits as u64,
                f.information_bits as u64,
                f.dummy_bits as u64,
                f.bytes as u64,
            ]
        }),
        Name::Stepped => safe::stepped(n[0] as u16).map(step),
        Name::Together => {
            safe::report::together(&safe_report(n), &safe_report(&n[NUMBERS..])).map(report)
        }
        Name::FreshDesk => safe::desk::fresh(n[0] as u32).map(of_desk),
        Name::Seen => {
            let (area, slot) = (n[desk::NUMBERS] as usize, n[desk::NUMBERS + 2] as usize);
            let consumer = consumer(n).expect("the call is plain");
            let serial = n[desk::NUMBERS + 3] as u32;
            safe::desk::seen(&safe_desk(n), area, consumer, slot, serial)
                .map(|bytes| vec![bytes.start as u64, bytes.end as u64])
        }
        _ => panic!("{name:?} has a buffer"),
    }
}

fn step(step: safe::Step) -> Vec<u64> {
    vec![step.bit.into(), step.register.into()]
}

/// A report out of its numbers. What stands beside a mark of 0 is nowhere.
fn safe_report(n: &[u64]) -> safe::report::Report {
    let report = Report::of(n);
    safe::report::Report {
        lines: report.lines,
        sectors: report
            .sectors
            .map(|[accepted, remainder, id, filler]| safe::report::Tally {
                accepted,
                remainder,
                id,
                filler,
            }),
        channels: report
            .channels
            .map(|[count, sum, least, largest, present]| {
                let range = safe::report::Range {
                    least: least as u16,
                    largest: largest as u16,
                };
                safe::report::Channel {
                    count,
                    sum,
                    range: (present == 1).then_some(range),
                }
            }),
    }
}

/// The numbers of a report.
fn report(report: safe::report::Report) -> Vec<u64> {
    let report = Report {
        lines: report.lines,
        sectors: report
            .sectors
            .map(|s| [s.accepted, s.remainder, s.id, s.filler]),
        channels: report.channels.map(|c| {
            let (least, largest) = c.range.map_or((0, 0), |r| (r.least, r.largest));
            let present = c.range.is_some();
            [c.count, c.sum, least.into(), largest.into(), present.into()]
        }),
    };
    report.numbers()
}

/// The number of each sector's answer, 0 where it is accepted.
fn numbers<const N: usize>(sectors: [Result<(), Refusal>; N]) -> Vec<u64> {
    let number = |sector: Result<(), Refusal>| sector.err().map_or(0, |refusal| refusal.0);
    sectors.map(|sector| number(sector).into()).to_vec()
}

fn of_one(name: Name, n: &[u64], lent: &mut Lent) -> Answer {
    match name {
        Name::Step => safe::step(&mut lent.words_mut()[0]).map(step),
        Name::PutSync => safe::put_sync(n[0] as u8, lent.bytes_mut()).map(count),
        Name::Accepted => safe::accepted(n[0] as u8, lent.bytes(), n[1] as u8).map(none),
        Name::Answers => safe::answers(n[0] as u8, lent.bytes()).map(numbers),
        Name::Filler => safe::filler(n[0] as u8, lent.bytes(), n[1] as u8).map(count),
        Name::WithLine => {
            safe::report::with_line(n[0] as u8, &safe_report(&n[1..]), lent.bytes()).map(report)
        }
        Name::ReadInteger => safe::read_integer(lent.bytes(), n[0] as usize).map(integer),
        Name::ReadBcd => safe::read_bcd(lent.bytes(), n[0] as usize).map(bcd),
        Name::ReadReal => safe::read_real(lent.bytes(), n[0] as usize, n[1] as u8).map(real),
        Name::ReadF64 => safe::read_f64(lent.bytes(), n[0] as usize, n[1] as u8).map(float),
        Name::PutReal => {
            let (negative, size, places) = (n[0] == 1, n[2] as usize, n[3] as u8);
            safe::put_real(negative, n[1], size, places, lent.bytes_mut()).map(none)
        }
        Name::Revision | Name::Mapping | Name::Elements => of_block(name, n, lent.bytes()),
        Name::Albedo | Name::AlbedoF64 | Name::Temperature | Name::TemperatureF64 => {
            of_block(name, n, lent.bytes())
        }
        _ => of_document(name, n, lent.bytes()),
    }
}

fn of_document(name: Name, n: &[u64], line: &[u8]) -> Answer {
    let format = n[0] as u8;
    let place = || n[1] as usize;
    let size = || n[2] as usize;
    let places = || n[3] as u8;
    match name {
        Name::ScanMode => safe::scan_mode(format, line).map(|mode| match mode {
            safe::ScanMode::Full => vec![1, 0x00],
            safe::ScanMode::Limited => vec![2, 0x0F],
            safe::ScanMode::Single => vec![3, 0xFF],
            safe::ScanMode::Unnamed(byte) => vec![0, byte.into()],
        }),
        Name::ScannerSelect => safe::scanner_select(format, line).map(|mirror| match mirror {
            safe::Mirror::OneA => vec![1, 0xFF],
            safe::Mirror::OneB => vec![2, 0xF0],
            safe::Mirror::TwoA => vec![3, 0x00],
            safe::Mirror::TwoB => vec![4, 0x0F],
            safe::Mirror::Unnamed(byte) => vec![0, byte.into()],
        }),
        Name::LineNumbers => safe::line_numbers(format, line).map(|l| {
            vec![
                l.set_line.into(),
                l.reset_line.into(),
                l.scan_count.into(),
                i64::from(l.position) as u64,
            ]
        }),
        Name::Date => safe::date(format, line).map(|d| {
            let parts = [d.month, d.day, d.hour, d.minute, d.second, d.hundredths];
            [parts.map(u64::from).to_vec(), vec![d.year.into()]].concat()
        }),
        Name::SubCommutation => safe::sub_commutation(format, line)
            .map(|sent| vec![sent.segment.into(), sent.repeat.into()]),
        Name::IntegerField => safe::integer_field(format, line, place(), size()).map(integer),
        Name::BcdField => safe::bcd_field(format, line, place(), size()).map(bcd),
        Name::RealField => safe::real_field(format, line, place(), size(), places()).map(real),
        Name::F64Field => safe::f64_field(format, line, place(), size(), places()).map(float),
        _ => panic!("{name:?} reads no line"),
    }
}

fn of_block(name: Name, n: &[u64], block: &[u8]) -> Answer {
    let (format, kept) = (n[0] as u8, assembly(&n[1..]));
    let channel = || n[4] as u8;
    let level = || n[5] as u16;
    match name {
        Name::Revision => safe::revision(format, kept, n[4] as u8, block).map(revision),
        Name::Mapping => {
            let (row, column) = (n[4] as u16, n[5] as u16);
            safe::mapping(format, kept, block, row, column).map(|point| {
                vec![
                    point.line.into(),
                    point.pixel.into(),
                    i64::from(point.latitude) as u64,
                    i64::from(point.longitude) as u64,
                ]
            })
        }
        Name::Albedo => safe::albedo(format, kept, block, channel(), level()).map(of_level),
        Name::AlbedoF64 => {
            safe::albedo_f64(format, kept, block, channel(), level()).map(of_level_f64)
        }
        Name::Temperature => {
            safe::temperature(format, kept, block, channel(), level()).map(of_level)
        }
        Name::TemperatureF64 => {
            safe::temperature_f64(format, kept, block, channel(), level()).map(of_level_f64)
        }
        Name::Elements => safe::elements(format, kept, block).map(|e| {
            let elements = [
                e.epoch,
                e.axis,
                e.eccentricity,
                e.inclination,
                e.node,
                e.perigee,
                e.anomaly,
            ];
            elements.map(f64::to_bits).to_vec()
        }),
        _ => panic!("{name:?} reads no block"),
    }
}

fn of_two(name: Name, n: &[u64], one: &mut Lent, two: &mut Lent) -> Answer {
    let format = n[0] as u8;
    let number = || n[1] as u8;
    match name {
        Name::WriteLine => safe::write_line(format, one.bytes(), two.bytes_mut()).map(count),
        Name::Data => safe::data(format, one.bytes(), number(), two.bytes_mut()).map(none),
        Name::Pixels => safe::pixels(format, one.bytes(), number(), two.bytes_mut()).map(none),
        Name::PixelsWide => {
            safe::pixels_wide(format, one.bytes(), number(), two.words_mut()).map(none)
        }
        Name::Joined => safe::joined(format, one.bytes(), number(), two.words_mut()).map(none),
        Name::Strip => safe::strip(format, one.bytes(), two.bytes_mut()).map(numbers),
        Name::PutData => safe::put_data(format, one.bytes_mut(), number(), two.bytes()).map(none),
        Name::PutPixels => {
            safe::put_pixels(format, one.bytes_mut(), number(), two.bytes()).map(none)
        }
        Name::PutPixelsWide => {
            safe::put_pixels_wide(format, one.bytes_mut(), number(), two.words()).map(none)
        }
        _ => panic!("{name:?} has not two buffers"),
    }
}

fn none(_: ()) -> Vec<u64> {
    vec![]
}

fn count(count: usize) -> Vec<u64> {
    vec![count as u64]
}

fn integer(value: u32) -> Vec<u64> {
    vec![value.into()]
}

fn bcd(value: u64) -> Vec<u64> {
    vec![value]
}

fn real(r: safe::R) -> Vec<u64> {
    vec![r.negative.into(), r.places.into(), r.magnitude]
}

fn float(value: f64) -> Vec<u64> {
    vec![value.to_bits()]
}

fn revision(number: u16) -> Vec<u64> {
    vec![number.into()]
}

fn of_level(level: safe::Level) -> Vec<u64> {
    let (r, revision) = (level.value, level.revision);
    vec![
        r.negative.into(),
        r.places.into(),
        revision.into(),
        r.magnitude,
    ]
}

fn of_level_f64(level: safe::LevelF64) -> Vec<u64> {
    vec![level.revision.into(), level.value.to_bits()]
}
