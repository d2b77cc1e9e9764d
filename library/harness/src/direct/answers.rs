//! The raw answers laid out field by field, in the header's order.

use hansobrik::raw::*;

use crate::desk::Desk;
use crate::report::Report;

/// The reader's record out of its fields.
pub fn state(n: &[u64]) -> State {
    State {
        position: n[0],
        search: n[1],
        register: n[2] as u16,
        in_line: n[3] as u8,
        search_count: n[4] as u8,
        unread: n[5] as u8,
        unread_count: n[6] as u8,
        waiting: n[7] as u8,
        waiting_count: n[8] as u8,
    }
}

/// The fields of the reader's record.
pub fn record(s: State) -> Vec<u64> {
    vec![
        s.position,
        s.search,
        s.register.into(),
        s.in_line.into(),
        s.search_count.into(),
        s.unread.into(),
        s.unread_count.into(),
        s.waiting.into(),
        s.waiting_count.into(),
    ]
}

/// An assembly's record out of its fields.
pub fn assembly(n: &[u64]) -> Assembly {
    Assembly {
        marks: n[0] as u32,
        calibration: n[1] as u16,
        manam: n[2] as u16,
    }
}

/// The fields of an assembly's record.
pub fn assembled(a: Assembly) -> Vec<u64> {
    vec![a.marks.into(), a.calibration.into(), a.manam.into()]
}

/// A report out of its numbers.
pub fn pass_report(n: &[u64]) -> PassReport {
    let report = Report::of(n);
    PassReport {
        lines: report.lines,
        sectors: report
            .sectors
            .map(|[accepted, remainder, id, filler]| SectorTally {
                accepted,
                remainder,
                id,
                filler,
            }),
        channels: report
            .channels
            .map(|[count, sum, least, largest, present]| ChannelTally {
                count,
                sum,
                least: least as u16,
                largest: largest as u16,
                present: present as u32,
            }),
    }
}

/// The numbers of a report.
pub fn report(r: PassReport) -> Vec<u64> {
    let report = Report {
        lines: r.lines,
        sectors: r.sectors.map(|s| [s.accepted, s.remainder, s.id, s.filler]),
        channels: r.channels.map(|c| {
            let pair = [c.least, c.largest].map(u64::from);
            [c.count, c.sum, pair[0], pair[1], c.present.into()]
        }),
    };
    report.numbers()
}

/// A desk out of its numbers.
pub fn line_desk(n: &[u64]) -> LineDesk {
    let desk = Desk::of(n);
    LineDesk {
        count: desk.count as u32,
        last: desk.last as u32,
        slots: desk.slots.map(|[serial, used, holders]| DeskSlot {
            serial: serial as u32,
            used: used as u16,
            holders: holders as u16,
        }),
    }
}

/// The numbers of a desk.
fn desk(d: LineDesk) -> Vec<u64> {
    let desk = Desk {
        count: d.count.into(),
        last: d.last.into(),
        slots: d
            .slots
            .map(|s| [s.serial.into(), s.used.into(), s.holders.into()]),
    };
    desk.numbers()
}

pub fn alone(refused: u8) -> Vec<u64> {
    vec![refused.into()]
}

pub fn lengths(a: FormatAnswer) -> Vec<u64> {
    vec![
        a.refused.into(),
        a.number.into(),
        a.check_start.into(),
        a.sync_bits as u64,
        a.information_bits as u64,
        a.dummy_bits as u64,
        a.bytes as u64,
    ]
}

pub fn step(a: StepAnswer) -> Vec<u64> {
    vec![a.refused.into(), a.bit.into(), a.register.into()]
}

pub fn count(a: CountAnswer) -> Vec<u64> {
    vec![a.refused.into(), a.count as u64]
}

pub fn read(a: ReadAnswer) -> Vec<u64> {
    let head = vec![a.refused.into(), a.complete.into(), a.taken as u64];
    [head, record(a.state)].concat()
}

pub fn twelve(a: TwelveAnswer) -> Vec<u64> {
    let sectors = a.answers.map(u64::from);
    [vec![a.refused.into()], sectors.to_vec()].concat()
}

pub fn strip(a: StripAnswer) -> Vec<u64> {
    let parts = a.vis.map(u64::from);
    [vec![a.refused.into()], parts.to_vec()].concat()
}

pub fn integer(a: IntegerAnswer) -> Vec<u64> {
    vec![a.refused.into(), a.value.into()]
}

pub fn bcd(a: BcdAnswer) -> Vec<u64> {
    vec![a.refused.into(), a.value]
}

pub fn real(a: RealAnswer) -> Vec<u64> {
    vec![
        a.refused.into(),
        a.negative.into(),
        a.places.into(),
        a.magnitude,
    ]
}

pub fn float(a: FloatAnswer) -> Vec<u64> {
    vec![a.refused.into(), a.value.to_bits()]
}

pub fn name(a: NameAnswer) -> Vec<u64> {
    vec![a.refused.into(), a.name.into(), a.byte.into()]
}

pub fn lines(a: LinesAnswer) -> Vec<u64> {
    vec![
        a.refused.into(),
        a.set_line.into(),
        a.reset_line.into(),
        a.scan_count.into(),
        i64::from(a.position) as u64,
    ]
}

pub fn date(a: DateAnswer) -> Vec<u64> {
    vec![
        a.refused.into(),
        a.month.into(),
        a.day.into(),
        a.hour.into(),
        a.minute.into(),
        a.second.into(),
        a.hundredths.into(),
        a.year.into(),
    ]
}

pub fn segment(a: SegmentAnswer) -> Vec<u64> {
    vec![a.refused.into(), a.segment.into(), a.repeat.into()]
}

pub fn added(a: AddAnswer) -> Vec<u64> {
    let head = vec![a.refused.into(), a.first_copy.into(), a.segment.into()];
    [head, assembled(a.assembly)].concat()
}

pub fn revision(a: RevisionAnswer) -> Vec<u64> {
    vec![a.refused.into(), a.revision.into()]
}

pub fn grid(a: GridAnswer) -> Vec<u64> {
    vec![
        a.refused.into(),
        a.line.into(),
        a.pixel.into(),
        i64::from(a.latitude) as u64,
        i64::from(a.longitude) as u64,
    ]
}

pub fn level(a: LevelAnswer) -> Vec<u64> {
    vec![
        a.refused.into(),
        a.negative.into(),
        a.places.into(),
        a.revision.into(),
        a.magnitude,
    ]
}

pub fn level_float(a: LevelFloatAnswer) -> Vec<u64> {
    vec![a.refused.into(), a.revision.into(), a.value.to_bits()]
}

pub fn orbit(a: OrbitAnswer) -> Vec<u64> {
    let elements = [
        a.epoch,
        a.axis,
        a.eccentricity,
        a.inclination,
        a.node,
        a.perigee,
        a.anomaly,
    ];
    [vec![a.refused.into()], elements.map(f64::to_bits).to_vec()].concat()
}

pub fn reported(a: ReportAnswer) -> Vec<u64> {
    [vec![a.refused.into()], report(a.report)].concat()
}

pub fn desked(a: DeskAnswer) -> Vec<u64> {
    [vec![a.refused.into()], desk(a.desk)].concat()
}

pub fn taken(a: TakenAnswer) -> Vec<u64> {
    let front = vec![a.refused.into(), a.serial.into(), a.slot as u64];
    [front, desk(a.desk)].concat()
}

pub fn seen(a: SeenAnswer) -> Vec<u64> {
    vec![a.refused.into(), a.from as u64, a.to as u64]
}
