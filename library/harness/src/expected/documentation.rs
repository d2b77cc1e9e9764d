//! The fields of the documentation sector.

use second::document::{self, ScanMode, ScannerSelect};
use second::numbers::R;

use super::number::{float, real};
use super::{signed, Answer};
use crate::call::Lent;

pub fn scan_mode(n: &[u64], lent: &mut [Lent]) -> Answer {
    let mode = document::scan_mode(n[0] as usize, lent[0].bytes())?;
    let name = match mode {
        ScanMode::Unnamed(_) => 0,
        ScanMode::Full => 1,
        ScanMode::Limited => 2,
        ScanMode::Single => 3,
    };
    Ok(vec![name, mode.number().into()])
}

pub fn scanner_select(n: &[u64], lent: &mut [Lent]) -> Answer {
    let mirror = document::scanner_select(n[0] as usize, lent[0].bytes())?;
    let name = match mirror {
        ScannerSelect::Unnamed(_) => 0,
        ScannerSelect::Mirror1A => 1,
        ScannerSelect::Mirror1B => 2,
        ScannerSelect::Mirror2A => 3,
        ScannerSelect::Mirror2B => 4,
    };
    Ok(vec![name, mirror.number().into()])
}

pub fn line_numbers(n: &[u64], lent: &mut [Lent]) -> Answer {
    let lines = document::line_numbers(n[0] as usize, lent[0].bytes())?;
    Ok(vec![
        lines.set_line.into(),
        lines.reset_line.into(),
        lines.scan_count.into(),
        signed(lines.line_position),
    ])
}

pub fn date(n: &[u64], lent: &mut [Lent]) -> Answer {
    let date = document::date(n[0] as usize, lent[0].bytes())?;
    let parts = [
        date.month,
        date.day,
        date.hour,
        date.minute,
        date.second,
        date.hundredths,
        date.year,
    ];
    Ok(parts.map(u64::from).to_vec())
}

pub fn sub_commutation(n: &[u64], lent: &mut [Lent]) -> Answer {
    let sent = document::sub_commutation(n[0] as usize, lent[0].bytes())?;
    Ok(vec![sent.segment as u64, sent.repeat as u64])
}

pub fn integer_field(n: &[u64], lent: &mut [Lent]) -> Answer {
    let (place, size) = (n[1] as usize, n[2] as usize);
    let value = document::field_i(n[0] as usize, lent[0].bytes(), place, size)?;
    Ok(vec![value.into()])
}

pub fn bcd_field(n: &[u64], lent: &mut [Lent]) -> Answer {
    let (place, size) = (n[1] as usize, n[2] as usize);
    let value = document::field_bcd(n[0] as usize, lent[0].bytes(), place, size)?;
    Ok(vec![value])
}

fn field_r(n: &[u64], lent: &[Lent]) -> Result<R, u8> {
    let (place, size, places) = (n[1] as usize, n[2] as usize, n[3] as usize);
    document::field_r(n[0] as usize, lent[0].bytes(), place, size, places)
}

pub fn real_field(n: &[u64], lent: &mut [Lent]) -> Answer {
    field_r(n, lent).map(real)
}

pub fn f64_field(n: &[u64], lent: &mut [Lent]) -> Answer {
    field_r(n, lent).map(float)
}
