//! The raw declarations of the crate `hansobrik`: the whole answer, field by
//! field.

use std::cell::RefCell;

use hansobrik::raw::*;

use super::answers::*;
use crate::call::{Call, Outcome};
use crate::desk;
use crate::fence::making;
use crate::guard::{outcome, Guarded};
use crate::report::NUMBERS;
use crate::rows::Name;

thread_local! {
    /// The guarded memory of two buffers, and the number of the call.
    static GUARDS: RefCell<([Guarded; 2], usize)> = RefCell::default();
}

/// The call through Rust.
pub fn through_rust(call: &Call) -> Outcome {
    GUARDS.with_borrow_mut(|(guards, turn)| {
        *turn += 1;
        for (i, lent) in call.lent.iter().enumerate() {
            guards[i].put(lent, *turn / (1 + 2 * i));
        }
        making(call);
        let numbers = made(call, guards);
        outcome(call, numbers, guards)
    })
}

/// Makes the call, and lays its answer out.
fn made(call: &Call, [one, two]: &[Guarded; 2]) -> Vec<u64> {
    // numbers that a call does not have are 0 here, and not handed on
    let mut n = [0; 2 * NUMBERS];
    n[..call.numbers.len()].copy_from_slice(&call.numbers);
    let (b0, b1, b3, b4) = (n[0] as u8, n[1] as u8, n[3] as u8, n[4] as u8);
    let (n0, n1, n2) = (n[0] as usize, n[1] as usize, n[2] as usize);
    let (kept, h4, h5) = (assembly(&n[1..]), n[4] as u16, n[5] as u16);
    let (p, c) = (one.bytes(), one.count());
    let (q, w, d) = (two.bytes(), two.words(), two.count());
    // SAFETY: p and c, and q or w and d, are pointer and count of two guarded
    // buffers, of the kinds that the call's row names.
    unsafe {
        match call.name {
            Name::Version => vec![hansobrik_version().into()],
            Name::Format => lengths(hansobrik_format(b0)),
            Name::Stepped => step(hansobrik_stepped(n[0] as u16)),
            Name::Step => step(hansobrik_step(one.words())),
            Name::PutSync => count(hansobrik_put_sync(b0, p, c)),
            Name::Fresh => record(hansobrik_fresh()),
            Name::Read => read(hansobrik_read(b0, b1, state(&n[2..]), p, c, q, d)),
            Name::WriteLine => count(hansobrik_write_line(b0, p, c, q, d)),
            Name::Accepted => alone(hansobrik_accepted(b0, p, c, b1)),
            Name::Answers => twelve(hansobrik_answers(b0, p, c)),
            Name::Filler => count(hansobrik_filler(b0, p, c, b1)),
            Name::Data => alone(hansobrik_data(b0, p, c, b1, q, d)),
            Name::Pixels => alone(hansobrik_pixels(b0, p, c, b1, q, d)),
            Name::PixelsWide => alone(hansobrik_pixels_wide(b0, p, c, b1, w, d)),
            Name::Joined => alone(hansobrik_joined(b0, p, c, b1, w, d)),
            Name::Strip => strip(hansobrik_strip(b0, p, c, q, d)),
            Name::PutData => alone(hansobrik_put_data(b0, p, c, b1, q, d)),
            Name::PutPixels => alone(hansobrik_put_pixels(b0, p, c, b1, q, d)),
            Name::PutPixelsWide => alone(hansobrik_put_pixels_wide(b0, p, c, b1, w, d)),
            Name::ReadInteger => integer(hansobrik_read_integer(p, c, n0)),
            Name::ReadBcd => bcd(hansobrik_read_bcd(p, c, n0)),
            Name::ReadReal => real(hansobrik_read_real(p, c, n0, b1)),
            Name::ReadF64 => float(hansobrik_read_f64(p, c, n0, b1)),
            Name::PutReal => alone(hansobrik_put_real(n[0] == 1, n[1], n2, b3, p, c)),
            Name::ScanMode => name(hansobrik_scan_mode(b0, p, c)),
            Name::ScannerSelect => name(hansobrik_scanner_select(b0, p, c)),
            Name::LineNumbers => lines(hansobrik_line_numbers(b0, p, c)),
            Name::Date => date(hansobrik_date(b0, p, c)),
            Name::SubCommutation => segment(hansobrik_sub_commutation(b0, p, c)),
            Name::IntegerField => integer(hansobrik_integer_field(b0, p, c, n1, n2)),
            Name::BcdField => bcd(hansobrik_bcd_field(b0, p, c, n1, n2)),
            Name::RealField => real(hansobrik_real_field(b0, p, c, n1, n2, b3)),
            Name::F64Field => float(hansobrik_f64_field(b0, p, c, n1, n2, b3)),
            Name::FreshAssembly => assembled(hansobrik_fresh_assembly()),
            Name::AddSegment => added(hansobrik_add_segment(b0, kept, p, c, b4, q, d)),
            Name::Revision => revision(hansobrik_revision(b0, kept, b4, p, c)),
            Name::Mapping => grid(hansobrik_mapping(b0, kept, p, c, h4, h5)),
            Name::Albedo => level(hansobrik_albedo(b0, kept, p, c, b4, h5)),
            Name::AlbedoF64 => level_float(hansobrik_albedo_f64(b0, kept, p, c, b4, h5)),
            Name::Temperature => level(hansobrik_temperature(b0, kept, p, c, b4, h5)),
            Name::TemperatureF64 => level_float(hansobrik_temperature_f64(b0, kept, p, c, b4, h5)),
            Name::Elements => orbit(hansobrik_elements(b0, kept, p, c)),
            Name::EmptyReport => report(hansobrik_empty_report()),
            Name::WithLine => reported(hansobrik_with_line(b0, pass_report(&n[1..]), p, c)),
            Name::Together => {
                let (first, second) = (pass_report(&n), pass_report(&n[NUMBERS..]));
                reported(hansobrik_together(first, second))
            }
            Name::FreshDesk => desked(hansobrik_fresh_desk(n[0] as u32)),
            Name::Take => taken(hansobrik_take(line_desk(&n), n[desk::NUMBERS] as usize)),
            Name::Publish => {
                let (area, slot) = (n[desk::NUMBERS] as usize, n[desk::NUMBERS + 1] as usize);
                let serial = n[desk::NUMBERS + 2] as u32;
                desked(hansobrik_publish(line_desk(&n), area, slot, serial))
            }
            Name::Release | Name::Seen => {
                let (area, consumer) = (n[desk::NUMBERS] as usize, n[desk::NUMBERS + 1] as u8);
                let (slot, serial) = (n[desk::NUMBERS + 2] as usize, n[desk::NUMBERS + 3] as u32);
                let desk = line_desk(&n);
                match call.name {
                    Name::Release => desked(hansobrik_release(desk, area, consumer, slot, serial)),
                    _ => seen(hansobrik_seen(desk, area, consumer, slot, serial)),
                }
            }
        }
    }
}
