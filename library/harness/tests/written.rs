//! The suite of what is written: the paper's rule holds of what the second decoder
//! writes, and of nothing else.

use harness::bench::Bench;
use harness::call::Call;
use harness::expected::expected;
use harness::make::Maker;
use harness::rows::Name;
use harness::suites::written;
use second::format::{format, LINE_BYTES};
use second::scramble::write_line;

#[test]
fn every_bit_obeys_the_rule() {
    for number in [1, 2, 3] {
        let format = format(number).unwrap();
        let line = vec![0x5A; LINE_BYTES];
        let mut wire = vec![0; format.wire_bytes];
        write_line(number, &line, &mut wire).unwrap();
        assert!(written::obeys(&format, &wire, &line));
        for place in [
            0,
            1,
            14,
            15,
            9_999,
            10_000,
            20_000,
            8 * format.wire_bytes - 1,
        ] {
            second::bits::turn_over(&mut wire, place);
            assert!(!written::obeys(&format, &wire, &line), "{number} {place}");
            second::bits::turn_over(&mut wire, place);
        }
        // all of it complemented, or the line's plain bits alone
        let other: Vec<u8> = wire.iter().map(|byte| !byte).collect();
        assert!(!written::obeys(&format, &other, &line));
        assert!(!written::obeys(&format, &wire, &vec![0xA5; LINE_BYTES]));
    }
}

/// What is said of a library that does something to the output.
fn said_of(name: Name, harm: impl Fn(&Call, &mut [u8], usize) + 'static) -> String {
    let mut bench = Bench::of(move |call| {
        let mut outcome = expected(call);
        let count = outcome.numbers[1] as usize;
        if call.name == name && outcome.numbers[0] == 0 {
            let out = outcome.lent.last_mut().expect("the output").bytes_mut();
            harm(call, out, count);
        }
        outcome
    });
    match written::run(&mut bench, &mut Maker::new(76)) {
        Ok(()) => "nothing".to_string(),
        Err(difference) => difference.0,
    }
}

#[test]
fn the_last_byte_and_the_one_behind_are_looked_at() {
    for name in [Name::PutSync, Name::WriteLine] {
        assert_eq!(said_of(name, |_, _, _| ()), "nothing");
        let words = said_of(name, |_, out, count| out[count - 1] ^= 1);
        assert!(words.contains("out: element"), "{words}");
        let words = said_of(name, |_, out, count| {
            // only where there is room for a word
            if out.len() >= count + 8 {
                out[count] ^= 1;
            }
        });
        assert!(words.contains("out: element"), "{words}");
    }
}
