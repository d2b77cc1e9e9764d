//! "Both sides of each edge": P1 to P12, the fixed bits, the table of sectors,
//! the edges of finding a line, and the "errors that look right".

use second::bits;
use second::blocks::{ir_place, vis_place, BLOCKS};
use second::format::{HIRID, INFORMATION_BITS, LINE_BYTES, S_VISSR, S_VISSR_ONES};
use second::lines::{after_first_tail, lines};
use second::numbers::{read_bcd, read_i, read_r, R};
use second::pattern;
use second::reader::{read, Answer, State};
use second::scramble::{after_sync, step, sync, tail, turn, write_line, AFTER_SYNC};
use second::sectors::{
    accepted, check_word, data, join, joined, pixels, put_data, put_pixels, remainder, CHECK_BITS,
    FILLER_BITS, SECTORS, STRIP_BYTES, VIS_PIXELS,
};
use second::vectors::{self, dummy_and_sync, nearest_earlier};

#[test]
fn p1_the_first_four_scrambling_bytes() {
    assert_eq!(bits::to_bytes(&after_sync(32)), [0x00, 0x02, 0x00, 0x0C]);
}

#[test]
fn p2_a_plain_line_opening_with_zeros() {
    for number in [1, 3] {
        let mut wire = vec![0; S_VISSR.wire_bytes];
        write_line(number, &vec![0; LINE_BYTES], &mut wire).unwrap();
        assert_eq!(wire[1_250..1_254], [0x00, 0xFD, 0x00, 0xF3]);
    }

    let mut wire = vec![0; HIRID.wire_bytes];
    write_line(2, &vec![0; LINE_BYTES], &mut wire).unwrap();
    assert_eq!(wire[2_500..2_504], [0x00, 0xFD, 0x00, 0xF3]);
}

/// A DOC sector of zeros but for one bit of its last byte, and its check word.
fn doc_with_last_byte(format: usize, byte: u8) -> (Vec<u8>, u16) {
    let mut doc = vec![0; 2_291];
    doc[2_290] = byte;
    let mut line = vec![0; LINE_BYTES];
    put_data(format, &mut line, 1, &doc).unwrap();
    let word = u16::from_be_bytes([line[2_293], line[2_294]]);
    (line, word)
}

/// P3, P4 and P5 are of the formats whose start value is 0.
#[test]
fn p3_to_p5_check_words() {
    for format in [1, 2] {
        for (byte, expected) in [(0, 0x0000), (1, 0x1021), (2, 0x2042)] {
            let (line, word) = doc_with_last_byte(format, byte);
            assert_eq!(word, expected);
            assert_eq!(accepted(format, &line, 1), Ok(()));
        }
    }
}

/// "so a DOC sector of zeros with check word 0000 is refused with 5" in format 3
#[test]
fn p3_all_zero_bytes_are_an_accepted_doc_sector_unless_the_check_starts_from_ones() {
    for (format, expected) in [(1, Ok(())), (2, Ok(())), (3, Err(5))] {
        assert_eq!(accepted(format, &vec![0; LINE_BYTES], 1), expected);
    }
}

#[test]
fn p6_and_p7_joined_pixels() {
    assert_eq!(join(255, 3), 1_023);
    assert_eq!(join(1, 0), 4);

    let mut line = pattern::line_of_zeros(1).unwrap();
    let mut upper = vec![0; 2_291];
    let mut lower = vec![0; 2_291];
    (upper[0], lower[0]) = (255, 3);
    (upper[2_290], lower[2_290]) = (1, 0);
    put_pixels(1, &mut line, 3, &upper).unwrap();
    put_pixels(1, &mut line, 10, &lower).unwrap();
    let mut out = vec![9; 2_291];
    assert_eq!(joined(1, &line, 2, &mut out), Ok(2_291));
    assert_eq!((out[0], out[1], out[2_290]), (1_023, 0, 4));
}

#[test]
fn p8_and_p9_r_numbers() {
    let p8 = read_r(&[0x00, 0x00, 0x07, 0xB5], 4, 2).unwrap();
    assert_eq!(
        p8,
        R {
            negative: false,
            magnitude: 1_973,
            places: 2
        }
    );
    assert_eq!(p8.value(), 19.73);

    let p9 = read_r(&[0x80, 0xC8, 0x10, 0x42], 4, 5).unwrap();
    assert_eq!(
        p9,
        R {
            negative: true,
            magnitude: 13_111_362,
            places: 5
        }
    );
    assert_eq!(p9.value(), -131.11362);
}

#[test]
fn p10_and_p11_whole_numbers() {
    assert_eq!(read_i(&[0x2D, 0x9C], 2), Ok(11_676));
    assert_eq!(read_bcd(&[0x97, 0x65], 2), Ok(9_765));
    assert_eq!(read_bcd(&[0x9A, 0x65], 2), Err(7));
}

#[test]
fn p12_level_1023_of_ir1() {
    assert_eq!(ir_place(1, 1_023), 5_373);
    assert_eq!(ir_place(1, 0), 1_281);
    assert_eq!(ir_place(2, 0), 5_377);
    assert_eq!(ir_place(4, 1_023) + 3, 17_664);
    assert_eq!(vis_place(1, 0), 257);
    assert_eq!(vis_place(1, 63) + 3, 512);
    assert_eq!(vis_place(4, 63) + 3, 1_280);
}

#[test]
fn vectors_print_the_list() {
    let rows = vectors::rows();
    let expected = [
        "P1 00 02 00 0C",
        "P2 00 FD 00 F3",
        "P3 0000 accepted",
        "P4 1021",
        "P5 2042",
        "P6 1023",
        "P7 4",
        "P8 plus 1973 places 2 f64 19.73",
        "P9 minus 13111362 places 5 f64 -131.11362",
        "P10 11676",
        "P11 9765 refusal 7",
        "P12 5373-5376",
        "tail bits 63 then the end: lines 0",
        "tail bits 64 and 354847: lines 0",
        "tail bits 64 and 354848: lines 1",
        "empty piece: taken 0 complete false",
        "buffer 44355: refusal 2",
        "buffer 44356: taken 1 complete false",
        "format 1 SYNC 10000 opens 101010010100000 ends 010101010101010 111111111111111",
        "format 2 SYNC 20000 opens 010001001100001 ends 010101010101010 111111111111111",
        "format 3 SYNC 10000 opens 101010010100000 ends 010101010101010 111111111111111",
        "tail 4B BB B9 99 95 55 7F FF",
        "format 1 SYNC: earlier windows are 9 or more places from the tail, 9 at [5782]",
        "format 2 SYNC: earlier windows are 9 or more places from the tail, 9 at [5409, 6292, 15782]",
    ];
    assert_eq!(rows[..expected.len()], expected);
    for row in [
        "DOC of zeros with 00 00: format 1 accepted, format 3 refused 5",
        "DOC of zeros with 90 63: format 1 refused 5, format 3 accepted",
        "sector 1 DOC of zeros: check word 0000, in format 3 9063",
    ] {
        assert!(rows.iter().any(|given| given == row), "{row}");
    }
}

#[test]
fn the_lengths_add_up() {
    assert_eq!(S_VISSR.sync_bits + INFORMATION_BITS, 8 * S_VISSR.wire_bytes);
    assert_eq!(S_VISSR.dummy_bits, 0);
    let ones_bits = S_VISSR_ONES.sync_bits + INFORMATION_BITS;
    assert_eq!(ones_bits, 8 * S_VISSR_ONES.wire_bytes);
    assert_eq!(S_VISSR_ONES.dummy_bits, 0);
    let hirid_bits = HIRID.sync_bits + INFORMATION_BITS + HIRID.dummy_bits;
    assert_eq!(hirid_bits, 396_000);
    assert_eq!(hirid_bits, 8 * HIRID.wire_bytes);
    assert_eq!(INFORMATION_BITS, 8 * LINE_BYTES);
}

#[test]
fn the_sectors_fill_the_line() {
    let mut start = 0;
    for sector in &SECTORS {
        assert_eq!(sector.start, start);
        assert_eq!(
            sector.bits,
            sector.id().len() + sector.data_bits() + CHECK_BITS + FILLER_BITS
        );
        assert_eq!(
            sector.filler_start() + FILLER_BITS,
            sector.start + sector.bits
        );
        start += sector.bits;
    }
    assert_eq!(start, INFORMATION_BITS);
    assert_eq!(STRIP_BYTES, 4 * VIS_PIXELS);
}

#[test]
fn the_blocks_fill_their_places() {
    let mut first = 197;
    for block in &BLOCKS {
        assert_eq!(block.first, first);
        assert_eq!(block.last + 1 - block.first, block.segment_bytes());
        assert_eq!(25 * block.segment_bytes(), block.size);
        first = block.last + 1;
    }
    assert_eq!(first, 2_115);
}

#[test]
fn sync_follows_the_rule_and_ends_with_fifteen_ones() {
    for length in [10_000, 20_000] {
        let sync = sync(length);
        for n in 15..length {
            assert_eq!(sync[n], sync[n - 14] ^ sync[n - 15]);
        }
        let ends = bits::to_text(&sync[length - 30..]);
        assert_eq!(ends, "010101010101010111111111111111");
        assert_eq!(&sync[length - 64..], tail());
    }
    assert_eq!(bits::to_text(&sync(20_000)[..15]), "010001001100001");
    assert_eq!(bits::to_text(&sync(10_000)[..15]), "101010010100000");
}

/// "000's printed opening for 10,000 bits does not lead to fifteen ones under
/// this rule": it comes fifteen bits short of them.
#[test]
fn the_printed_opening_of_10000_bits_comes_fifteen_bits_short() {
    let mut sequence = bits::from_text("011001110011111");
    for n in 15..10_015 {
        sequence.push(sequence[n - 14] ^ sequence[n - 15]);
    }
    assert_eq!(bits::to_text(&sequence[9_985..10_000]), "010101010101010");
    assert_eq!(bits::to_text(&sequence[10_000..]), "111111111111111");
}

#[test]
fn the_scrambling_bits_go_on_from_sync_without_a_restart() {
    let mut sequence = sync(10_000);
    for n in 10_000..10_000 + 40_000 {
        sequence.push(sequence[n - 14] ^ sequence[n - 15]);
    }
    assert_eq!(sequence[10_000..], after_sync(40_000)[..]);
    // Not the opening of SYNC again.
    assert_ne!(after_sync(15)[..], sequence[..15]);

    let mut register = AFTER_SYNC;
    let stepped: Vec<u8> = (0..40_000).map(|_| step(&mut register).unwrap()).collect();
    assert_eq!(stepped, after_sync(40_000));
}

#[test]
fn a_step_refuses_a_register_over_fifteen_bits() {
    let mut register = 0x8000;
    assert_eq!(step(&mut register), Err(12));
    assert_eq!(register, 0x8000);
    let mut register = 0x7FFF;
    assert_eq!(step(&mut register), Ok(0));
    assert_eq!(register, 0x7FFE);
}

/// "That no window before the true one in a written SYNC, or in a written
/// dummy followed by SYNC, equals the tail is a fact about fixed bits".
#[test]
fn no_window_before_the_true_one_equals_the_tail() {
    for length in [10_000, 20_000] {
        assert_eq!(after_first_tail(0, &sync(length), 0), Some(length));
    }
    let bits = dummy_and_sync(&HIRID);
    assert_eq!(after_first_tail(0, &bits, 0), Some(21_152 + 20_000));
}

/// Document 02, T-01: "the smallest number of places in which any earlier
/// searched window of what we write differs from the tail" is 9. Written lines
/// come back at each setting below it, and no setting is above 6.
#[test]
fn every_window_before_the_true_one_is_nine_places_from_the_tail() {
    let far = |bits: &[u8], places: &[usize]| {
        assert_eq!(nearest_earlier(bits), (9, places.to_vec()));
        for setting in 0..9 {
            assert_eq!(after_first_tail(setting, bits, 0), Some(bits.len()));
        }
        assert_eq!(after_first_tail(9, bits, 0), Some(places[0] + 64));
    };
    far(&sync(10_000), &[5_782]);
    // 20,000 bits of SYNC end with the 10,000: 15,782 is 5,782 again
    far(&sync(20_000), &[5_409, 6_292, 15_782]);
    // and none in the 21,152 bits of the dummy, nor where SYNC begins
    let behind = [5_409, 6_292, 15_782].map(|place| 21_152 + place);
    far(&dummy_and_sync(&HIRID), &behind);
    assert_eq!(dummy_and_sync(&S_VISSR), sync(10_000));
}

/// Those that overlap the tail, which are all the earlier ones of 127 bits, are
/// 13 places from it: up to six wrong bits in the tail and setting 6 make 12.
#[test]
fn windows_that_overlap_the_tail_are_thirteen_places_from_it() {
    assert_eq!(nearest_earlier(&sync(127)).0, 13);
}

#[test]
fn sixty_three_tail_bits_and_the_end_are_no_line() {
    assert!(lines(0, &tail()[..63]).is_empty());

    // The same in bytes: one bit in front, so that 63 tail bits end the piece.
    let mut all = vec![1];
    all.extend(&tail()[..63]);
    let mut state = State::default();
    let mut buffer = vec![0; LINE_BYTES];
    let answer = read(1, 0, &mut state, &bits::to_bytes(&all), &mut buffer);
    assert_eq!(
        answer,
        Ok(Answer {
            taken: 8,
            complete: false
        })
    );
    let expected = State {
        search: bits::number(&tail()[..63]),
        search_count: 63,
        ..State::default()
    };
    assert_eq!(state, expected);
}

/// 64 tail bits and `count` bits of a line of zeros, with enough noise bits in
/// front to make whole bytes.
fn tail_and(count: usize) -> Vec<u8> {
    let mut all = vec![1; (8 - (64 + count) % 8) % 8];
    all.extend(tail());
    all.extend(&turn(&vec![0; INFORMATION_BITS])[..count]);
    all
}

#[test]
fn the_line_is_complete_with_its_last_bit_and_not_before() {
    let short = tail_and(INFORMATION_BITS - 1);
    assert!(lines(0, &short).is_empty());
    let mut state = State::default();
    let mut buffer = vec![0xEE; LINE_BYTES];
    let piece = bits::to_bytes(&short);
    let answer = read(1, 0, &mut state, &piece, &mut buffer).unwrap();
    assert_eq!((answer.taken, answer.complete), (piece.len(), false));
    assert_eq!((state.position, state.waiting_count), (354_847, 7));
    // The last byte has seven of its bits only, so it has not changed.
    assert_eq!(buffer[..LINE_BYTES - 1], vec![0; LINE_BYTES - 1]);
    assert_eq!(buffer[LINE_BYTES - 1], 0xEE);

    let whole = tail_and(INFORMATION_BITS);
    let found = lines(0, &whole);
    assert_eq!(found.len(), 1);
    assert_eq!(found[0].bytes, vec![0; LINE_BYTES]);
    assert_eq!(found[0].end, whole.len());
    let mut state = State::default();
    let mut buffer = vec![0xEE; LINE_BYTES];
    let piece = bits::to_bytes(&whole);
    let answer = read(1, 0, &mut state, &piece, &mut buffer).unwrap();
    assert_eq!((answer.taken, answer.complete), (piece.len(), true));
    assert_eq!(state, State::default());
    assert_eq!(buffer, vec![0; LINE_BYTES]);
}

#[test]
fn a_tail_at_the_end_of_a_piece_is_a_line_with_no_bits_yet() {
    let mut state = State::default();
    let mut buffer = vec![0xEE; LINE_BYTES];
    read(2, 0, &mut state, &bits::to_bytes(tail()), &mut buffer).unwrap();
    let expected = State {
        in_line: true,
        register: 0x7FFF,
        ..State::default()
    };
    assert_eq!(state, expected);
    assert_eq!(buffer, vec![0xEE; LINE_BYTES]);
}

#[test]
fn an_empty_piece_takes_nothing_and_changes_nothing() {
    let records = [
        State::default(),
        State {
            search: 5,
            search_count: 63,
            unread: 0x7F,
            unread_count: 7,
            position: 354_847,
            register: 3,
            ..State::default()
        },
        State {
            in_line: true,
            position: 11,
            register: 0,
            waiting: 7,
            waiting_count: 3,
            search: 1,
            search_count: 1,
            ..State::default()
        },
    ];
    for record in records {
        let mut state = record;
        let mut buffer = vec![0xEE; LINE_BYTES];
        let answer = read(1, 0, &mut state, &[], &mut buffer).unwrap();
        assert_eq!((answer.taken, answer.complete), (0, false));
        assert_eq!(state, record);
        assert_eq!(buffer, vec![0xEE; LINE_BYTES]);
    }
}

#[test]
fn a_buffer_of_44355_bytes_is_refused() {
    let mut state = State::default();
    assert_eq!(read(1, 0, &mut state, &[0], &mut vec![0; 44_355]), Err(2));
    assert_eq!(read(1, 0, &mut state, &[], &mut vec![0; 44_355]), Err(2));
    assert!(read(1, 0, &mut state, &[0], &mut vec![0; 44_356]).is_ok());
}

// "Errors that look right."

#[test]
fn complemented_bytes_are_not_counted_afresh_at_each_sector() {
    // IR1 upper starts in byte 2,551 of the information, an odd count of
    // bytes from 0, so its first byte is one of those complemented.
    let plain = bits::from_bytes(&vec![0; LINE_BYTES]);
    let wire = bits::to_bytes(&turn(&plain));
    let scrambling = bits::to_bytes(&after_sync(INFORMATION_BITS));
    assert_eq!(SECTORS[1].start, 8 * 2_551);
    assert_eq!(wire[2_551], !scrambling[2_551]);
    assert_eq!(wire[2_550], scrambling[2_550]);
}

#[test]
fn vis2_is_not_taken_from_a_byte_edge() {
    assert_eq!(SECTORS[5].start % 8, 4);
    let mut line = vec![0xFF; LINE_BYTES];
    let sent: Vec<u16> = (0..9_164).map(|j| j % 64).collect();
    put_pixels(1, &mut line, 6, &sent).unwrap();
    // ID 101101 101101 and the first pixel 000000 from bit 4 on.
    let opening = bits::to_text(&bits::part(&line, 138_688, 24));
    assert_eq!(opening, "111110110110110100000000");
    let mut read_back = vec![0; 9_164];
    pixels(1, &line, 6, &mut read_back).unwrap();
    assert_eq!(read_back, sent);
}

#[test]
fn the_check_does_not_go_over_the_filler() {
    let mut line = pattern::line(1, 3, 0).unwrap();
    for sector in 1..=12 {
        let filler = SECTORS[sector - 1].filler_start();
        bits::set_bit(&mut line, filler, 1);
        bits::set_bit(&mut line, filler + 2_047, 1);
        assert_eq!(accepted(1, &line, sector), Ok(()));
        assert_eq!(second::sectors::filler(1, &line, sector), Ok(2));
    }
}

#[test]
fn r_numbers_are_not_twos_complement() {
    let r = read_r(&[0xFF; 4], 4, 0).unwrap();
    assert_eq!((r.negative, r.magnitude), (true, 0x7FFF_FFFF));
    let r = read_r(&[0xFF; 6], 6, 0).unwrap();
    assert_eq!((r.negative, r.magnitude), (true, 0x7FFF_FFFF_FFFF));
}

#[test]
fn a_negative_zero_stays_one() {
    let r = read_r(&[0x80, 0, 0, 0], 4, 7).unwrap();
    assert_eq!((r.negative, r.magnitude), (true, 0));
    assert_eq!(r.value().to_bits(), (-0.0f64).to_bits());
    let r = read_r(&[0, 0, 0, 0], 4, 7).unwrap();
    assert_eq!(r.value().to_bits(), 0.0f64.to_bits());
}

/// The division on paper against a register of sixteen bits. A card that presets
/// its register takes each bit in at the top: the start value meets the first
/// sixteen bits, and what is left is the remainder with sixteen zeros behind.
#[test]
fn the_remainder_is_that_of_the_polynomial() {
    let mut random = second::damage::Random::new(1);
    for length in [0, 1, 15, 16, 17, 31, 32, 33, 100, 1_000] {
        let dividend = random.bits(length);
        let mut register: u32 = 0;
        for &bit in &dividend {
            register = register << 1 | u32::from(bit);
            if register > 0xFFFF {
                register ^= 0x1_1021;
            }
        }
        assert_eq!(u32::from(remainder(0, &dividend)), register);
        for start in [0, 1, 0x8000, 0xFFFE, 0xFFFF] {
            let mut preset = start;
            for &bit in &dividend {
                let top = (preset >> 15) as u8 ^ bit;
                preset = preset << 1 ^ if top == 1 { 0x1021 } else { 0 };
            }
            assert_eq!(check_word(start, &dividend), preset);
            let mut with_check = dividend.clone();
            with_check.extend(bits::of_number(preset.into(), 16));
            assert_eq!(remainder(start, &with_check), 0);
        }
    }
}

#[test]
fn the_spare_low_bits_are_ignored_on_writing_and_zero_on_reading() {
    for sector in 9..=12 {
        let bytes = SECTORS[sector - 1].data_bytes();
        assert_eq!(8 * bytes - SECTORS[sector - 1].data_bits(), 2);
        let mut line = vec![0; LINE_BYTES];
        let mut other = vec![0; LINE_BYTES];
        put_data(1, &mut line, sector, &vec![0xFF; bytes]).unwrap();
        let mut spare_zero = vec![0xFF; bytes];
        spare_zero[bytes - 1] = 0xFC;
        put_data(1, &mut other, sector, &spare_zero).unwrap();
        assert_eq!(line, other);

        let mut out = vec![0xAA; bytes + 3];
        assert_eq!(data(1, &line, sector, &mut out), Ok(bytes));
        assert_eq!(out[..bytes], spare_zero);
        assert_eq!(out[bytes..], [0xAA; 3]);
    }
}
