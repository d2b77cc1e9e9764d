//! Document 02, T-02: "An assembly now remembers the calibration table ID
//! (sector bytes 28-29) and the MANAM revision (30-31) of its first segment. A
//! segment with another calibration ID is refused for the calibration blocks,
//! one with another MANAM revision for MANAM; mapping and orbit are as before."
//!
//! Where 14 stands among the other refusals is tested with them, in
//! `refusals.rs`, and what `fields` writes in `fields.rs`.

use second::bits;
use second::blocks::{self, Added, Assembly, ALL_MARKS, BLOCKS};
use second::blocks::{CALIBRATION_1, CALIBRATION_2, MANAM, MAPPING, ORBIT};
use second::damage::Random;
use second::format::LINE_BYTES;
use second::pattern;
use second::sectors;

/// The calibration table ID and the MANAM revision of most lines here: four
/// bytes, no two of them the same.
const OWN: (u16, u16) = (0x1234, 0xABCD);

/// A line of a sector DOC. Nothing else of it is looked at.
fn line_of(format: usize, doc: &[u8]) -> Vec<u8> {
    let mut line = vec![0xEE; LINE_BYTES];
    sectors::put_data(format, &mut line, 1, doc).unwrap();
    line
}

/// A line with a segment of the pattern's old tables, and these two numbers.
fn line(segment: u64, numbers: (u16, u16)) -> Vec<u8> {
    let mut doc = pattern::doc(1, 8 * segment, 0);
    doc[28 - 3..=29 - 3].copy_from_slice(&numbers.0.to_be_bytes());
    doc[30 - 3..=31 - 3].copy_from_slice(&numbers.1.to_be_bytes());
    line_of(1, &doc)
}

/// A record with these marks and numbers.
fn record(marks: u32, (calibration, manam): (u16, u16)) -> Assembly {
    Assembly {
        marks,
        calibration,
        manam,
    }
}

/// The places of the bytes that are compared for a block.
fn compared(block: usize) -> &'static [usize] {
    match block {
        MANAM => &[30, 31],
        CALIBRATION_1 | CALIBRATION_2 => &[28, 29],
        _ => &[],
    }
}

/// Whether a block goes by a number of the second line that is another one in
/// the first.
fn foreign(block: usize, first: (u16, u16), second: (u16, u16)) -> bool {
    match block {
        MANAM => first.1 != second.1,
        CALIBRATION_1 | CALIBRATION_2 => first.0 != second.0,
        _ => false,
    }
}

/// One block in the making.
#[derive(Clone, PartialEq)]
struct Making {
    format: usize,
    block: usize,
    assembly: Assembly,
    buffer: Vec<u8>,
}

impl Making {
    fn new(format: usize, block: usize) -> Making {
        Making {
            format,
            block,
            assembly: Assembly::default(),
            buffer: vec![0xEE; BLOCKS[block - 1].size],
        }
    }

    /// Adds a line. A refused one has to change nothing.
    fn add(&mut self, line: &[u8]) -> Result<Added, u8> {
        let before = self.clone();
        let (assembly, buffer) = (&mut self.assembly, &mut self.buffer);
        let given = blocks::add_segment(self.format, line, self.block, assembly, buffer);
        if given.is_err() {
            assert!(*self == before, "block {}: {given:?}", self.block);
        }
        given
    }

    fn revision(&self) -> Result<u16, u8> {
        blocks::revision(self.format, self.assembly, self.block, &self.buffer)
    }

    fn marked(&self) -> u32 {
        self.assembly.marks.count_ones()
    }
}

fn added(segment: usize, first_copy: bool) -> Result<Added, u8> {
    Ok(Added {
        segment,
        first_copy,
    })
}

/// Both are remembered for every block, high byte first, and a later line's are
/// not.
#[test]
fn the_numbers_of_the_first_segment_are_remembered() {
    for block in 1..=5 {
        let mut making = Making::new(1, block);
        assert_eq!(making.add(&line(7, OWN)), added(7, true));
        assert_eq!(making.assembly, record(1 << 7, OWN));

        // The number by which the block does not go may be another one.
        let other = match block {
            MANAM => (0x4321, OWN.1),
            CALIBRATION_1 | CALIBRATION_2 => (OWN.0, 0x4321),
            _ => (0x4321, 0x5678),
        };
        assert_eq!(making.add(&line(7, other)), added(7, false));
        assert_eq!(making.assembly, record(1 << 7, OWN));
        assert_eq!(making.add(&line(0, other)), added(0, true));
        assert_eq!(making.assembly, record(1 << 7 | 1, OWN));
    }
}

/// Every bit of its own two bytes makes a line foreign to a block, and no bit
/// of the others before the sub-commutation does.
#[test]
fn each_bit_of_its_own_number_counts_and_no_other() {
    let first = line(3, OWN);
    for place in 3..193 {
        for bit in 0..8 {
            // All bits of the four bytes, and one of each other.
            if !(28..=31).contains(&place) && bit != place % 8 {
                continue;
            }
            let mut doc = line(4, OWN)[2..2_293].to_vec();
            doc[place - 3] ^= 1 << bit;
            let second = line_of(1, &doc);
            for block in 1..=5 {
                let mut making = Making::new(1, block);
                making.add(&first).unwrap();
                let given = making.add(&second);
                let expected = match compared(block).contains(&place) {
                    true => Err(14),
                    false => added(4, true),
                };
                assert_eq!(given, expected, "block {block}, place {place}, bit {bit}");
            }
        }
    }
}

/// Pairs of numbers at their ends, with their bytes changed over, and with one
/// in place of the other.
#[test]
fn the_numbers_are_compared_whole() {
    let pairs = [
        (0, 0),
        (0, 1),
        (1, 0),
        (0xFFFF, 0xFFFF),
        (0xFFFF, 0),
        (0x1234, 0xABCD),
        (0xABCD, 0x1234),
        (0x3412, 0xCDAB),
        (0x12AB, 0x34CD),
    ];
    for first in pairs {
        for second in pairs {
            for block in 1..=5 {
                let mut making = Making::new(1, block);
                making.add(&line(24, first)).unwrap();
                let expected = match foreign(block, first, second) {
                    true => Err(14),
                    false => added(23, true),
                };
                assert_eq!(making.add(&line(23, second)), expected);
                assert_eq!(making.assembly.calibration, first.0);
                assert_eq!(making.assembly.manam, first.1);
            }
        }
    }
}

/// A later copy of a stored segment: 14 wherever its number is a foreign one, 8
/// only where it is not.
#[test]
fn a_later_copy_of_another_revision_is_foreign_even_if_it_is_equal() {
    for block in 3..=5 {
        let another = (OWN.0 ^ 0x0100, OWN.1 ^ 0x0100);
        let mut making = Making::new(1, block);
        making.add(&line(5, OWN)).unwrap();
        assert_eq!(making.add(&line(5, OWN)), added(5, false));
        assert_eq!(making.add(&line(5, another)), Err(14));

        let last = 6 * BLOCKS[block - 1].segment_bytes() - 1;
        making.buffer[last] ^= 1;
        assert_eq!(making.add(&line(5, OWN)), Err(8));
        assert_eq!(making.add(&line(5, another)), Err(14));
    }
}

/// A finished block takes no line of other tables either.
#[test]
fn a_finished_block_is_compared_too() {
    for block in 3..=5 {
        let mut making = Making::new(1, block);
        making.assembly = record(ALL_MARKS, OWN);
        making.buffer = pattern::block(block, false);
        assert_eq!(making.add(&line(9, OWN)), added(9, false));
        assert_eq!(making.add(&line(9, (0, 0))), Err(14));
    }
}

/// Without a mark nothing is compared, whatever numbers somebody put into the
/// record, and the line's take their place. Such a record is not impossible.
#[test]
fn without_a_segment_nothing_is_compared() {
    for block in 1..=5 {
        for made_up in [
            (0, 0),
            (9, 0),
            (0, 9),
            (0xFFFF, 0xFFFF),
            OWN,
            (OWN.1, OWN.0),
        ] {
            for sent in [OWN, (0, 0), (0xFFFF, 1)] {
                let mut making = Making::new(1, block);
                making.assembly = record(0, made_up);
                assert_eq!(making.add(&line(12, sent)), added(12, true));
                assert_eq!(making.assembly, record(1 << 12, sent));
            }
        }
    }
}

/// With a mark the record's numbers are compared, whoever put them there: a
/// record of zeros is fresh only as long as no segment is marked.
#[test]
fn with_a_segment_zeros_are_numbers_as_any_other() {
    for block in 3..=5 {
        let mut making = Making::new(1, block);
        making.assembly = record(1 << 3, (0, 0));
        assert_eq!(making.add(&line(12, OWN)), Err(14));
        assert_eq!(making.add(&line(12, (0, 0))), added(12, true));
    }
}

/// "its first segment" is the first that was taken.
#[test]
fn a_refused_line_brings_no_numbers() {
    let another = (0x5678, 0x9ABC);
    let mut damaged = line(2, another);
    bits::turn_over(&mut damaged, 8 * 100);
    let mut no_segment = line(2, another)[2..2_293].to_vec();
    no_segment[194 - 3] = 25;
    for block in 1..=5 {
        let mut making = Making::new(1, block);
        assert_eq!(making.add(&damaged), Err(5));
        assert_eq!(making.add(&line_of(1, &no_segment)), Err(7));
        assert_eq!(making.add(&line(2, another)[1..]), Err(2));
        assert_eq!(making.assembly, Assembly::default());
        assert_eq!(making.add(&line(2, OWN)), added(2, true));
        assert_eq!(making.assembly, record(1 << 2, OWN));
    }
}

/// "mapping and orbit are as before": 25 lines, no two of the same tables.
#[test]
fn mapping_and_orbit_are_as_before() {
    for block in [MAPPING, ORBIT] {
        let mut making = Making::new(1, block);
        for segment in 0..25 {
            let numbers = (1_000 * segment as u16, 65_535 - segment as u16);
            let given = making.add(&line(segment, numbers));
            assert_eq!(given, added(segment as usize, true));
        }
        assert_eq!(making.assembly, record(ALL_MARKS, (0, 65_535)));
        assert!(making.buffer == pattern::block(block, false));
        assert_eq!(making.revision(), Err(4));
    }
}

/// Lines of few tables in any order, some damaged, some with bytes of their
/// own: each answer from the words alone.
#[test]
fn any_lines_in_any_order() {
    let mut random = Random::new(30);
    for round in 0..20 {
        for block in 1..=5 {
            let mut making = Making::new(1, block);
            let mut first = None;
            for _ in 0..40 {
                let segment = random.under(4);
                let numbers = (random.under(2) as u16, random.under(2) as u16);
                let mut sent = line(segment as u64, numbers);
                let differs = random.under(4) == 0;
                let damaged = random.under(4) == 0;
                if differs {
                    sent[BLOCKS[block - 1].last - 1] ^= 1;
                    let doc = sent[2..2_293].to_vec();
                    sent = line_of(1, &doc);
                }
                if damaged {
                    bits::turn_over(&mut sent, 8 * 2 + random.under(8 * 2_291));
                }

                let bytes = BLOCKS[block - 1].segment_bytes();
                let own = &sent[BLOCKS[block - 1].first - 1..BLOCKS[block - 1].last];
                let place = segment * bytes..(segment + 1) * bytes;
                let marks = making.assembly.marks;
                let stored = marks >> segment & 1 == 1;
                let expected = if damaged {
                    Err(5)
                } else if first.is_some_and(|first| foreign(block, first, numbers)) {
                    Err(14)
                } else if stored && making.buffer[place.clone()] != *own {
                    Err(8)
                } else {
                    added(segment, !stored)
                };
                assert_eq!(making.add(&sent), expected, "round {round}, block {block}");
                if expected.is_ok() {
                    first = first.or(Some(numbers));
                    assert!(making.buffer[place] == *own);
                    let marks = marks | 1 << segment;
                    assert_eq!(making.assembly, record(marks, first.unwrap()));
                }
            }
        }
    }
}

/// "which revision it holds": the number by which the block goes, whatever the
/// other one is and whatever bytes the block has.
#[test]
fn a_finished_block_says_its_revision() {
    for numbers in [OWN, (0, 0xFFFF), (0xFFFF, 0), (731, 2_101)] {
        let finished = record(ALL_MARKS, numbers);
        let block = vec![0xEE; 25_601];
        assert_eq!(blocks::revision(1, finished, MAPPING, &block), Err(4));
        assert_eq!(blocks::revision(1, finished, ORBIT, &block), Err(4));
        for format in [1, 2, 3] {
            let revision = |number| blocks::revision(format, finished, number, &block);
            assert_eq!(revision(MANAM), Ok(numbers.1));
            assert_eq!(revision(CALIBRATION_1), Ok(numbers.0));
            let calibration_2 = if format == 2 { Err(4) } else { Ok(numbers.0) };
            assert_eq!(revision(CALIBRATION_2), calibration_2);
        }
    }
}

/// A block buffer of its size, and one byte under it.
#[test]
fn a_revision_is_of_a_whole_block() {
    let finished = record(ALL_MARKS, OWN);
    for number in 3..=5 {
        let block = vec![0; BLOCKS[number - 1].size];
        let own = if number == MANAM { OWN.1 } else { OWN.0 };
        assert_eq!(blocks::revision(1, finished, number, &block), Ok(own));
        let short = &block[1..];
        assert_eq!(blocks::revision(1, finished, number, short), Err(2));
        // 2 before 9, and 9 alone.
        let unfinished = record(ALL_MARKS >> 1, OWN);
        assert_eq!(blocks::revision(1, unfinished, number, short), Err(2));
        assert_eq!(blocks::revision(1, unfinished, number, &block), Err(9));
    }
}

/// "so every user of an entry gets it too": each level with the calibration
/// table ID, and the value does not depend on it.
#[test]
fn levels_carry_the_revision() {
    let block = pattern::block(CALIBRATION_2, false);
    for numbers in [OWN, (0, 0xFFFF), (0xFFFF, 0), (731, 2_101)] {
        let finished = record(ALL_MARKS, numbers);
        let zeros = record(ALL_MARKS, (0, 0));
        for channel in 1..=4 {
            for level in [0, 1, 63] {
                let given = blocks::albedo(1, finished, &block, channel, level).unwrap();
                assert_eq!(given.revision, numbers.0);
                let of_zeros = blocks::albedo(1, zeros, &block, channel, level).unwrap();
                assert_eq!((given.value, 0), (of_zeros.value, of_zeros.revision));
            }
            for level in [0, 64, 1_023] {
                let given = blocks::temperature(1, finished, &block, channel, level).unwrap();
                assert_eq!(given.revision, numbers.0);
                let of_zeros = blocks::temperature(1, zeros, &block, channel, level).unwrap();
                assert_eq!((given.value, 0), (of_zeros.value, of_zeros.revision));
            }
        }
        // The others look at the marks alone.
        let block = pattern::block(ORBIT, false);
        let point = |assembly| blocks::mapping(2, assembly, &block, 24, 3).unwrap();
        assert_eq!(point(finished), point(zeros));
        let elements = |assembly| blocks::orbital_elements(2, assembly, &block).unwrap();
        assert_eq!(elements(finished), elements(zeros));
    }
}

/// The sectors DOC of `second signal 200 FORMAT 0 T`, as lines.
fn recording(format: usize, tables: u64) -> Vec<Vec<u8>> {
    (0..200)
        .map(|k| line_of(format, &pattern::doc(format, k, tables)))
        .collect()
}

/// The blocks of a format.
fn served(format: usize) -> std::ops::RangeInclusive<usize> {
    1..=if format == 2 { 4 } else { 5 }
}

/// What the blocks of a recording are at its end, and how many of its lines
/// each refused with 14; it refuses none with another number.
fn made(format: usize, lines: &[Vec<u8>]) -> Vec<(Making, usize)> {
    let of_block = |block| {
        let mut making = Making::new(format, block);
        let given = lines.iter().map(|line| making.add(line));
        let refused: Vec<u8> = given.filter_map(Result::err).collect();
        assert!(refused.iter().all(|&number| number == 14));
        (making, refused.len())
    };
    served(format).map(of_block).collect()
}

/// New tables come with line 101: the blocks that go by them stop with the 13
/// segments of the first 100 lines and are never mixed.
#[test]
fn a_recording_across_a_change_of_tables() {
    for format in [1, 2, 3] {
        for (making, foreign) in made(format, &recording(format, 101)) {
            let block = making.block;
            let old = pattern::block(block, false);
            if block < MANAM {
                assert_eq!(making.assembly, record(ALL_MARKS, (2_101, 731)));
                assert_eq!(foreign, 0);
                assert!(making.buffer == old);
                continue;
            }
            assert_eq!(making.assembly, record((1 << 13) - 1, (2_101, 731)));
            assert_eq!(foreign, 100);
            assert_eq!(making.revision(), Err(9));
            let half = 13 * BLOCKS[block - 1].segment_bytes();
            assert!(making.buffer[..half] == old[..half]);
            assert!(making.buffer[half..].iter().all(|&byte| byte == 0xEE));
        }
    }
}

/// The same wherever the change comes: a finished block is one table's, and
/// says whose.
#[test]
fn a_finished_block_is_of_one_revision() {
    for format in [1, 2, 3] {
        for tables in [0, 1, 2, 8, 9, 10, 192, 193, 194, 200, 201] {
            let new = tables == 1;
            // The lines of the first tables, and the segments that they bring.
            let own = if tables < 2 { 200 } else { tables as usize - 1 };
            let segments = own.div_ceil(8) as u32;
            let numbers = if new { (2_102, 732) } else { (2_101, 731) };
            for (making, foreign) in made(format, &recording(format, tables)) {
                let block = making.block;
                let one = pattern::block(block, new);
                assert_eq!(making.assembly.calibration, numbers.0);
                assert_eq!(making.assembly.manam, numbers.1);
                if block < MANAM {
                    assert_eq!((making.marked(), foreign), (25, 0));
                    assert!(making.buffer == one);
                    continue;
                }
                assert_eq!((making.marked(), foreign), (segments, 200 - own));
                let held = if block == MANAM { numbers.1 } else { numbers.0 };
                let revision = if segments == 25 { Ok(held) } else { Err(9) };
                assert_eq!(making.revision(), revision);
                let stored = segments as usize * BLOCKS[block - 1].segment_bytes();
                assert!(making.buffer[..stored] == one[..stored]);
                assert!(making.buffer[stored..].iter().all(|&byte| byte == 0xEE));
            }
        }
    }
}

/// After a change every line is foreign until a new assembly is begun, and that
/// one is finished with the new tables.
#[test]
fn a_new_assembly_takes_the_new_tables() {
    for format in [1, 2, 3] {
        for block in served(format).filter(|&block| block >= MANAM) {
            let mut making = Making::new(format, block);
            for k in 0..300 {
                let line = line_of(format, &pattern::doc(format, k, 101));
                match making.add(&line) {
                    Ok(_) => assert_ne!(k, 100),
                    Err(number) => {
                        assert_eq!((k, number), (100, 14));
                        making = Making::new(format, block);
                        making.add(&line).unwrap();
                    }
                }
            }
            let new = if block == MANAM { 732 } else { 2_102 };
            assert_eq!(making.revision(), Ok(new));
            assert!(making.buffer == pattern::block(block, true));
        }
    }
}

/// What the rule shuts out: "A student assembled a calibration block across a
/// change of the operator's tables and got half of each."
///
/// The record is handed in with each line's own numbers, so that the comparison
/// finds nothing: the assembly of document 01. Each block is then finished with
/// 25/25, and is neither table's. If new tables come with a new segment, not a
/// line of the recording is refused.
#[test]
fn without_the_comparison_a_block_is_half_of_each() {
    for format in [1, 2, 3] {
        for (tables, differing) in [(101, 4), (105, 0)] {
            let lines = recording(format, tables);
            let compared = made(format, &lines);
            for block in served(format).filter(|&block| block >= MANAM) {
                let mut making = Making::new(format, block);
                let mut refused = Vec::new();
                for line in &lines {
                    making.assembly.calibration = u16::from_be_bytes([line[27], line[28]]);
                    making.assembly.manam = u16::from_be_bytes([line[29], line[30]]);
                    refused.extend(making.add(line).err());
                }
                // With 101 the last four copies of segment 12 are of the new
                // tables.
                assert_eq!(refused, vec![8; differing]);
                assert_eq!(making.marked(), 25);
                let (old, new) = (pattern::block(block, false), pattern::block(block, true));
                assert!(making.buffer != old && making.buffer != new);
                let half = 13 * BLOCKS[block - 1].segment_bytes();
                assert!(making.buffer[..half] == old[..half]);
                assert!(making.buffer[half..] == new[half..]);

                // The same lines with the comparison.
                let (making, foreign) = &compared[block - 1];
                assert_eq!(foreign + tables as usize - 1, 200);
                assert_eq!((making.marked(), making.revision()), (13, Err(9)));
            }
        }
    }
}

/// The new parts of the pattern, by their places.
#[test]
fn the_new_tables_of_the_signal() {
    for (tables, k, changed) in [
        (0, 0, false),
        (0, 999_999, false),
        (1, 0, true),
        (2, 0, false),
        (2, 1, true),
        (101, 99, false),
        (101, 100, true),
        (101, 101, true),
        (1_000_000, 999_998, false),
        (1_000_000, 999_999, true),
    ] {
        assert_eq!(pattern::changed(k, tables), changed);
        let (calibration, manam) = match changed {
            true => ([0x08, 0x36], [0x02, 0xDC]),
            false => ([0x08, 0x35], [0x02, 0xDB]),
        };
        for (format, last) in [(1, 2_114), (2, 1_090), (3, 2_114)] {
            let doc = pattern::doc(format, k, tables);
            let none = pattern::doc(format, k, 0);
            assert_eq!(doc[28 - 3..=29 - 3], calibration);
            assert_eq!(doc[30 - 3..=31 - 3], manam);
            for place in 3..=2_293 {
                let more = match place {
                    29 | 31 => 1,
                    425.. if place <= last => 85,
                    _ => 0,
                };
                let expected = none[place - 3].wrapping_add(if changed { more } else { 0 });
                assert_eq!(doc[place - 3], expected, "place {place}");
            }
        }
    }
    // 2101 and 731, and their next ones.
    assert_eq!([0x0835, 0x0836, 0x02DB, 0x02DC], [2_101, 2_102, 731, 732]);

    // Nothing but the sector DOC changes.
    let [old, new] = [0, 1].map(|tables| pattern::line(1, 5, tables).unwrap());
    assert!(old[..2_295] != new[..2_295]);
    assert!(old[2_295..] == new[2_295..]);
}

/// Byte by byte: blocks 1 and 2 have no revision, and of the others no byte is
/// the same in both tables.
#[test]
fn the_blocks_of_two_tables() {
    for block in 1..=5 {
        let (old, new) = (pattern::block(block, false), pattern::block(block, true));
        for (index, (&a, &b)) in old.iter().zip(&new).enumerate() {
            let q = index + 1;
            let number = (q * q + 97 * block * q) / 5;
            assert_eq!(usize::from(a), number % 256);
            let more = if block < MANAM { 0 } else { 85 };
            assert_eq!(usize::from(b), (number + more) % 256);
        }
    }
}
