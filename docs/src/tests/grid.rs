//! The longitudes of the mapping grid, document 02's T-04, with the sources' own
//! tables.

use second::blocks::{self, Assembly, GridPoint, ALL_MARKS};
use second::pattern;

/// The 25 columns in the sources' words. Format 1: 000, table 11, from 45 to 165
/// east. Format 2: 001, table A.3, and 002, from 80 east to 160 west.
const COLUMNS: [[&str; 25]; 2] = [
    [
        "45 east", "50 east", "55 east", "60 east", "65 east", "70 east", "75 east", "80 east",
        "85 east", "90 east", "95 east", "100 east", "105 east", "110 east", "115 east",
        "120 east", "125 east", "130 east", "135 east", "140 east", "145 east", "150 east",
        "155 east", "160 east", "165 east",
    ],
    [
        "80 east", "85 east", "90 east", "95 east", "100 east", "105 east", "110 east", "115 east",
        "120 east", "125 east", "130 east", "135 east", "140 east", "145 east", "150 east",
        "155 east", "160 east", "165 east", "170 east", "175 east", "180 east", "175 west",
        "170 west", "165 west", "160 west",
    ],
];

const FINISHED: Assembly = Assembly {
    marks: ALL_MARKS,
    calibration: 0,
    manam: 0,
};

fn point(format: usize, row: usize, column: usize) -> GridPoint {
    blocks::mapping(format, FINISHED, &pattern::block(1, false), row, column).unwrap()
}

#[test]
fn every_column_is_the_sources() {
    // "format 3 is format 1 with ones"
    for (format, columns) in [(1, COLUMNS[0]), (2, COLUMNS[1]), (3, COLUMNS[0])] {
        for (column, words) in columns.iter().enumerate() {
            let (degrees, side) = words.split_once(' ').unwrap();
            let degrees: i32 = degrees.parse().unwrap();
            let expected = if side == "west" { -degrees } else { degrees };
            for row in 0..25 {
                assert_eq!(point(format, row, column).longitude, expected);
            }
        }
    }
}

/// 001's sample program counts on past 180: the same meridians.
#[test]
fn columns_are_five_degrees_apart() {
    for (format, first) in [(1, 45), (2, 80), (3, 45)] {
        for column in 0..25 {
            let longitude = point(format, 0, column).longitude;
            let counted = first + 5 * column as i32;
            assert_eq!(longitude.rem_euclid(360), counted.rem_euclid(360));
            assert!(-180 < longitude && longitude <= 180);
        }
    }
}

/// "Grid bytes and refusals stay": line, pixel and latitude go by no format, and
/// neither does a refusal.
#[test]
fn nothing_else_goes_by_the_format() {
    let of = |format, row, column| {
        let p = point(format, row, column);
        (p.line, p.pixel, p.latitude)
    };
    for row in 0..25 {
        for column in 0..25 {
            assert_eq!(of(1, row, column), of(2, row, column));
            assert_eq!(of(1, row, column), of(3, row, column));
        }
    }
    let block = pattern::block(1, false);
    for marks in [0, 1, ALL_MARKS - 1, ALL_MARKS, ALL_MARKS + 1] {
        let assembly = Assembly { marks, ..FINISHED };
        for bytes in [0, 2_499, 2_500] {
            for (row, column) in [(0, 0), (24, 24), (25, 0), (0, 25)] {
                let number =
                    |format| blocks::mapping(format, assembly, &block[..bytes], row, column).err();
                assert_eq!(number(1), number(2));
                assert_eq!(number(1), number(3));
            }
        }
    }
}
