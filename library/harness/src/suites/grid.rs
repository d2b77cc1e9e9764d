//! What a point of a mapping block must be, from the block's bytes and from the
//! tables of the sources, without the second decoder.

/// The columns of format 1, degrees east: source 000, table 11. By document 02
/// format 3 is format 1 but for the check.
const SVISSR: [i64; 25] = [
    45, 50, 55, 60, 65, 70, 75, 80, 85, 90, 95, 100, 105, 110, 115, 120, 125, 130, 135, 140, 145,
    150, 155, 160, 165,
];

/// Those of format 2, west below 0: source 001, table A.3, and source 002, from
/// 80 east to 160 west. 180 is not west.
const HIRID: [i64; 25] = [
    80, 85, 90, 95, 100, 105, 110, 115, 120, 125, 130, 135, 140, 145, 150, 155, 160, 165, 170, 175,
    180, -175, -170, -165, -160,
];

/// The rows, degrees north, in all formats.
const ROWS: [i64; 25] = [
    60, 55, 50, 45, 40, 35, 30, 25, 20, 15, 10, 5, 0, -5, -10, -15, -20, -25, -30, -35, -40, -45,
    -50, -55, -60,
];

/// Line, pixel, latitude and longitude of a finished block's point, as numbers of
/// an answer.
pub fn point(format: usize, block: &[u8], row: usize, column: usize) -> [u64; 4] {
    let bytes = &block[100 * row + 4 * column..][..4];
    let two = |at: usize| u64::from(bytes[at]) << 8 | u64::from(bytes[at + 1]);
    let columns = if format == 2 { HIRID } else { SVISSR };
    [two(0), two(2), ROWS[row] as u64, columns[column] as u64]
}
