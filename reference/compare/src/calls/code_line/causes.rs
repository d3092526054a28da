//! The causes of a code line's refusals.

use std::iter;

use reference_decoder::check::DEGREES;
use reference_decoder::code::{EDGE_LENGTH, HEADER_LENGTH, MOST_EDGES};

const UNDER_SIX: &str = "5 by five bytes";
const NO_DEGREE: &str = "5 by a degree byte missing";
const SHORT_EDGES: &str = "5 by a byte of the edges missing";
const LEFT_OVER: &str = "5 by a byte left over";
const HIGH_DIGIT: &str = "6 by the high digit alone";
const LOW_DIGIT: &str = "6 by the low digit alone";
const NO_COLUMN: &str = "7 by N 0";
const COLUMN_MORE: &str = "7 by N 257";
const NO_CHECK: &str = "7 by M 0";
const CHECK_MORE: &str = "7 by M 129";
const NO_SCALE: &str = "8 by g 0";
const SCALE_MORE: &str = "8 by g 17";
const NO_LIMIT: &str = "8 by I 0";
const DEGREE_LESS: &str = "9 by degree 1";
const DEGREE_MORE: &str = "9 by degree 33";
const EDGE_MORE: &str = "9 by 1,025 edges";
const COLUMN_N: &str = "10 by column N";
const SAME_COLUMN: &str = "10 by the same column";
const LOWER_COLUMN: &str = "10 by a lower column";
const NO_WEIGHT: &str = "11 by weight 0";
const WEIGHT_Q: &str = "11 by weight q";

const BYTES_BEFORE_FIRST: &str = "5 where 6 applies";
const FIRST_BEFORE_COUNTS: &str = "6 where 7 applies";
const COUNTS_BEFORE_SCALE: &str = "7 where 8 applies";
const SCALE_BEFORE_BYTES: &str = "8 where 5 applies";
const SCALE_BEFORE_DEGREE: &str = "8 where 9 applies";
const DEGREE_BEFORE_BYTES: &str = "9 where 5 applies";
const BYTES_BEFORE_COLUMN: &str = "5 where 10 applies";
const COLUMN_BEFORE_WEIGHT: &str = "10 where 11 applies to the same edge";
const WEIGHT_BEFORE_COLUMN: &str = "11 where 10 applies to the next edge";

/// What refusals are counted as: each at its bound, and where "Order" says which of two comes first.
pub const NAMES: [&str; 30] = [
    UNDER_SIX,
    NO_DEGREE,
    SHORT_EDGES,
    LEFT_OVER,
    HIGH_DIGIT,
    LOW_DIGIT,
    NO_COLUMN,
    COLUMN_MORE,
    NO_CHECK,
    CHECK_MORE,
    NO_SCALE,
    SCALE_MORE,
    NO_LIMIT,
    DEGREE_LESS,
    DEGREE_MORE,
    EDGE_MORE,
    COLUMN_N,
    SAME_COLUMN,
    LOWER_COLUMN,
    NO_WEIGHT,
    WEIGHT_Q,
    BYTES_BEFORE_FIRST,
    FIRST_BEFORE_COUNTS,
    COUNTS_BEFORE_SCALE,
    SCALE_BEFORE_BYTES,
    SCALE_BEFORE_DEGREE,
    DEGREE_BEFORE_BYTES,
    BYTES_BEFORE_COLUMN,
    COLUMN_BEFORE_WEIGHT,
    WEIGHT_BEFORE_COLUMN,
];

/// A name, and whether it is met.
type Named = (&'static str, bool);

/// What a line that is refused by this number is counted as.
pub fn causes(line: &[u8], number: u16) -> Vec<&'static str> {
    let named = match line.split_first_chunk() {
        None => {
            let first_too = line
                .first()
                .is_some_and(|&first| digits(first) != [true; 2]);
            vec![
                (UNDER_SIX, line.len() == 5),
                (BYTES_BEFORE_FIRST, first_too),
            ]
        }
        Some((&header, checks)) => match number {
            6..=8 => in_header(header, checks, number),
            5 => in_length(header, checks),
            9 => in_degree(header, checks),
            _ => in_edge(header, checks),
        },
    };
    let met = named.into_iter().filter(|(_, met)| *met);
    met.map(|(name, _)| name).collect()
}

/// The first byte, N high, N low, M, g, I.
type Header = [u8; HEADER_LENGTH];

/// Whether the high digit of a first byte is accepted, and the low one.
fn digits(first: u8) -> [bool; 2] {
    [first / 16 <= 3, (2..=6).contains(&(first % 16))]
}

/// A number of two bytes, high first.
fn two_bytes(high: u8, low: u8) -> usize {
    usize::from(u16::from_be_bytes([high, low]))
}

/// 6, 7 and 8.
fn in_header(header: Header, checks: &[u8], number: u16) -> Vec<Named> {
    let [first, n_high, n_low, m, g, limit] = header;
    let n = two_bytes(n_high, n_low);
    let counts_refused = !(1..=256).contains(&n) || !(1..=128).contains(&m);
    let scale_refused = !(1..=16).contains(&g) || limit == 0;
    let degree = checks.first().map(|&degree| usize::from(degree));
    match number {
        6 => vec![
            (HIGH_DIGIT, digits(first) == [false, true]),
            (LOW_DIGIT, digits(first) == [true, false]),
            (FIRST_BEFORE_COUNTS, counts_refused),
        ],
        7 => vec![
            (NO_COLUMN, n == 0),
            (COLUMN_MORE, n == 257),
            (NO_CHECK, m == 0),
            (CHECK_MORE, m == 129),
            (COUNTS_BEFORE_SCALE, scale_refused),
        ],
        _ => vec![
            (NO_SCALE, g == 0),
            (SCALE_MORE, g == 17),
            (NO_LIMIT, limit == 0),
            (SCALE_BEFORE_BYTES, degree.is_none()),
            (
                SCALE_BEFORE_DEGREE,
                degree.is_some_and(|degree| !DEGREES.contains(&degree)),
            ),
        ],
    }
}

/// The M checks as far as the line goes: the degree, and the bytes of the edges that are there.
fn read(header: Header, checks: &[u8]) -> impl Iterator<Item = (usize, &[u8])> {
    let mut rest = checks;
    let next = move || {
        let (&degree, after) = rest.split_first()?;
        let degree = usize::from(degree);
        let there = after.len().min(EDGE_LENGTH * degree);
        let edges;
        (edges, rest) = after.split_at(there);
        Some((degree, edges))
    };
    iter::from_fn(next).take(usize::from(header[3]))
}

/// 5, from six bytes on.
fn in_length(header: Header, checks: &[u8]) -> Vec<Named> {
    let [_, n_high, n_low, m, ..] = header;
    let n = two_bytes(n_high, n_low);
    let missing = |(degree, edges): (usize, &[u8])| EDGE_LENGTH * degree - edges.len();
    // No check follows one whose edges are not all there.
    let missing = read(header, checks).last().map_or(0, missing);
    let count = read(header, checks).count();
    let bytes: usize = read(header, checks).map(|(_, edges)| 1 + edges.len()).sum();
    let column_too = read(header, checks).any(|(_, edges)| {
        let mut edges = edges.chunks_exact(EDGE_LENGTH);
        edges.any(|edge| two_bytes(edge[0], edge[1]) >= n)
    });
    vec![
        (NO_DEGREE, missing == 0 && count < usize::from(m)),
        (SHORT_EDGES, missing == 1),
        (LEFT_OVER, checks.len() == bytes + 1),
        (BYTES_BEFORE_COLUMN, missing > 0 && column_too),
    ]
}

/// 9.
fn in_degree(header: Header, checks: &[u8]) -> Vec<Named> {
    let mut total = 0;
    let is_refused = |&(degree, _): &(usize, &[u8])| {
        total += degree;
        !DEGREES.contains(&degree) || total > MOST_EDGES
    };
    let refused = read(header, checks).find(is_refused);
    let (degree, edges) = refused.expect("a check that is refused by 9");
    vec![
        (DEGREE_LESS, degree == 1),
        (DEGREE_MORE, degree == 33),
        (EDGE_MORE, DEGREES.contains(&degree) && total == 1_025),
        (DEGREE_BEFORE_BYTES, edges.len() < EDGE_LENGTH * degree),
    ]
}

/// 10 and 11.
fn in_edge(header: Header, checks: &[u8]) -> Vec<Named> {
    let [first, n_high, n_low, ..] = header;
    let (n, q) = (two_bytes(n_high, n_low), 1 << (first % 16));
    let is_column = |column: usize, before: Option<usize>| column < n && before < Some(column);
    let is_weight = |weight: u8| (1..q).contains(&usize::from(weight));
    for (_, edges) in read(header, checks) {
        let mut before = None;
        let mut edges = edges.chunks_exact(EDGE_LENGTH).peekable();
        while let Some(edge) = edges.next() {
            let (column, weight) = (two_bytes(edge[0], edge[1]), edge[2]);
            if !is_column(column, before) {
                return vec![
                    (COLUMN_N, column == n),
                    (SAME_COLUMN, Some(column) == before),
                    (LOWER_COLUMN, Some(column) < before),
                    (COLUMN_BEFORE_WEIGHT, !is_weight(weight)),
                ];
            }
            if !is_weight(weight) {
                let next = edges.peek().map(|edge| two_bytes(edge[0], edge[1]));
                let next_too = next.is_some_and(|next| !is_column(next, Some(column)));
                return vec![
                    (NO_WEIGHT, weight == 0),
                    (WEIGHT_Q, usize::from(weight) == q),
                    (WEIGHT_BEFORE_COLUMN, next_too),
                ];
            }
            before = Some(column);
        }
    }
    unreachable!("no edge is refused by 10 or 11")
}

#[cfg(test)]
mod tests {
    use reference_decoder::code_line;
    use reference_decoder::sample::bytes;

    use super::*;

    /// The causes of a line that is refused.
    fn of(line: &str) -> Vec<&'static str> {
        let line = bytes(line);
        let refusal = code_line(&line).expect_err("a refusal");
        causes(&line, u16::from(refusal.number()))
    }

    #[test]
    fn of_the_first_six_bytes() {
        assert_eq!(of("02 0003 01 10"), [UNDER_SIX]);
        assert_eq!(of("07 0003"), [BYTES_BEFORE_FIRST]);
        assert_eq!(of("42 0003 01 10 01"), [HIGH_DIGIT]);
        assert_eq!(of("31 0003 01 10 01"), [LOW_DIGIT]);
        assert_eq!(of("41 0003 81 10 01"), [FIRST_BEFORE_COUNTS]);
        assert_eq!(of("02 0000 01 10 01"), [NO_COLUMN]);
        assert_eq!(of("02 0101 00 10 01"), [COLUMN_MORE, NO_CHECK]);
        assert_eq!(of("02 0003 81 11 01"), [CHECK_MORE, COUNTS_BEFORE_SCALE]);
        assert_eq!(of("02 0003 01 00 01 02"), [NO_SCALE]);
        assert_eq!(of("02 0003 01 11 01"), [SCALE_MORE, SCALE_BEFORE_BYTES]);
        assert_eq!(of("02 0003 01 10 00 01"), [NO_LIMIT, SCALE_BEFORE_DEGREE]);
    }

    #[test]
    fn of_lengths_and_degrees() {
        let check = "02 0003 02 10 01 02 000001 000201";
        let with = |rest: &str| of(&format!("{check} {rest}"));
        assert_eq!(of("02 0003 02 10 01"), [NO_DEGREE]);
        assert_eq!(with(""), [NO_DEGREE]);
        assert_eq!(with("02 000001 0002"), [SHORT_EDGES]);
        assert_eq!(with("02 000301 0002"), [SHORT_EDGES, BYTES_BEFORE_COLUMN]);
        assert_eq!(with("02 000001 000201 02"), [LEFT_OVER]);
        assert_eq!(with("01 000001"), [DEGREE_LESS]);
        assert_eq!(with("21"), [DEGREE_MORE, DEGREE_BEFORE_BYTES]);
    }

    #[test]
    fn of_the_edge_total() {
        let columns: String = (0..32).map(|column| format!("00{column:02X}01")).collect();
        let full = format!("20 {columns}").repeat(32);
        let with = |rest: &str| of(&format!("06 0100 21 10 01 {full} {rest}"));
        assert_eq!(with(""), [NO_DEGREE]);
        assert_eq!(with("01 000001"), [DEGREE_LESS]);
        assert_eq!(with("02 000001 000101"), [] as [&str; 0]);
        let almost = full.replacen(
            &format!("20 {columns}"),
            &format!("1F {}", &columns[6..]),
            1,
        );
        let line = format!("06 0100 21 10 01 {almost} 02");
        assert_eq!(of(&line), [EDGE_MORE, DEGREE_BEFORE_BYTES]);
    }

    #[test]
    fn of_edges() {
        let with = |edges: &str| of(&format!("02 0003 01 10 01 03 {edges}"));
        assert_eq!(with("000001 000101 000301"), [COLUMN_N]);
        assert_eq!(with("000001 000101 000101"), [SAME_COLUMN]);
        assert_eq!(with("000001 000201 000101"), [LOWER_COLUMN]);
        assert_eq!(with("000001 FFFF04 000200"), [COLUMN_BEFORE_WEIGHT]);
        assert_eq!(with("000001 000100 000201"), [NO_WEIGHT]);
        assert_eq!(with("000004 000101 000000"), [WEIGHT_Q]);
        assert_eq!(with("000105 000101 000201"), [WEIGHT_BEFORE_COLUMN]);
    }
}
