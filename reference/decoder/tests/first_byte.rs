//! Document 02, §3: "a first code byte of 22 to 26 hexadecimal means k = 3 with p in its low digit.
//! Check and expansion take this byte in place of p." Document 02, §5: "A first byte with high digit 1 (k
//! = 2) or 3 (k = 3) selects" the Min-Max edition, and "Refusal 6 now means: high digit above 3, or low
//! digit outside 2 to 6." Every byte there is, in each call that takes one.

use reference_decoder::check::Messages;
use reference_decoder::decision::MOST_MARGIN;
use reference_decoder::sample::{Buffers, Generator};
use reference_decoder::{check, code_line, encode, expand, product, sweep};
use reference_decoder::{Join, Outcome, Refusal, Rule};

/// p, k and the edition of a first byte, none where it is refused by 6.
fn meaning(first: u8) -> Option<(u8, usize, Join)> {
    match first {
        0x02..=0x06 => Some((first, 2, Join::Sum)),
        0x12..=0x16 => Some((first - 0x10, 2, Join::Greatest)),
        0x22..=0x26 => Some((first - 0x20, 3, Join::Sum)),
        0x32..=0x36 => Some((first - 0x30, 3, Join::Greatest)),
        _ => None,
    }
}

/// Every byte, with q and the bytes of a record for each a where it is accepted.
fn first_bytes() -> impl Iterator<Item = (u8, Option<(usize, usize)>)> {
    (0..=u8::MAX).map(|first| {
        let sizes = meaning(first).map(|(p, k, _)| (1 << p, 1 + 2 * k));
        (first, sizes)
    })
}

/// One check on three columns, weights 1, scale 16, one iteration.
fn code(first: u8) -> Vec<u8> {
    vec![first, 0, 3, 1, 16, 1, 3, 0, 0, 1, 0, 1, 1, 0, 2, 1]
}

#[test]
fn the_rule() {
    for first in 0..=u8::MAX {
        let rule = Rule::new(first);
        let found = rule.map(|rule| (rule.field().p(), rule.deviations(), rule.join()));
        assert_eq!(found, meaning(first).ok_or(Refusal::FieldSize));
    }
    let accepted = (0..=u8::MAX).filter(|&first| meaning(first).is_some());
    assert_eq!(accepted.count(), 20);
}

/// A call that writes the record of a check.
type Check = fn(u8, &[u8], &[u8], &mut [u8]) -> Result<usize, Refusal>;

#[test]
fn in_check() {
    in_call(check);
}

#[test]
fn in_sweep() {
    in_call(sweep);
}

fn in_call(check: Check) {
    for (first, sizes) in first_bytes() {
        let (q, entry) = sizes.unwrap_or((4, 5));
        let length = 3 + entry * (q - 1);
        let mut record = vec![0xA5; length + 1];
        let answer = check(first, &[1; 3], &vec![0; 3 * q], &mut record);
        match sizes {
            Some(_) => {
                assert_eq!(answer, Ok(length));
                assert_eq!(record[length], 0xA5);
                let short = check(first, &[1; 3], &vec![0; 3 * q], &mut record[..length - 1]);
                assert_eq!(short, Err(Refusal::ShortStore));
            }
            None => {
                assert_eq!(answer, Err(Refusal::FieldSize));
                assert_eq!(record, vec![0xA5; length + 1]);
                // Before 9, and with all that follows it.
                assert_eq!(check(first, &[], &[9], &mut []), Err(Refusal::FieldSize));
            }
        }
    }
}

#[test]
fn in_expand() {
    for (first, sizes) in first_bytes() {
        let (q, entry) = sizes.unwrap_or((4, 5));
        let mut group = vec![7];
        group.extend([0xFF, 0].repeat(entry / 2));
        let record = [vec![0; 3], group.repeat(q - 1)].concat();
        let mut out = vec![0xA5; 3 * q + 1];
        let answer = expand(first, &[1; 3], &record, &mut out);
        match sizes {
            Some(_) => {
                assert_eq!(answer, Ok(3 * q));
                let column = [vec![0], vec![7; q - 1]].concat();
                assert_eq!(out, [column.repeat(3), vec![0xA5]].concat());
                // The length of a record with the other k.
                let other = 3 + (12 - entry) * (q - 1);
                let longer = [&record[..], &[0xFF; 200]].concat();
                let answer = expand(first, &[1; 3], &longer[..other], &mut out);
                assert_eq!(answer, Err(Refusal::Record));
            }
            None => {
                assert_eq!(answer, Err(Refusal::FieldSize));
                assert_eq!(out, vec![0xA5; 3 * q + 1]);
                assert_eq!(expand(first, &[], &[], &mut []), Err(Refusal::FieldSize));
            }
        }
    }
}

#[test]
fn in_decode() {
    let mut generator = Generator::new(1);
    for (first, sizes) in first_bytes() {
        let (q, entry) = sizes.unwrap_or((4, 5));
        let code = code(first);
        assert_eq!(code_line(&code).is_ok(), sizes.is_some());
        // Column 0 decides for 1, the others for 0: not satisfied at the start.
        let mut frame = vec![9; 3 * q];
        (frame[1], frame[q], frame[2 * q]) = (0, 0, 0);
        let length = 3 + entry * (q - 1);
        let mut buffers = Buffers::arbitrary(&mut generator, [3, 3 * q, length + 1, 3]);
        let before = buffers.clone();
        let answer = buffers.decode(&code, &frame);
        match sizes {
            Some(_) => {
                assert!(matches!(
                    answer,
                    Ok(Outcome::Found(1) | Outcome::NotFound(1))
                ));
                assert_eq!(buffers.store[length], before.store[length]);
                assert!(buffers.margins.iter().all(|&margin| margin <= MOST_MARGIN));
                buffers.store.truncate(length - 1);
                let short = buffers.decode(&code, &frame);
                assert_eq!(short, Err(Refusal::ShortStore));
            }
            None => {
                assert_eq!(answer, Err(Refusal::FieldSize));
                assert_eq!(buffers, before);
            }
        }
    }
}

#[test]
fn in_encode() {
    for (first, sizes) in first_bytes() {
        let mut symbols = [0xA5; 4];
        let answer = encode(&code(first), &[1, 3], &mut symbols);
        match sizes {
            Some(_) => assert_eq!((answer, symbols), (Ok(3), [1, 3, 2, 0xA5])),
            None => {
                assert_eq!((answer, symbols), (Err(Refusal::FieldSize), [0xA5; 4]));
            }
        }
    }
}

/// Symbol 1 of column 0 and symbol 2 of column 1 cost 4 and 3, and make 3 together: column 2 is sent their
/// sum, or the greater of them.
#[test]
fn the_edition_of_a_check() {
    for first in 0..=u8::MAX {
        let Some((p, _, join)) = meaning(first) else {
            continue;
        };
        let q = 1 << p;
        let mut costs = vec![9; 3 * q];
        (costs[0], costs[q], costs[2 * q]) = (0, 0, 0);
        (costs[1], costs[q + 2]) = (4, 3);
        let messages = Messages::new(Rule::new(first).unwrap(), &[1; 3], &costs);
        let expected = match join {
            Join::Sum => 7,
            Join::Greatest => 4,
        };
        assert_eq!(messages.sent[2][3], expected);
    }
}

/// The product keeps p.
#[test]
fn in_product() {
    for p in 0..=u8::MAX {
        let expected = match p {
            2..=6 => Ok(3),
            _ => Err(Refusal::FieldSize),
        };
        assert_eq!(product(p, 1, 3), expected);
    }
}

/// 6 stands between 5 and 7.
#[test]
fn its_place_in_a_code_line() {
    for first in [0x00, 0x11, 0x17, 0x21, 0x27, 0x31, 0x37, 0x42, 0xFF] {
        let mut line = code(first);
        assert_eq!(code_line(&line[..5]), Err(Refusal::CodeBytes));
        assert_eq!(code_line(&line[..6]), Err(Refusal::FieldSize));
        line[1] = 2;
        assert_eq!(code_line(&line), Err(Refusal::FieldSize));
        line[0] = 0x22;
        assert_eq!(code_line(&line), Err(Refusal::ColumnsOrChecks));
    }
}
