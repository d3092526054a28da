//! Document 01, "Field".

use reference_decoder::field::Field;
use reference_decoder::product;

fn fields() -> impl Iterator<Item = (Field, u8)> {
    (2..=6).map(|p| (Field::new(p).unwrap(), 1 << p))
}

/// "The product follows its own recurrence, halving the second factor each time: the first factor
/// is doubled by a shift and reduced by the polynomial for the next step, and as it was before
/// doubling it is added where the dropped bit was one."
fn by_recurrence(p: u8, a: u32, b: u32) -> u32 {
    if b == 0 {
        return 0;
    }
    let polynomial = [0x7, 0x0B, 0x13, 0x25, 0x43][usize::from(p) - 2];
    let shifted = a << 1;
    let doubled = if shifted >> p == 1 {
        shifted ^ polynomial
    } else {
        shifted
    };
    by_recurrence(p, doubled, b >> 1) ^ if b & 1 == 1 { a } else { 0 }
}

#[test]
fn the_product_agrees_with_the_recurrence() {
    for p in 2..=6 {
        for a in 0..1 << p {
            for b in 0..1 << p {
                let expected = by_recurrence(p, a.into(), b.into());
                assert_eq!(
                    product(p, a, b).map(u32::from),
                    Ok(expected),
                    "p {p}: {a} times {b}"
                );
            }
        }
    }
}

#[test]
fn the_product_has_the_laws_of_a_field() {
    for (field, q) in fields() {
        for a in 0..q {
            assert_eq!(field.product(a, 1), a);
            assert!(a == 0 || (1..q).any(|b| field.product(a, b) == 1));
            for b in 0..q {
                assert_eq!(field.product(a, b), field.product(b, a));
                assert_eq!(field.product(a, b) == 0, a == 0 || b == 0);
                for c in 0..q {
                    let left = field.product(field.product(a, b), c);
                    assert_eq!(left, field.product(a, field.product(b, c)));
                    let spread = field.product(a, b) ^ field.product(a, c);
                    assert_eq!(spread, field.product(a, b ^ c));
                }
            }
        }
    }
}

#[test]
fn a_product_with_the_inverse_is_1() {
    for (field, q) in fields() {
        for a in 1..q {
            assert_eq!(field.product(a, field.inverse(a)), 1);
            assert!(field.contains(field.inverse(a)));
        }
    }
}
