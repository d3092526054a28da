//! The simulation's field against the reference decoder's.

use reference_decoder::field;
use simulate::field::Field;

#[test]
fn products_are_the_reference_decoders() {
    for p in 2..=6 {
        let (ours, reference) = (Field::new(p), field::Field::new(p).unwrap());
        let elements = || (0u8..).take(ours.size());
        for a in elements() {
            for b in elements() {
                assert_eq!(ours.product(a, b), reference.product(a, b), "{p} {a} {b}");
            }
        }
    }
}

#[test]
fn inverses_and_powers() {
    for p in 2..=6 {
        let field = Field::new(p);
        for a in (1u8..).take(field.order()) {
            assert_eq!(field.product(a, field.inverse(a)), 1);
            assert_eq!(field.power(field.exponent(a)), a);
        }
        for k in 0..field.order() {
            assert_eq!(field.exponent(field.power(k)), k);
            assert_eq!(field.power(k + 1), field.product(field.power(k), 2));
        }
    }
}
