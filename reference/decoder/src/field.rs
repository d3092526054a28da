//! Field arithmetic. Document 01, "Field": "p is 2 to 6, q = 2^p, and elements are 0 to q - 1, read
//! as polynomials over GF(2), lowest bit constant. Addition is exclusive or."

use crate::refusal::Refusal;

/// "Products reduce by, in hexadecimal, 7, 0B, 13, 25, 43 for p = 2 to 6."
const POLYNOMIALS: [u32; 5] = [0x7, 0x0B, 0x13, 0x25, 0x43];

/// "The public product refuses bad elements." Order: "Product: 6, 11."
pub fn product(p: u8, a: u8, b: u8) -> Result<u8, Refusal> {
    let field = Field::new(p)?;
    if !field.contains(a) || !field.contains(b) {
        return Err(Refusal::Weight);
    }
    Ok(field.product(a, b))
}

/// The field with 2^p elements.
#[derive(Clone, Copy, Debug, PartialEq, Eq)]
pub struct Field {
    p: u8,
}

impl Field {
    /// The field for p, or refusal 6 when p is not 2 to 6.
    pub fn new(p: u8) -> Result<Field, Refusal> {
        if (2..=6).contains(&p) {
            Ok(Field { p })
        } else {
            Err(Refusal::FieldSize)
        }
    }

    /// p.
    pub fn p(self) -> u8 {
        self.p
    }

    /// q, the number of elements.
    pub fn size(self) -> usize {
        1 << self.p
    }

    /// "elements are 0 to q - 1"
    pub fn contains(self, number: u8) -> bool {
        usize::from(number) < self.size()
    }

    /// The elements, rising.
    pub fn elements(self) -> impl Iterator<Item = u8> + Clone {
        (0u8..).take(self.size())
    }

    /// The product of two elements: the product of the two polynomials over GF(2), then its
    /// remainder under the field's polynomial.
    pub fn product(self, a: u8, b: u8) -> u8 {
        let p = u32::from(self.p);
        let mut polynomial = 0;
        for power in 0..p {
            if (b >> power) & 1 == 1 {
                polynomial ^= u32::from(a) << power;
            }
        }
        let modulus = POLYNOMIALS[usize::from(self.p) - 2];
        for power in (p..=2 * (p - 1)).rev() {
            if (polynomial >> power) & 1 == 1 {
                polynomial ^= modulus << (power - p);
            }
        }
        u8::try_from(polynomial).expect("a remainder has a degree below p")
    }

    /// The element whose product with `a`, which is not 0, is 1.
    pub fn inverse(self, a: u8) -> u8 {
        (1..=u8::MAX)
            .take_while(|&b| self.contains(b))
            .find(|&b| self.product(a, b) == 1)
            .expect("an element that is not 0 has an inverse")
    }
}

/// The sum of elements: "Addition is exclusive or."
pub fn sum(elements: impl IntoIterator<Item = u8>) -> u8 {
    elements
        .into_iter()
        .fold(0, |total, element| total ^ element)
}
