//! Field arithmetic for the encoder and the baseline, by powers of alpha. Document 01, "Field":
//! "Products reduce by, in hexadecimal, 7, 0B, 13, 25, 43 for p = 2 to 6." Under each of these
//! polynomials alpha, the element 2, has every element but 0 among its powers.

/// "7, 0B, 13, 25, 43 for p = 2 to 6", by p - 2.
const POLYNOMIALS: [u8; 5] = [0x07, 0x0B, 0x13, 0x25, 0x43];

/// The field with q = 2^p elements.
#[derive(Clone, Debug, PartialEq, Eq)]
pub struct Field {
    p: u8,
    /// alpha^k at place k, for k below 2(q - 1), so that the sum of two exponents needs no remainder.
    powers: Vec<u8>,
    /// k at place alpha^k; place 0 has no meaning.
    exponents: Vec<usize>,
}

impl Field {
    /// The field for p.
    ///
    /// # Panics
    ///
    /// When p is not 2 to 6.
    pub fn new(p: u8) -> Field {
        let polynomial = POLYNOMIALS[usize::from(p) - 2];
        let order = (1 << p) - 1;
        let mut powers = vec![1];
        let mut exponents = vec![0; order + 1];
        for k in 1..2 * order {
            let doubled = powers[k - 1] << 1;
            let reduced = if doubled >> p == 1 {
                doubled ^ polynomial
            } else {
                doubled
            };
            powers.push(reduced);
            exponents[usize::from(reduced)] = k % order;
        }
        Field {
            p,
            powers,
            exponents,
        }
    }

    /// p.
    pub fn p(&self) -> u8 {
        self.p
    }

    /// q, the number of elements.
    pub fn size(&self) -> usize {
        1 << self.p
    }

    /// q - 1, the number of different powers of alpha.
    pub fn order(&self) -> usize {
        self.size() - 1
    }

    /// alpha^k.
    pub fn power(&self, k: usize) -> u8 {
        self.powers[k % self.order()]
    }

    /// The k below q - 1 with alpha^k = a, for a not 0.
    pub fn exponent(&self, a: u8) -> usize {
        self.exponents[usize::from(a)]
    }

    /// a times b.
    pub fn product(&self, a: u8, b: u8) -> u8 {
        if a == 0 || b == 0 {
            0
        } else {
            self.powers[self.exponent(a) + self.exponent(b)]
        }
    }

    /// The element whose product with a is 1, for a not 0.
    pub fn inverse(&self, a: u8) -> u8 {
        self.power(self.order() - self.exponent(a))
    }
}
