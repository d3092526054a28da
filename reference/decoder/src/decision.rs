//! Hard decisions. Document 01, "One check": "Its hard decision z_n is the smallest symbol of cost 0."
//! Document 02, §6: "Choosing a hard decision must now yield the symbol and its margin, the least cost
//! among the other symbols less the least cost of all; a tie has margin 0. Every user of a decision takes
//! the pair."

/// The greatest margin: a cost of P is 0 to 510.
pub const MOST_MARGIN: u16 = 510;

/// The hard decision of a column.
#[derive(Clone, Copy, Debug, PartialEq, Eq, Hash)]
pub struct Decision {
    /// "the smallest symbol of cost 0"
    pub symbol: u8,
    /// "the least cost among the other symbols less the least cost of all"
    pub margin: u16,
}

impl Decision {
    /// The decision of a column of at least two costs, each 0 to 510 and one of them 0.
    ///
    /// # Panics
    ///
    /// When the costs are not so.
    pub fn of<T: Copy + Into<i32>>(column: &[T]) -> Decision {
        let costs = || column.iter().map(|&cost| cost.into());
        let symbol = costs().position(|cost| cost == 0);
        let symbol = symbol.expect("a column has a cost of 0");
        let others = costs().enumerate().filter(|&(x, _)| x != symbol);
        let least_other = others.map(|(_, cost)| cost).min();
        let least_other = least_other.expect("a column has other symbols");
        let least = costs().min().expect("a column has a cost");
        let margin = u16::try_from(least_other - least).expect("a difference of two costs");
        assert!(margin <= MOST_MARGIN, "a margin is at most 510");
        Decision {
            symbol: u8::try_from(symbol).expect("a symbol is below q"),
            margin,
        }
    }
}
