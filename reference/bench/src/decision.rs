//! Hard decisions. Document 02, §6: "Choosing a hard decision must now yield the symbol and its margin, the
//! least cost among the other symbols less the least cost of all; a tie has margin 0."

/// The hard decision of a column.
#[derive(Clone, Copy, Debug, PartialEq, Eq)]
pub struct Decision {
    /// "the smallest symbol of cost 0"
    pub symbol: u8,
    /// "the least cost among the other symbols": the least cost of all is 0.
    pub margin: u16,
}

impl Decision {
    /// The decision of a column that has a cost of 0. It is made where it is used, so that a caller who takes
    /// the symbol alone does not pay for the margin.
    #[inline(always)]
    pub fn of<T: Copy + Into<u16>>(column: &[T]) -> Decision {
        let zero = column.iter().position(|&cost| cost.into() == 0);
        let symbol = zero.unwrap_or(0);
        let other = |(x, &cost): (usize, &T)| if x == symbol { u16::MAX } else { cost.into() };
        let margin = column
            .iter()
            .enumerate()
            .map(other)
            .fold(u16::MAX, u16::min);
        Decision {
            symbol: symbol as u8,
            margin,
        }
    }
}
