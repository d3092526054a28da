//! What a code line says. Document 01, "Code line as bytes": "p; N as two bytes, high first (1 to 256); M (1 to 128);
//! scale g (1 to 16); iteration limit I (1 to 255). Then M checks".

use crate::lengths;
use crate::library;
use crate::refusal::Refusal;
use crate::rule::Rule;

/// `struct petsivola_code`: the library's answer as it is. [`code_line`] reads it.
#[derive(Clone, Copy, Debug, Default, PartialEq, Eq, Hash)]
#[repr(C)]
pub struct Summary {
    /// 0, or the refusal of the code line; the other fields of a refused one are 0.
    pub number: u8,
    /// The first byte.
    pub first: u8,
    /// N.
    pub columns: u16,
    /// M.
    pub checks: u8,
    /// g.
    pub scale: u8,
    /// I.
    pub limit: u8,
    /// The length of the store.
    pub store: u32,
}

/// An accepted code line: the numbers at its start, and the lengths of the slices that a call under it takes.
#[derive(Clone, Copy, Debug, PartialEq, Eq, Hash)]
pub struct CodeLine {
    rule: Rule,
    columns: usize,
    checks: usize,
    scale: u8,
    limit: u8,
    store_length: usize,
}

impl CodeLine {
    /// The code line of a summary that is no refusal. Its first byte is an accepted one; the proved library never
    /// answers another, which would be refusal 6 here.
    fn of(summary: Summary) -> Result<CodeLine, Refusal> {
        Ok(CodeLine {
            rule: Rule::try_from(summary.first)?,
            columns: usize::from(summary.columns),
            checks: usize::from(summary.checks),
            scale: summary.scale,
            limit: summary.limit,
            store_length: summary.store as usize,
        })
    }

    /// The first byte.
    pub const fn first(&self) -> u8 {
        self.rule.first()
    }

    /// What the first byte says.
    pub const fn rule(&self) -> Rule {
        self.rule
    }

    /// N, the number of columns: also the length of a symbol slice and of a margin slice.
    pub const fn columns(&self) -> usize {
        self.columns
    }

    /// M, the number of checks.
    pub const fn checks(&self) -> usize {
        self.checks
    }

    /// g: a sent cost is scaled by g/16.
    pub const fn scale(&self) -> u8 {
        self.scale
    }

    /// I, the iteration limit.
    pub const fn limit(&self) -> u8 {
        self.limit
    }

    /// The length of the store: "as many bytes as the M record lengths add up to".
    pub const fn store_length(&self) -> usize {
        self.store_length
    }

    /// The length of a frame, and of a cost slice: "N times q costs".
    pub const fn frame_length(&self) -> usize {
        self.columns.saturating_mul(self.rule.elements())
    }

    /// The length of a message for [`encode`](crate::encode), N - M; none where N is not above M.
    pub const fn message_length(&self) -> Option<usize> {
        lengths::message(self.columns, self.checks)
    }
}

/// Reads a code line. Order: "Code: 5 if under six bytes, 6, 7, 8; in each check 5 for the degree byte, 9, 5 for its
/// edges, then 10 and 11 edge by edge; last 5 for bytes left over." The calls that take a code line refuse it by the
/// same number.
///
/// A caller learns from it how long the slices are that a code line from elsewhere needs:
///
/// ```
/// use petsivola::{code_line, decode, Outcome};
///
/// let line = [2, 0, 3, 1, 16, 1, 3, 0, 0, 1, 0, 1, 1, 0, 2, 1];
/// let code = code_line(&line)?;
/// let mut symbols = vec![0; code.columns()];
/// let mut costs = vec![0; code.frame_length()];
/// let mut store = vec![0; code.store_length()];
/// let mut margins = vec![0; code.columns()];
/// let frame = [5, 0, 9, 7, 0, 4, 8, 3, 0, 6, 2, 10];
/// let outcome = decode(&line, &frame, &mut symbols, &mut costs, &mut store, &mut margins)?;
/// assert_eq!((outcome, symbols), (Outcome::Found(1), vec![1, 1, 0]));
/// # Ok::<(), petsivola::Refusal>(())
/// ```
pub fn code_line(code: &[u8]) -> Result<CodeLine, Refusal> {
    match summary(code) {
        summary @ Summary { number: 0, .. } => CodeLine::of(summary),
        Summary { number, .. } => Err(Refusal::from(u16::from(number))),
    }
}

/// The same call with the library's answer as it is, a refused one's too.
pub fn summary(code: &[u8]) -> Summary {
    library::code_line(code)
}

#[cfg(test)]
mod tests {
    use super::*;

    /// No summary makes the wrapper panic, not even one that the proved library never gives.
    #[test]
    fn every_first_byte_and_the_greatest_numbers() {
        for first in 0..=u8::MAX {
            let code = CodeLine::of(Summary {
                number: 0,
                first,
                columns: u16::MAX,
                checks: u8::MAX,
                scale: u8::MAX,
                limit: u8::MAX,
                store: u32::MAX,
            });
            let rule = Rule::try_from(first);
            assert_eq!(code.map(|code| code.rule()), rule);
            let (Ok(code), Ok(rule)) = (code, rule) else {
                continue;
            };
            assert_eq!(code.first(), first);
            assert_eq!(code.frame_length(), 65_535 * rule.elements());
            assert_eq!(code.message_length(), Some(65_535 - 255));
            assert_eq!(code.store_length(), 4_294_967_295);
        }
    }

    /// The layout that `include/petsivola.h` has on x86-64.
    #[test]
    fn the_summary_is_laid_out_as_in_c() {
        use core::mem::{align_of, offset_of, size_of};
        assert_eq!((size_of::<Summary>(), align_of::<Summary>()), (12, 4));
        let places = [
            offset_of!(Summary, number),
            offset_of!(Summary, first),
            offset_of!(Summary, columns),
            offset_of!(Summary, checks),
            offset_of!(Summary, scale),
            offset_of!(Summary, limit),
            offset_of!(Summary, store),
        ];
        assert_eq!(places, [0, 1, 2, 4, 5, 6, 8]);
    }
}
