//! Sixteen rows at a time. The compiler takes the sixteen as one where it finds them in arrays of their
//! own, so a block is handed on by value.

/// The rows of a block.
pub const LANES: usize = 16;

/// Sixteen rows of a table.
pub type Block = [u8; LANES];

/// A block row by row.
#[inline(always)]
pub fn lanes(row: impl Fn(usize) -> u8) -> Block {
    let mut block = [0; LANES];
    for (i, lane) in block.iter_mut().enumerate() {
        *lane = row(i);
    }
    block
}

/// The block turned by a bit: row i of the answer is row i + BIT, where + is exclusive or.
#[inline(always)]
pub fn turned<const BIT: usize>(block: &Block) -> Block {
    lanes(|i| block[i ^ BIT])
}

/// Four rows of a table as a join takes them: costs to take off, or rests for the greatest.
pub fn taken<const GREATEST: bool>(rests: &[u8; 4]) -> [u8; 4] {
    rests.map(|rest| if GREATEST { rest } else { 255 - rest })
}

/// A rest joined with what was taken.
fn joined<const GREATEST: bool>(rest: u8, taken: u8) -> u8 {
    if GREATEST {
        rest.min(taken)
    } else {
        rest.saturating_sub(taken)
    }
}

/// The best of four blocks, each joined with a row of another table, and of the best so far.
#[inline(always)]
pub fn best_of<const GREATEST: bool>(taken: [u8; 4], blocks: [&Block; 4], best: &Block) -> Block {
    let joined = |j: usize, i: usize| joined::<GREATEST>(blocks[j][i], taken[j]);
    lanes(|i| {
        let one = joined(0, i).max(joined(1, i));
        let two = joined(2, i).max(joined(3, i));
        best[i].max(one.max(two))
    })
}

/// The block with a term added to each symbol.
#[inline(always)]
pub fn plus(block: Block, term: u8) -> Block {
    lanes(|i| block[i] ^ term)
}

/// The better of two blocks, row by row.
#[inline(always)]
pub fn better(one: Block, other: Block) -> Block {
    lanes(|i| one[i].max(other[i]))
}

/// x where one rest is below another, else y.
#[inline(always)]
pub fn where_below(one: Block, other: Block, x: Block, y: Block) -> Block {
    lanes(|i| if one[i] < other[i] { x[i] } else { y[i] })
}

/// x where a number is n, else y.
#[inline(always)]
pub fn where_is(numbers: Block, n: u8, x: Block, y: Block) -> Block {
    lanes(|i| if numbers[i] == n { x[i] } else { y[i] })
}
