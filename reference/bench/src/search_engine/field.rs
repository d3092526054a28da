//! The products of one weight with every symbol.

/// The largest q.
pub const MOST: usize = 64;

/// "a constant table of 4,096 numbers": a times b at p = 6 stands at 64 a + b.
static PRODUCTS: Table = table();

/// One row for each a.
pub type Table = [[u8; MOST]; MOST];

const fn table() -> Table {
    let mut table = [[0; MOST]; MOST];
    let mut a = 0;
    while a < MOST {
        let mut b = 0;
        while b < MOST {
            table[a][b] = times(6, a as u8, b as u8);
            b += 1;
        }
        a += 1;
    }
    table
}

/// "7, 0B, 13, 25, 43 for p = 2 to 6"
const fn reducer(p: u8) -> u8 {
    match p {
        2 => 0x07,
        3 => 0x0B,
        4 => 0x13,
        5 => 0x25,
        _ => 0x43,
    }
}

/// "doubled by a shift and reduced by the polynomial"
const fn double(p: u8, a: u8) -> u8 {
    let shifted = a << 1;
    let reducer = reducer(p);
    if (shifted >> p) & 1 == 1 {
        shifted ^ reducer
    } else {
        shifted
    }
}

/// "The product follows its own recurrence, halving the second factor each time".
const fn times(p: u8, a: u8, b: u8) -> u8 {
    if b == 0 {
        return 0;
    }
    let rest = times(p, double(p, a), b / 2);
    if b % 2 == 1 {
        a ^ rest
    } else {
        rest
    }
}

/// The table, where it pays.
pub fn table_for(p: u8, columns: usize) -> Option<&'static Table> {
    (p == 6 && columns >= 8).then_some(&PRODUCTS)
}

/// h times x for each symbol x: from the table where it is at hand, else from the bits of x.
pub fn fill(p: u8, h: u8, table: Option<&Table>, row: &mut [u8]) {
    if let Some(table) = table {
        row.copy_from_slice(&table[usize::from(h)]);
        return;
    }
    let mut terms = [h; 6];
    for i in 1..terms.len() {
        terms[i] = double(p, terms[i - 1]);
    }
    for (x, product) in (0..).zip(row) {
        *product = of_bits(&terms, x);
    }
}

/// The terms of the bits of x, lowest first, added.
fn of_bits(terms: &[u8; 6], x: u8) -> u8 {
    let bits = terms.iter().enumerate();
    bits.fold(0, |sum, (i, &term)| {
        sum ^ if (x >> i) % 2 == 1 { term } else { 0 }
    })
}
