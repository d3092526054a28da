//! The section about combining two frames.

use super::{micros, table};
use crate::{combining, decoding};

/// The section; the codes are those of the section about decoding, in its order.
pub fn section(rows: &[combining::Row], codes: &[decoding::Row]) -> String {
    let head = [
        "code",
        "costs a frame",
        "`combine`, µs",
        "`decode`, µs a frame",
    ];
    let cells = |(row, code): (&combining::Row, &decoding::Row)| {
        vec![
            row.job.name.to_string(),
            row.job.code.frame_length().to_string(),
            micros(row.of_call()),
            micros(code.of_frame()),
        ]
    };
    format!(
        "## Combining two frames\n\nTwo frames become one in `petsivola_combine`, which is then decoded in their place. \
         Both times are those of whole calls, with the reading of the code line and all tests; that of `decode` is for \
         a frame of the mean iterations in the section about decoding. Nothing is asked of these figures.\n\n{}",
        table(&head, rows.iter().zip(codes).map(cells))
    )
}
