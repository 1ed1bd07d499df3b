//! All that the library's values hold, in a form that can be compared: bytes
//! past the counts are compared too.

use bore::{Filter, Job, State};

/// The bytes of a filter: count and widths of the rows, then of the columns.
pub fn bytes_of(filter: &Filter) -> [u8; 98] {
    let mut bytes = [0; 98];
    let (rows, columns) = bytes.split_at_mut(49);
    for (bytes, list) in [(rows, &filter.rows), (columns, &filter.columns)] {
        bytes[0] = list.count;
        bytes[1..].copy_from_slice(&list.widths);
    }
    bytes
}

/// The bytes of the filter, and the other fields in their order.
pub type Fields = ([u8; 98], [usize; 3]);

pub fn fields_of_state(state: &State) -> Fields {
    let words = [state.width, state.height, state.emitted];
    (bytes_of(&state.filter), words)
}

pub fn fields_of_job(job: &Job) -> Fields {
    let words = [job.width, job.height, job.offset];
    (bytes_of(&job.filter), words)
}
