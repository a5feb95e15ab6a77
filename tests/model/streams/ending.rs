//! How an input ends: between records, or in a record that ends the run.

use crate::stream::Stream;

/// Ends the stream in one of the ways; way 0 is between records.
pub fn end(stream: &mut Stream, way: u64) {
    let endings = endings();
    let ending = &endings[(way % endings.len() as u64) as usize];
    if !ending.is_empty() {
        stream.raw(ending);
    }
}

/// Every way to end, as the bytes after the last good record; nothing behind the end must be read.
pub fn endings() -> Vec<Vec<u8>> {
    let age = [2, 0, 3, 0];
    vec![
        // Between records.
        vec![],
        // One byte of a length.
        vec![2],
        // A length and no kind; a length and half a kind.
        vec![2, 0],
        vec![2, 0, 3],
        // A kind and no body; a body cut by one byte.
        vec![3, 0, 2, 0],
        vec![4, 0, 4, 0, 0],
        // Lengths 0 and 1, with whole records behind.
        [&[0, 0][..], &age, &age].concat(),
        [&[1, 0, 3][..], &age, &age].concat(),
        // Over 5,000 and cut.
        [&[0x89, 0x13, 1, 0][..], &[7; 4_998]].concat(),
        vec![0xFF, 0xFF, 3, 0],
    ]
}
