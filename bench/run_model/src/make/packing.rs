//! Packs records behind their table.

/// The bytes that records take when they are packed without gaps.
pub fn packed_length(records: &[Vec<u8>]) -> usize {
    2 + records.iter().map(|record| 4 + record.len()).sum::<usize>()
}

/// A run file of these records. `gap` answers the bytes that stand before each record and mean nothing.
pub fn pack_with_gaps(records: &[Vec<u8>], mut gap: impl FnMut() -> Vec<u8>) -> Vec<u8> {
    let mut table = Vec::with_capacity(2 + 4 * records.len());
    let mut body = Vec::new();
    push_number(&mut table, records.len());
    for record in records {
        body.extend(gap());
        push_number(&mut table, 2 + 4 * records.len() + body.len());
        push_number(&mut table, record.len());
        body.extend_from_slice(record);
    }
    table.extend(body);
    table
}

pub fn pack(records: &[Vec<u8>]) -> Vec<u8> {
    pack_with_gaps(records, Vec::new)
}

/// Adds a number of two bytes. What does not fit is cut off, which makes one more kind of damaged table.
fn push_number(bytes: &mut Vec<u8>, number: usize) {
    bytes.extend_from_slice(&(number as u16).to_be_bytes());
}
