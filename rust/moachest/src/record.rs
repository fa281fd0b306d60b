//! Records, as floor and range answer them (docs/FORMAT.md#record).

/// A key and its value; without one it is a ghost.
pub type Entry = (Vec<u8>, Option<Vec<u8>>);

const GHOST: usize = 0xFFFF;

fn u16_at(bytes: &[u8], at: usize) -> usize {
    usize::from(bytes[at]) | usize::from(bytes[at + 1]) << 8
}

/// The lengths of the record at the start: its key's, and its value's if it is no ghost.
fn lengths(records: &[u8]) -> (usize, Option<usize>) {
    let mark = u16_at(records, 2);
    (u16_at(records, 0), (mark != GHOST).then_some(mark))
}

/// The entry of the record at the start.
#[inline]
pub(crate) fn entry(records: &[u8]) -> Entry {
    let (key, value) = lengths(records);
    let (head, rest) = records.split_at(4 + key);
    (head[4..].to_vec(), value.map(|length| rest[..length].to_vec()))
}

/// The entries of records that stand one after another.
pub(crate) fn entries(mut records: &[u8]) -> Vec<Entry> {
    let mut out = Vec::new();
    while !records.is_empty() {
        out.push(entry(records));
        let (key, value) = lengths(records);
        records = &records[4 + key + value.unwrap_or(0)..];
    }
    out
}

#[cfg(test)]
mod tests {
    use super::entries;

    #[test]
    fn records_are_read_back() {
        assert_eq!(entries(&[]), []);
        let both = [2, 0, 1, 0, 7, 8, 9, 1, 0, 0xFF, 0xFF, 5, 0, 0, 0, 0];
        assert_eq!(entries(&both), [(vec![7, 8], Some(vec![9])), (vec![5], None), (vec![], Some(vec![]))]);
    }
}
