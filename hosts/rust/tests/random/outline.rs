//! The outline of any table.

use crate::lent::{count, table};
use generate::Random;
use idl::{outline, records, Record, TREE_NUMBERS};

/// The outline of records that stand at one level, as its description says: the subtrees to the left, then the last root
/// and what is below it.
fn described(level: usize, records: &[Record], outline: &mut Vec<(usize, Record)>) {
    if let Some((root, before)) = records.split_last() {
        let start = if root.size == 0 { before.len() } else { records.len().saturating_sub(root.size) };
        described(level, &before[..start], outline);
        outline.push((level, *root));
        described(level + 1, &before[start..], outline);
    }
}

/// Numbers the records by their rules and demands that the outline has each of the first `count` once.
fn assert_each_once(table: &mut [u32], count: usize) {
    for (place, record) in table.chunks_exact_mut(TREE_NUMBERS).enumerate() {
        record[0] = place as u32;
    }
    let mut places: Vec<u32> = outline(table, count).iter().map(|(_, record)| record.rule).collect();
    places.sort_unstable();
    let capacity = table.len() / TREE_NUMBERS;
    assert!(
        places.into_iter().eq(0..count.min(capacity) as u32),
        "not each once: the first {count} of {capacity} records"
    );
}

pub fn assert_as_described(table: &mut [u32], count: usize) {
    assert_each_once(table, count);
    let records: Vec<Record> = records(table, count).collect();
    let mut wanted = Vec::new();
    described(0, &records, &mut wanted);
    assert_eq!(outline(table, count), wanted);
}

#[test]
fn any_table() {
    let mut random = Random::new(1);
    for _ in 0..20_000 {
        let mut table = table(200, &mut random);
        let count = count(table.len() / TREE_NUMBERS, &mut random);
        assert_as_described(&mut table, count);
    }
}

#[test]
fn long_tables() {
    const RECORDS: usize = 1_000_000;
    for size in [0, 1, 2, 1000, RECORDS as u32, u32::MAX] {
        assert_each_once(&mut vec![size; TREE_NUMBERS * RECORDS], usize::MAX);
    }
}
