//! What is lent at random.

use generate::Random;

/// How many ways there are to draw a number.
const WAYS: usize = 6;

/// A table of at most this many numbers, all drawn in one way or each in its own.
pub fn table(most: usize, random: &mut Random) -> Vec<u32> {
    let length = random.below(most + 1);
    let all = random.below(2 * WAYS);
    let way = |random: &mut Random| if all < WAYS { all } else { random.below(WAYS) };
    (0..length).map(|_| number(way(random), length, random)).collect()
}

/// A number of any way.
pub fn any_number(random: &mut Random) -> u32 {
    number(random.below(WAYS), 100, random)
}

/// A number drawn in one of the ways, for a table of this length.
fn number(way: usize, length: usize, random: &mut Random) -> u32 {
    match way {
        0 => 0,
        1 => random.below(4) as u32,
        2 => random.below(length + 1) as u32,
        3 => u32::MAX,
        4 => u32::MAX - random.below(length + 1) as u32,
        _ => random.number() as u32,
    }
}

/// A count for a table of so many records: below it, beyond it, or near the largest.
pub fn count(records: usize, random: &mut Random) -> usize {
    match random.below(4) {
        0 => records,
        1 => random.below(records + 1),
        2 => records + random.below(4),
        _ => usize::MAX - random.below(4),
    }
}
