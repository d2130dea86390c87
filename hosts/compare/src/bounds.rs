//! Counts of instructions held against their bounds.
//!
//! A count is a line of text, part, reader and number, as in `corba tokens proved 1000000`; a bound is a line of text,
//! part and number. Lines that start with `#` are passed over.

use std::collections::BTreeMap;

/// How far a new bound lies above its count, in percent.
const ROOM: u64 = 3;
/// How far a count may lie below its bound, in percent.
const SLACK: u64 = 10;

/// Numbers by what stands before them, a text and a part, and for a count the reader.
type Numbers = BTreeMap<String, u64>;

fn numbers(lines: &str) -> Result<Numbers, String> {
    let mut numbers = Numbers::new();
    for line in lines.lines().filter(|line| !line.starts_with('#')) {
        let (name, number) = line.rsplit_once(' ').ok_or(format!("no number: {line}"))?;
        let number = number.parse().map_err(|_| format!("no number: {line}"))?;
        if numbers.insert(name.to_string(), number).is_some() {
            return Err(format!("there twice: {name}"));
        }
    }
    Ok(numbers)
}

/// The counts of one reader, by text and part.
fn counts(lines: &str, reader: &str) -> Result<Numbers, String> {
    let of_reader = |(name, count): (String, u64)| Some((name.strip_suffix(reader)?.trim_end().to_string(), count));
    let counts: Numbers = numbers(lines)?.into_iter().filter_map(of_reader).collect();
    if counts.is_empty() {
        return Err(format!("no counts of the {reader} reader"));
    }
    Ok(counts)
}

/// The lines of new bounds for these counts.
pub fn write(count_lines: &str) -> Result<String, String> {
    let bound = |(name, count): (String, u64)| format!("{name} {}\n", count + count * ROOM / 100);
    Ok(counts(count_lines, "proved")?.into_iter().map(bound).collect())
}

/// A table of the counts, and what is wrong with them or with the bounds.
pub fn check(count_lines: &str, bound_lines: &str) -> Result<(String, Vec<String>), String> {
    let [ordinary, proved] = [counts(count_lines, "ordinary")?, counts(count_lines, "proved")?];
    let bounds = numbers(bound_lines)?;
    let mut table = String::from("| Text | Part | Ordinary | Proved | Ratio | Bound |\n|---|---|---|---|---|---|\n");
    let mut wrong = Vec::new();
    for (name, &count) in &proved {
        let bound = bounds.get(name).copied();
        let theirs = ordinary.get(name).copied().unwrap_or(0);
        let ratio = count as f64 / theirs as f64;
        let stated = bound.map_or("none".to_string(), |bound| bound.to_string());
        table += &format!("| {} | {theirs} | {count} | {ratio:.2} | {stated} |\n", name.replace(' ', " | "));
        match bound {
            None => wrong.push(format!("{name}: no bound")),
            Some(bound) if count > bound => wrong.push(format!("{name}: {count} is above the bound {bound}")),
            Some(bound) if count < bound - bound * SLACK / 100 => {
                wrong.push(format!("{name}: {count} is more than {SLACK}% below the bound {bound}: lower the bound"))
            }
            Some(_) => {}
        }
    }
    let uncounted = bounds.keys().filter(|name| !proved.contains_key(*name));
    wrong.extend(uncounted.map(|name| format!("{name}: a bound, but no count")));
    Ok((table, wrong))
}

/// How many words there are in a text of words and white space.
fn count_words(text: &[u8]) -> usize {
    text.split(u8::is_ascii_whitespace).filter(|word| !word.is_empty()).count()
}

/// A table of what the token part takes for each word of these texts, or for each byte of a text that is one word.
pub fn by_word(count_lines: &str, texts: &[(&str, Vec<u8>)]) -> Result<String, String> {
    let [ordinary, proved] = [counts(count_lines, "ordinary")?, counts(count_lines, "proved")?];
    let mut table =
        String::from("| Text | Words | Bytes | For each | Ordinary | Proved |\n|---|---|---|---|---|---|\n");
    for (name, text) in texts {
        let (words, bytes) = (count_words(text), text.len());
        let (unit, units) = if words == 1 { ("byte", bytes) } else { ("word", words) };
        let for_each = |counts: &Numbers| {
            let count = counts.get(&format!("{name} tokens")).ok_or(format!("{name}: no count"))?;
            Ok::<f64, String>(*count as f64 / units as f64)
        };
        let (theirs, ours) = (for_each(&ordinary)?, for_each(&proved)?);
        table += &format!("| {name} | {words} | {bytes} | {unit} | {theirs:.2} | {ours:.2} |\n");
    }
    Ok(table)
}
