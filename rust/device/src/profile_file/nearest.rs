//! Which known word a misspelt one may stand for.

/// The known words that are nearest, if they are near: one letter off, or two in a longer word.
pub(super) fn nearest<'a>(word: &str, known: &[&'a str]) -> Vec<&'a str> {
    let word: Vec<char> = word
        .chars()
        .take(20) // no known word is near a longer one
        .map(|letter| letter.to_ascii_lowercase())
        .collect();
    let distances: Vec<usize> = known.iter().map(|other| distance(&word, other)).collect();
    let least = distances.iter().min().copied().unwrap_or(usize::MAX);
    let pairs = known.iter().zip(&distances);
    pairs
        .filter(|(other, distance)| **distance == least && least <= (other.len() / 3).max(1))
        .map(|(other, _)| *other)
        .collect()
}

/// How many letters have to be changed, added, left out, or swapped with the next one.
fn distance(word: &[char], other: &str) -> usize {
    let other: Vec<char> = other.chars().collect();
    let mut rows: Vec<Vec<usize>> = vec![(0..=other.len()).collect()];
    for (i, letter) in word.iter().enumerate() {
        let mut row = vec![i + 1];
        for (j, wanted) in other.iter().enumerate() {
            let changed = rows[i][j] + usize::from(letter != wanted);
            let mut least = changed.min(rows[i][j + 1] + 1).min(row[j] + 1);
            if i > 0 && j > 0 && *letter == other[j - 1] && word[i - 1] == *wanted {
                least = least.min(rows[i - 1][j - 1] + 1);
            }
            row.push(least);
        }
        rows.push(row);
    }
    rows[word.len()][other.len()]
}
