//! The near word for a mistyped one.

/// The known word that takes the fewest steps to come from a given one, if that is at most two, and fewer than it has
/// letters.
pub fn near<'a>(given: &str, known: impl IntoIterator<Item = &'a str>) -> Option<&'a str> {
    let most = 2.min(given.chars().count().saturating_sub(1));
    let distances = known.into_iter().map(|word| (distance(given, word), word));
    let (steps, word) = distances.min_by_key(|(steps, _)| *steps)?;
    (steps <= most).then_some(word)
}

/// How many letters have to be added, left out, changed or exchanged with the next.
fn distance(one: &str, two: &str) -> usize {
    let (one, two): (Vec<char>, Vec<char>) = (one.chars().collect(), two.chars().collect());
    let mut rows: Vec<Vec<usize>> = vec![(0..=two.len()).collect()];
    for i in 1..=one.len() {
        let mut row = vec![i];
        for j in 1..=two.len() {
            let changed = rows[i - 1][j - 1] + usize::from(one[i - 1] != two[j - 1]);
            let mut best = changed.min(rows[i - 1][j] + 1).min(row[j - 1] + 1);
            if i > 1 && j > 1 && one[i - 1] == two[j - 2] && one[i - 2] == two[j - 1] {
                best = best.min(rows[i - 2][j - 2] + 1);
            }
            row.push(best);
        }
        rows.push(row);
    }
    rows[one.len()][two.len()]
}

#[cfg(test)]
mod tests {
    use super::*;

    #[test]
    fn near_words() {
        let words = ["judge", "make", "merge", "walk", "log", "lock", "tray"];
        for (given, expected) in [
            ("jduge", Some("judge")),
            ("judg", Some("judge")),
            ("wlak", Some("walk")),
            ("marge", Some("merge")),
            ("tray", Some("tray")),
            ("exercise", None),
            ("x", None),
            ("", None),
        ] {
            assert_eq!(near(given, words), expected, "{given}");
        }
        assert_eq!(distance("ca", "abc"), 3);
        assert_eq!(distance("", "abc"), 3);
    }
}
