//! The right word for a wrong one.

/// The word of `right` that is nearest to `wrong`, where one is near: a letter left out, put in, changed or swapped with
/// the next, one for every three letters.
pub fn nearest<'a>(wrong: &str, right: impl Iterator<Item = &'a str>) -> Option<&'a str> {
    let near = right.map(|word| (distance(wrong, word), word)).min()?;
    (near.0 <= wrong.chars().count().div_ceil(3)).then_some(near.1)
}

/// `; did you mean W?`, or nothing where no word is near.
pub fn hint<'a>(wrong: &str, dashes: &str, right: impl Iterator<Item = &'a str>) -> String {
    nearest(wrong, right).map_or(String::new(), |word| format!("; did you mean {dashes}{word}?"))
}

/// How many letters have to be left out, put in, changed or swapped to make one word of the other.
fn distance(one: &str, other: &str) -> usize {
    let (one, other): (Vec<char>, Vec<char>) = (one.chars().collect(), other.chars().collect());
    // row i has the distances of the first i letters of `one` from every beginning of `other`
    let mut rows = vec![(0..=other.len()).collect::<Vec<_>>()];
    for i in 1..=one.len() {
        let mut row = vec![i];
        for j in 1..=other.len() {
            let changed = rows[i - 1][j - 1] + usize::from(one[i - 1] != other[j - 1]);
            let mut least = changed.min(rows[i - 1][j] + 1).min(row[j - 1] + 1);
            if i > 1 && j > 1 && one[i - 1] == other[j - 2] && one[i - 2] == other[j - 1] {
                least = least.min(rows[i - 2][j - 2] + 1);
            }
            row.push(least);
        }
        rows.push(row);
    }
    rows[one.len()][other.len()]
}

#[cfg(test)]
mod tests {
    use super::{distance, nearest};

    #[test]
    fn the_nearest_word_is_found_where_one_is_near() {
        let words = ["list", "classes", "clear", "keep", "blank", "save"];
        for (wrong, right) in [
            ("lst", "list"),
            ("lsit", "list"),
            ("calsses", "classes"),
            ("claer", "clear"),
            ("kepe", "keep"),
            ("blanc", "blank"),
        ] {
            assert_eq!(nearest(wrong, words.into_iter()), Some(right), "{wrong}");
        }
        for wrong in ["", "zzz", "wash"] {
            assert_eq!(nearest(wrong, words.into_iter()), None, "{wrong}");
        }
    }

    #[test]
    fn a_distance_counts_letters() {
        assert_eq!(distance("save", "save"), 0);
        assert_eq!(distance("svae", "save"), 1);
        assert_eq!(distance("", "save"), 4);
        assert_eq!(distance("shave", "save"), 1);
    }
}
