//! What somebody may have meant who wrote a word that there is not.

/// A question after a comma, where one of the known words is near: "; did you mean 'check'?".
pub fn meant<'a>(word: &str, known: impl IntoIterator<Item = &'a str>) -> String {
    match nearest(word, known) {
        Some(near) => format!("; did you mean '{near}'?"),
        None => String::new(),
    }
}

/// The known word that is nearest, of those that differ in a third of their letters or less.
pub fn nearest<'a>(word: &str, known: impl IntoIterator<Item = &'a str>) -> Option<&'a str> {
    let letters: Vec<char> = word.chars().take(LONGEST).collect();
    let measured = known.into_iter().map(|near| {
        let other: Vec<char> = near.chars().take(LONGEST).collect();
        (distance(&letters, &other), near)
    });
    let near = measured.filter(|(distance, near)| *distance <= near.chars().count().max(3) / 3);
    near.min().map(|(_, near)| near)
}

/// Of longer words only so many letters are compared.
const LONGEST: usize = 60;

/// How many letters are to be put in, left out, changed or exchanged with the next one to make the one of the other.
fn distance(one: &[char], other: &[char]) -> usize {
    let mut before: Vec<usize> = Vec::new();
    let mut last: Vec<usize> = (0..=other.len()).collect();
    for (at, letter) in one.iter().enumerate() {
        let mut row = vec![at + 1];
        for (to, due) in other.iter().enumerate() {
            let changed = last[to] + usize::from(letter != due);
            let mut least = changed.min(last[to + 1] + 1).min(row[to] + 1);
            let exchanged = at > 0 && to > 0 && one[at - 1] == *due && *letter == other[to - 1];
            if exchanged {
                least = least.min(before[to - 1] + 1);
            }
            row.push(least);
        }
        before = std::mem::replace(&mut last, row);
    }
    last[other.len()]
}

#[cfg(test)]
mod tests {
    use super::*;

    #[test]
    fn near_words_are_meant() {
        let known = ["check", "catalogue", "compare", "sealed", "frozen"];
        for (word, near) in [
            ("chekc", Some("check")),
            ("catalog", Some("catalogue")),
            ("comapre", Some("compare")),
            ("sealde", Some("sealed")),
            ("dried", None),
            ("", None),
        ] {
            assert_eq!(nearest(word, known), near, "{word}");
        }
    }
}
