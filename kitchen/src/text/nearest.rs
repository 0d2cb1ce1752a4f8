//! The word that was meant, where one is mistyped.

/// So many letters may be wrong, and fewer than the word has.
const WRONG: usize = 2;

/// The known word that is nearest to a mistyped one, if one is near.
pub fn nearest<'a>(word: &str, known: impl Iterator<Item = &'a str>) -> Option<&'a str> {
    let letters: Vec<char> = word.chars().collect();
    let most = WRONG.min(letters.len().saturating_sub(1));
    known
        .map(|candidate| (distance(&letters, candidate), candidate))
        .filter(|&(distance, _)| distance <= most)
        .min()
        .map(|(_, candidate)| candidate)
}

/// How many letters have to be put in, taken out, changed or swapped with their
/// neighbour to make one word of the other; words of very different lengths are
/// told to be far.
fn distance(from: &[char], to: &str) -> usize {
    let to: Vec<char> = to.chars().collect();
    if from.len().abs_diff(to.len()) > WRONG {
        return usize::MAX;
    }
    let mut before_last = vec![0; to.len() + 1];
    let mut last: Vec<usize> = (0..=to.len()).collect();
    for row in 0..from.len() {
        let mut next = vec![row + 1; to.len() + 1];
        for column in 0..to.len() {
            let changed = last[column] + usize::from(from[row] != to[column]);
            next[column + 1] = changed.min(last[column + 1] + 1).min(next[column] + 1);
            let is_swapped =
                row > 0 && column > 0 && from[row] == to[column - 1] && from[row - 1] == to[column];
            if is_swapped {
                next[column + 1] = next[column + 1].min(before_last[column - 1] + 1);
            }
        }
        before_last = std::mem::replace(&mut last, next);
    }
    last[to.len()]
}
