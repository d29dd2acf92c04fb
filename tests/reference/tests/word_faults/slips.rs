//! What stands for a word in a store that has its start, its length, its letters or its index wrong. Reading takes such a text for
//! the word, writing puts it in the word's place.

use reference::word_edges::words;

/// Nothing; one letter less at the end or at the beginning; capitals; another word. With each other word before or behind it: one
/// letter more, one letter late or early, or all of both.
pub fn slips(word: &str) -> Vec<String> {
    let (shorter, later) = (&word[..word.len() - 1], &word[1..]);
    let capital = [&word[..1].to_uppercase(), later].concat();
    let mut all = vec![String::new(), shorter.to_string(), later.to_string(), capital, word.to_uppercase()];
    for other in words().into_iter().filter(|other| *other != word) {
        let (first, last) = (&other[..1], &other[other.len() - 1..]);
        all.push(other.to_string());
        all.extend([[word, first], [last, word]].map(|parts| parts.concat()));
        all.extend([[later, first], [last, shorter]].map(|parts| parts.concat()));
        all.extend([[word, other], [other, word]].map(|parts| parts.concat()));
    }
    all.sort();
    all.dedup();
    all
}

/// Every two of these words.
pub fn pairs(group: &[&'static str]) -> Vec<[&'static str; 2]> {
    let behind = |at: usize| group[at + 1..].iter().map(move |second| [group[at], second]);
    (0..group.len()).flat_map(behind).collect()
}
