//! The functions of a text, each with where its body stands.

use crate::words::{words, Word};
use std::ops::Range;

/// A function's name, behind that of the type whose it is, and its body.
pub struct Function {
    pub name: String,
    pub body: Range<usize>,
}

impl Function {
    /// All of a text, in order.
    pub fn all(text: &str) -> Vec<Function> {
        let words = words(text);
        let mut functions = Vec::new();
        // The type whose functions come next, and where they end.
        let (mut owner, mut end) = ("", 0);
        let mut at = 0;
        while at < words.len() {
            let mut next = at + 1;
            if words[at].text == "impl" {
                next = find(&words, at, "{");
                (owner, end) = (owner_of(&words[at + 1..next]), close(&words, next));
            } else if words[at].text == "trait" {
                // What a trait asks for has no body.
                next = close(&words, find(&words, at, "{"));
            } else if words[at].text == "fn" {
                let open = body(&words, at);
                let name = words[at + 1].text;
                next = close(&words, open);
                functions.push(Function {
                    name: match at < end {
                        true => format!("{owner}::{name}"),
                        false => name.to_string(),
                    },
                    body: words[open].place..words[next].place,
                });
            }
            at = next;
        }
        functions
    }
}

/// The next such word. A text that ends ahead of it is none of a crate.
fn find(words: &[Word], from: usize, text: &str) -> usize {
    let ahead = words[from..].iter().take_while(|word| word.text != text);
    from + ahead.count()
}

/// The type of an `impl`, behind its own parameters and behind a trait.
fn owner_of<'a>(words: &[Word<'a>]) -> &'a str {
    let of_trait = words.iter().position(|word| word.text == "for");
    match (of_trait, words[0].text) {
        (Some(place), _) => words[place + 1].text,
        (None, "<") => words[find(words, 0, ">") + 1].text,
        (None, name) => name,
    }
}

/// Where a function's body begins: the first block that is not of its contract,
/// whose clauses may have names.
fn body(words: &[Word], from: usize) -> usize {
    let open = find(words, from, "{");
    let is_clause = |word: &Word| ["ghost", "requires", "ensures"].contains(&word.text);
    match words[from..open].iter().any(is_clause) {
        true => body(words, close(words, open)),
        false => open,
    }
}

/// Where a block ends.
fn close(words: &[Word], open: usize) -> usize {
    let mut depth = 0;
    let inside = words[open..].iter().take_while(|word| {
        match word.text {
            "{" => depth += 1,
            "}" => depth -= 1,
            _ => {}
        }
        depth > 0
    });
    open + inside.count()
}
