//! A line cut into words, each with its place.

use super::place::{Fault, Place};
use super::visible::quoted;
use std::ops::RangeInclusive;
use std::rc::Rc;

/// Some editors put it ahead of a text.
const BYTE_ORDER_MARK: char = '\u{feff}';
/// From here on a line is a comment.
const COMMENT: char = '#';
/// Around the title of a plan.
const QUOTE: char = '"';

/// A word of a line.
#[derive(Clone, Debug)]
pub struct Word {
    pub text: Rc<str>,
    pub place: Place,
}

/// What is left to be read of a line.
pub struct Words {
    words: std::vec::IntoIter<Word>,
    /// The last word that was read, and where the line ends.
    last: Place,
    end: Place,
}

impl Words {
    /// The words of a line; a title in quotes is one. What is missing is told
    /// at the end of the line.
    pub fn of(line: usize, text: &str) -> Result<Words, Fault> {
        let text = text.strip_prefix(BYTE_ORDER_MARK).unwrap_or(text);
        let text: Rc<str> = text.trim_end().into();
        let place = |range| Place {
            line,
            text: text.clone(),
            range,
        };
        let mut words = Vec::new();
        let mut from = 0;
        while let Some((start, first)) = next_letter(&text, from) {
            if first == COMMENT {
                break;
            }
            let length = match first {
                QUOTE => title_length(&text[start..]).ok_or_else(|| {
                    Fault::new(&place(start..text.len()), "the title does not end")
                        .helped("a title stands between two \"")
                })?,
                _ => word_length(&text[start..]),
            };
            from = start + length;
            words.push(Word {
                text: text[start..from].into(),
                place: place(start..from),
            });
        }
        let end = place(from..from);
        let last = words
            .first()
            .map_or(end.clone(), |word: &Word| word.place.clone());
        Ok(Words {
            words: words.into_iter(),
            last,
            end,
        })
    }

    pub fn peek(&self) -> Option<&Word> {
        self.words.as_slice().first()
    }

    /// The next word, which is read.
    pub fn take(&mut self) -> Option<Word> {
        let word = self.words.next()?;
        self.last = word.place.clone();
        Some(word)
    }

    /// Whether this word comes next.
    pub fn is_next(&self, word: &str) -> bool {
        self.peek().is_some_and(|next| &*next.text == word)
    }

    /// Passes over this word where it comes next.
    pub fn skip_word(&mut self, word: &str) -> bool {
        self.is_next(word) && self.take().is_some()
    }

    /// Where the next word stands, or the end of the line.
    pub fn here(&self) -> Place {
        self.peek()
            .map_or(self.end.clone(), |word| word.place.clone())
    }

    /// The last word that was read.
    pub fn last(&self) -> &Place {
        &self.last
    }

    /// This word comes next, as part of what another begins.
    pub fn expect(&mut self, of: &str, word: &str) -> Result<(), Fault> {
        if self.is_next(word) {
            self.take();
            return Ok(());
        }
        let what = format!("'{of}' wants '{word}' next, found {}", self.found());
        Err(Fault::new(&self.here(), what))
    }

    /// The number of a word comes next.
    pub fn number(&mut self, of: &str, limits: RangeInclusive<u32>) -> Result<u32, Fault> {
        let number = self.peek().and_then(|word| word.text.parse().ok());
        match number.filter(|number| limits.contains(number)) {
            Some(number) => {
                self.take();
                Ok(number)
            }
            None => {
                let (least, most) = (limits.start(), limits.end());
                let found = self.found();
                let what = format!("'{of}' wants a number from {least} to {most}, found {found}");
                Err(Fault::new(&self.here(), what))
            }
        }
    }

    /// The line ends here.
    pub fn end(&mut self, of: &str) -> Result<(), Fault> {
        match self.peek() {
            None => Ok(()),
            Some(word) => {
                let what = format!("'{of}' wants nothing more, found {}", quoted(&word.text));
                Err(Fault::new(&word.place, what))
            }
        }
    }

    /// The next word, as a message shows it.
    pub fn found(&self) -> String {
        self.peek()
            .map_or("nothing".to_string(), |word| quoted(&word.text))
    }
}

/// The next letter that is no space, from a place on.
fn next_letter(text: &str, from: usize) -> Option<(usize, char)> {
    text[from..]
        .char_indices()
        .find(|(_, letter)| !letter.is_whitespace())
        .map(|(place, letter)| (from + place, letter))
}

/// The bytes of the word at the front.
fn word_length(text: &str) -> usize {
    text.find(|letter: char| letter.is_whitespace() || letter == COMMENT || letter == QUOTE)
        .unwrap_or(text.len())
}

/// The bytes of the title at the front, with both its quotes.
fn title_length(text: &str) -> Option<usize> {
    let behind = text[1..].find(QUOTE)?;
    Some(1 + behind + 1)
}
