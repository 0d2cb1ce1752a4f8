//! Which edits are of one function, and which functions are kept apart.

use crate::code::Code;
use crate::edit::Edit;
use crate::group::{groups, Wrong};
use crate::source::Files;

const TEXT: &str = "
const MOST: u8 = 4;
// fn no_function() {}
impl<'a> Pair<'a> {
    pub fn low(self) -> u8
        requires { self.left ≡ 0 }
        ensures low { result ≡ 1 }
        ensures alike { result ≡ record { value = 3 }.value }
    {
        1
    }
}
fn middle() -> u8 requires { a ≡ record { b = 2 } } {
    two + pair.low()
}
fn high() -> [u8; 2] { three + middle() }
fn apart() -> u8 { b'}' + \"}{\" + four }
fn beside() -> u8 { five }
trait Asks {
    fn asked(&self) -> u8
        requires { 7 ≤ 8 };
}
impl From<Pair<u8>> for Told {
    ghost from_gives = { λ pair told. told ≡ six pair };

    fn from(pair: Pair<u8>) -> Told { six + 1 }
}
";

fn code() -> Code {
    let files = Files::from([("src/part.rt".to_string(), TEXT.to_string())]);
    Code::of("some", files)
}

fn edit(name: &str, old: &str, new: &str) -> Edit {
    Edit {
        name: name.to_string(),
        text: format!("file: src/part.rt\nold: {old}\nnew: {new}\n"),
    }
}

/// Which edits share a check.
fn shared(edits: &[Edit]) -> Vec<Vec<String>> {
    let code = code();
    let wrong: Vec<Wrong> = edits
        .iter()
        .map(|edit| Wrong::of(&code, edit).expect("an edit of one function"))
        .collect();
    let named = |group: Edit| {
        let lines = group.text.lines();
        let named = lines.filter_map(|line| line.strip_prefix("# ")?.split_once(": fn "));
        named
            .map(|(name, function)| format!("{name} {function}"))
            .collect()
    };
    groups(&code, &wrong).into_iter().map(named).collect()
}

#[test]
fn callers_stay_apart() {
    let edits = [
        edit("a", "        1", "        0"),
        edit("b", "two", "0"),
        edit("c", "three", "0"),
        edit("d", "four", "0"),
        edit("e", "five", "0"),
        edit("f", "six + 1", "six"),
    ];
    let expected = [
        &[
            "a some::part::Pair::low",
            "d some::part::apart",
            "e some::part::beside",
            "f some::part::Told::from",
        ][..],
        &["b some::part::middle"],
        &["c some::part::high"],
    ];
    assert_eq!(shared(&edits), expected);
}

#[test]
fn one_more_call_is_seen() {
    let edits = [edit("d", "four", "beside()"), edit("e", "five", "0")];
    let expected = [["e some::part::beside"], ["d some::part::apart"]];
    assert_eq!(shared(&edits), expected);
}

#[test]
fn replacements_are_not_in_each_others_way() {
    let edits = [edit("d", "four", "five"), edit("e", "five", "four")];
    let expected = [["d some::part::apart"], ["e some::part::beside"]];
    assert_eq!(shared(&edits), expected);
    let edits = [edit("d", "four", "five"), edit("e", "five", "0")];
    let expected = [["e some::part::beside", "d some::part::apart"]];
    assert_eq!(shared(&edits), expected);
}

#[test]
fn what_is_of_no_function_is_not_grouped() {
    let code = code();
    for (old, new) in [
        ("u8 = 4", "u8 = 5"),
        ("left ≡ 0", "left ≡ 1"),
        ("result ≡ 1", "result ≡ 2"),
        ("value = 3", "value = 4"),
        ("b = 2", "b = 3"),
        ("no_function", "function"),
        ("u8", "u16"),
        ("nowhere", "somewhere"),
    ] {
        assert!(Wrong::of(&code, &edit("x", old, new)).is_none(), "{old}");
    }
    let mut two = edit("x", "four", "0");
    two.text += &edit("y", "five", "0").text;
    assert!(Wrong::of(&code, &two).is_none());
}
