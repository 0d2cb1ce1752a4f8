//! A crate's text, taken apart into functions.

use crate::functions::Function;
use crate::words::words;
use std::collections::{BTreeMap, BTreeSet};

/// The files of a crate's `src/`, by their paths in the crate.
pub type Files = BTreeMap<String, String>;

/// The functions that each one calls, directly or through others.
pub type Calls<'a> = BTreeMap<&'a str, BTreeSet<&'a str>>;

#[derive(Clone, PartialEq)]
pub struct Source {
    /// The body of each function, by the name that the check gives it.
    pub bodies: BTreeMap<String, String>,
    /// All that is in no body, contracts too.
    rest: String,
}

impl Source {
    pub fn of(name: &str, files: &Files) -> Source {
        let mut source = Source {
            bodies: BTreeMap::new(),
            rest: String::new(),
        };
        for (path, text) in files {
            let module = module(name, path);
            let mut behind = 0;
            for Function { name, body } in Function::all(text) {
                source.rest += &text[behind..body.start];
                behind = body.end;
                let known = source.bodies.entry(format!("{module}::{name}"));
                *known.or_default() += &text[body];
            }
            source.rest += &text[behind..];
        }
        source
    }

    /// A function whose name stands in a body counts as called there.
    pub fn calls(&self) -> Calls<'_> {
        let names = || self.bodies.keys().map(String::as_str);
        let mut calls = Calls::new();
        for (name, body) in &self.bodies {
            let words: BTreeSet<&str> = words(body).iter().map(|word| word.text).collect();
            let called = names().filter(|name| words.contains(last(name)));
            calls.insert(name, called.collect());
        }
        names().map(|name| (name, reached(&calls, name))).collect()
    }
}

/// `src/tail.rt` of `lines` is `lines::tail`.
fn module(name: &str, path: &str) -> String {
    let inner = path.trim_start_matches("src/").trim_end_matches(".rt");
    match inner {
        "lib" | "main" => name.to_string(),
        _ => format!("{name}::{}", inner.replace('/', "::")),
    }
}

fn last(name: &str) -> &str {
    name.rsplit("::").next().unwrap_or(name)
}

fn reached<'a>(calls: &Calls<'a>, from: &'a str) -> BTreeSet<&'a str> {
    let mut reached = BTreeSet::new();
    let mut next = vec![from];
    while let Some(name) = next.pop() {
        next.extend(calls[name].iter().filter(|called| reached.insert(**called)));
    }
    reached
}
