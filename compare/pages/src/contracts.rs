//! The functions of a file of code, with their contracts.

use crate::tree::Text;
use std::ops::Range;

/// A function, a type or a constant as it stands in its file.
pub struct Function<'a> {
    pub path: &'a str,
    /// The type that it belongs to.
    owner: Option<&'a str>,
    name: &'a str,
    /// The comment ahead of it, what it is called with, and its contract.
    pub lines: Vec<&'a str>,
    /// Whether a trait asks for it: its lines begin with those of the `impl`.
    pub is_of_trait: bool,
    /// Where it stands in the file, its body included.
    pub places: Range<usize>,
    pub kind: Kind,
}

#[derive(Clone, Copy, PartialEq, Eq)]
pub enum Kind {
    Public,
    Private,
    /// A public type.
    Type,
    Constant,
}

impl<'a> Function<'a> {
    /// Those of a file, in their order.
    pub fn all(text: &'a Text) -> Vec<Function<'a>> {
        let lines: Vec<&str> = text.text.lines().collect();
        let heads: Vec<(usize, Kind, &str)> = (0..lines.len())
            .filter_map(|place| head(lines[place]).map(|(kind, name)| (place, kind, name)))
            .collect();
        // The first function of an `impl` of a trait has the lines ahead of it, with
        // the clauses that the trait asks for.
        let opened = |place: usize| of_trait(&lines, place);
        let leads = |place: usize| {
            let ahead = heads.iter().rev().find(|head| head.0 < place);
            opened(place).filter(|&opened| ahead.is_none_or(|ahead| ahead.0 < opened))
        };
        let firsts = heads
            .iter()
            .map(|&(place, _, _)| first(&lines, leads(place).unwrap_or(place)));
        let ends: Vec<usize> = firsts.clone().skip(1).chain([lines.len()]).collect();
        let places = firsts.zip(ends).map(|(first, end)| first..end);
        heads
            .iter()
            .zip(places)
            .map(|(&(place, kind, name), places)| Function {
                path: &text.path,
                owner: owner(&lines[..place], lines[place]),
                name,
                lines: match (leads(place), opened(place)) {
                    (Some(_), _) => {
                        told_of_trait(&lines, places.start..first(&lines, place), place)
                    }
                    (None, Some(opened)) => told_of_trait(&lines, opened..opened + 1, place),
                    (None, None) => told(&lines, place, kind),
                },
                is_of_trait: opened(place).is_some(),
                places,
                kind: match opened(place) {
                    Some(_) => Kind::Public,
                    None => kind,
                },
            })
            .collect()
    }

    /// Its name, behind that of its type.
    pub fn name(&self) -> String {
        match self.owner {
            Some(owner) => format!("{owner}::{}", self.name),
            None => self.name.to_string(),
        }
    }

    /// The type that it belongs to, or itself where there is none.
    pub fn root(&self) -> &'a str {
        self.owner.unwrap_or(self.name)
    }

    /// Its contract alone.
    pub fn contract(&self) -> impl Iterator<Item = &'a str> + '_ {
        self.lines
            .iter()
            .copied()
            .skip_while(|line| !is_clause(line))
    }
}

/// What a line is the head of.
fn head(line: &str) -> Option<(Kind, &str)> {
    let line = line.trim_start();
    let (is_public, line) = match line.strip_prefix("pub ") {
        Some(line) => (true, line),
        None => (false, line.strip_prefix("pub(crate) ").unwrap_or(line)),
    };
    let line = line.strip_prefix("extern \"C\" ").unwrap_or(line);
    let (word, rest) = line.split_once(' ')?;
    let name = rest
        .split(|c: char| !c.is_alphanumeric() && c != '_')
        .next()?;
    let kind = match (word, is_public) {
        ("fn", true) => Kind::Public,
        ("fn", false) => Kind::Private,
        ("struct" | "enum", true) => Kind::Type,
        ("const", _) => Kind::Constant,
        _ => return None,
    };
    Some((kind, name))
}

/// The type whose functions stand here.
fn owner<'a>(ahead: &[&'a str], line: &str) -> Option<&'a str> {
    if !line.starts_with(' ') {
        return None;
    }
    let opened = ahead.iter().rev().find(|line| line.starts_with("impl"))?;
    let name = match opened.split_once(" for ") {
        Some((_, name)) => name,
        None => opened.split_whitespace().nth(1)?,
    };
    name.split(['<', ' ']).next()
}

/// Where the `impl` of a trait is opened that a function stands in.
fn of_trait(lines: &[&str], place: usize) -> Option<usize> {
    if !lines[place].starts_with(' ') || !lines[place].trim_start().starts_with("fn ") {
        return None;
    }
    let ahead = &lines[..place];
    let opened = ahead.iter().rposition(|line| line.starts_with("impl"))?;
    lines[opened].contains(" for ").then_some(opened)
}

/// What a page tells of a function that a trait asks for: the lines ahead of it,
/// and then the function up to its body.
fn told_of_trait<'a>(lines: &[&'a str], ahead: Range<usize>, place: usize) -> Vec<&'a str> {
    let body = lines[place..].iter().position(|line| line.ends_with('{'));
    let function = &lines[first(lines, place)..=place + body.unwrap_or(0)];
    let told = lines[ahead].iter().chain(function);
    let mut told: Vec<&str> = told.filter(|line| !is_of_tools(line)).copied().collect();
    if let Some(last) = told.pop() {
        let last = last.trim_end_matches('{').trim_end();
        told.extend((!last.is_empty()).then_some(last));
    }
    told
}

/// Whether a line says how a proof is found or how code is made, which is no
/// promise.
fn is_of_tools(line: &str) -> bool {
    let words = ["#[tactic(", "#[inline("];
    words.iter().any(|word| line.trim_start().starts_with(word))
}

/// The first line of the comment and the attributes ahead of a head.
fn first(lines: &[&str], place: usize) -> usize {
    let ahead = lines[..place].iter().rev().take_while(|line| {
        let line = line.trim_start();
        line.starts_with("//") || line.starts_with("#[")
    });
    place - ahead.count()
}

/// What a page tells of it: a type as a whole, and of a function all but the
/// body.
fn told<'a>(lines: &[&'a str], place: usize, kind: Kind) -> Vec<&'a str> {
    let indent = lines[place].len() - lines[place].trim_start().len();
    let is_last = |line: &&str| line.starts_with('}') || line.trim_start() == "{";
    let behind = lines[place..].iter().position(is_last);
    let end = place + behind.unwrap_or(0);
    let end = if kind == Kind::Type { end + 1 } else { end };
    lines[first(lines, place)..end]
        .iter()
        .filter(|line| !is_of_tools(line))
        .map(|line| line.get(indent..).unwrap_or(line))
        .collect()
}

/// Whether a contract begins here.
fn is_clause(line: &str) -> bool {
    let line = line.trim_start();
    let words = ["requires ", "ensures ", "ghost "];
    words.iter().any(|word| line.starts_with(word))
}
