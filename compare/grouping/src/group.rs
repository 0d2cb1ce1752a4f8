//! Wrong functions that share a check, none of which calls another.

use crate::code::Code;
use crate::edit::Edit;
use crate::source::Calls;

const LEAD: &str =
    "# Written by make groups: wrong functions that share a check, none of which calls another.\n";

/// An edit within the body of one function.
pub struct Wrong<'a> {
    edit: &'a Edit,
    function: String,
    body: String,
}

type Group<'a> = Vec<&'a Wrong<'a>>;

impl<'a> Wrong<'a> {
    /// None where it changes anything else, a contract too.
    pub fn of(code: &Code, edit: &'a Edit) -> Option<Wrong<'a>> {
        let mut bodies = code.edited([edit])?.bodies.into_iter();
        let changed = bodies.find(|(name, body)| code.source.bodies.get(name) != Some(body));
        let (function, body) = changed?;
        let wrong = Wrong {
            edit,
            function,
            body,
        };
        is_made(code, &[&wrong]).then_some(wrong)
    }
}

/// The groups of a crate, as few as are found.
pub fn groups(code: &Code, all: &[Wrong]) -> Vec<Edit> {
    // An edit may add a call.
    let mut source = code.source.clone();
    for Wrong { function, body, .. } in all {
        *source.bodies.entry(function.clone()).or_default() += body;
    }
    let calls = source.calls();
    let tries = (0..all.len()).map(|first| grouped(code, &calls, all, first));
    let fewest = tries.min_by_key(Vec::len).unwrap_or_default();
    let numbered = fewest.iter().zip(1..);
    numbered
        .map(|(group, number)| Edit {
            name: format!("group_{number}"),
            text: text(group),
        })
        .collect()
}

/// Each edit goes to the first group that can take it, and whoever is called
/// goes first: fewer groups there cannot be, but where replacements are in each
/// other's way. So it matters with which of the others one begins.
fn grouped<'a>(code: &Code, calls: &Calls, all: &'a [Wrong], first: usize) -> Vec<Group<'a>> {
    let mut order: Vec<&Wrong> = all[first..].iter().chain(&all[..first]).collect();
    order.sort_by_key(|one| calls[one.function.as_str()].len());
    let mut groups: Vec<Group> = Vec::new();
    for one in order {
        let taken = groups.iter_mut().find_map(|group| {
            *group = with(code, calls, group, one)?;
            Some(())
        });
        if taken.is_none() {
            groups.push(vec![one]);
        }
    }
    groups
}

/// A group with one more, at any place where no replacement is in another's way.
fn with<'a>(code: &Code, calls: &Calls, group: &Group<'a>, one: &'a Wrong) -> Option<Group<'a>> {
    let do_call = |a: &Wrong, b: &Wrong| calls[a.function.as_str()].contains(b.function.as_str());
    if group
        .iter()
        .any(|other| other.function == one.function || do_call(other, one) || do_call(one, other))
    {
        return None;
    }
    (0..=group.len()).rev().find_map(|place| {
        let mut group = group.clone();
        group.insert(place, one);
        is_made(code, &group).then_some(group)
    })
}

/// Whether edits, one after another, make each function what its own makes it,
/// and change nothing else.
fn is_made(code: &Code, group: &[&Wrong]) -> bool {
    let mut made = code.source.clone();
    for one in group {
        made.bodies.insert(one.function.clone(), one.body.clone());
    }
    code.edited(group.iter().map(|one| one.edit)) == Some(made)
}

fn text(group: &[&Wrong]) -> String {
    let wrong = group.iter().map(|one| {
        let Edit { name, text } = one.edit;
        format!("# {name}: fn {}\n{text}", one.function)
    });
    LEAD.to_string() + &wrong.collect::<String>()
}
