//! `cephlouk completions`: what a shell needs to complete the command.

use super::{Subcommand, COMMON, DONE, SUBCOMMANDS};
use crate::arguments::{too_many, wrong, Arguments};
use crate::console::{Console, Stop};
use crate::text::quoted;
use std::fmt::Write;

pub static COMPLETIONS: Subcommand = Subcommand {
    name: "completions",
    usage: "bash|zsh|fish",
    about: "completions for a shell: cephlouk completions bash >> ~/.bashrc",
    switches: &[],
    run: completions,
};

fn completions(console: &mut Console, arguments: &Arguments) -> Result<u8, Stop> {
    let shell = match &arguments.words[..] {
        [shell] => shell.to_string_lossy(),
        [] => {
            return Err(wrong("'completions' wants a shell: bash, zsh or fish".to_string()).into())
        }
        [_, more, ..] => return Err(too_many(more).into()),
    };
    let script = match &*shell {
        "bash" => bash(),
        "zsh" => zsh(),
        "fish" => fish(),
        other => {
            let message = wrong(format!("there are no completions for {}", quoted(other)));
            return Err(message
                .helped("there are some for bash, zsh and fish")
                .into());
        }
    };
    console.bytes(script.as_bytes())?;
    Ok(DONE)
}

fn names() -> Vec<&'static str> {
    SUBCOMMANDS
        .iter()
        .map(|subcommand| subcommand.name)
        .collect()
}

/// The options of a subcommand.
fn options(subcommand: &Subcommand) -> Vec<&'static str> {
    let switches = subcommand.switches.iter().chain(&COMMON);
    switches.map(|switch| switch.word).collect()
}

fn bash() -> String {
    let mut cases = String::new();
    for subcommand in SUBCOMMANDS {
        let _ = writeln!(
            cases,
            "        {}) words='{}' ;;",
            subcommand.name,
            options(subcommand).join(" ")
        );
    }
    let names = names().join(" ");
    format!(
        "_cephlouk() {{
    local words word=${{COMP_WORDS[COMP_CWORD]}}
    if [ \"$COMP_CWORD\" -eq 1 ]; then
        COMPREPLY=($(compgen -W '{names} --help --version' -- \"$word\"))
        return
    fi
    case ${{COMP_WORDS[1]}} in
{cases}        *) words='' ;;
    esac
    case $word in
        -*) COMPREPLY=($(compgen -W \"$words\" -- \"$word\")) ;;
        *) COMPREPLY=($(compgen -f -- \"$word\")) ;;
    esac
}}
complete -o filenames -F _cephlouk cephlouk
"
    )
}

fn zsh() -> String {
    let mut cases = String::new();
    for subcommand in SUBCOMMANDS {
        let _ = writeln!(
            cases,
            "        {}) compadd -- {} ;;",
            subcommand.name,
            options(subcommand).join(" ")
        );
    }
    let names = names().join(" ");
    format!(
        "#compdef cephlouk
_cephlouk() {{
    if (( CURRENT == 2 )); then
        compadd -- {names} --help --version
        return
    fi
    if [[ $words[CURRENT] != -* ]]; then
        _files
        return
    fi
    case $words[2] in
{cases}    esac
}}
compdef _cephlouk cephlouk
"
    )
}

fn fish() -> String {
    let mut script = String::new();
    for subcommand in SUBCOMMANDS {
        let _ = writeln!(
            script,
            "complete -c cephlouk -n __fish_use_subcommand -f -a {} -d '{}'",
            subcommand.name,
            subcommand.about.replace('\'', "\\'")
        );
        for switch in subcommand.switches.iter().chain(&COMMON) {
            let word = match switch.word.strip_prefix("--") {
                Some(long) => format!("-l {long}"),
                None => format!("-s {}", switch.word.trim_start_matches('-')),
            };
            let value = if switch.value.is_some() { " -r" } else { "" };
            let _ = writeln!(
                script,
                "complete -c cephlouk -n '__fish_seen_subcommand_from {}' {word}{value} -d '{}'",
                subcommand.name,
                switch.about.replace('\'', "\\'")
            );
        }
    }
    script
}
