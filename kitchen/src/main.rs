//! The command `cephlouk`; `cephlouk help` says what it does.

use std::env;
use std::ffi::OsString;
use std::process::ExitCode;

fn main() -> ExitCode {
    let typed: Vec<OsString> = env::args_os().skip(1).collect();
    kitchen::commands::main(&typed)
}
