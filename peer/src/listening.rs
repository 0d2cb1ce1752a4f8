//! What a program writes, handed out as it comes, for whoever types into it
//! and waits for its answers.

use std::io::Read;
use std::process::ChildStdout;
use std::sync::mpsc::{channel, Receiver};
use std::thread;
use std::time::Duration;

/// Longer than any answer is waited for.
pub const PATIENCE: Duration = Duration::from_secs(20);

pub fn listen(mut output: ChildStdout) -> Receiver<Vec<u8>> {
    let (sender, receiver) = channel();
    thread::spawn(move || {
        let mut chunk = [0; 4096];
        while let Ok(count) = output.read(&mut chunk) {
            if count == 0 || sender.send(chunk[..count].to_vec()).is_err() {
                break;
            }
        }
    });
    receiver
}
