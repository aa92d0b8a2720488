//! The model of the documents (tools/model), which plays what a run writes.

use std::io::{BufWriter, Write};
use std::process::{Command, Stdio};

/// A run by its seed and count that writes text for the model.
pub type Emit = fn(u64, u64, &mut dyn Write) -> bool;

/// Pipes what a run writes to one of the model's programs, and gives its verdict.
pub fn plays(words: &[&str], run: Emit, seed: u64, count: u64) -> bool {
    let folder = concat!(env!("CARGO_MANIFEST_DIR"), "/../../tools/model");
    let started = Command::new("python3").arg("-B").args(words).current_dir(folder).stdin(Stdio::piped()).spawn();
    let Ok(mut program) = started else {
        println!("{}: NOT PLAYED, since there is no python3", words.join(" "));
        return false;
    };
    let mut text = BufWriter::new(program.stdin.take().expect("it is piped"));
    let all = run(seed, count, &mut text) && text.flush().is_ok();
    drop(text);
    program.wait().is_ok_and(|status| status.success()) && all
}
