//! The command as it is run: its words, its file, and what it leaves.

use std::path::PathBuf;
use std::process::{Command, Output, Stdio};

pub fn place(name: &str) -> PathBuf {
    let folder = PathBuf::from(env!("CARGO_TARGET_TMPDIR"));
    folder.join(name)
}

/// A run by its first words, its name, the text of its file (none: the built-in example) and further words; and its page, if it
/// wrote one.
pub fn run(first: &[&str], name: &str, text: Option<&str>, more: &[&str]) -> (Output, Option<String>) {
    let page = place(&format!("{name}.html"));
    let _ = std::fs::remove_file(&page);
    let mut command = Command::new(env!("CARGO_BIN_EXE_model"));
    command.args(first);
    if let Some(text) = text {
        let file = place(&format!("{name}.txt"));
        std::fs::write(&file, text).unwrap();
        command.arg(file);
    }
    let out = command.arg("--page").arg(&page).args(more).output().unwrap();
    (out, std::fs::read_to_string(page).ok())
}

/// A run of the built-in example whose reader leaves before the first line: its exit status, and its page.
pub fn unheard(first: &[&str], name: &str) -> (Option<i32>, Option<String>) {
    let page = place(&format!("{name}.html"));
    let _ = std::fs::remove_file(&page);
    let mut command = Command::new(env!("CARGO_BIN_EXE_model"));
    let mut child = command.args(first).arg("--page").arg(&page).stdout(Stdio::piped()).spawn().unwrap();
    drop(child.stdout.take());
    (child.wait().unwrap().code(), std::fs::read_to_string(page).ok())
}

pub fn said(out: &Output) -> String {
    String::from_utf8_lossy(&out.stdout).into_owned() + &String::from_utf8_lossy(&out.stderr)
}

pub fn stands_alone(page: &str) {
    for alone in ["http", "<script", "<link", "@import", "url("] {
        assert!(!page.contains(alone), "the page stands alone, without {alone}");
    }
}
