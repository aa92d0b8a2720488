//! Where a run begins and ends: at an opening or a saved account, and at the file that it is saved to.

use crate::history::{History, Refused, bad_opening};
use crate::kept::{self, Kept};
use crate::plan::{Opening, Plan};
use crate::text;
use std::io::{self, Read, Write};
use std::path::{Path, PathBuf};
use threshcoil::{Account, Refusal};

pub struct Start {
    pub account: Account,
    pub kept: Kept,
}

impl Start {
    pub fn opened(plan: &Plan) -> Result<Start, Refused> {
        let Opening { cash, settings } = plan.opening;
        let account = Account::open(cash, &settings, &mut [0]).map_err(|refusal| bad_opening(plan, refusal))?;
        Ok(Start { account, kept: Kept { equities: vec![cash], ..Kept::default() } })
    }

    /// The account of a file, with what is kept beside it, or why it can't be.
    pub fn loaded(file: &Path) -> io::Result<Result<Start, String>> {
        let bytes = front(file)?;
        let account = match Account::load(&bytes) {
            Ok(account) => account,
            Err(refusal) => return Ok(Err(text::bad_file(file, refusal))),
        };
        let beside = beside(file);
        if !beside.exists() {
            return Ok(Ok(Start { account, kept: Kept::of(&account) }));
        }
        let text = String::from_utf8_lossy(&read(&beside)?).into_owned();
        Ok(match Kept::read(&text) {
            Ok(kept) if kept.is_of(&bytes, &account) => Ok(Start { account, kept }),
            Ok(_) => Err(format!("{}: it is not the history of the account in {}", beside.display(), file.display())),
            Err(line) => Err(format!("{}:{line}: the line can't be read", beside.display())),
        }
        .map_err(|why| format!("{why}; without that file the run begins at the account")))
    }
}

/// Writes the account, and beside it what is kept for its page. Both are written whole beside their places before either is put there: a saved
/// account may be the only one.
pub fn save(file: &Path, name: &str, history: &History, left_out: &[String]) -> io::Result<Result<(), String>> {
    let mut room = [0; Account::FILE_SIZE];
    let account = match history.account.save(&mut room) {
        Ok(length) => &room[..length],
        Err(refusal) => return Ok(Err(not_saved(file, refusal))),
    };
    let kept = kept::written(account, name, history, left_out);
    let kept = New::written(&beside(file), kept.as_bytes())?;
    let account = New::written(file, account)?;
    kept.put()?;
    account.put()?;
    Ok(Ok(()))
}

fn not_saved(file: &Path, refusal: Refusal) -> String {
    format!("{}: {}", file.display(), text::refused("the account", refusal))
}

fn with_ending(file: &Path, ending: &str) -> PathBuf {
    let mut name = file.as_os_str().to_owned();
    name.push(ending);
    name.into()
}

fn beside(file: &Path) -> PathBuf {
    with_ending(file, ".history")
}

/// A file that is written, and not yet at its place; what is not put there goes.
struct New {
    written: PathBuf,
    place: PathBuf,
}

impl New {
    /// A link stays one, since what it leads to is replaced; a folder or a device is not replaced, and a file keeps who may read it.
    fn written(file: &Path, bytes: &[u8]) -> io::Result<New> {
        let place = std::fs::canonicalize(file).unwrap_or_else(|_| file.into());
        if place.exists() && !place.is_file() {
            let why = io::Error::new(io::ErrorKind::InvalidInput, "it is no file that could be replaced");
            return Err(named(file, why));
        }
        let new = New { written: with_ending(&place, ".new"), place };
        new.write(bytes).map_err(|e| named(file, e))?;
        Ok(new)
    }

    fn write(&self, bytes: &[u8]) -> io::Result<()> {
        if let Some(folder) = self.place.parent() {
            std::fs::create_dir_all(folder)?;
        }
        let mut file = std::fs::File::create(&self.written)?;
        if let Ok(found) = std::fs::metadata(&self.place) {
            file.set_permissions(found.permissions())?;
        }
        file.write_all(bytes)?;
        file.sync_all()
    }

    fn put(&self) -> io::Result<()> {
        std::fs::rename(&self.written, &self.place).map_err(|e| named(&self.place, e))
    }
}

impl Drop for New {
    fn drop(&mut self) {
        let _ = std::fs::remove_file(&self.written);
    }
}

/// More bytes than any numbers and symbols take that a saved account could be read from, sound or not: a file is refused for them, at
/// its place in them, as it would be for all of its bytes.
const FRONT: u64 = 4_096;

fn front(file: &Path) -> io::Result<Vec<u8>> {
    let mut bytes = Vec::new();
    let read = std::fs::File::open(file).and_then(|found| found.take(FRONT).read_to_end(&mut bytes));
    read.map_err(|e| named(file, e))?;
    Ok(bytes)
}

/// The bytes of a file, or why not, with its name.
pub fn read(file: &Path) -> io::Result<Vec<u8>> {
    std::fs::read(file).map_err(|e| named(file, e))
}

fn named(file: &Path, e: io::Error) -> io::Error {
    io::Error::new(e.kind(), format!("{}: {e}", file.display()))
}
