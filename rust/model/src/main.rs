//! Runs a model portfolio, or a group of accounts, from a text file and writes its page. README.md describes the files.

mod chart;
mod heard;
mod history;
mod house;
mod html;
mod kept;
mod lines;
mod page;
mod plan;
mod saved;
mod text;

use heard::Heard;
use history::History;
use plan::{Plan, Unread};
use saved::Start;
use std::ffi::OsString;
use std::io::{self, IsTerminal, Write};
use std::path::{Path, PathBuf};
use std::process::ExitCode;

const EXAMPLE: &str = include_str!("../example.txt");

// tools/threshcoil prints it too, before anything is proved.
const USAGE: &str = include_str!("../usage.txt");

/// What the file has: a model portfolio, or a group of accounts.
#[derive(Clone, Copy, PartialEq)]
enum Kind {
    Model,
    House,
}

impl Kind {
    fn example(self) -> &'static str {
        match self {
            Kind::Model => EXAMPLE,
            Kind::House => house::EXAMPLE,
        }
    }

    fn page(self) -> &'static str {
        match self {
            Kind::Model => "target/model.html",
            Kind::House => "target/house.html",
        }
    }
}

struct Asked {
    kind: Kind,
    file: Option<PathBuf>,
    page: PathBuf,
    stop: bool,
    /// A saved account to begin from, and where to save the account at the end.
    from: Option<PathBuf>,
    save: Option<PathBuf>,
    /// A text that is asked for in the place of a run.
    text: Option<&'static str>,
}

fn asked() -> Result<Asked, String> {
    let mut words = std::env::args_os().skip(1).peekable();
    let kind = words.next_if(|word| word == "house").map_or(Kind::Model, |_| Kind::House);
    let mut asked =
        Asked { kind, file: None, page: kind.page().into(), stop: false, from: None, save: None, text: None };
    while let Some(word) = words.next() {
        match word.to_str() {
            Some("--page") => asked.page = words.next().ok_or("--page names a file")?.into(),
            Some("--stop") if kind == Kind::Model => asked.stop = true,
            Some("--from") if kind == Kind::Model => {
                let file = words.next().ok_or("--from names a file")?;
                once(&mut asked.from, file, "one account is continued at a time")?;
            }
            Some("--save") if kind == Kind::Model => {
                let file = words.next().ok_or("--save names a file")?;
                once(&mut asked.save, file, "the account is saved to one file")?;
            }
            Some("--example") => asked.text = Some(kind.example()),
            Some("--help" | "-h") => asked.text = Some(USAGE),
            Some(other) if other.starts_with('-') => return Err(format!("'{other}' is not known")),
            _ if asked.file.is_some() => return Err("one file is run at a time".into()),
            _ => asked.file = Some(word.into()),
        }
    }
    if asked.save.as_ref().is_some_and(|save| asked.file.as_ref() == Some(save) || asked.page == *save) {
        return Err("--save would replace FILE or the page".into());
    }
    Ok(asked)
}

fn once(place: &mut Option<PathBuf>, file: OsString, why: &str) -> Result<(), String> {
    if place.is_some() || file.is_empty() {
        return Err(why.into());
    }
    *place = Some(file.into());
    Ok(())
}

fn main() -> ExitCode {
    match asked().map(run) {
        Ok(Ok(true)) => ExitCode::SUCCESS,
        Ok(Ok(false)) => ExitCode::FAILURE,
        Ok(Err(e)) => fault(&e.to_string()),
        Err(why) => fault(&format!("{why}\n{}", USAGE.trim_end())),
    }
}

fn fault(why: &str) -> ExitCode {
    eprintln!("threshcoil: {why}");
    ExitCode::from(2)
}

/// Whether all of the file counted.
fn run(asked: Asked) -> io::Result<bool> {
    let mut out = Heard::new(io::stdout().lock());
    if let Some(text) = asked.text {
        out.write_all(text.as_bytes())?;
        return Ok(true);
    }
    let (name, text) = match &asked.file {
        Some(file) => (file.display().to_string(), read(file)?),
        // A saved account by itself.
        None if asked.from.is_some() => (String::new(), String::new()),
        None => ("example".into(), asked.kind.example().into()),
    };
    match asked.kind {
        Kind::Model => run_model(&mut out, &asked, &name, &text),
        Kind::House => house::run(&mut out, &asked.page, &name, &text),
    }
}

fn run_model(out: &mut impl Write, asked: &Asked, name: &str, text: &str) -> io::Result<bool> {
    let loaded = match asked.from.as_deref().map(Start::loaded).transpose()?.transpose() {
        Ok(loaded) => loaded,
        Err(why) => {
            eprintln!("{why}");
            return nothing_written();
        }
    };
    let (plan, unread) = match &loaded {
        Some(start) => plan::read_on(text, &start.kept.name),
        None => plan::read(text),
    };
    for u in &unread {
        eprintln!("{name}:{}: {}", u.line, u.why);
    }
    if unread.iter().any(|u| u.opening || asked.stop) {
        return nothing_written();
    }
    match loaded.map_or_else(|| Start::opened(&plan), Ok) {
        Ok(start) => {
            let history = run_plan(out, asked, name, start, &plan)?;
            publish(out, asked, &plan, &unread, &history)
        }
        Err(refused) => {
            eprintln!("{}", text::refusal(name, &refused));
            nothing_written()
        }
    }
}

fn run_plan(out: &mut impl Write, asked: &Asked, name: &str, start: Start, plan: &Plan) -> io::Result<History> {
    if let Some(file) = &asked.from {
        text::start(out, file, &start)?;
    }
    let progress = Progress::new(plan.periods.len());
    let mut written = Ok(());
    let history = history::run(start, plan, asked.stop, |k, told| {
        progress.show(k);
        written = std::mem::replace(&mut written, Ok(())).and_then(|()| text::period(out, name, told));
    });
    progress.end();
    written?;
    text::summary(out, plan, &history)?;
    Ok(history)
}

fn nothing_written() -> io::Result<bool> {
    eprintln!("threshcoil: nothing is run or written");
    Ok(false)
}

fn write_page(out: &mut impl Write, page: &Path, html: &str) -> io::Result<()> {
    if let Some(folder) = page.parent() {
        std::fs::create_dir_all(folder)?;
    }
    std::fs::write(page, html)?;
    writeln!(out, "page: {}", page.display())
}

/// Writes the page, and the account where that is asked for. Whether every line of the file counted.
fn publish(out: &mut impl Write, asked: &Asked, plan: &Plan, unread: &[Unread], history: &History) -> io::Result<bool> {
    let entries = page::left_out(unread, history);
    write_page(out, &asked.page, &page::page(plan, &entries, history))?;
    if let Some(file) = asked.save.as_ref().filter(|_| history.stopped) {
        // The corrected file is to be run from where this one began.
        eprintln!("threshcoil: the run was stopped, so {} is not written", file.display());
    } else if let Some(file) = &asked.save {
        if let Err(why) = saved::save(file, &plan.name, history, &entries)? {
            eprintln!("{why}");
            return Ok(false);
        }
        writeln!(out, "account: {}", file.display())?;
    }
    let left_out = unread.len() + history.refusals().count();
    if left_out > 0 {
        eprintln!("threshcoil: {left_out} refused, unreadable or without a price; the page tells each");
    }
    Ok(left_out == 0)
}

fn read(file: &Path) -> io::Result<String> {
    let bytes = saved::read(file)?;
    let text = String::from_utf8_lossy(&bytes);
    // A byte order mark that an editor put first is no word of the file.
    Ok(text.strip_prefix('\u{feff}').unwrap_or(&text).into())
}

/// How far a long run is, on a terminal whose output goes elsewhere; nothing in a pipe.
struct Progress {
    of: usize,
    shown: bool,
}

impl Progress {
    const EACH: usize = 500;

    fn new(of: usize) -> Progress {
        Progress { of, shown: of > Progress::EACH && io::stderr().is_terminal() && !io::stdout().is_terminal() }
    }

    fn show(&self, k: usize) {
        if self.shown && k % Progress::EACH == 0 {
            eprint!("\rperiod {} of {}", k + 1, self.of);
        }
    }

    fn end(&self) {
        if self.shown {
            eprintln!("\rperiod {0} of {0}", self.of);
        }
    }
}
