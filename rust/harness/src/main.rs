//! The harness: `harness COMMAND`. Exit status 1 where the port and the Rust differ.

mod account;
mod bench;
mod damage;
mod differ;
mod direct;
mod fills;
mod house;
mod leaf;
mod model;
mod place;
mod played;
mod port;
mod sample;
mod saved;
mod series;
mod single;
mod stack;
mod table;
mod values;

const USAGE: &str =
    "usage: harness leaves [SEED [COUNT]] | fills [SEED [COUNT]] | single [SEED [COUNT]] | figures [SEED [COUNT]]
    | house [SEED [COUNT]] | accounts [SEED [COUNT]] | damage [SEED [COUNT]] | full | bench | bench values | bench figures
    | bench house | bench saved | bench accounts | bench cash-first | bench ceiling | bench checks | scenarios [SEED [COUNT]]
    | spoiled [SEED [COUNT]]
    | cash-first [SEED [COUNT]] | ceiling [SEED [COUNT]] | ceiling-fills [SEED [COUNT]] | house-groups [SEED [COUNT]]
    | saved [SEED [COUNT]] | saved-damage [SEED [COUNT]] | saved-files [SEED [COUNT]] | stack | table
    | sample write FILE | sample check FILE | sample accounts write FILE | sample accounts check FILE";

const SEED: u64 = 20261115;

fn main() {
    let words: Vec<String> = std::env::args().skip(1).collect();
    let words: Vec<&str> = words.iter().map(String::as_str).collect();
    let agreed = match words[..] {
        ["leaves", ref rest @ ..] => seeded(rest, 200_000, differ::run),
        ["fills", ref rest @ ..] => seeded(rest, 500_000, fills::run),
        ["single", ref rest @ ..] => seeded(rest, 2_000_000, single::run),
        ["figures", ref rest @ ..] => seeded(rest, 120_000, series::run),
        ["house", ref rest @ ..] => seeded(rest, 200_000, house::run),
        ["full"] => full(),
        ["bench"] => values::bench(SEED) && series::bench(SEED) && house::bench(SEED) && saved::bench() && bench::run(),
        ["bench", "values"] => values::bench(SEED),
        ["bench", "figures"] => series::bench(SEED),
        ["bench", "house"] => house::bench(SEED),
        ["bench", "saved"] => saved::bench(),
        ["bench", "accounts"] => bench::run(),
        ["bench", "cash-first"] => bench::run_cash_first(),
        ["bench", "ceiling"] => bench::run_ceiling(),
        ["bench", "checks"] => bench::run_checks(),
        ["accounts", ref rest @ ..] => seeded(rest, 8_000, account::run),
        ["damage", ref rest @ ..] => seeded(rest, 20_000, damage::run),
        ["saved", ref rest @ ..] => seeded(rest, 50_000, saved::run),
        ["saved-damage", ref rest @ ..] => seeded(rest, 50_000, saved::run_damage),
        ["scenarios", ref rest @ ..] => seeded(rest, 1_000, written(account::emit)),
        ["spoiled", ref rest @ ..] => seeded(rest, 1_000, written(account::emit_spoiled)),
        ["cash-first", ref rest @ ..] => seeded(rest, 1_000, written(account::emit_cash_first)),
        ["ceiling", ref rest @ ..] => seeded(rest, 1_000, written(account::emit_ceiling)),
        ["ceiling-fills", ref rest @ ..] => seeded(rest, 20_000, written(single::emit)),
        ["house-groups", ref rest @ ..] => seeded(rest, 20_000, written(house::emit)),
        ["saved-files", ref rest @ ..] => seeded(rest, 8_000, written(saved::emit)),
        ["stack"] => stack::run(),
        ["table"] => table::run(),
        ["sample", "accounts", "write", path] => played::write(path),
        ["sample", "accounts", "check", path] => played::check(path),
        ["sample", "write", path] => sample::write(path),
        ["sample", "check", path] => sample::check(path),
        _ => stop(USAGE),
    };
    if !agreed {
        std::process::exit(1);
    }
}

/// A run by its seed and count, or by those that tools/test takes.
fn seeded(words: &[&str], count: u64, run: impl Fn(u64, u64) -> bool) -> bool {
    match words {
        [] => run(SEED, count),
        [seed] => run(number(seed), count),
        [seed, count] => run(number(seed), number(count)),
        _ => stop(USAGE),
    }
}

/// A run that writes text for the model, to standard output.
fn written(run: model::Emit) -> impl Fn(u64, u64) -> bool {
    move |seed, count| run(seed, count, &mut std::io::stdout().lock())
}

/// The same runs, eight times and more as long and with another seed.
fn full() -> bool {
    let leaves = differ::run(SEED + 1, 2_000_000);
    let fills = fills::run(SEED + 1, 20_000_000);
    let single = single::run(SEED + 1, 20_000_000);
    let figures = series::run(SEED + 1, 1_000_000);
    let house = house::run(SEED + 1, 1_000_000);
    let accounts = account::run(SEED + 1, 90_000);
    let damage = damage::run(SEED + 1, 600_000);
    let saved = saved::run(SEED + 1, 1_000_000) && saved::run_damage(SEED + 1, 1_000_000);
    let spoiled = model::plays(&["compare.py", "spoiled"], account::emit_spoiled, SEED + 1, 100_000);
    let ceiling = model::plays(&["compare.py", "ceiling"], account::emit_ceiling, SEED + 1, 25_000);
    let ceiling_fills = model::plays(&["fills.py"], single::emit, SEED + 1, 1_000_000);
    let house_groups = model::plays(&["house.py"], house::emit, SEED + 1, 1_000_000);
    let saved_files = model::plays(&["saved.py"], saved::emit, SEED + 1, 200_000);
    let beside_rust = leaves && fills && single && figures && house && accounts && damage && saved;
    beside_rust && spoiled && ceiling && ceiling_fills && house_groups && saved_files
}

fn number(word: &str) -> u64 {
    word.parse().unwrap_or_else(|_| stop(&format!("{word} is no number")))
}

fn stop(message: &str) -> ! {
    eprintln!("{message}");
    std::process::exit(2)
}
