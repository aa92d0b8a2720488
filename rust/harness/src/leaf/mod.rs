//! The leaves of the C interface, each beside Rust's own arithmetic and, where it has one, its function in nanobook.
//!
//! Numbers of every kind travel as their 64 bits, so that one run serves all leaves. A leaf that gives several numbers
//! stands here once for each of them.

mod ceilings;
mod costs;
mod doubles;
mod figures;
mod positions;
mod shares;
mod sizes;
mod wide;

pub use ceilings::{ceiling as draw_ceiling, flat_fee, free, notional};
pub use costs::{are_good, charged, costs as costs_of, draw as draw_costs, paid};
pub use figures::expected as expected_figures;
pub use positions::{Numbers, is_sound, refusal, symbol as draw_symbol};
pub use sizes::{largest, need};
pub use wide::value;

use oracle::Leaves;
use scenario::Random;

/// What 64 bits stand for.
#[derive(Clone, Copy, PartialEq, Eq, Debug)]
pub enum Kind {
    U64,
    I64,
    F64,
    Bool,
    /// A double among the figures: "zeros of either sign and all NaNs compare equal".
    Figure,
}

pub type Inputs = [u64; 8];

/// Inputs that are 0 after these.
fn padded<const N: usize>(words: [u64; N]) -> Inputs {
    let mut inputs = Inputs::default();
    inputs[..N].copy_from_slice(&words);
    inputs
}

/// Something that an input or its answer may be, and that a run must have met.
pub type Class = (&'static str, fn(&Inputs, u64) -> bool);

/// Why some inputs are not compared with nanobook.
pub type LeftOut = (&'static str, fn(&Inputs) -> bool);

pub struct Leaf {
    pub name: &'static str,
    /// Its number in the stored sample, which the crate replay knows it by; 0 where it stands outside it.
    pub number: u64,
    pub takes: &'static [Kind],
    pub gives: Kind,
    /// Inputs to try, where plain numbers of each kind would seldom meet what matters.
    pub draw: Option<fn(&mut Random) -> Inputs>,
    pub port: fn(&Inputs) -> u64,
    pub rust: Option<fn(&Inputs) -> u64>,
    pub nanobook: Option<fn(&Leaves, &Inputs) -> u64>,
    pub left_out: &'static [LeftOut],
    pub classes: &'static [Class],
}

/// What most leaves have.
const PLAIN: Leaf = Leaf {
    name: "",
    number: 0,
    takes: &[],
    gives: Kind::U64,
    draw: None,
    port: |_| 0,
    rust: None,
    nanobook: None,
    left_out: &[],
    classes: &[],
};

impl Leaf {
    pub fn inputs(&self, random: &mut Random) -> Inputs {
        if let Some(draw) = self.draw {
            return draw(random);
        }
        let mut inputs = Inputs::default();
        for (word, kind) in inputs.iter_mut().zip(self.takes) {
            *word = match kind {
                Kind::U64 => random.u64(),
                Kind::I64 => random.i64() as u64,
                Kind::F64 | Kind::Figure => random.f64().to_bits(),
                Kind::Bool => random.below(2),
            };
        }
        inputs
    }

    /// Nanobook's answer, where it has the function and is an oracle.
    pub fn nanobooks(&self, nanobook: Option<&Leaves>, inputs: &Inputs) -> Option<u64> {
        let (own, nanobook) = (self.nanobook?, nanobook?);
        let in_domain = self.left_out.iter().all(|(_, out)| !out(inputs));
        in_domain.then(|| own(nanobook, inputs))
    }

    /// The Rust's answer: nanobook's own, else that of Rust's own arithmetic.
    pub fn expected(&self, nanobook: Option<&Leaves>, inputs: &Inputs) -> Option<u64> {
        self.nanobooks(nanobook, inputs).or_else(|| self.rust.map(|own| own(inputs)))
    }
}

/// The leaves of the stored sample, group by group.
pub fn sampled() -> impl Iterator<Item = &'static Leaf> {
    [shares::LEAVES, wide::LEAVES, doubles::LEAVES, costs::LEAVES, positions::LEAVES, sizes::LEAVES, figures::LEAVES]
        .into_iter()
        .flatten()
}

/// Every leaf: after those of the sample the ones that take a ceiling, and the place that a refusal tells, which the Rust lacks.
pub fn all() -> impl Iterator<Item = &'static Leaf> {
    sampled().chain(ceilings::LEAVES).chain(positions::PLACES)
}

pub const CLAMPED: &[Class] = &[
    ("zero", |_, r| r == 0),
    ("below zero", |_, r| (r as i64) < 0),
    ("above zero", |_, r| (r as i64) > 0),
    ("bottom", |_, r| r as i64 == i64::MIN),
    ("top", |_, r| r as i64 == i64::MAX),
];
