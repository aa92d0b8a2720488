//! A portfolio account whose every call is proved: rebalancing to target weights, closing positions, recording returns, saving
//! and loading; and the house return of a [`Group`] of accounts.
//!
//! The work is done by proved Rattle crates, reached through their C interface; here it has the names and types
//! that Rust callers expect. An [`Account`] owns its bytes and a [`Group`] its equities, and everything else that a call fills
//! is lent by the caller: nothing allocates, and no input makes a call panic. What a call does not accept it refuses, by a
//! [`Refusal`] that says which entry of its lists or which byte of its file was bad, and then the account and every lent place are as
//! they were.
//!
//! Money is in cents, quantities are micro-shares (see [`Shares`]), rates are basis points.
//!
//! ```
//! use threshcoil::{Account, Context, CostModel, ExecutionKind, ExecutionRecord, Price, Settings, Symbol, Target};
//!
//! # fn main() -> Result<(), threshcoil::Refusal> {
//! let costs = CostModel { commission_bps: 10.0, slippage_bps: 0.0, min_commission: 100, max_commission: 0 };
//! let (mut equity, mut returns) = ([0; 16], [0.0; 16]);
//! let mut account = Account::open(1_000_000, &Settings { recording: true, ..Settings::new(costs) }, &mut equity)?;
//!
//! let fund = Symbol::new("FUND")?;
//! let targets = [Target { symbol: fund, weight: 0.5 }];
//! let prices = [Price { symbol: fund, price: 1_000 }];
//! let mut records = [ExecutionRecord::EMPTY; 64];
//! let context = Context { period_index: 0, kind: ExecutionKind::Rebalance };
//! let filled = account.rebalance_simple(&targets, &prices, context, &mut records)?;
//! account.record_return(&prices, &mut equity, &mut returns)?;
//!
//! assert_eq!(filled, 1);
//! assert_eq!(records[0].quantity.whole(), 500);
//! assert_eq!(account.cash(), 1_000_000 - 500_000 - 500);
//! assert_eq!(equity[..2], [1_000_000, 999_500]);
//! # Ok(())
//! # }
//! ```
#![forbid(unsafe_code)]
#![warn(missing_docs)]

mod account;
mod bytes;
mod entry;
mod figures;
mod house;
mod list;
mod record;
mod refusal;
mod saved;
mod settings;
mod spelling;

pub use account::{Account, Position, Snapshot};
pub use entry::{Entry, List};
pub use figures::{Figures, figures};
pub use house::{AccountId, AnotherGroup, Group, HouseReturn, Part, PartReturn};
pub use list::{Price, Shares, Symbol, Target, Weight, Weights};
pub use record::{Context, ExecutionKind, ExecutionRecord};
pub use refusal::Refusal;
pub use saved::Saved;
pub use settings::{CostModel, Settings};
pub use spelling::Spelling;
