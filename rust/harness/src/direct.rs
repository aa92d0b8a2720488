//! Calls by value, made over and over on one account within the proved code: account and lists are read once, and what the last call
//! left is written. Each returns the answer's number; a refusal writes nothing. No part of the C interface.

threshcoil_sys::entries! {
    "Rebalances, each from the account as given; the account that the last one left."
    direct_rebalance(account: &[u8], targets: &[u8], prices: &[u8], times: u64, after: &mut [u8]);
    "Returns, into series of 64 places; the account that the last one left."
    direct_return(account: &[u8], prices: &[u8], times: u64, after: &mut [u8]);
    "Snapshots; cash, equity, open positions and realized profit of the last one, and its weights."
    direct_snapshot(account: &[u8], prices: &[u8], times: u64, figures: &mut [u8], weights: &mut [u8]);
}
