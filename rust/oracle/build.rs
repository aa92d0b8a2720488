//! Finds nanobook's files and lays them out, text unchanged, where the crate can name them as modules.
//!
//! Two of them get one line after their last, a child module that may call their private functions. Where the files
//! are not at hand the crate is built without them and says so.

use std::{env, fs, path::Path, path::PathBuf};

/// Each file with the FNV-1a sum of its text at nanobook f237388e9c: an altered file is no oracle.
const FILES: [(&str, u64); 8] = [
    ("types.rs", 0x444f_35a5_7132_3714),
    ("stats.rs", 0xad57_bbb0_85ed_7305),
    ("multi_exchange.rs", 0xc2fb_19aa_ca85_adc8),
    ("portfolio/mod.rs", 0x4193_456f_ad69_25c3),
    ("portfolio/position.rs", 0x1b86_b33c_dd49_aa8c),
    ("portfolio/cost_model.rs", 0x7e4e_c731_0794_6810),
    ("portfolio/metrics.rs", 0x2f87_cdbf_fc53_fa5f),
    ("portfolio/strategy.rs", 0x188f_9fbc_e7f8_2986),
];

/// Files whose private functions are compared, with the module that reaches them.
const PROBES: [(&str, &str); 2] = [("portfolio/mod.rs", "portfolio.rs"), ("portfolio/position.rs", "position.rs")];

const MODULES: [(&str, &str); 4] = [
    ("types", "types.rs"),
    ("stats", "stats.rs"),
    ("multi_exchange", "multi_exchange.rs"),
    ("portfolio", "portfolio/mod.rs"),
];

fn sum(text: &[u8]) -> u64 {
    text.iter().fold(0xcbf2_9ce4_8422_2325, |h, b| (h ^ u64::from(*b)).wrapping_mul(0x0000_0100_0000_01b3))
}

fn main() {
    println!("cargo::rerun-if-env-changed=THRESHCOIL_NANOBOOK");
    let here = PathBuf::from(env::var_os("CARGO_MANIFEST_DIR").unwrap());
    let source = match env::var_os("THRESHCOIL_NANOBOOK") {
        Some(given) => PathBuf::from(given),
        None => here.join("../../../shared/docs/src"),
    }
    .join("src");
    println!("cargo::rerun-if-changed={}", source.display());
    if !source.join("portfolio/mod.rs").is_file() {
        println!("cargo::warning=nanobook is not at {}: built without the oracle", source.display());
        return;
    }
    let laid = PathBuf::from(env::var_os("OUT_DIR").unwrap()).join("nanobook");
    fs::create_dir_all(laid.join("portfolio")).unwrap();
    for (file, expected) in FILES {
        lay(&here, &source.join(file), &laid, file, expected);
    }
    let modules: String = MODULES
        .iter()
        .map(|(name, file)| format!("#[path = {:?}]\n#[allow(dead_code)]\npub mod {name};\n", laid.join(file)))
        .collect();
    fs::write(laid.join("modules.rs"), modules).unwrap();
    println!("cargo::rustc-cfg=nanobook");
}

fn lay(here: &Path, from: &Path, laid: &Path, file: &str, expected: u64) {
    println!("cargo::rerun-if-changed={}", from.display());
    let mut text = fs::read(from).unwrap_or_else(|e| panic!("{}: {e}", from.display()));
    let found = sum(&text);
    assert!(found == expected, "{} is not the file of nanobook f237388e9c (sum {found:#018x})", from.display());
    if let Some((_, probe)) = PROBES.iter().find(|(probed, _)| *probed == file) {
        let path = here.join("src/probe").join(probe);
        println!("cargo::rerun-if-changed={}", path.display());
        text.extend(format!("\n#[path = {path:?}]\npub mod probe;\n").bytes());
    }
    fs::write(laid.join(file), text).unwrap();
}
