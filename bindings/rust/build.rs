//! Links the proved library: from the folder that `AXLE_GATEWAY_LIB` names, else from where `tools/build` leaves it.

use std::{env, path::PathBuf};

/// As `tools/install` and `tools/build` name the archive, and as `rt lib` does.
const NAMES: [&str; 2] = ["axle_gateway", "gateway"];

fn main() {
    println!("cargo::rerun-if-env-changed=AXLE_GATEWAY_LIB");
    let of_cargo = |name| env::var(name).expect("cargo sets it");
    let built = || PathBuf::from(of_cargo("CARGO_MANIFEST_DIR")).join("../../target/c");
    let folder = env::var_os("AXLE_GATEWAY_LIB").map_or_else(built, PathBuf::from);
    let archive = |name: &str| folder.join(format!("lib{name}.a"));
    let found = NAMES.into_iter().find(|name| archive(name).exists());
    println!("cargo::rerun-if-changed={}", archive(found.unwrap_or(NAMES[0])).display());
    match found {
        _ if of_cargo("CARGO_CFG_TARGET_ARCH") != "x86_64" => println!("cargo::error=the library is for x86-64 alone"),
        None => println!(
            "cargo::error=no libaxle_gateway.a in {}: run tools/build at the root of the repository, \
             or set AXLE_GATEWAY_LIB to the folder that has it",
            folder.display()
        ),
        Some(name) => {
            println!("cargo::rustc-link-search=native={}", folder.display());
            println!("cargo::rustc-link-lib=static={name}");
        }
    }
}
