//! The digest of a file, taken in pieces, as sha256sum prints it.
//!
//! `cargo run --example sha256 FILE`

use axle_gateway::Hash;
use std::{env, error::Error, fs::File, io::Read, process::ExitCode};

fn digest(name: &str) -> Result<[u8; 32], Box<dyn Error>> {
    let mut file = File::open(name)?;
    let mut hash = Hash::new();
    let mut piece = [0; 4096];
    loop {
        match file.read(&mut piece)? {
            0 => return Ok(hash.digest()),
            got => hash.absorb(&piece[..got])?,
        }
    }
}

fn main() -> ExitCode {
    let Some(name) = env::args().nth(1) else {
        eprintln!("usage: sha256 FILE");
        return ExitCode::from(2);
    };
    match digest(&name) {
        Ok(digest) => {
            let hex: String = digest.iter().map(|byte| format!("{byte:02x}")).collect();
            println!("{hex}  {name}");
            ExitCode::SUCCESS
        }
        Err(why) => {
            eprintln!("{name}: {why}");
            ExitCode::FAILURE
        }
    }
}
