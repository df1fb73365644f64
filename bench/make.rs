//! Writes a day file to standard output: `make full SEED`, `make queue` or `make full-queue SEED`.

#[path = "../tests/reference/days/mod.rs"]
mod days;

use days::built::{chain_day, full_chain_day};
use days::chance::Chance;
use days::made::{Shape, ordinary_day};
use std::io::{self, Write};
use std::process::ExitCode;

/// Every count at its most, and amounts and rates of an ordinary day.
fn full_shape() -> Shape {
    Shape {
        currencies: 24,
        members: 32,
        instructions: 1_024,
        steps: 2_000,
        largest_amount: 1_000_000,
        largest_rate: 20_000,
    }
}

fn file(kind: &str, seed: u64) -> Option<Vec<u8>> {
    let chance = &mut Chance::of(seed, 0);
    match kind {
        "full" => Some(ordinary_day(chance, &full_shape()).bytes()),
        "queue" => Some(chain_day(512).bytes()),
        "full-queue" => Some(full_chain_day(chance).bytes()),
        _ => None,
    }
}

fn main() -> ExitCode {
    let mut given = std::env::args().skip(1);
    let kind = given.next().unwrap_or_default();
    let seed = given.next().and_then(|word| word.parse().ok()).unwrap_or(1);
    match file(&kind, seed) {
        Some(bytes) if io::stdout().write_all(&bytes).is_ok() => ExitCode::SUCCESS,
        _ => {
            eprintln!("make full SEED | make queue | make full-queue SEED");
            ExitCode::from(2)
        }
    }
}
