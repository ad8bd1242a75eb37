//! Prints a long script for `rehearse`, the same one for the same kind, seed and number of calls.
// The modules are shared with other programs, which need more of them.
#![allow(dead_code)]

mod asking;
mod book;
mod bridge;
mod chance;
mod chess;
mod congress;
mod deliver;
mod issues;
mod kind;
mod maker;
mod messages;
mod moves;
mod operations;
mod plan;
mod roll;
mod script;
mod speech;
mod stage;
mod standings;
mod wild;
mod wording;
mod words;

use std::io::{self, Write};
use std::process::ExitCode;

use book::Page;
use chance::Chance;
use maker::Maker;
use operations::Game;
use plan::{Kind, Plan};

const CALLS: usize = 3000;

struct Order {
    kind: Kind,
    name: String,
    seed: u64,
    calls: usize,
}

fn main() -> ExitCode {
    let arguments: Vec<String> = std::env::args().skip(1).collect();
    let Some(order) = read_order(&arguments) else {
        eprintln!("usage: rehearsals chess|bridge|full|edges SEED [CALLS]");
        return ExitCode::FAILURE;
    };
    match io::stdout().write_all(&script(&order)) {
        Ok(()) => ExitCode::SUCCESS,
        Err(error) => {
            eprintln!("rehearsals: {error}");
            ExitCode::FAILURE
        }
    }
}

fn read_order(arguments: &[String]) -> Option<Order> {
    let (name, seed, calls) = match arguments {
        [name, seed] => (name, seed, CALLS),
        [name, seed, calls] => (name, seed, calls.parse().ok()?),
        _ => return None,
    };
    Some(Order {
        kind: Kind::from_name(name)?,
        name: name.clone(),
        seed: seed.parse().ok()?,
        calls,
    })
}

fn script(order: &Order) -> Vec<u8> {
    let mut chance = Chance::new(mixed(order));
    let plan = Plan::new(order.kind, &mut chance);
    match plan.game {
        Game::Chess => script_over(chess::Page::default(), chance, plan, order),
        Game::Bridge => script_over(bridge::Page::default(), chance, plan, order),
    }
}

fn script_over(page: impl Page, chance: Chance, plan: Plan, order: &Order) -> Vec<u8> {
    let page = roll::Page::new(plan.chief_token, page);
    let title = format!("# rehearsals {} {} {}", order.name, order.seed, order.calls);
    Maker::new(chance, plan, page).script(order.calls, &title)
}

/// Seeds that differ little give states that differ much, and never 0.
fn mixed(order: &Order) -> u64 {
    let spread = |bits: u64, byte: u8| {
        let bits = (bits ^ u64::from(byte)).wrapping_mul(0x9E37_79B9_7F4A_7C15);
        bits ^ bits >> 29
    };
    let bytes = order.name.bytes().chain(order.seed.to_le_bytes());
    bytes.fold(0xD1B5_4A32_D192_ED03, spread).max(1)
}
