//! Compares the proved library with plain Rust written from the rules (docs/RULES.md): every call of the node and every rule without
//! state, on random lists of calls and on the edges of the rules; and measures the stack that each call needs.
//!
//!     boundary [SEED [CALLS [lists]]]
//!     boundary stack LIMIT
//!
//! CALLS are those of the random lists, behind the edges; `lists` leaves the edges out. One line of totals, or the first difference and
//! status 1. Status 1 too if a run of a million calls or more never met an answer that can come. `stack` has a line for each call, and
//! status 1 if one needs more than the limit.

mod advertise_edges;
mod advertised;
mod any_node;
mod chain_edges;
mod check;
mod edges;
mod faults;
#[cfg(through_c)]
mod layout;
mod lent;
mod lists;
mod nodes;
mod null;
mod packets;
mod piece_edges;
mod pieces;
#[allow(dead_code)]
mod plain;
mod random;
mod recordings;
mod rules;
mod service_edges;
mod stack;
mod stateless;
mod totals;

use check::Check;
use std::process::exit;

fn main() {
    let words: Vec<String> = std::env::args().skip(1).collect();
    let number = |place: usize, default: u64| words.get(place).map_or(default, |word| word.parse().expect("a number"));
    if words.first().is_some_and(|word| word == "stack") {
        exit(if stack::stack(number(1, 8192) as usize) { 0 } else { 1 });
    }
    compare(&mut Check::new(number(0, 1)), number(1, 5_000_000), words.len() < 3);
}

fn compare(check: &mut Check, calls: u64, with_edges: bool) {
    #[cfg(through_c)]
    layout::compare();
    null::null_slices(check, nodes::boundary_settings(&edges::settings()));
    faults::faults(check);
    if with_edges {
        edges::edges(check);
        chain_edges::edges(check);
        advertise_edges::edges(check);
        piece_edges::edges(check);
        service_edges::edges(check);
        rules::edges(check);
        recordings::edges(check);
    }
    let all = check.totals.calls + calls;
    while check.totals.calls < all {
        let length = check.random.between(1, 2000);
        lists::list(check, length);
        for _ in 0..length / 8 {
            rules::random(check);
            recordings::random(check);
            any_node::any_node(check);
        }
    }
    println!("{}", check.totals.line());
    let missing = check.totals.missing();
    if all >= 1_000_000 && !missing.is_empty() {
        println!("never met: {}", missing.join(", "));
        exit(1);
    }
}
