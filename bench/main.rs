//! The proved library beside plain Rust, the best that was found: the same work in each way, compared first and then measured.
//!
//!     bench --check    compares on random lists of calls alone
//!     bench            the table of times
//!     bench --count    each way's turns, for callgrind to count
//!     bench COUNTS     the table with the counts that callgrind wrote
//!     bench --moves    the table of bytes moved, if built with moves.c

// From what needs nothing to what needs all: measuring; a row's work; the ways to do it; the rows; the tables.
mod measure;

#[forbid(unsafe_code)]
mod best;
mod nodes;

mod shape;
mod work;

mod best_way;
mod compare;
mod inside;
mod pointer_way;

mod calls;
mod growth;
mod paths;
mod recordings;
mod rules;
mod setup;
mod yardstick;

mod table;

#[allow(dead_code)]
#[path = "../tests/boundary/advertised.rs"]
mod advertised;
#[allow(dead_code)]
#[path = "../tests/boundary/check.rs"]
mod check;
#[allow(dead_code)]
#[path = "../tests/boundary/lent.rs"]
mod lent;
#[allow(dead_code)]
#[path = "../tests/boundary/lists.rs"]
mod lists;
#[allow(dead_code)]
#[path = "../tests/boundary/packets.rs"]
mod packets;
#[allow(dead_code)]
#[path = "../tests/boundary/pieces.rs"]
mod pieces;
#[allow(dead_code)]
#[path = "../tests/boundary/plain.rs"]
mod plain;
#[allow(dead_code)]
#[path = "../tests/boundary/random.rs"]
mod random;
#[allow(dead_code)]
#[path = "../tests/boundary/stateless.rs"]
mod stateless;
#[allow(dead_code)]
#[path = "../tests/boundary/totals.rs"]
mod totals;
#[allow(dead_code)]
#[path = "../tests/boundary/nodes.rs"]
mod two_nodes;

fn main() {
    let argument = std::env::args().nth(1);
    if argument.as_deref() == Some("--check") {
        compare::lists();
        return recordings::compare(&mut check::Check::new(5214));
    }
    let mut check = check::Check::new(5214);
    let mut rows = rules::rows(&mut check.random);
    rows.extend(recordings::rows(&mut check.random));
    rows.extend(paths::rows(&mut check));
    rows.extend(setup::rows(&mut check));
    rows.extend(calls::works(&mut check).into_iter().map(|work| compare::row(&mut check, work)));
    let (held, grown) = (yardstick::rows(&mut check), growth::rows(&mut check));
    match argument.as_deref() {
        Some("--count") => {
            let held = held.into_iter().map(|held| held.row);
            measure::count(held.chain(rows).chain(grown.into_iter().flat_map(|grown| grown.rows)));
        }
        #[cfg(moves)]
        Some("--moves") => table::print_moves(&measure::moved(rows)),
        file => {
            let mut counts = measure::Counts::new(file);
            println!("yardstick:");
            table::print_held(&held, &mut counts);
            println!("figures:");
            let rows = measure::measured(rows, &mut counts);
            table::print_rows(&rows);
            println!("growth:");
            table::print_grown(&grown, &mut counts);
        }
    }
}
