//! The rows of the path table with 64 neighbours: the sizes toward each in turn.

use crate::best;
use crate::check::Check;
use crate::inside;
use crate::measure::{Row, Turns, COUNTED};
use crate::plain::NEIGHBOURS;
use crate::shape::{nodes, KEPT, LINK_SIZE, OTHER};
use crate::work::START;
use bogtrumpet::raw::Node;
use std::hint::black_box;

const COUNT: u32 = NEIGHBOURS as u32;

/// Turns of a lookup, which is given another neighbour in each of 64 turns.
fn turns<T: 'static, A>(node: T, first: u32, lookup: impl Fn(&T, u8, u32) -> A + 'static) -> Option<Turns> {
    Some(Box::new(move |turns| {
        let service = black_box(0);
        for turn in 0..turns {
            black_box(lookup(black_box(&node), service, first + turn % COUNT));
        }
    }))
}

/// The sizes of the first service toward 64 neighbours from the first on.
fn lookup(check: &mut Check, name: &str, first: u32) -> Row {
    let mut nodes = nodes(check, COUNT);
    let (best, library) = (nodes.best, nodes.library);
    let table = library.paths;
    let mut sum = 0;
    for neighbour in first..first + COUNT {
        sum += u64::from(nodes.path_size(check, neighbour).expect("a service"));
    }
    assert_eq!(sum, inside::sizes(&table, LINK_SIZE, first, COUNT, START), "{first:#x}: {library:?}");
    let inside: Turns = Box::new(move |turns| {
        for _ in 0..turns / COUNT {
            black_box(inside::sizes(black_box(&table), LINK_SIZE, first, COUNT, START));
        }
    });
    let best = turns(best, first, best::Node::path_size);
    let pointer = turns(library, first, Node::path_size);
    Row { name: name.into(), ways: [best, pointer, Some(inside)], counted: COUNTED }
}

pub fn rows(check: &mut Check) -> Vec<Row> {
    vec![lookup(check, "path lookup, found", KEPT), lookup(check, "path lookup, not found", OTHER)]
}
