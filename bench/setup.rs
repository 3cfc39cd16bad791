//! The rows of setup, of one service and of two, and of a new router list.

use crate::best;
use crate::check::Check;
use crate::measure::{Row, Turns, COUNTED};
use crate::shape::{nodes, Shape, OWNS, ROUTER};
use crate::two_nodes::boundary_settings;
use crate::work::START;
use bogtrumpet::raw::{self, Addresses};
use std::hint::black_box;

/// Turns of the work, with the number of each.
fn turns(mut work: impl FnMut(u32) + 'static) -> Option<Turns> {
    Some(Box::new(move |turns| (0..turns).for_each(&mut work)))
}

fn row(name: &str, best: Option<Turns>, library: Option<Turns>) -> Row {
    Row { name: name.into(), ways: [best, library, None], counted: COUNTED }
}

/// A node, made where another one stood. The library is handed its settings by value, plain Rust by reference.
fn new(check: &mut Check) -> Row {
    let settings = Shape::COMMON.settings(OWNS[0]);
    nodes(check, 0);
    let given = boundary_settings(&settings);
    let best = turns(move |_| _ = black_box(&best::Node::new(black_box(&settings))));
    let mut node = raw::Node::EMPTY;
    let library = turns(move |_| _ = black_box((node.set_up(*black_box(&given)), &node)));
    row("new node", best, library)
}

fn new_pair(check: &mut Check) -> Row {
    let pair = OWNS.map(|own| Shape::COMMON.settings(own));
    Shape::COMMON.nodes_of_two(check, 0);
    let given = pair.each_ref().map(boundary_settings);
    let best = turns(move |_| {
        let [first, second] = black_box(&pair);
        _ = black_box(&best::Node::new_pair(first, second));
    });
    let mut node = raw::Node::EMPTY;
    let library = turns(move |_| {
        let [first, second] = black_box(&given);
        _ = black_box((node.set_up_pair(*first, *second), &node));
    });
    row("new node of two", best, library)
}

/// Two lists of four in turn, which have two in common.
fn replace(check: &mut Check) -> Row {
    let lists = [0, 2].map(|first| [0, 1, 2, 3].map(|place| ROUTER + first + place));
    let mut compared = nodes(check, 0);
    for turn in 0..4 {
        assert_eq!(compared.replace_routers(check, &lists[turn % 2], START), 0);
    }
    let (mut best, mut library) = (compared.best, compared.library);
    let given = lists.map(|list| {
        let mut given = Addresses { routers: [0; 16], count: list.len() };
        given.routers[..list.len()].copy_from_slice(&list);
        given
    });
    let best = turns(move |turn| _ = black_box(best.replace_routers(0, black_box(&lists[turn as usize % 2]), START)));
    let library = turns(move |turn| _ = black_box(library.replace_routers(0, given[turn as usize % 2], START)));
    row("new router list", best, library)
}

pub fn rows(check: &mut Check) -> Vec<Row> {
    vec![new(check), new_pair(check), replace(check)]
}
