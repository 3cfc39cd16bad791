//! The calls in the best plain Rust, the node by reference.

use crate::measure::Turns;
use crate::work::{turns, Call, Work};
use std::hint::black_box;

pub fn way(work: &'static Work) -> Turns {
    let node = work.nodes.best;
    match work.call {
        Call::Receive | Call::Piece => turns(work, node, |node, turn| {
            _ = black_box(&node.receive(turn.service, turn.input, turn.interface, turn.time, turn.memory));
        }),
        Call::Last => turns(work, node, move |node, turn| {
            _ = black_box(&node.receive(turn.service, turn.input, turn.interface, turn.time, turn.memory));
            node.set_back(&work.nodes.best, turn.place);
        }),
        Call::Send => turns(work, node, |node, turn| {
            _ = black_box(&node.send(turn.service, turn.input, turn.next_hop, turn.locator, turn.time, turn.out));
        }),
        Call::Report => turns(work, node, |node, turn| _ = black_box(&node.report(turn.input, turn.time))),
        Call::Ask => turns(work, node, |node, turn| {
            _ = black_box(&node.ask(turn.service, turn.locator, turn.time, turn.out));
        }),
        Call::Hear => turns(work, node, |node, turn| _ = black_box(&node.hear(turn.service, turn.input, turn.time))),
        Call::Advertise => turns(work, node, |node, turn| {
            let advertised = &turn.advertised.plain;
            _ = black_box(&node.advertise(turn.service, turn.input, turn.locator, advertised, turn.out));
        }),
    }
}
