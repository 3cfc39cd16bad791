//! A row's work: one call of a node with its inputs in turn, and the number that it must give.

use crate::measure::{pass, Turns, LOT};
use crate::nodes::{plain_advertisement, Nodes};
use crate::plain::rules::link_local;
use crate::plain::{self, Address};
use crate::shape::NEXT_HOP;
use bogtrumpet::raw;
use std::hint::black_box;

pub const INTERFACE: u8 = 1;
pub const LOCATOR: usize = 0;
/// Bytes of output that a call is lent.
pub const ROOM: usize = 9216;
/// So far apart, addresses are the same to some of the processor's tests.
const PAGE: usize = 4096;
/// The output moves by so much from pass to pass.
const STEP: usize = 256;
/// The time of the first turn.
pub const START: u32 = 1000;

/// What an operator has advertised, as either way is handed it.
pub struct Advertised {
    pub plain: plain::Advertisement,
    pub library: raw::Advertisement,
}

impl Advertised {
    pub fn new(library: raw::Advertisement) -> Advertised {
        Advertised { plain: plain_advertisement(&library), library }
    }
}

/// What one turn is given.
pub struct Turn<'a> {
    pub service: u8,
    pub input: &'a [u8],
    pub next_hop: &'a Address,
    pub advertised: &'a Advertised,
    pub interface: u8,
    pub locator: usize,
    pub time: u32,
    pub memory: &'a mut [u8],
    /// Of four places, the one that is set back.
    pub place: usize,
    pub out: &'a mut [u8],
}

pub enum Call {
    Receive,
    /// Receiving of a piece.
    Piece,
    /// Receiving of a piece that ends what waits in its place, which is set back to wait for the next turn.
    Last,
    Send,
    Report,
    Ask,
    Hear,
    Advertise,
}

/// One call, made with its inputs in turn.
pub struct Work {
    pub name: String,
    pub call: Call,
    /// What every turn must give.
    pub number: u8,
    pub nodes: Nodes,
    /// Four inputs of the same length, one behind the other; nothing where they are others.
    pub all: &'static [u8],
    /// The input of each turn of a lot.
    pub inputs: Vec<&'static [u8]>,
    pub next_hop: Address,
    pub advertised: Advertised,
    pub interface: u8,
    pub locator: usize,
    /// Seconds from turn to turn.
    pub step: u32,
}

impl Work {
    /// What a turn is given.
    pub fn turn<'a>(&'a self, turn: u32, memory: &'a mut [u8], out: &'a mut [u8]) -> Turn<'a> {
        let (place, time) = ((turn % LOT) as usize, START + turn * self.step);
        let Work { next_hop, advertised, interface, locator, .. } = self;
        let (service, input, interface, locator) = (self.nodes.service, self.inputs[place], *interface, *locator);
        Turn { service, input, next_hop, advertised, interface, locator, time, memory, place: place % 4, out }
    }
}

/// A work with these inputs in turn.
pub fn work_of(name: String, call: Call, number: u8, nodes: Nodes, inputs: &[&'static [u8]]) -> Work {
    let inputs = inputs.iter().copied().cycle().take(LOT as usize).collect();
    let advertised = Advertised::new(raw::Advertisement::default());
    let next_hop = link_local(NEXT_HOP);
    let (interface, locator) = (INTERFACE, LOCATOR);
    Work { name, call, number, nodes, all: &[], inputs, next_hop, advertised, interface, locator, step: 0 }
}

/// A work whose four inputs have the same length.
pub fn work(name: String, call: Call, number: u8, nodes: Nodes, input: impl FnMut(u32) -> Vec<u8>) -> Work {
    let all = (0..4).flat_map(input).collect::<Vec<u8>>().leak();
    let size = all.len() / 4;
    let inputs = [0, 1, 2, 3].map(|place| &all[place * size..][..size]);
    Work { all, ..work_of(name, call, number, nodes, &inputs) }
}

/// What all turns are given alike.
struct Given<'a> {
    service: u8,
    next_hop: &'a Address,
    advertised: &'a Advertised,
    interface: u8,
    locator: usize,
    memory: &'a mut [u8],
    out: &'a mut [u8],
}

/// Turns of a call, each run from the same node and time, the inputs in turn. Answers are handed to `black_box` where they stand: a
/// copy of one, read in other pieces than it was written in, would wait for it. What is given is read anew for each turn, from memory that
/// `black_box` has seen: an instruction for each argument. The output lies elsewhere in each pass: a multiple of 4,096 bytes from the input
/// or the node, what is written to it holds up what is read from them.
pub fn turns<N: Copy + 'static>(work: &'static Work, start: N, call: impl Fn(&mut N, Turn) + 'static) -> Turns {
    let (mut memory, mut out) = (work.nodes.memory().clone(), vec![0; ROOM + PAGE]);
    Box::new(move |turns| {
        let Work { inputs, next_hop, advertised, interface, locator, step, .. } = work;
        let (service, interface, locator) = (work.nodes.service, *interface, *locator);
        let (memory, out) = (&mut memory[..], &mut out[pass() * STEP % PAGE..][..ROOM]);
        let given = &mut Given { service, next_hop, advertised, interface, locator, memory, out };
        let given = black_box(given);
        let (mut node, mut time) = (start, START);
        for lot in (0..turns).step_by(LOT as usize) {
            let left = (turns - lot).min(LOT) as usize;
            for (place, input) in inputs[..left].iter().enumerate() {
                let place = place % 4;
                let Given { service, next_hop, advertised, interface, locator, memory, out } = given;
                let (service, interface, locator) = (*service, *interface, *locator);
                let turn = Turn { service, input, next_hop, advertised, interface, locator, time, memory, place, out };
                call(&mut node, turn);
                time += step;
            }
        }
        black_box((&node, given));
    })
}
