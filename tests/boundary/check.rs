//! What every comparison needs: memory to lend, totals, random numbers, and the report of a difference.

use crate::lent::Lent;
use crate::random::Random;
use crate::totals::Totals;
use bogtrumpet::raw::Node;
use std::fmt::Debug;
use std::hint::black_box;

/// The longest bytes and the largest room that are lent.
pub const LONGEST: usize = 200_000;
const SLACK: usize = 4096;

pub struct Check {
    pub totals: Totals,
    pub random: Random,
    bytes: Bytes,
    second: Lent,
    node: Lent,
    pattern: Vec<u8>,
}

struct Bytes {
    input: Lent,
    output: Lent,
    expected: Vec<u8>,
}

/// Bytes lent to the library, and output with the same pattern for both.
pub struct Loan<'a> {
    pub input: &'a [u8],
    pub library: &'a mut [u8],
    pub plain: &'a mut [u8],
}

impl Check {
    pub fn new(seed: u64) -> Check {
        let mut random = Random::new(seed);
        let mut pattern = vec![0; LONGEST + SLACK];
        random.fill(&mut pattern);
        Check {
            totals: Totals::new(),
            random,
            bytes: Bytes { input: Lent::new(LONGEST), output: Lent::new(LONGEST), expected: vec![0; LONGEST] },
            second: Lent::new(LONGEST),
            node: Lent::new(size_of::<Node>()),
            pattern,
        }
    }

    /// So many bytes, others each time.
    pub fn pattern(&mut self, length: usize) -> Vec<u8> {
        pattern(&self.pattern, self.random.next(), length).to_vec()
    }

    /// Lends a copy of the bytes, and `room` bytes of output that hold a new pattern.
    pub fn lend(&mut self, bytes: &[u8], room: usize) -> Loan<'_> {
        let choice = self.random.next();
        self.bytes.lend(bytes, pattern(&self.pattern, choice, room), choice)
    }

    /// Lends copies of both bytes, and `room` bytes of output that hold a new pattern.
    pub fn lend_two(&mut self, bytes: &[u8], second: &[u8], room: usize) -> (Loan<'_>, &[u8]) {
        let choice = self.random.next();
        let lent = self.second.copy(second, choice & 1 << 35 != 0);
        (self.bytes.lend(bytes, pattern(&self.pattern, choice, room), choice), lent)
    }

    /// Lends a copy of the node, a copy of the bytes, and `room` bytes of output that hold a new pattern.
    pub fn lend_node(&mut self, node: &Node, bytes: &[u8], room: usize) -> (Loan<'_>, &mut Node) {
        let choice = self.random.next();
        let lent = self.node.node(node, choice & 1 << 35 != 0);
        (self.bytes.lend(bytes, pattern(&self.pattern, choice, room), choice), lent)
    }

    /// Lends a copy of the node, a copy of the bytes, and copies of this memory for the output.
    pub fn lend_memory(&mut self, node: &Node, bytes: &[u8], memory: &[u8]) -> (Loan<'_>, &mut Node) {
        let choice = self.random.next();
        let lent = self.node.node(node, choice & 1 << 35 != 0);
        (self.bytes.lend(bytes, memory, choice), lent)
    }

    /// Lends a copy of the bytes.
    pub fn lend_input(&mut self, bytes: &[u8]) -> &[u8] {
        let at_end = self.random.next() & 1 == 0;
        self.bytes.input.copy(bytes, at_end)
    }
}

fn pattern(all: &[u8], choice: u64, room: usize) -> &[u8] {
    &all[choice as usize % SLACK..][..room]
}

impl Bytes {
    fn lend(&mut self, bytes: &[u8], pattern: &[u8], choice: u64) -> Loan<'_> {
        let input = self.input.copy(bytes, choice & 1 << 33 != 0);
        let library = self.output.copy(pattern, choice & 1 << 32 != 0);
        let plain = &mut self.expected[..pattern.len()];
        plain.copy_from_slice(pattern);
        Loan { input, library, plain }
    }
}

impl Loan<'_> {
    /// Both outputs are the same, the bytes behind the written length too, and the input is what was lent.
    pub fn same_output(&self, input: &[u8], call: &dyn Fn() -> String) {
        same_bytes("output", self.plain, self.library, call);
        same_input(input, self.input, call);
    }
}

/// The input is what was lent. A compiler may hold that a call which is lent bytes to read leaves them alone.
pub fn same_input(expected: &[u8], lent: &[u8], call: &dyn Fn() -> String) {
    same_bytes("input", expected, black_box(lent), call);
}

/// The node that was lent to read is as it was.
pub fn same_node(expected: &Node, lent: &Node, call: &dyn Fn() -> String) {
    same("node", expected, black_box(lent), call);
}

fn same_bytes(what: &str, expected: &[u8], library: &[u8], call: &dyn Fn() -> String) {
    if expected != library {
        let at = expected.iter().zip(library).position(|(expected, library)| expected != library).unwrap_or(0);
        same(&format!("{what}, byte {at}"), &expected[at], &library[at], call);
    }
}

/// Ends the program with the call's details where the two differ.
pub fn same<T: PartialEq + Debug + ?Sized>(what: &str, expected: &T, library: &T, call: &dyn Fn() -> String) {
    if expected != library {
        println!("different: {what}\n  expected {expected:?}\n  library  {library:?}\n  {}", call());
        std::process::exit(1);
    }
}

/// The bytes in hexadecimal digits.
pub fn hex(bytes: &[u8]) -> String {
    let digits: String = bytes.iter().map(|byte| format!("{byte:02x}")).collect();
    format!("[{} bytes: {digits}]", bytes.len())
}
