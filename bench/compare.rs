//! What is compared before anything is measured: the library, the simple plain Rust and the best one, on random lists of calls and on the turns
//! of each row.

use crate::check::Check;
use crate::lists;
use crate::measure::{Row, Turns, COUNTED};
use crate::work::{Call, Turn, Work, ROOM};
use crate::{best_way, inside, pointer_way};

/// Calls of the random lists.
const CALLS: u64 = 3_000_000;
/// Calls that these lists have not.
const OTHERS: [&str; 13] = [
    "checksum",
    "checksum_right",
    "forbidden",
    "isatap",
    "link_local",
    "bad_source",
    "wrap",
    "too_big",
    "solicitation",
    "compare",
    "more in",
    "with (NULL, 0)",
    "on any node",
];

/// Random lists of calls. Every answer that can come must have come.
pub fn lists() {
    let mut check = Check::new(5214);
    while check.totals.calls < CALLS {
        let length = check.random.between(1, 2000);
        lists::list(&mut check, length);
    }
    let mut missing = check.totals.missing();
    missing.retain(|answer| !OTHERS.iter().any(|other| answer.starts_with(other)));
    assert!(missing.is_empty(), "never met: {}", missing.join(", "));
    println!("{} calls of random lists: the library and both of plain Rust the same", check.totals.calls);
}

/// Makes the calls of some turns on all nodes: answers, outputs and next states must be the same, and the number the row's.
fn compare(check: &mut Check, work: &Work) {
    let mut nodes = work.nodes.clone();
    for turn in 0..256 {
        let Turn { input, next_hop, advertised, interface, locator, time, place, .. } =
            work.turn(turn, &mut [], &mut []);
        let number = match work.call {
            Call::Receive | Call::Piece => nodes.receive(check, input, interface, time).err().unwrap_or(0),
            Call::Last => {
                let answer = nodes.receive(check, input, interface, time);
                nodes.set_back(&work.nodes, place);
                answer.err().unwrap_or(0)
            }
            Call::Send => nodes.send(check, input, *next_hop, locator, time, ROOM),
            Call::Report => nodes.report(check, input, time),
            Call::Ask => nodes.ask(check, locator, time, ROOM),
            Call::Hear => nodes.hear(check, input, time),
            Call::Advertise => nodes.advertise(check, input, locator, &advertised.library, ROOM).err().unwrap_or(0),
        };
        assert_eq!(number, work.number, "{}, turn {turn}", work.name);
    }
}

/// Plain Rust, and the library over a pointer.
fn two_ways(check: &mut Check, work: Work) -> (&'static Work, [Turns; 2]) {
    compare(check, &work);
    let work: &'static Work = Box::leak(Box::new(work));
    (work, [best_way::way(work), pointer_way::way(work)])
}

/// The row of a work in all ways.
pub fn row(check: &mut Check, work: Work) -> Row {
    let (work, [best, pointer]) = two_ways(check, work);
    Row { name: work.name.clone(), ways: [Some(best), Some(pointer), inside::way(work)], counted: COUNTED }
}

/// The row of a work without a loop of the library.
pub fn short_row(check: &mut Check, work: Work) -> Row {
    let (work, [best, pointer]) = two_ways(check, work);
    Row { name: work.name.clone(), ways: [Some(best), Some(pointer), None], counted: COUNTED }
}
