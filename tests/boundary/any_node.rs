//! Nodes of any bytes, as a caller in C can hand them over: no call goes wrong on one. What holds of every node is checked: an answer
//! is one of the call's numbers, a refusal leaves the output alone and changes the latest time only, but for what a piece may change; a part
//! lies in the datagram or in the memory; 14 has a message exactly where the packet draws one; answer, node and output are the same when the
//! call is made once more elsewhere in memory; a service that the node has not gives 11; and one that it has is the same alone, and leaves
//! the other as it was.

use crate::advertised;
use crate::check::{hex, same, Check};
use crate::nodes::{boundary_service, may_change};
use crate::packets::{self, put};
use crate::pieces;
use crate::plain::pieces::{Key, MEMORY, ROOM};
use crate::plain::rules::unanswered;
use crate::totals::{Call, ABSENT, BY_FIRST, BY_SECOND, JOINED, TOO_BIG_SILENT};
use bogtrumpet::raw::{self, Address, Addresses, Locator, Node, Service};
use std::fmt::Debug;
use std::hint::black_box;

/// Every call on one such node, with bytes that suit the first locator and router of the service that it names.
pub fn any_node(check: &mut Check) {
    let node = node(check);
    let any = check.random.next() as u8;
    let service = check.random.one_of(&[0, 0, 0, 1, 1, 1, 2, any]);
    let (locator, router) = ends(&node, service);
    let time = check.random.next() as u32;
    let number = check.random.one_of(&[0, 7, 8, usize::MAX]);
    let source = packets::address(&[0xfe, 0x80, 0, 0, 0, 0, 0, 0], 0, router);
    let length = check.random.one_of(&[40, 60, 100, 1280, 1281, 1500]);
    let mut packet = packets::packet(&mut check.random, length, 58, &source);
    if check.random.once_in(2) {
        packets::random_chain(&mut check.random, &mut packet);
    }
    let named = Named { node: &node, service };
    arriving(check, named, &packet, time);
    reporting(check, &node, (locator.address, router), time);

    let advertisement = packets::advertisement(&mut check.random, &source, 1800, &[]);
    let tried = Tried { named, bytes: &advertisement, memory: None, room: 0, time, name: "hear" };
    let heard = tried.twice(check, |node, service, bytes, _| node.hear(service, bytes, time));
    tried.refused(heard.answer.number, &heard);
    tried.count(check, heard.answer.number, &[0, 8, 20, 21]);

    let list = Addresses { routers: named.service().settings.routers, count: number };
    let tried = Tried { named, bytes: &[], memory: None, room: 0, time, name: "replace_routers" };
    let replaced = tried.twice(check, |node, service, _, _| node.replace_routers(service, list, time));
    tried.refused(replaced.answer, &replaced);
    tried.count(check, replaced.answer, &[0, 1]);

    let tried = Tried { named, bytes: &[], memory: None, room: 0, time: 0, name: "path_size" };
    let sized = tried.twice(check, |node, service, _, _| node.path_size(service, router));
    same("node", &node, &sized.node, &|| tried.words());
    let most = if named.is_there() { named.service().settings.link_size } else { 0 };
    same("at most the link size", &true, &(sized.answer.size <= most), &|| tried.words());
    tried.count(check, sized.answer.number, &[0]);
    writing(check, named, &packet, Address { bytes: source }, number, time);
}

/// A node, and the service of it that a call names.
#[derive(Clone, Copy)]
struct Named<'a> {
    node: &'a Node,
    service: u8,
}

impl Named<'_> {
    /// Whether the node has it.
    fn is_there(self) -> bool {
        self.service == 0 || self.service == 1 && self.node.both != 0
    }

    /// The second, or the first for every other number.
    fn service(&self) -> &Service {
        if self.service == 1 {
            &self.node.second
        } else {
            &self.node.first
        }
    }

    /// The node with no other service.
    fn alone(self) -> Node {
        Node { first: *self.service(), second: Service::EMPTY, both: 0, ..*self.node }
    }
}

/// The first locator of the named service, and its first router.
fn ends(node: &Node, service: u8) -> (Locator, u32) {
    let service = Named { node, service };
    (service.service().settings.locators[0], service.service().routers.addresses[0])
}

/// A report about the second of two ends, quoting the first.
fn reporting(check: &mut Check, node: &Node, ends: (u32, u32), time: u32) {
    let size = check.random.next() as u16;
    let message = packets::size_report(&mut check.random, size, 1500, ends, 0, 8);
    let owner = owner(node, ends.0);
    let named = Named { node, service: owner.unwrap_or(0) };
    let tried = Tried { named, bytes: &message, memory: None, room: 0, time, name: "report" };
    // A node with the owner alone answers the same.
    let reported = tried.twice(check, |node, _, bytes, _| node.report(bytes, time));
    let number = reported.answer.number;
    tried.refused(number, &reported);
    let numbers: &[u8] = if owner.is_some() { &[0, 17, 18, 19] } else { &[17] };
    tried.count(check, number, numbers);
    if let (0, Some(owner)) = (number, owner) {
        check.totals.met(Call::AnyNode, [BY_FIRST, BY_SECOND][usize::from(owner)]);
    }
}

/// The service that has a locator of the address: the first, if both have one. A count above 8 is read as 8.
fn owner(node: &Node, address: u32) -> Option<u8> {
    let has = |service: u8| {
        let named = Named { node, service };
        let settings = &named.service().settings;
        let locators = settings.locators.iter().take(settings.locator_count);
        named.is_there() && locators.into_iter().any(|locator| locator.address == address)
    };
    (0..2).find(|&service| has(service))
}

/// A datagram with the packet, and pieces of it.
fn arriving(check: &mut Check, named: Named, packet: &[u8], time: u32) {
    let (locator, router) = ends(named.node, named.service);
    let datagram = packets::datagram(&mut check.random, (router, locator.address), 0, packet, 3);
    let room = check.random.one_of(&[MEMORY, MEMORY, MEMORY, MEMORY + 7, MEMORY - 1, 0]);
    let mut memory = check.pattern(room);
    receiving(check, named, &datagram, locator.interface, time, &memory);
    for source in [router, router, 0x0a01_0001] {
        let key = Key { source, destination: locator.address, identification: 1, protocol: 41 };
        let (node, piece) = on_its_way(check, named, key, packet, time);
        // Some places hold the packet.
        memory.chunks_exact_mut(ROOM).filter(|_| check.random.once_in(3)).for_each(|place| put(place, 0, packet));
        receiving(check, Named { node: &node, ..named }, &piece, locator.interface, time, &memory);
    }
}

fn receiving(check: &mut Check, named: Named, datagram: &[u8], interface: u8, time: u32, memory: &[u8]) {
    let tried = Tried { named, bytes: datagram, memory: Some(memory), room: memory.len(), time, name: "receive" };
    let mut received =
        tried.twice(check, |node, service, bytes, memory| node.receive(service, bytes, interface, time, memory));
    let answer = received.answer;
    let holds = if answer.joined { memory.len() } else { datagram.len() };
    same("part in what holds it", &true, &(answer.offset + answer.length <= holds), &|| tried.words());
    let (collects, writes) = may_change(datagram, answer.number);
    same("memory left alone", &true, &(received.silent || writes), &|| tried.words());
    let mut kept = Node { latest: named.node.latest.max(time), ..*named.node };
    if collects {
        boundary_service(&mut kept, named.service).pieces = boundary_service(&mut received.node, named.service).pieces;
    }
    same("node but for what is collected", &kept, &received.node, &|| tried.words());
    tried.count(check, answer.number, &[0, 2, 3, 4, 6, 7, 8, 9, 10, 15, 27, 28, 29, 30]);
    if answer.joined {
        check.totals.count(Call::AnyNode, JOINED);
    }
}

/// A piece of the packet, and the node with its key in some places, live or not, and anything held there.
fn on_its_way(check: &mut Check, named: Named, key: Key, packet: &[u8], time: u32) -> (Node, Vec<u8>) {
    let random = &mut check.random;
    let parts = pieces::cut(random, key, packet);
    let mut part = parts[random.below(parts.len())].clone();
    // All units but those of the part.
    let mut others = [u64::MAX; 4];
    let units = part.offset..(8 * part.offset + part.payload.len()).div_ceil(8);
    units.for_each(|unit| others[unit / 64] &= !(1 << (unit % 64)));
    if random.once_in(6) {
        pieces::damage(random, &mut part);
    }
    let mut node = *named.node;
    let now = node.latest.max(time);
    let full = random.once_in(12);
    for place in &mut boundary_service(&mut node, named.service).pieces.places {
        let any = random.next();
        if full {
            (place.used, place.first) = (any as u8 | 1, now);
            continue;
        }
        if random.once_in(3) {
            let Key { source, destination, identification, protocol } = key;
            place.key = raw::Key { source, destination, identification, protocol };
        }
        place.used = random.one_of(&[0, 1, 1, 2, 255, any as u8]);
        place.first =
            random.one_of(&[now, now.wrapping_sub(29), now.wrapping_sub(30), now.wrapping_add(5), any as u32]);
        place.end = random.one_of(&[0, 0, packet.len() as u16, 2048, 2049, u16::MAX, any as u16]);
        place.reach = random.one_of(&[0, 0, 96, 2048, u16::MAX, any as u16]);
        place.held = random.one_of(&[others, others, [any; 4], [0; 4], [u64::MAX; 4]]);
    }
    (node, part.bytes(random))
}

/// Sending, asking and advertising.
fn writing(check: &mut Check, named: Named, packet: &[u8], next_hop: Address, locator: usize, time: u32) {
    let room = check.random.one_of(&[0, 47, 48, 79, 80, 1279, 1280, 1600]);
    let tried = Tried { named, bytes: packet, memory: None, room, time, name: "send" };
    let sent = tried.twice(check, |node, service, bytes, out| node.send(service, bytes, next_hop, locator, time, out));
    tried.refused(sent.answer.number, &sent);
    let longest = sent.answer.length.max(sent.answer.message_length);
    same("length in the room", &true, &(longest <= room), &|| tried.words());
    tried.count(check, sent.answer.number, &[0, 8, 11, 12, 13, 14, 15, 23]);
    if sent.answer.number == 14 {
        let length = if unanswered(packet) { 0 } else { 1280 };
        same("length of the message", &length, &sent.answer.message_length, &|| tried.words());
        if length == 0 {
            check.totals.count(Call::AnyNode, TOO_BIG_SILENT);
        }
    }

    let tried = Tried { named, bytes: &[], memory: None, room, time, name: "ask" };
    let asked = tried.twice(check, |node, service, _, out| node.ask(service, locator, time, out));
    tried.refused(asked.answer.number, &asked);
    tried.count(check, asked.answer.number, &[0, 11, 22, 15]);
    advertising(check, named, next_hop, locator);
}

/// Advertising to the address, or to one that is nearly it.
fn advertising(check: &mut Check, named: Named, mut asker: Address, locator: usize) {
    if check.random.once_in(4) {
        asker.bytes[check.random.below(12)] ^= 1 << check.random.below(8);
    }
    let mut packet = packets::solicitation(&mut check.random, &asker.bytes, &[]);
    packet[41] = check.random.once_in(4).into();
    packets::repair_icmpv6(&mut packet);
    let advertised = advertised::any(&mut check.random);
    let room = check.random.one_of(&[0, 55, 56, 120, 300, advertised::LONGEST]);
    let tried = Tried { named, bytes: &packet, memory: None, room, time: 0, name: "advertise" };
    let gave = tried.twice(check, |node, service, bytes, out| node.advertise(service, bytes, locator, advertised, out));
    tried.refused(gave.answer.number, &gave);
    same("node", named.node, &gave.node, &|| tried.words());
    same("length in the room", &true, &(gave.answer.length <= room), &|| tried.words());
    tried.count(check, gave.answer.number, &[0, 8, 11, 24, 25, 26, 15]);
}

/// A call and what it is lent.
struct Tried<'a> {
    named: Named<'a>,
    bytes: &'a [u8],
    /// What stands in the output, where that matters.
    memory: Option<&'a [u8]>,
    room: usize,
    time: u32,
    name: &'static str,
}

/// Answer, node and changed bytes of the output.
type Outcome<A, C> = (A, Node, C);
type Changed = Vec<Option<u8>>;

/// What a call gave, and whether it left its output alone.
struct Gave<A> {
    answer: A,
    node: Node,
    silent: bool,
}

impl Tried<'_> {
    /// Makes the call on two copies of all that it is lent, and once more where the named service is alone: all must give the same.
    fn twice<A: PartialEq + Debug>(
        &self,
        check: &mut Check,
        call: impl Fn(&mut Node, u8, &[u8], &mut [u8]) -> A,
    ) -> Gave<A> {
        let Named { node, service } = self.named;
        let first = self.once(check, node, |node, bytes, out| call(node, service, bytes, out));
        let second = self.once(check, node, |node, bytes, out| call(node, service, bytes, out));
        self.same_outcome("made again", &first, &second);
        if self.named.is_there() {
            let alone = self.once(check, &self.named.alone(), |node, bytes, out| call(node, 0, bytes, out));
            let service_then = Named { node: &first.1, service };
            let of_service = (&first.0, service_then.alone(), &first.2);
            self.same_outcome("made alone", &of_service, &(&alone.0, alone.1, &alone.2));
            let mut kept = Node { paths: first.1.paths, latest: first.1.latest, ..*node };
            *boundary_service(&mut kept, service) = *service_then.service();
            same("the other service", &kept, &first.1, &|| self.words());
        }
        Gave { answer: first.0, node: first.1, silent: first.2.iter().all(Option::is_none) }
    }

    /// Answer, node and output, of which the last as far as it differs from what stood there: mostly not at all.
    fn once<A>(
        &self,
        check: &mut Check,
        node: &Node,
        call: impl Fn(&mut Node, &[u8], &mut [u8]) -> A,
    ) -> Outcome<A, Changed> {
        let (loan, node) = match self.memory {
            Some(memory) => check.lend_memory(node, self.bytes, memory),
            None => check.lend_node(node, self.bytes, self.room),
        };
        let answer = call(node, loan.input, loan.library);
        let node = *black_box(node);
        let written = loan.plain.iter().zip(&*loan.library).map(|(was, is)| (was != is).then_some(*is));
        let changed = if loan.plain == loan.library { Vec::new() } else { written.collect() };
        (answer, node, changed)
    }

    fn same_outcome<A, C>(&self, made: &str, one: &Outcome<A, C>, other: &Outcome<A, C>)
    where
        A: PartialEq + Debug,
        C: AsRef<[Option<u8>]>,
    {
        same(&format!("answer and node, {made}"), &(&one.0, &one.1), &(&other.0, &other.1), &|| self.words());
        // A byte that one pattern had already is no difference there.
        let bytes = one.2.as_ref().iter().zip(other.2.as_ref());
        let apart = bytes.into_iter().any(|bytes| matches!(bytes, (Some(a), Some(b)) if a != b));
        same("other outputs", &false, &apart, &|| self.words());
    }

    /// A refusal changes the latest time only; 14 alone may write.
    fn refused<A>(&self, number: u8, gave: &Gave<A>) {
        if number != 0 {
            let raised = Node { latest: self.named.node.latest.max(self.time), ..*self.named.node };
            same("node after a refusal", &raised, &gave.node, &|| self.words());
            same("output after a refusal", &true, &(gave.silent || number == 14), &|| self.words());
        }
    }

    fn count(&self, check: &mut Check, number: u8, numbers: &[u8]) {
        let (numbers, counted) = if self.named.is_there() { (numbers, number.into()) } else { (&[11][..], ABSENT) };
        same("a number of the call", &true, &numbers.contains(&number), &|| self.words());
        check.totals.count(Call::AnyNode, counted);
    }

    fn words(&self) -> String {
        let Named { node, service } = self.named;
        let arguments = format!("{} room {} time {}", hex(self.bytes), self.room, self.time);
        format!("{} {arguments} service {service} on {node:?}", self.name)
    }
}

/// A node with random bytes and counts in every field; often both services have the same locators.
fn node(check: &mut Check) -> Node {
    let mut bytes = [0u8; size_of::<Node>()];
    check.random.fill(&mut bytes);
    // SAFETY: every field is a number, so any bytes are a node.
    let mut node: Node = unsafe { std::mem::transmute(bytes) };
    let random = &mut check.random;
    for service in [&mut node.first, &mut node.second] {
        let settings = &mut service.settings;
        settings.locator_count = random.one_of(&COUNTS);
        settings.prefix_count = random.one_of(&COUNTS);
        settings.router_count = random.one_of(&COUNTS);
        settings.link_size = random.one_of(&[0, 1, 19, 20, 21, 1300, 1500, 65535]);
        service.routers.count = random.one_of(&COUNTS);
        node.paths.neighbours[random.below(64)] = service.routers.addresses[0];
    }
    node.paths.count = random.one_of(&COUNTS);
    node.both = random.one_of(&[0, 1, 2, 128, 255, node.both]);
    if random.once_in(3) {
        node.second.settings.locators = node.first.settings.locators;
    }
    node
}

const COUNTS: [usize; 11] = [0, 1, 8, 9, 16, 17, 64, 65, 1 << 32, usize::MAX, usize::MAX / 8 + 1];
