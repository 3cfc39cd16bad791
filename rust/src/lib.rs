//! Bogtrumpet: one ISATAP tunnel end (RFC 5214), or two in one box, proved. An IPv6 packet gets one IPv4 header at one end and loses it at
//! the other.
//!
//! This is the library of `include/bogtrumpet.h` as Rust has it: an answer is a [`Result`] with a [`Refusal`], what is written comes back
//! as the part of the output that holds it. The library, `libbogtrumpet.a`, is machine code for x86-64 and ELF (`make` of the repository);
//! the build script looks for it in `../target/staticlib`, or in the folder that `BOGTRUMPET_LIB_DIR` names.
//!
//! No call allocates, blocks, panics or keeps what it is lent. One needs at most 8 KiB of stack. After a refusal the output is as it
//! was and the node too, but for its latest time; of pieces of datagrams [`Node::receive`] says what else may have changed. Bytes of an
//! output behind what was written stay as they were. Time is a count of seconds that the caller hands over; one earlier than the latest is
//! read as the latest.
//!
//! ```
//! use bogtrumpet::rules::link_local;
//! use bogtrumpet::{Locator, Node, Refusal, Sent, ServiceName::First, Settings};
//! use std::net::Ipv4Addr;
//!
//! # fn main() -> Result<(), Refusal> {
//! let (centre, station) = (Ipv4Addr::new(10, 0, 0, 1), Ipv4Addr::new(10, 0, 0, 2));
//! let mut sender = Node::new(&Settings::new(&[Locator::new(centre, 0)]))?;
//! let mut receiver = Node::new(&Settings::new(&[Locator::new(station, 0)]))?;
//!
//! // An IPv6 packet without payload, from the centre.
//! let mut packet = [0; 40];
//! packet[0] = 0x60;
//! packet[6] = 59;
//! packet[8..24].copy_from_slice(&link_local(centre).octets());
//!
//! let mut out = [0; 1500];
//! let Sent::Wrapped(datagram) = sender.send(First, &packet, link_local(station), 0, 1000, &mut out)? else {
//!     panic!("40 bytes pass everywhere");
//! };
//! assert_eq!(datagram.len(), 60);
//! // What comes in pieces is joined in memory that the receiver is lent, always the same.
//! let mut memory = [0; bogtrumpet::MEMORY];
//! assert_eq!(receiver.receive(First, datagram, 0, 1000, &mut memory)?.packet(), packet);
//! assert_eq!(receiver.receive(First, datagram, 1, 1000, &mut memory), Err(Refusal::NotForUs));
//! # Ok(())
//! # }
//! ```

mod advertisement;
mod node;
pub mod raw;
mod refusal;
pub mod rules;
mod settings;

pub use advertisement::{AdvertisedPrefix, AdvertisedRoute, Advertisement, Preference};
pub use node::{Asked, Node, Received, Reported, Router, Sent, ServiceName};
pub use refusal::Refusal;
pub use settings::{Locator, Prefix, Settings};

/// The most locators of a service.
pub const MAX_LOCATORS: usize = 8;
/// The most on-link prefixes, beside fe80::/64.
pub const MAX_PREFIXES: usize = 8;
/// The most routers of a list.
pub const MAX_ROUTERS: usize = 16;
/// The most neighbours whose path sizes are kept.
pub const MAX_NEIGHBOURS: usize = 64;
/// The most prefixes of an advertisement that is written, and the most routes of it.
pub const MAX_ADVERTISED: usize = 8;
/// The memory that [`Node::receive`] is lent: so many bytes or more.
pub const MEMORY: usize = 16_384;
/// The length of the IPv4 header that is written.
pub const OUTER_HEADER_LENGTH: usize = 20;
/// The length of a router solicitation.
pub const SOLICITATION_LENGTH: usize = 48;
/// The most that an advertisement that is written is long.
pub const MAX_ADVERTISEMENT_LENGTH: usize = 504;
/// The length of a run in the report of [`rules::compare`].
pub const RUN_LENGTH: usize = 6;
/// The most that a Too Big message is long.
pub const MAX_TOO_BIG_LENGTH: usize = 1280;
/// The most that [`Node::send`] writes.
pub const MAX_SENT_LENGTH: usize = 9216;
