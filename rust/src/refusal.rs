//! Why a call was refused.

use std::error::Error;
use std::fmt;

macro_rules! refusals {
    ($($(#[$doc:meta])* $name:ident $number:literal $text:literal;)*) => {
        /// Why a call was refused. Where several apply, the first in the order that stands at the call is given.
        ///
        /// 14, Too Big, is none of these: it carries values, and is [`Sent::TooBig`](crate::Sent::TooBig).
        #[derive(Clone, Copy, Debug, PartialEq, Eq, Hash, PartialOrd, Ord)]
        #[repr(u8)]
        #[non_exhaustive]
        pub enum Refusal {
            $($(#[$doc])* $name = $number,)*
        }

        impl Refusal {
            /// Every refusal, in the order of the numbers.
            pub const ALL: &'static [Refusal] = &[$(Refusal::$name),*];

            /// The number that C gives and the project's papers name.
            #[must_use]
            pub fn number(self) -> u8 {
                self as u8
            }

            /// The refusal of that number; `None` for 0, 14 and those above 31.
            #[must_use]
            pub fn from_number(number: u8) -> Option<Refusal> {
                match number {
                    $($number => Some(Refusal::$name),)*
                    _ => None,
                }
            }

            fn text(self) -> &'static str {
                match self {
                    $(Refusal::$name => $text,)*
                }
            }
        }
    };
}

refusals! {
    /// Settings or a new router list break the rules, or two services share a locator address.
    Settings 1 "settings or a new router list break the rules, or two services share a locator address";
    /// The outer header is malformed.
    OuterMalformed 2 "outer header malformed";
    /// The outer checksum is wrong.
    OuterChecksum 3 "outer checksum wrong";
    /// The protocol is not 41.
    OtherProtocol 4 "protocol is not 41";
    /// A piece of a datagram: more-fragments set or offset not 0. Of the rules without state alone.
    Piece 5 "a piece of a datagram";
    /// Destination and arrival interface match no locator.
    NotForUs 6 "destination and arrival interface match no locator";
    /// The outer source is forbidden.
    OuterSourceForbidden 7 "outer source forbidden";
    /// The inner packet is malformed.
    InnerMalformed 8 "inner packet malformed";
    /// The inner source is bad.
    InnerSourceBad 9 "inner source bad";
    /// The outer source is wrong for the inner source.
    OuterSourceWrong 10 "outer source wrong for the inner source";
    /// There is no locator of that number, or the node has no such service.
    NoLocator 11 "no locator of that number, or no such service";
    /// The next hop is no ISATAP address.
    NextHopNotIsatap 12 "next hop is no ISATAP address";
    /// The tunnel end is forbidden, or a locator's address.
    TunnelEndForbidden 13 "tunnel end forbidden, or a locator's address";
    /// The output is too short for what would be written, or the memory of receiving too short.
    OutputShort 15 "output or memory too short";
    /// No well-formed size report.
    ReportMalformed 16 "no well-formed size report";
    /// The quote is not of our sending.
    QuoteNotOurs 17 "the quote is not of our sending";
    /// The reported size is unusable.
    SizeUnusable 18 "reported size unusable";
    /// The reported size is not below the one in force.
    SizeNotBelow 19 "reported size not below the one in force";
    /// No valid advertisement.
    AdvertisementInvalid 20 "no valid advertisement";
    /// The advertiser is no router of the list.
    AdvertiserNotListed 21 "advertiser not listed";
    /// No router is due.
    NoRouterDue 22 "no router due";
    /// The wrapped length is above 65,535.
    WrappedTooLong 23 "wrapped length above 65,535";
    /// No valid solicitation.
    SolicitationInvalid 24 "no valid solicitation";
    /// The asker's address is not link-local ISATAP.
    AskerNotIsatap 25 "the asker's address is not link-local ISATAP";
    /// Too many prefixes or routes, or a prefix length above 128.
    OptionsBad 26 "too many prefixes or routes, or a prefix length above 128";
    /// A piece of a datagram that waits for others, or is ignored.
    PieceWaits 27 "a piece that waits for others, or is ignored";
    /// No place is free for a new datagram's piece.
    NoPlace 28 "no place is free for a new datagram's piece";
    /// Pieces overlap, or disagree about the end: their datagram is dropped.
    PiecesDisagree 29 "pieces overlap, or disagree about the end";
    /// A piece's payload is empty, ends past 2,048 bytes, or is no multiple of 8 though more-fragments is set.
    PieceUnfit 30 "a piece's payload is empty, ends past 2,048 bytes, or before the last piece is no multiple of 8";
    /// A recording is malformed: cut off, or with bytes behind its last datagram.
    RecordingMalformed 31 "a recording malformed";
}

impl fmt::Display for Refusal {
    fn fmt(&self, f: &mut fmt::Formatter<'_>) -> fmt::Result {
        f.write_str(self.text())
    }
}

impl Error for Refusal {}

/// `value`, unless the number is one of a refusal.
pub(crate) fn unless<T>(number: u8, value: impl FnOnce() -> T) -> Result<T, Refusal> {
    match Refusal::from_number(number) {
        None => Ok(value()),
        Some(refusal) => Err(refusal),
    }
}
