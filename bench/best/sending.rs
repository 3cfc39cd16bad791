//! Sending (R7, R8).

use super::address::{is_forbidden, Six};
use super::chain::draws_message;
use super::inner::{Inner, HEADER};
use super::outer;
use super::paths::Paths;
use super::service::Service;
use crate::plain::{Address, Refusal, Sent};

/// The smallest size of an IPv6 link, which no tunnel goes below.
const LEAST: usize = 1280;

impl Service {
    /// Wraps the packet for the next hop, or answers Too Big; 8, 11, 12, 13, 15. Not 23: no accepted link size lets so long a packet pass.
    #[inline(always)]
    pub fn send(
        &mut self,
        packet: &[u8],
        next_hop: &Address,
        locator: usize,
        kept: &Paths,
        now: u32,
        out: &mut [u8],
    ) -> Result<Sent, Refusal> {
        let inner = Inner::read(packet)?;
        if inner.length != packet.len() {
            return Err(Refusal::InnerMalformed);
        }
        let start = self.locators.start(locator)?;
        let hop = Six::new(next_hop);
        if !hop.is_isatap() || !self.prefixes.has(&hop) {
            return Err(Refusal::NextHop);
        }
        let end = hop.embedded();
        if is_forbidden(end) || self.locators.has(end) {
            return Err(Refusal::TunnelEnd);
        }
        let passed = usize::from(kept.size(kept.find(end), self.link_size, now)) - outer::HEADER;
        let limit = passed.max(LEAST);
        if packet.len() > limit {
            return self.answer_too_big(limit as u16, &inner, packet, out);
        }
        let length = start.wrap(self.identification, passed > LEAST, end, packet, out)?;
        self.identification = self.identification.wrapping_add(1);
        Ok(Sent::Wrapped { length })
    }

    /// 15.
    #[inline(always)]
    fn answer_too_big(&self, size: u16, inner: &Inner, packet: &[u8], out: &mut [u8]) -> Result<Sent, Refusal> {
        let told = !inner.source().is_no_host() && draws_message(inner.next_header(), &packet[HEADER..]);
        let length = match packet.first_chunk() {
            Some(quote) if told => self.reporter.write_too_big(size, quote, out)?,
            _ => 0,
        };
        Ok(Sent::TooBig { size, length })
    }
}
