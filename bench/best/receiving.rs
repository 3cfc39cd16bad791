//! Receiving (R5, R23).

use super::address::{is_forbidden, Six};
use super::inner::Inner;
use super::outer::{self, header_length, Outer};
use super::pieces::MEMORY;
use super::service::Service;
use super::Node;
use crate::plain::{Received, Refusal};

impl Node {
    /// Where the inner packet stands, also of a datagram that a piece completes; 15, 2, 3, 4, 6, 7, then for a piece 30, 29, 28, 27, and 8,
    /// 9, 10.
    #[inline(never)]
    pub fn receive(
        &mut self,
        service: u8,
        datagram: &[u8],
        interface: u8,
        time: u32,
        memory: &mut [u8],
    ) -> Result<Received, Refusal> {
        if !outer::is_simple(datagram) {
            return self.receive_any(service, datagram, interface, time, memory);
        }
        self.raise(time);
        let service = self.named(service)?;
        if memory.len() < MEMORY {
            return Err(Refusal::Room);
        }
        let outer = service.arrived(outer::HEADER, datagram, interface)?;
        service.receive_whole(outer::HEADER, &outer)
    }

    /// The same of a datagram that may have options, or be a piece.
    #[inline(never)]
    fn receive_any(
        &mut self,
        service: u8,
        datagram: &[u8],
        interface: u8,
        time: u32,
        memory: &mut [u8],
    ) -> Result<Received, Refusal> {
        let now = self.raise(time);
        let service = self.named_mut(service)?;
        let memory = memory.first_chunk_mut().ok_or(Refusal::Room)?;
        let start = datagram.first().and_then(|&first| header_length(first)).ok_or(Refusal::OuterMalformed)?;
        let outer = service.arrived(start, datagram, interface)?;
        if !outer.is_piece() {
            return service.receive_whole(start, &outer);
        }
        let joined = service.pieces.take(&outer.piece()?, now, memory)?;
        let inner = Inner::read(&memory[joined.clone()])?;
        service.admit(outer.source(), &inner.source())?;
        Ok(Received::Joined(joined.start..joined.start + inner.length))
    }
}

impl Service {
    /// The outer header, of that length, of a datagram that is for us, from an address that may send; 2, 3, 4, 6, 7.
    #[inline(always)]
    fn arrived<'d>(&self, start: usize, datagram: &'d [u8], interface: u8) -> Result<Outer<'d>, Refusal> {
        let outer = Outer::read(start, datagram)?;
        if !self.locators.admit(outer.destination, interface) {
            return Err(Refusal::NotOurs);
        }
        if is_forbidden(outer.source()) {
            return Err(Refusal::OuterSource);
        }
        Ok(outer)
    }

    /// Of a whole datagram; 8, 9, 10.
    #[inline(always)]
    fn receive_whole(&self, start: usize, outer: &Outer) -> Result<Received, Refusal> {
        let inner = Inner::read(outer.payload)?;
        let source = inner.source();
        // No bad source is link-local.
        if source.is_link_local() && source.embeds(outer.source()) {
            return Ok(Received::Whole(start..start + inner.length));
        }
        self.admit(outer.source(), &source)?;
        Ok(Received::Whole(start..start + inner.length))
    }

    /// Whether that outer source may send a packet of that source; 9, 10.
    #[inline(always)]
    fn admit(&self, outer_source: u32, source: &Six) -> Result<(), Refusal> {
        if source.is_bad_source() {
            return Err(Refusal::InnerSource);
        }
        let embeds = source.embeds(outer_source) && self.prefixes.has(source);
        if !embeds && !self.routers.has(outer_source) {
            return Err(Refusal::SourcesDiffer);
        }
        Ok(())
    }
}
