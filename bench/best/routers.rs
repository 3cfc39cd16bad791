//! The router list (R2.4, R2.13, R13.3): addresses as words, and beside them the times at which they are due.

use super::address::{is_forbidden, word};
use super::locators::Locators;

pub const ROUTERS: usize = 16;
/// Addresses that are compared at once.
const GROUP: usize = 4;

#[derive(Clone, Copy, Debug, PartialEq, Eq)]
pub struct Routers {
    addresses: [u32; ROUTERS],
    /// Exact, so it may lie past the last 32-bit second.
    due: [u64; ROUTERS],
    count: usize,
}

impl Routers {
    pub const EMPTY: Routers = Routers { addresses: [0; ROUTERS], due: [0; ROUTERS], count: 0 };

    /// The list of these addresses, which are numbers: a router of this list keeps its due time, a new one is due now. `None` where they break
    /// the rules.
    pub fn replaced(&self, addresses: &[u32], locators: &Locators, now: u32) -> Option<Routers> {
        let mut next = Routers { count: addresses.len(), ..Routers::EMPTY };
        if addresses.len() > ROUTERS {
            return None;
        }
        for (place, &address) in addresses.iter().enumerate() {
            let address = word(address);
            if is_forbidden(address) || locators.has(address) || next.addresses[..place].contains(&address) {
                return None;
            }
            next.addresses[place] = address;
            next.due[place] = self.find(address).map_or(now.into(), |place| self.due[place]);
        }
        Some(next)
    }

    /// The place of the router.
    #[inline(always)]
    pub fn find(&self, address: u32) -> Option<usize> {
        let group = self.groups().position(|group| has(group, address))?;
        let place = self.addresses.iter().skip(GROUP * group).position(|&router| router == address)?;
        (GROUP * group + place < self.count).then_some(GROUP * group + place)
    }

    /// Whether it has the address, which is not forbidden.
    #[inline(always)]
    pub fn has(&self, address: u32) -> bool {
        self.groups().any(|group| has(group, address))
    }

    /// The addresses that are in use, and behind them zeros to the end of a group.
    #[inline(always)]
    fn groups(&self) -> impl Iterator<Item = &[u32; GROUP]> {
        let (groups, _) = self.addresses[..self.count.next_multiple_of(GROUP)].as_chunks();
        groups.iter()
    }

    /// The place of the router with the earliest due time that is not in the future, the lowest on a tie.
    #[inline(always)]
    pub fn first_due(&self, now: u32) -> Option<usize> {
        // Later than any time.
        let (mut found, mut earliest) = (ROUTERS, u64::from(now) + 1);
        for (place, &due) in self.due[..self.count].iter().enumerate() {
            if due < earliest {
                (found, earliest) = (place, due);
            }
        }
        (found < ROUTERS).then_some(found)
    }

    pub fn address(&self, place: usize) -> u32 {
        self.addresses[place % ROUTERS]
    }

    pub fn set_due(&mut self, place: usize, due: u64) {
        self.due[place % ROUTERS] = due;
    }

    /// Address and due time of each.
    pub fn entries(&self) -> impl Iterator<Item = (u32, u64)> + '_ {
        self.addresses.iter().copied().zip(self.due).take(self.count)
    }
}

#[inline(always)]
fn has(group: &[u32; GROUP], address: u32) -> bool {
    group.iter().fold(false, |found, &router| found | (router == address))
}
