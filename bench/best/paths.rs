//! The sizes that are kept (R10), found by hashing: the last accepted report of each of the newest 64 neighbours.

/// Neighbours that are kept.
pub const NEIGHBOURS: usize = 64;
/// Seconds after which a report is no longer in force.
const REPORT_AGE: u32 = 600;
/// A chain of places for each value of the hash.
const HASH_BITS: u32 = 7;
const CHAINS: usize = 1 << HASH_BITS;
/// The number of no place.
const NONE: u8 = NEIGHBOURS as u8;

/// The place of one report. All places stand in a ring, newest first; free ones behind the oldest, and so before the newest.
#[derive(Clone, Copy, Debug, PartialEq, Eq)]
struct Place {
    neighbour: u32,
    time: u32,
    /// 0 where the place is free.
    size: u16,
    /// The next one of the same chain.
    chained: u8,
    newer: u8,
    older: u8,
}

/// Neighbours are IPv4 addresses as words.
#[derive(Clone, Copy, Debug, PartialEq, Eq)]
pub struct Paths {
    places: [Place; NEIGHBOURS],
    chains: [u8; CHAINS],
    newest: u8,
}

#[inline(always)]
fn chain(neighbour: u32) -> usize {
    (neighbour.wrapping_mul(0x9e37_79b1) >> (32 - HASH_BITS)) as usize
}

/// The place's number, which is below 64, for an index that needs no test.
#[inline(always)]
fn at(place: u8) -> usize {
    usize::from(place) % NEIGHBOURS
}

impl Paths {
    pub const EMPTY: Paths = {
        let free = Place { neighbour: 0, time: 0, size: 0, chained: NONE, newer: 0, older: 0 };
        let mut places = [free; NEIGHBOURS];
        let mut place = 0;
        while place < NEIGHBOURS {
            places[place].newer = ((place + NEIGHBOURS - 1) % NEIGHBOURS) as u8;
            places[place].older = ((place + 1) % NEIGHBOURS) as u8;
            place += 1;
        }
        Paths { places, chains: [NONE; CHAINS], newest: 0 }
    };

    /// The place of the neighbour's report.
    #[inline(always)]
    pub fn find(&self, neighbour: u32) -> Option<u8> {
        let mut number = self.chains[chain(neighbour)];
        while let Some(place) = self.places.get(usize::from(number)) {
            if place.neighbour == neighbour {
                return Some(number);
            }
            number = place.chained;
        }
        None
    }

    /// The size in force by the report at the place, if there is one, for a link of that size.
    #[inline(always)]
    pub fn size(&self, place: Option<u8>, link_size: u16, now: u32) -> u16 {
        match place.map(|place| &self.places[at(place)]) {
            Some(place) if now - place.time < REPORT_AGE => place.size.min(link_size),
            _ => link_size,
        }
    }

    /// Puts the report first, in the place of the neighbour's last one, or else in that of the oldest where none is free.
    #[inline(always)]
    pub fn accept(&mut self, known: Option<u8>, neighbour: u32, size: u16, now: u32) {
        match known {
            Some(place) if place != self.newest => self.bring_forward(place),
            Some(_) => (),
            None => self.take_last(neighbour),
        }
        let newest = &mut self.places[at(self.newest)];
        (newest.size, newest.time) = (size, now);
    }

    /// The last place of the ring becomes the newest, and the neighbour's: nothing moves.
    #[inline(always)]
    fn take_last(&mut self, neighbour: u32) {
        let place = self.places[at(self.newest)].newer;
        if self.places[at(place)].size != 0 {
            self.unchain(place);
        }
        let first = &mut self.chains[chain(neighbour)];
        let taken = &mut self.places[at(place)];
        (taken.neighbour, taken.chained) = (neighbour, *first);
        *first = place;
        self.newest = place;
    }

    #[inline(always)]
    fn unchain(&mut self, place: u8) {
        let Place { neighbour, chained, .. } = self.places[at(place)];
        let mut link = &mut self.chains[chain(neighbour)];
        while *link != place {
            link = &mut self.places[at(*link)].chained;
        }
        *link = chained;
    }

    /// The place becomes the newest.
    fn bring_forward(&mut self, place: u8) {
        let Place { newer, older, .. } = self.places[at(place)];
        self.places[at(newer)].older = older;
        self.places[at(older)].newer = newer;
        let (first, last) = (self.newest, self.places[at(self.newest)].newer);
        self.places[at(last)].older = place;
        self.places[at(first)].newer = place;
        let moved = &mut self.places[at(place)];
        (moved.newer, moved.older) = (last, first);
        self.newest = place;
    }

    /// Neighbour, size and time of each report, newest first.
    pub fn reports(&self) -> impl Iterator<Item = (u32, u16, u32)> + '_ {
        let mut place = self.newest;
        (0..NEIGHBOURS).map_while(move |_| {
            let Place { neighbour, size, time, older, .. } = self.places[at(place)];
            place = older;
            (size != 0).then_some((neighbour, size, time))
        })
    }
}
