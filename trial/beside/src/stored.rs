//! Listings that are stored and restored, whether a unit gives them or not.

mod draw;
pub mod edges;
pub mod model;
mod tally;

use oracle::random::Random;

use crate::compare::SPARE_BYTES;
use crate::difference::Compared;
use crate::lent::Lent;
use crate::listing::written;
use crate::run::Trial;
use model::{Way, moved};
use tally::Tally;

/// The library beside the model.
pub struct Listings {
    out: Lent<u8>,
}

impl Listings {
    pub fn new() -> Self {
        Self {
            out: Lent::filled_with(0x5A),
        }
    }

    /// One way, and back again: with room to spare, with just enough, and with a byte less.
    fn compare(&mut self, listing: &[u8], way: Way, tally: &mut Tally) -> Compared<()> {
        let expected = moved(listing, way);
        let length = listing.len();
        let rooms = [length + SPARE_BYTES, length, length.saturating_sub(1)];
        for room in rooms {
            let write = |out: &mut [u8]| way.write(listing, out);
            let expected = expected.as_deref().map_err(|refusal| *refusal);
            written(way.name(), &mut self.out, room, expected, write)?;
        }
        if let Ok(moved) = &expected {
            let write = |out: &mut [u8]| way.back().write(moved, out);
            written("the way back", &mut self.out, length, Ok(listing), write)?;
        }
        tally.add_answer(listing, way, expected.map(drop));
        Ok(())
    }
}

impl Trial for Listings {
    type Tally = Tally;

    fn well(random: &mut Random, number: usize) -> Vec<u8> {
        draw::listing(random, number)
    }

    fn damaged(random: &mut Random, number: usize) -> Vec<u8> {
        draw::damaged(random, number)
    }

    fn try_unit(&mut self, listing: &[u8], _: bool, tally: &mut Tally) -> Compared<()> {
        tally.add_listing(listing);
        for way in Way::BOTH {
            self.compare(listing, way, tally)?;
        }
        Ok(())
    }
}
