//! What was compared, in figures.

use std::fmt;

use delzhomo::{Refusal, listing_length};

use super::model::{Carried, Way};
use crate::drawn::Drawn;

#[derive(Default)]
pub struct Tally {
    drawn: Drawn,
    stored: Side,
    restored: Side,
}

/// One way.
#[derive(Default)]
struct Side {
    /// Listings, and the fields that were moved in them.
    taken: usize,
    moved: Carried,
    /// Refused with 30.
    no_listings: usize,
    /// Refused with 33, by the field.
    left: Carried,
}

impl Tally {
    /// A listing that is drawn.
    pub fn add_listing(&mut self, listing: &[u8]) {
        self.drawn.add(listing);
    }

    /// What is said of it, one way.
    pub fn add_answer(&mut self, listing: &[u8], way: Way, answer: Result<(), Refusal>) {
        let side = match way {
            Way::Store => &mut self.stored,
            Way::Restore => &mut self.restored,
        };
        match answer {
            Ok(()) => {
                side.taken += 1;
                side.moved.add_listing(listing);
            }
            Err(Refusal { number: 30, .. }) => side.no_listings += 1,
            Err(Refusal { place, extra, .. }) => {
                side.left
                    .add_field(&listing[listing_length(place)..], extra);
            }
        }
    }
}

impl fmt::Display for Tally {
    fn fmt(&self, f: &mut fmt::Formatter<'_>) -> fmt::Result {
        writeln!(f, "{}", self.drawn.said("listings"))?;
        for (way, side) in [(Way::Store, &self.stored), (Way::Restore, &self.restored)] {
            let (name, taken, no_listings) = (way.name(), side.taken, side.no_listings);
            writeln!(f, "  {name}: {taken} taken; refused 30: {no_listings}")?;
            writeln!(f, "  {name}, taken: {}", side.moved)?;
            writeln!(f, "  {name}, refused 33: {}", side.left)?;
        }
        Ok(())
    }
}
