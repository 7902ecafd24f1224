//! Bad tracks and their spares (paper 02, K5): the table that a unit record holds, when it is one
//! that a record can have, and which track a command works on that lands on a given one.

use crate::faults::{seeded, Fault};
use crate::geometry::Geometry;

/// "The unit record gains a table of 32 pairs."
pub const MOST_PAIRS: usize = 32;

/// A track is "physical over the whole drive": a cylinder, and a head from 0 to H − 1 whatever
/// volume it belongs to.
#[derive(Clone, Copy, Debug, PartialEq, Eq)]
pub struct Track {
    pub cylinder: u16,
    pub head: u8,
    /// The byte that stands after the head in a record; a track of a drive has 0 there.
    pub last: u8,
}

#[derive(Clone, Copy, Debug, PartialEq, Eq)]
pub struct Pair {
    pub bad: Track,
    pub spare: Track,
}

/// The pairs in the order in which they were added.
#[derive(Clone, Copy, Debug, PartialEq, Eq)]
pub struct Table {
    /// How many pairs there are by what a record says, which may be more than have room.
    count: u16,
    /// All that have room, those past the pairs that count too. Nothing goes by these, but a record is
    /// its bytes: two tables are the same where all of it is.
    pairs: [Pair; MOST_PAIRS],
}

const NO_TRACK: Track = Track::new(0, 0);

const NO_PAIR: Pair = Pair {
    bad: NO_TRACK,
    spare: NO_TRACK,
};

/// How a table already has a track that an 85 names, or how the two that it names are one.
#[derive(Clone, Copy, Debug, PartialEq, Eq)]
pub enum Taken {
    Equal,
    BadIsBad,
    BadIsSpare,
    SpareIsBad,
    SpareIsSpare,
}

impl Track {
    pub const fn new(cylinder: u16, head: u8) -> Track {
        Track {
            cylinder,
            head,
            last: 0,
        }
    }

    /// Whether a drive has the track.
    pub fn on(&self, geometry: &Geometry) -> bool {
        // the fault does not look at what comes after the head
        let whole = self.last == 0 || seeded(Fault::LastByteOfATrackIgnored);
        whole && self.cylinder < geometry.cylinders && (self.head as u64) < geometry.drive_heads()
    }
}

impl Table {
    /// The table of a unit that no 85 has reached since its initialize.
    pub const NONE: Table = Table {
        count: 0,
        pairs: [NO_PAIR; MOST_PAIRS],
    };

    /// A table that says so many pairs, and has them as far as there is room; past them it is blank.
    pub fn saying(count: u16, pair: impl Fn(usize) -> Pair) -> Table {
        let mut table = Table::NONE;
        table.count = count;
        for k in 0..table.counting() {
            table.pairs[k] = pair(k);
        }
        table
    }

    /// A table that says so many pairs, with what stands in all of its room, whether it counts or not.
    pub fn standing(count: u16, pair: impl Fn(usize) -> Pair) -> Table {
        Table {
            count,
            pairs: std::array::from_fn(pair),
        }
    }

    /// The same room without a pair that counts.
    pub(crate) fn uncounted(self) -> Table {
        Table { count: 0, ..self }
    }

    /// How many pairs it says.
    pub fn count(&self) -> u16 {
        self.count
    }

    fn counting(&self) -> usize {
        (self.count as usize).min(MOST_PAIRS)
    }

    /// The pairs that count: no more than have room.
    pub fn pairs(&self) -> &[Pair] {
        &self.pairs[..self.counting()]
    }

    /// All that has room: the pairs that count, and what stands past them.
    pub fn room(&self) -> &[Pair; MOST_PAIRS] {
        &self.pairs
    }

    /// The pairs in which a bad track is looked for.
    fn searched(&self) -> &[Pair] {
        let pairs = self.pairs();
        if seeded(Fault::FirstPairAlone) {
            // a search that ends where it begins
            return &pairs[..pairs.len().min(1)];
        }
        if seeded(Fault::LastPairForgotten) && pairs.len() == MOST_PAIRS {
            // a bound off by one
            return &pairs[..MOST_PAIRS - 1];
        }
        pairs
    }

    /// The spare of a bad track; None where the track is not a bad one.
    pub fn spare_of(&self, track: Track) -> Option<Track> {
        let found = self.searched().iter().find(|pair| pair.bad == track);
        if found.is_none() && seeded(Fault::SpareLandsOnBad) {
            // the table read in both directions
            let back = self.searched().iter().find(|pair| pair.spare == track);
            return back.map(|pair| pair.bad);
        }
        if found.is_some() && seeded(Fault::OneSpareForAll) {
            // the spare of the pair at which the search begins
            return self.pairs().first().map(|pair| pair.spare);
        }
        found.map(|pair| pair.spare)
    }

    fn has_bad(&self, track: Track) -> bool {
        self.pairs().iter().any(|pair| pair.bad == track)
    }

    pub fn has_spare(&self, track: Track) -> bool {
        self.pairs().iter().any(|pair| pair.spare == track)
    }

    /// "22 if the tracks are equal or either is in the table already": the first thing there is
    /// against a pair, if anything.
    pub fn taken(&self, pair: &Pair) -> Option<Taken> {
        let looks_for_bad = !seeded(Fault::BadTracksNotSearched);
        let looks_for_spares = !seeded(Fault::SparesNotSearched);
        if pair.bad == pair.spare && !seeded(Fault::EqualTracksTaken) {
            Some(Taken::Equal)
        } else if looks_for_bad && self.has_bad(pair.bad) {
            Some(Taken::BadIsBad)
        } else if looks_for_spares && self.has_spare(pair.bad) {
            Some(Taken::BadIsSpare)
        } else if looks_for_bad && self.has_bad(pair.spare) {
            Some(Taken::SpareIsBad)
        } else if looks_for_spares && self.has_spare(pair.spare) {
            Some(Taken::SpareIsSpare)
        } else {
            None
        }
    }

    /// "23 if 32 pairs stand"
    pub fn full(&self) -> bool {
        let most = if seeded(Fault::PairOf33Added) {
            // a bound off by one
            MOST_PAIRS + 1
        } else {
            MOST_PAIRS
        };
        self.count as usize >= most
    }

    /// A pair more, at the end.
    pub fn add(&mut self, pair: Pair) {
        if let Some(free) = self.pairs.get_mut(self.count as usize) {
            *free = pair;
        }
        self.count += 1;
    }

    /// Whether a record of this drive can have the table. "A record handed in with over 32 pairs, a
    /// track outside the drive, or one track twice in the table, counts as not initialized."
    pub fn good(&self, geometry: &Geometry) -> bool {
        if self.count as usize > MOST_PAIRS && !seeded(Fault::ManyPairsAccepted) {
            // the fault goes by the 32 that have room
            return false;
        }
        let mut tracks = Vec::new();
        for pair in self.pairs() {
            tracks.push(pair.bad);
            tracks.push(pair.spare);
        }
        let outside = tracks.iter().any(|track| !track.on(geometry));
        if outside && !seeded(Fault::TrackOffTheDriveAccepted) {
            return false;
        }
        !one_is_twice(&tracks) || seeded(Fault::DoubleAccepted)
    }
}

/// Whether two places of a row have the same track.
fn one_is_twice(tracks: &[Track]) -> bool {
    for (k, track) in tracks.iter().enumerate() {
        if tracks[k + 1..].contains(track) {
            return true;
        }
    }
    false
}
