//! A trip, and the four words that stand for it in a table and in an arena (document 02, T-07).

#[derive(Clone, Copy, Debug, PartialEq)]
pub struct Trip {
    pub id: u32,
    pub start: u32,
    pub end: u32,
    /// The day word: a bit for each of days 0 to 31.
    pub days: u32,
}

pub const ENTRY_WORDS: usize = 4;

/// Nothing but these two knows in which order the words stand.
impl Trip {
    pub fn words(&self) -> [u32; ENTRY_WORDS] {
        [self.id, self.start, self.end, self.days]
    }

    pub fn of_words([id, start, end, days]: [u32; ENTRY_WORDS]) -> Trip {
        Trip { id, start, end, days }
    }
}

/// The trips of words that are a multiple of an entry.
pub fn trips_of(words: &[u32]) -> Vec<Trip> {
    let mut trips = Vec::new();
    for entry in words.chunks_exact(ENTRY_WORDS) {
        let mut own = [0; ENTRY_WORDS];
        own.copy_from_slice(entry);
        trips.push(Trip::of_words(own));
    }
    trips
}

pub fn words_of(trips: &[Trip]) -> Vec<u32> {
    let mut words = Vec::new();
    for trip in trips {
        words.extend(trip.words());
    }
    words
}
