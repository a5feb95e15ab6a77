//! The address table: 1,024 buckets of 4 places, then 16 spare places.

pub const BUCKETS: usize = 1_024;
const BUCKET_PLACES: usize = 4;
const SPARES: usize = 16;
pub const PLACES: usize = BUCKETS * BUCKET_PLACES + SPARES;

#[derive(Clone, Copy, Debug, PartialEq, Eq)]
pub struct Entry {
    pub gid: u32,
    pub address: u64,
    pub port: u32,
    pub is_static: bool,
    /// Marked as used: by learning, by a destination hit, by the static call.
    pub marked: bool,
}

#[derive(Clone, Debug, PartialEq, Eq)]
pub struct Addresses {
    pub places: Vec<Option<Entry>>,
}

/// "GID × 2^48 + address, cut into 10-bit groups from the low end, all joined by exclusive or."
pub fn bucket(gid: u32, address: u64) -> usize {
    let mut rest = (u128::from(gid) << 48) + u128::from(address);
    let mut joined = 0;
    while rest > 0 {
        joined ^= rest & 0x3FF;
        rest >>= 10;
    }
    joined as usize
}

/// "The search takes the bucket's four places, then the sixteen spares."
fn search_order(gid: u32, address: u64) -> impl Iterator<Item = usize> {
    let first = bucket(gid, address) * BUCKET_PLACES;
    (first..first + BUCKET_PLACES).chain(BUCKETS * BUCKET_PLACES..PLACES)
}

impl Addresses {
    /// "No address known."
    pub fn fresh() -> Addresses {
        Addresses { places: vec![None; PLACES] }
    }

    /// "The first match ends it."
    fn place_of(&self, gid: u32, address: u64) -> Option<usize> {
        search_order(gid, address)
            .find(|&place| self.places[place].is_some_and(|entry| entry.gid == gid && entry.address == address))
    }

    /// "The first empty place in that order."
    fn empty_place(&self, gid: u32, address: u64) -> Option<usize> {
        search_order(gid, address).find(|&place| self.places[place].is_none())
    }

    pub fn is_known(&self, gid: u32, address: u64) -> bool {
        self.place_of(gid, address).is_some()
    }

    pub fn has_empty_place(&self, gid: u32, address: u64) -> bool {
        self.empty_place(gid, address).is_some()
    }

    /// The port of a known address. "A hit marks the entry as used."
    pub fn look_up(&mut self, gid: u32, address: u64) -> Option<u32> {
        let place = self.place_of(gid, address)?;
        let entry = self.places[place].as_mut()?;
        entry.marked = true;
        Some(entry.port)
    }

    /// Learns that `address` is behind `port`; answers whether it is known now.
    pub fn learn(&mut self, gid: u32, address: u64, port: u32) -> bool {
        let learned = Entry { gid, address, port, is_static: false, marked: true };
        if let Some(place) = self.place_of(gid, address) {
            // "A match that is static stays; another takes this port and is marked used."
            if !self.places[place].is_some_and(|entry| entry.is_static) {
                self.places[place] = Some(learned);
            }
            return true;
        }
        let Some(place) = self.empty_place(gid, address) else { return false };
        self.places[place] = Some(learned);
        true
    }

    /// "Every unmarked non-static entry goes, every marked non-static one loses its mark." Answers how many went.
    pub fn age(&mut self) -> u32 {
        let mut removed = 0;
        for place in &mut self.places {
            match place {
                Some(entry) if entry.is_static => {}
                Some(entry) if entry.marked => entry.marked = false,
                Some(_) => {
                    *place = None;
                    removed += 1;
                }
                None => {}
            }
        }
        removed
    }

    /// "A match becomes static with the given port, no match takes the first empty place in the same order." The caller
    /// has refused an address that has neither.
    pub fn set_static(&mut self, gid: u32, address: u64, port: u32) {
        let place = self.place_of(gid, address).or_else(|| self.empty_place(gid, address));
        let place = place.expect("refusal 8 comes before");
        self.places[place] = Some(Entry { gid, address, port, is_static: true, marked: true });
    }

    /// "Any entry, learned or static, is removed by call, and its place is used again." The caller has refused an
    /// address that is not there.
    pub fn remove(&mut self, gid: u32, address: u64) {
        let place = self.place_of(gid, address).expect("refusal 9 comes before");
        self.places[place] = None;
    }
}
