//! Addresses that collide until their bucket and the spares are full; moves, statics, removes, ageing, refusal 8.

use crate::choice::{address_in_bucket, colliding_addresses, group_address_beside, Frame};
use crate::random::Random;
use crate::stream::{Operation, Stream, ALL_PORTS};

const GIDS: [u8; 3] = [0, 1, 15];

/// Nobody's address: a frame from here asks where its destination is.
const ASKING: u64 = 0x0200_0000_0999;

pub fn fill(stream: &mut Stream, random: &mut Random) {
    one_bucket_of_all_gids(stream, random);
    neighbouring_buckets(stream, random);
    for (place, gid) in GIDS.into_iter().enumerate() {
        stream.vlan(1 + place as u16, ALL_PORTS, gid, &Operation::default());
    }
    let mut stations = colliding_addresses(random, 24);
    fill_one_bucket(stream, random, &stations);
    age_out(stream, random, &stations);
    stations.extend([0, 1, 0x0200_0000_0001, 0xFEFF_FFFF_FFFF]);
    stations.extend(colliding_addresses(random, 5));
    for _ in 0..900 {
        any_event(stream, random, &stations);
    }
    stream.all_counters();
}

/// Keys of every GID that share one bucket: after twenty none finds a place, until one is removed.
fn one_bucket_of_all_gids(stream: &mut Stream, random: &mut Random) {
    let bucket = random.below(1_024);
    let keys: Vec<(u8, u64)> =
        (0..24).map(|number| number % 16).map(|gid| (gid, address_in_bucket(random, gid, bucket))).collect();
    for (gid, address) in &keys {
        stream.set_static(*gid, random.byte_below(5), *address);
    }
    for (gid, address) in &keys {
        // Another GID's entry for this address must not be met.
        stream.remove((gid + 1) % 16, *address);
        stream.remove(*gid, *address);
        stream.remove(*gid, *address);
    }
}

/// With the spares full, each bucket has its own four places: one whose number differs in one bit shares none.
fn neighbouring_buckets(stream: &mut Stream, random: &mut Random) {
    let bucket = random.below(1_024);
    let mut addresses: Vec<u64> = (0..20).map(|_| address_in_bucket(random, 0, bucket)).collect();
    for bit in 0..10 {
        addresses.extend((0..5).map(|_| address_in_bucket(random, 0, bucket ^ 1 << bit)));
    }
    for address in &addresses {
        stream.set_static(0, random.byte_below(5), *address);
    }
    for address in &addresses {
        stream.remove(0, *address);
    }
}

/// From port `port`, in the VLAN that has GID `GIDS[place]`.
fn speak(stream: &mut Stream, random: &mut Random, port: u8, place: usize, source: u64, destination: u64) {
    let tags = [(0x8100, 1 + place as u16)];
    stream.frame_in(port, &Frame::untagged(destination, source).tagged(&tags).bytes(random));
    stream.drain_all_ports();
}

/// 24 sources for 20 places: the last four are not learned, and floods show it.
fn fill_one_bucket(stream: &mut Stream, random: &mut Random, stations: &[u64]) {
    for (number, station) in stations.iter().enumerate() {
        speak(stream, random, (number % 4) as u8, 0, *station, ASKING);
    }
    for station in stations {
        // From a learned source, so that asking learns nothing.
        speak(stream, random, 4, 0, stations[0], *station);
    }
    stream.set_static(0, 2, stations[23]);
    stream.set_static(0, 2, stations[19]);
    // Refusal 4 comes before 8.
    stream.set_static(0, 2, group_address_beside(stations[23]));
    stream.remove(0, stations[2]);
    stream.set_static(0, 3, stations[23]);
    stream.set_static(0, 3, stations[22]);
    stream.remove(0, stations[9]);
    speak(stream, random, 1, 0, stations[22], stations[23]);
    for port in 0..5 {
        stream.counter(port, 15);
    }
}

fn age_out(stream: &mut Stream, random: &mut Random, stations: &[u64]) {
    stream.age();
    // A hit keeps its entry alive, also one for the port that asks.
    speak(stream, random, 0, 0, stations[0], stations[1]);
    speak(stream, random, 0, 0, stations[0], stations[4]);
    stream.age();
    stream.age();
    stream.age();
    stream.age();
}

fn any_event(stream: &mut Stream, random: &mut Random, stations: &[u64]) {
    let station = random.pick(stations);
    let other = random.pick(stations);
    let place = random.pick(&[0, 0, 0, 1, 2]);
    let port = random.byte_below(5);
    match random.below(100) {
        0..70 => speak(stream, random, port, place, station, other),
        70..80 => stream.set_static(GIDS[place], port, station),
        80..96 => stream.remove(GIDS[place], station),
        96..98 => stream.age(),
        98 => stream.set_static(GIDS[place], random.byte_below(8), group_address_beside(station)),
        _ => stream.remove(GIDS[place], group_address_beside(station)),
    }
}
