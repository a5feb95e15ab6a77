//! All mixed: every record kind and every outcome within a few thousand records.

use crate::choice::{any_port, colliding_addresses, forwarding_port, operation, tags, Frame, LENGTHS, VIDS};
use crate::random::Random;
use crate::stream::{Stream, ALL_PORTS, BPDU, BROADCAST};

const RECORDS: usize = 3_900;

/// More VIDs than the table has entries.
const EXTRA_VIDS: u64 = 22;

struct Pool {
    stations: Vec<u64>,
    /// How often a take comes: it changes, so that memory fills and empties.
    takes_percent: u64,
}

pub fn fill(stream: &mut Stream, random: &mut Random) {
    let mut stations = colliding_addresses(random, 26);
    stations.extend([0, 0x0200_0000_0001, 0x0200_0000_0002, 0xFEFF_FFFF_FFFF]);
    let mut pool = Pool { stations, takes_percent: 30 };
    for port in 0..5 {
        stream.port(port, &forwarding_port(random));
    }
    for vid in VIDS {
        stream.vlan(vid, ALL_PORTS, 0, &operation(random));
    }
    while stream.records < RECORDS {
        if random.chance(1) {
            pool.takes_percent = random.pick(&[5, 30, 60]);
        }
        if random.chance(pool.takes_percent) {
            stream.take(random.byte_below(5));
        } else {
            any_event(stream, random, &pool);
        }
    }
    stream.all_counters();
}

fn any_event(stream: &mut Stream, random: &mut Random, pool: &Pool) {
    let port = if random.chance(2) { 5 + random.byte_below(251) } else { random.byte_below(5) };
    let gid = random.pick(&[0, 0, 1, 15, 16]);
    let station = random.pick(&pool.stations);
    match random.below(1_000) {
        0..580 => arrive(stream, random, pool, port),
        580..600 => stream.age(),
        600..640 => stream.counter(port, random.byte_below(22)),
        640..740 => stream.port(port, &any_port(random)),
        740..770 => any_vlan(stream, random),
        770..785 => stream.clear_vlan(any_vid(random, 20)),
        785..845 => stream.set_static(gid, port, station | u64::from(random.chance(5)) << 40),
        845..875 => stream.remove(gid, station),
        875..890 => stream.map(random.byte_below(9), random.byte_below(5)),
        890..930 => stream.queue_switch(port, random.byte_below(4), u8::from(random.chance(75))),
        930..945 => stream.drain(port),
        945..955 => stream.bpdu(random.byte_below(3)),
        955..970 => any_bytes(stream, random),
        _ => (0..5).for_each(|port| stream.port(port, &forwarding_port(random))),
    }
}

fn arrive(stream: &mut Stream, random: &mut Random, pool: &Pool, port: u8) {
    let mut frame = Frame::untagged(random.pick(&pool.stations), random.pick(&pool.stations));
    if random.chance(20) {
        frame.destination = random.pick(&[BROADCAST, BPDU, BPDU, 0x0100_5E00_0001]);
    }
    if random.chance(3) {
        frame.source |= 1 << 40;
    }
    frame.tags = tags(random);
    if random.chance(30) {
        frame.tags.clear();
    }
    frame.length = if random.chance(25) { random.pick(&LENGTHS) } else { 60 + random.below(200) as usize };
    stream.frame_in(port, &frame.bytes(random));
}

/// One of the VIDs that tags and default headers hold, `percent` times in a hundred; else one of many that fill the
/// table.
fn any_vid(random: &mut Random, percent: u64) -> u16 {
    if random.chance(percent) {
        random.pick(&VIDS)
    } else {
        100 + random.below(EXTRA_VIDS) as u16
    }
}

fn any_vlan(stream: &mut Stream, random: &mut Random) {
    let members = if random.chance(70) { 31 } else { random.byte_below(33) };
    stream.vlan(any_vid(random, 60), members, random.pick(&[0, 0, 1, 15]), &operation(random));
}

/// A record whose kind and body are any bytes.
fn any_bytes(stream: &mut Stream, random: &mut Random) {
    let body: Vec<u8> = (0..random.below(18)).map(|_| random.byte_below(20)).collect();
    stream.record(random.below(20) as u16, &body);
}
