//! Streams of bench records, made by seed, that can tell a right switch from a wrong one.

pub mod choice;
pub mod ending;
pub mod random;
pub mod stream;

mod address_stream;
mod example_stream;
mod fresh_stream;
mod length_stream;
mod memory_stream;
mod mixed_stream;
mod operation_stream;
mod queue_stream;
mod record_stream;
mod rule_stream;
mod setting_stream;
mod state_stream;
mod traffic_stream;

use random::Random;
use stream::Stream;

/// Fills a stream with records of one sort.
type Filler = fn(&mut Stream, &mut Random);

/// Every sort of stream by name.
pub const SORTS: [(&str, Filler); 13] = [
    ("example", example_stream::fill),
    ("fresh", fresh_stream::fill),
    ("settings", setting_stream::fill),
    ("rules", rule_stream::fill),
    ("states", state_stream::fill),
    ("traffic", traffic_stream::fill),
    ("lengths", length_stream::fill),
    ("addresses", address_stream::fill),
    ("memory", memory_stream::fill),
    ("queues", queue_stream::fill),
    ("operations", operation_stream::fill),
    ("records", record_stream::fill),
    ("mixed", mixed_stream::fill),
];

/// The stream of a sort and a seed; `None` if there is no such sort.
pub fn stream(sort: &str, seed: u64) -> Option<Stream> {
    let place = SORTS.iter().position(|(name, _)| *name == sort)?;
    let (_, fill) = SORTS[place];
    let mut stream = Stream::new();
    fill(&mut stream, &mut Random::seeded(seed));
    // The sorts of one seed end in different ways; the example, at place 0, always ends between records.
    ending::end(&mut stream, place as u64 * seed);
    Some(stream)
}
