//! Records and lines in words, for whoever reads a difference.

use model::frame::{self, Tag};
use model::records::Record;

const OPERATIONS: [&str; 5] = ["none", "pop", "push", "swap", "pop-all"];

const REASONS: [&str; 14] = [
    "queued",
    "shorter than 60",
    "longer than 4,083",
    "source has the group bit",
    "tag count barred at this port",
    "port Blocking",
    "port Listening",
    "assigned VID 4095",
    "VID not in the table",
    "arrival port no member",
    "port Learning",
    "no candidate port",
    "no port left after state and queue tests",
    "no room",
];

const REFUSALS: [&str; 12] = [
    "no refusal",
    "a lent memory's length",
    "port above 4",
    "a value outside its range",
    "static address with the group bit",
    "take-out buffer under 4,091 bytes",
    "new VLAN, 16 in use",
    "clearing a VLAN not there",
    "all 20 places in use",
    "removing an address not there",
    "memory holds a field out of its range",
    "bad record",
];

/// The call that a record makes.
pub fn record(record: Record) -> String {
    let (kind, body) = match record {
        Record::Whole { kind, body } => (kind, body),
        Record::Overlong { kind } => return format!("a record of kind {kind} over 5,000 bytes long"),
        Record::Ends => return "a cut record or a length under 2, which ends the run".to_string(),
    };
    match (kind, body) {
        (1, [port, bytes @ ..]) => format!("frame-in at port {port}: {}", frame(bytes)),
        (2, [port]) => format!("take at port {port}"),
        (3, []) => "age".to_string(),
        (4, [port, number]) => format!("counter {number} of port {port}"),
        (5, [port, state, assignment, low, high, pcp, dei, flags, given @ ..]) if given.len() == 8 => format!(
            "port {port}: state {state}, assignment {assignment}, default VID {} PCP {pcp} DEI {dei}, flags {flags}, \
             operation {}",
            vid(*low, *high),
            operation(given)
        ),
        (6, [low, high, members, gid, given @ ..]) if given.len() == 8 => {
            format!("VLAN {}: members {members:#07b}, GID {gid}, operation {}", vid(*low, *high), operation(given))
        }
        (7, [low, high]) => format!("clear VLAN {}", vid(*low, *high)),
        (8, [gid, port, bytes @ ..]) if bytes.len() == 6 => {
            format!("static {} of GID {gid} at port {port}", address(bytes))
        }
        (9, [gid, bytes @ ..]) if bytes.len() == 6 => format!("remove {} of GID {gid}", address(bytes)),
        (10, [pcp, queue]) => format!("map PCP {pcp} to queue {queue}"),
        (11, [port, queue, on]) => format!("queue switch: queue {queue} of port {port} to {on}"),
        (12, [port]) => format!("drain port {port}"),
        (13, [on]) => format!("BPDU handling to {on}"),
        _ => format!("a bad record: kind {kind}, body of {} bytes", body.len()),
    }
}

/// What a line says, without the bytes of a take.
pub fn line(line: &str) -> String {
    let columns: Vec<&str> = line.split(' ').collect();
    let shown = columns[..columns.len().min(5)].join(" ");
    match meaning(&columns) {
        Some(meaning) => format!("\"{shown}\": {meaning}"),
        None => format!("\"{shown}\""),
    }
}

fn meaning(columns: &[&str]) -> Option<String> {
    let number = |place: usize| columns.get(place)?.parse::<usize>().ok();
    if *columns.get(2)? == "refused" {
        return Some(format!("refused, {}", REFUSALS.get(number(3)?)?));
    }
    let (kind, x, y) = (number(1)?, number(3)?, number(4)?);
    Some(match kind {
        1 if x == 0 => format!("queued at ports {:?}", (0..5).filter(|port| y >> port & 1 == 1).collect::<Vec<_>>()),
        1 => format!("dropped, {}", REASONS.get(x)?),
        2 if x == 0 => "nothing waits".to_string(),
        2 => format!("{x} bytes from queue {y}"),
        3 => format!("{x} entries removed"),
        4 => format!("the counter is {x}"),
        12 => format!("{x} copies dropped"),
        _ => "done".to_string(),
    })
}

fn frame(bytes: &[u8]) -> String {
    if bytes.len() < frame::SHORTEST {
        return format!("{} bytes", bytes.len());
    }
    let tags: Vec<String> = frame::read(bytes).tags.iter().map(tag).collect();
    let (destination, source) = (address(&bytes[..6]), address(&bytes[6..12]));
    format!("{} bytes, {source} to {destination}, tags [{}]", bytes.len(), tags.join(", "))
}

fn tag(tag: &Tag) -> String {
    let header = tag.header;
    format!("{:04X} VID {} PCP {} DEI {}", tag.tag_type, header.vid, header.pcp, header.dei)
}

fn operation(bytes: &[u8]) -> String {
    let name = OPERATIONS.get(usize::from(bytes[0])).map_or(format!("kind {}", bytes[0]), |name| name.to_string());
    let [_, tag_type, vid_source, pcp_source, low, high, pcp, dei] = bytes else { unreachable!("eight bytes") };
    format!(
        "{name} (type {tag_type}, VID source {vid_source}, PCP source {pcp_source}, VID {} PCP {pcp} DEI {dei})",
        vid(*low, *high)
    )
}

fn address(bytes: &[u8]) -> String {
    bytes.iter().map(|byte| format!("{byte:02x}")).collect::<Vec<_>>().join(":")
}

fn vid(low: u8, high: u8) -> u16 {
    u16::from_le_bytes([low, high])
}
