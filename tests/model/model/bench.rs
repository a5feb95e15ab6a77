//! The bench program: a switch of 200 cells, one call a record, one line a record.

use std::fmt;
use std::io::{self, Write};

use super::frame::{address, Header, LARGEST_RESULT};
use super::operation::Operation;
use super::records::{records, Record};
use super::refusals::{Answer, BAD_RECORD};
use super::switch::Switch;

const CELLS: usize = 200;

/// What the buffer of a take holds before: a value that a wrong length would let through.
const BUFFER_FILL: u8 = 0xEE;

pub struct Line {
    /// "Record number from 1."
    pub number: usize,
    pub kind: u16,
    pub answer: Answer,
    /// The written part of a take's buffer; the bench program does not print it.
    pub written: Vec<u8>,
}

/// "Each line: record number from 1, kind, then `ok x y` or `refused r`."
impl fmt::Display for Line {
    fn fmt(&self, out: &mut fmt::Formatter) -> fmt::Result {
        write!(out, "{} {} ", self.number, self.kind)?;
        match self.answer {
            Ok((x, y)) => write!(out, "ok {x} {y}"),
            Err(refusal) => write!(out, "refused {refusal}"),
        }
    }
}

impl Line {
    /// The line as a program over the C interface prints it: a take that wrote something shows the bytes in hex.
    pub fn with_bytes(&self) -> String {
        let mut line = self.to_string();
        if !self.written.is_empty() {
            line.push(' ');
        }
        for byte in &self.written {
            line.push_str(&format!("{byte:02x}"));
        }
        line
    }
}

pub struct Bench {
    pub switch: Switch,
    lines: usize,
}

impl Bench {
    pub fn fresh() -> Bench {
        Bench { switch: Switch::fresh(CELLS).expect("200 cells are allowed"), lines: 0 }
    }

    /// Carries out one record.
    pub fn line(&mut self, record: Record) -> Line {
        let mut buffer = [BUFFER_FILL; LARGEST_RESULT];
        let (kind, answer) = match record {
            Record::Whole { kind, body } => (kind, call(&mut self.switch, kind, body, &mut buffer)),
            Record::Overlong { kind } => (kind, Err(BAD_RECORD)),
            Record::Ends => (0, Err(BAD_RECORD)),
        };
        let length = match (kind, answer) {
            (2, Ok((length, _))) => length as usize,
            _ => 0,
        };
        self.lines += 1;
        Line { number: self.lines, kind, answer, written: buffer[..length].to_vec() }
    }
}

/// All lines of an input.
pub fn lines(input: &[u8]) -> impl Iterator<Item = Line> + '_ {
    let mut bench = Bench::fresh();
    records(input).map(move |record| bench.line(record))
}

/// The program: all lines of an input, each ending in a newline; with `shows_bytes` as a program over the C interface.
pub fn print(input: &[u8], shows_bytes: bool, out: &mut dyn Write) -> io::Result<()> {
    for line in lines(input) {
        if shows_bytes {
            writeln!(out, "{}", line.with_bytes())?;
        } else {
            writeln!(out, "{line}")?;
        }
    }
    out.flush()
}

/// The call of a record; "unknown kinds and bodies of the wrong size" are refused before any other refusal.
fn call(switch: &mut Switch, kind: u16, body: &[u8], buffer: &mut [u8]) -> Answer {
    match (kind, body) {
        (1, [port, bytes @ ..]) => switch.frame_in(byte(port), bytes),
        (2, [port]) => switch.take(byte(port), buffer),
        (3, []) => switch.age(),
        (4, [port, number]) => switch.counter(byte(port), byte(number)),
        (5, [port, state, assignment, low, high, pcp, dei, flags, given @ ..]) => {
            let default = header(low, high, pcp, dei);
            let operation = operation(given)?;
            switch.set_port(byte(port), byte(state), byte(assignment), default, byte(flags), operation)
        }
        (6, [low, high, members, gid, given @ ..]) => {
            let operation = operation(given)?;
            switch.set_vlan(vid(low, high), byte(members), byte(gid), operation)
        }
        (7, [low, high]) => switch.clear_vlan(vid(low, high)),
        (8, [gid, port, bytes @ ..]) if bytes.len() == 6 => switch.set_static(byte(gid), byte(port), address(bytes)),
        (9, [gid, bytes @ ..]) if bytes.len() == 6 => switch.remove(byte(gid), address(bytes)),
        (10, [pcp, queue]) => switch.set_map(byte(pcp), byte(queue)),
        (11, [port, queue, on]) => switch.set_queue_switch(byte(port), byte(queue), byte(on)),
        (12, [port]) => switch.drain(byte(port)),
        (13, [on]) => switch.set_bpdu_handling(byte(on)),
        _ => Err(BAD_RECORD),
    }
}

/// "Operation: kind; type; VID source; PCP source; VID(2); PCP; DEI."
fn operation(bytes: &[u8]) -> Result<Operation, u32> {
    let [kind, tag_type, vid_source, pcp_source, low, high, pcp, dei] = bytes else { return Err(BAD_RECORD) };
    Ok(Operation {
        kind: byte(kind),
        tag_type: byte(tag_type),
        vid_source: byte(vid_source),
        pcp_source: byte(pcp_source),
        given: header(low, high, pcp, dei),
    })
}

fn header(low: &u8, high: &u8, pcp: &u8, dei: &u8) -> Header {
    Header { vid: vid(low, high), pcp: byte(pcp), dei: byte(dei) }
}

/// "VIDs are little-endian."
fn vid(low: &u8, high: &u8) -> u32 {
    u32::from(u16::from_le_bytes([*low, *high]))
}

fn byte(byte: &u8) -> u32 {
    u32::from(*byte)
}
