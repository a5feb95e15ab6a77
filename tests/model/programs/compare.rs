//! Compares the model with the bench program and with a program over the C interface; tells the first difference in
//! words.

mod words;

use std::io::{Read, Write};
use std::process::{exit, Command, Stdio};

use model::records::{records, Record};
use streams::stream::Stream;

const USAGE: &str = "usage: compare [--records N] [--seed S] [--bench COMMAND] [--harness COMMAND]
  Runs streams, from seed S on (1), until they hold at least N records (50,000), against each given program:
  --bench    reads records, prints the bench program's lines
  --harness  the same, and a take of length above 0 shows the written bytes in hex as one more column
  A COMMAND is a program and its arguments, parted by spaces; a wrapper stands in front, as in
  --bench 'qemu-x86_64 target/bench'.";

/// Where a stream that showed a difference is left, up to the record that showed it.
const DIFFERING_STREAM: &str = "target/model/difference.records";

/// How many records before the differing one are told.
const TOLD_BEFORE: usize = 6;

struct Program {
    name: &'static str,
    command: String,
    shows_bytes: bool,
}

struct Task {
    records: usize,
    seed: u64,
    programs: Vec<Program>,
}

fn main() {
    let task = read_arguments().unwrap_or_else(|complaint| {
        eprintln!("{complaint}\n{USAGE}");
        exit(2);
    });
    let (mut streams, mut compared) = (0, 0);
    for seed in task.seed.. {
        for (sort, _) in streams::SORTS {
            let stream = streams::stream(sort, seed).expect("the sort is listed");
            for program in &task.programs {
                if let Err(difference) = compare(program, &stream) {
                    println!("stream {sort}, seed {seed}:\n{difference}");
                    exit(1);
                }
            }
            streams += 1;
            compared += stream.records;
            if compared >= task.records {
                let names: Vec<&str> = task.programs.iter().map(|program| program.name).collect();
                println!(
                    "{compared} records in {streams} streams: no difference between the model and the {}",
                    names.join(" or the ")
                );
                return;
            }
        }
    }
}

fn read_arguments() -> Result<Task, String> {
    let mut task = Task { records: 50_000, seed: 1, programs: Vec::new() };
    let mut arguments = std::env::args().skip(1);
    while let Some(option) = arguments.next() {
        let value = arguments.next().ok_or(format!("{option} needs a value"))?;
        let number = || value.parse::<u64>().map_err(|_| format!("{value} is no number"));
        match option.as_str() {
            "--records" => task.records = number()? as usize,
            "--seed" => task.seed = number()?,
            "--bench" => task.programs.push(Program { name: "bench program", command: value, shows_bytes: false }),
            "--harness" => task.programs.push(Program { name: "C harness", command: value, shows_bytes: true }),
            _ => return Err(format!("{option} is no option")),
        }
    }
    if task.programs.is_empty() {
        return Err("no program to compare with".to_string());
    }
    Ok(task)
}

/// What a program printed, and how it ended if it did not end well.
struct Said {
    lines: String,
    bad_end: Option<String>,
}

fn compare(program: &Program, stream: &Stream) -> Result<(), String> {
    let said = run(&program.command, &stream.bytes)?;
    let bad_end = said.bad_end.map(|end| format!("  the {} ended with {end}", program.name));
    match first_difference(program, stream, &said.lines) {
        None => bad_end.map_or(Ok(()), Err),
        Some(difference) => Err([difference].into_iter().chain(bad_end).collect::<Vec<_>>().join("\n")),
    }
}

fn first_difference(program: &Program, stream: &Stream, said: &str) -> Option<String> {
    let mut said_lines = said.split_inclusive('\n');
    for (place, line) in model::bench::lines(&stream.bytes).enumerate() {
        let expected = if program.shows_bytes { line.with_bytes() } else { line.to_string() };
        let got = said_lines.next();
        if got != Some(&format!("{expected}\n")) {
            return Some(difference(program, stream, place, &expected, got));
        }
    }
    let line = said_lines.next()?;
    Some(format!("  after the last record the {} goes on with {line:?}", program.name))
}

/// What the program prints for the records; an error if it cannot be run.
fn run(command: &str, input: &[u8]) -> Result<Said, String> {
    let mut words = command.split_whitespace();
    let program = words.next().ok_or("an empty command")?;
    let mut child = Command::new(program)
        .args(words)
        .stdin(Stdio::piped())
        .stdout(Stdio::piped())
        .spawn()
        .map_err(|error| format!("{command} cannot be run: {error}"))?;
    let mut stdin = child.stdin.take().expect("stdin is a pipe");
    let mut said = Vec::new();
    std::thread::scope(|scope| {
        // A program may end its run before it has read everything; its lines tell whether it should have.
        scope.spawn(move || stdin.write_all(input).ok());
        child.stdout.take().expect("stdout is a pipe").read_to_end(&mut said)
    })
    .map_err(|error| format!("{command} cannot be read: {error}"))?;
    let status = child.wait().map_err(|error| format!("{command} cannot be waited for: {error}"))?;
    Ok(Said {
        lines: String::from_utf8_lossy(&said).into_owned(),
        bad_end: if status.success() { None } else { Some(status.to_string()) },
    })
}

fn difference(program: &Program, stream: &Stream, place: usize, expected: &str, got: Option<&str>) -> String {
    let all: Vec<Record> = records(&stream.bytes).collect();
    let mut told = Vec::new();
    for before in place.saturating_sub(TOLD_BEFORE)..place {
        told.push(format!("  (record {}: {})", before + 1, words::record(all[before])));
    }
    told.push(format!("  record {}: {}", place + 1, words::record(all[place])));
    told.push(format!("  the model said {}", words::line(expected)));
    told.push(match got {
        Some(line) if line.ends_with('\n') => format!("  the {} said {}", program.name, words::line(line.trim_end())),
        Some(line) => format!("  the {} said {line:?}, without a newline", program.name),
        None => format!("  the {} said nothing more", program.name),
    });
    if let Some(byte) = got.and_then(|line| differing_byte(expected, line)) {
        told.push(byte);
    }
    match keep(stream, place + 1) {
        Ok(()) => told.push(format!("  the records so far are in {DIFFERING_STREAM}")),
        Err(error) => told.push(format!("  the records so far could not be kept: {error}")),
    }
    told.join("\n")
}

/// Where the bytes of two takes part.
fn differing_byte(expected: &str, got: &str) -> Option<String> {
    let bytes = |line: &str| line.trim_end().split(' ').nth(5).map(str::to_string);
    let (expected, got) = (bytes(expected)?, bytes(got)?);
    let pairs =
        |hex: &str| hex.as_bytes().chunks(2).map(|pair| String::from_utf8_lossy(pair).into_owned()).collect::<Vec<_>>();
    let (expected, got) = (pairs(&expected), pairs(&got));
    let place = (0..expected.len().max(got.len())).find(|place| expected.get(*place) != got.get(*place))?;
    let shown = |bytes: &[String]| bytes.get(place).cloned().unwrap_or("nothing".to_string());
    Some(format!("  byte {place} of the frame: {} in the model, {} there", shown(&expected), shown(&got)))
}

fn keep(stream: &Stream, count: usize) -> std::io::Result<()> {
    let mut all = records(&stream.bytes);
    all.by_ref().take(count).for_each(drop);
    let kept = stream.bytes.len() - all.rest().len();
    std::fs::write(DIFFERING_STREAM, &stream.bytes[..kept])
}
