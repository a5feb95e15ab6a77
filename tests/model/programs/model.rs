//! The model as the bench program: reads records, prints lines; with --bytes each take also shows what it wrote.

use std::io::{self, BufWriter, Read};

fn main() -> io::Result<()> {
    let arguments: Vec<String> = std::env::args().skip(1).collect();
    let shows_bytes = match arguments.iter().map(String::as_str).collect::<Vec<_>>()[..] {
        [] => false,
        ["--bytes"] => true,
        _ => {
            eprintln!("usage: model [--bytes] < records > lines");
            std::process::exit(2);
        }
    };
    let mut input = Vec::new();
    io::stdin().lock().read_to_end(&mut input)?;
    model::bench::print(&input, shows_bytes, &mut BufWriter::new(io::stdout().lock()))
}
