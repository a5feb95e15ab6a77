//! Writes streams into a directory: one file of records for each sort and each of the given number of seeds.

use std::{fs, io, path::Path};

fn main() -> io::Result<()> {
    let arguments: Vec<String> = std::env::args().skip(1).collect();
    let [directory, first_seed, seeds] = &arguments[..] else {
        eprintln!("usage: streams DIRECTORY FIRST-SEED SEEDS");
        std::process::exit(2);
    };
    let number = |text: &str| text.parse::<u64>().unwrap_or_else(|_| panic!("{text} is no number"));
    let first_seed = number(first_seed);
    fs::create_dir_all(directory)?;
    let (mut files, mut records) = (0, 0);
    for seed in first_seed..first_seed + number(seeds) {
        for (sort, _) in streams::SORTS {
            let stream = streams::stream(sort, seed).expect("the sort is listed");
            fs::write(Path::new(directory).join(format!("{sort}-{seed}.records")), &stream.bytes)?;
            files += 1;
            records += stream.records;
        }
    }
    println!("{files} streams, {records} records");
    Ok(())
}
