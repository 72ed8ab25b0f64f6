//! The command lines.

use second::cases::{self, Counts};
use second::{corpus, listing, report};
use std::io::{self, BufWriter, Read, Write};
use std::process::ExitCode;

const USAGE: &str = "usage:
  second list < FILE
  second list-packages < FILE
  second cases READ_COUNT WRITE_COUNT SEED > FILE
  second cases READ_COUNT WRITE_COUNT PACKAGE_READ_COUNT PACKAGE_WRITE_COUNT SEED > FILE
  second corpus > FILE
  second corpus-packages > FILE
  second report READ_COUNT WRITE_COUNT SEED
  second report-packages READ_COUNT WRITE_COUNT SEED
";

fn main() -> ExitCode {
    let words: Vec<String> = std::env::args().skip(1).collect();
    match run(&words) {
        Some(Ok(())) => ExitCode::SUCCESS,
        Some(Err(error)) => {
            eprintln!("second: {error}");
            ExitCode::FAILURE
        }
        None => {
            eprint!("{USAGE}");
            ExitCode::from(2)
        }
    }
}

/// Nothing when the words are not a command line.
fn run(words: &[String]) -> Option<io::Result<()>> {
    let (command, rest) = words.split_first()?;
    let numbers: Option<Vec<u64>> = rest.iter().map(|word| word.parse().ok()).collect();
    match (command.as_str(), &numbers?[..]) {
        ("list", []) => Some(put_listing(listing::list)),
        ("list-packages", []) => Some(put_listing(listing::list_packages)),
        ("cases", &[reads, writes, seed]) => Some(put_cases([reads, writes, 0, 0], seed)),
        ("cases", &[reads, writes, package_reads, package_writes, seed]) => Some(put_cases(
            [reads, writes, package_reads, package_writes],
            seed,
        )),
        ("corpus", []) => Some(put(&corpus::corpus())),
        ("corpus-packages", []) => Some(put(&corpus::packages::corpus())),
        ("report", &[reads, writes, seed]) => {
            Some(put(report::report(reads, writes, seed).as_bytes()))
        }
        ("report-packages", &[reads, writes, seed]) => {
            Some(put(report::of_packages(reads, writes, seed).as_bytes()))
        }
        _ => None,
    }
}

fn put(octets: &[u8]) -> io::Result<()> {
    let mut out = io::stdout().lock();
    out.write_all(octets)?;
    out.flush()
}

fn put_listing(listed: fn(&[u8]) -> String) -> io::Result<()> {
    let mut input = Vec::new();
    io::stdin().lock().read_to_end(&mut input)?;
    put(listed(&input).as_bytes())
}

/// So many readings, writings, readings of packages and writings of packages.
fn put_cases(
    [reads, writes, package_reads, package_writes]: [u64; 4],
    seed: u64,
) -> io::Result<()> {
    let mut out = BufWriter::new(io::stdout().lock());
    let counts = Counts {
        reads,
        writes,
        package_reads,
        package_writes,
    };
    cases::stream(&mut out, counts, seed)?;
    out.flush()
}
