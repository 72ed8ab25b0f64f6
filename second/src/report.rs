//! How often the generated cases reach each number, by the type of the
//! component or of the package, and how often a component is padded.

use crate::cases::{answer_package_read, answer_package_write, answer_read, answer_write};
use crate::cases::{package_read_random, package_write_random, read_random, write_random};
use crate::generate::{package_read_case, package_write_case};
use crate::generate::{read_case, write_case, WriteCase};
use crate::package::KINDS;
use crate::padding::is_padded;
use crate::reader::{read, TABLE_NUMBERS};
use crate::refusal::Refusal;
use crate::types::{self, TYPES};
use std::collections::BTreeMap;
use std::fmt::Write;

/// What the report tells apart.
#[derive(PartialEq, Eq, PartialOrd, Ord)]
struct Key {
    number: u8,
    why: &'static str,
    /// None where the octet is no type, or there is no octet.
    kind: Option<u8>,
    /// Whether the component that is read, or was read, has a padded length.
    padded: bool,
}

type Counts = BTreeMap<Key, u64>;

/// The types that have a column of their own.
type Types = [u8];

pub fn report(reads: u64, writes: u64, seed: u64) -> String {
    let both = [count_reads(reads, seed), count_writes(writes, seed)];
    let types = TYPES.each_ref().map(|kind| kind.octet);
    let mut text = numbers(&types, &both);
    put_line(&mut text, &types, "padded", &both, |key| key.padded);
    put_line(&mut text, &types, "   accepted", &both, |key| {
        key.padded && key.number == 0
    });
    text
}

/// As above of packages, whatever is padded in them.
pub fn of_packages(reads: u64, writes: u64, seed: u64) -> String {
    let both = [
        count_package_reads(reads, seed),
        count_package_writes(writes, seed),
    ];
    numbers(&KINDS, &both)
}

/// A line for each number that is met, and one for each of its reasons.
fn numbers(types: &Types, both: &[Counts; 2]) -> String {
    let mut text = heading(types);
    for number in (0..=17).chain(20..=26) {
        let of_number = |key: &Key| key.number == number;
        put_line(&mut text, types, &number.to_string(), both, of_number);
        for why in reasons(both, number) {
            let name = format!("   {why}");
            put_line(&mut text, types, &name, both, |key| {
                of_number(key) && key.why == why
            });
        }
    }
    text
}

/// The columns behind that of all cases.
fn columns(types: &Types) -> impl Iterator<Item = Option<u8>> + '_ {
    types.iter().copied().map(Some).chain([None])
}

fn heading(types: &Types) -> String {
    let mut text = format!("{:<20}", "number");
    for all in ["reader", "writer"] {
        put_cell(&mut text, all);
        for column in columns(types) {
            let name = column.map_or("none".into(), |octet| format!("{octet:X}"));
            put_cell(&mut text, &name);
        }
    }
    text + "\n"
}

fn put_cell(text: &mut String, cell: &str) {
    write!(text, "{cell:>8}").expect("a string takes all");
}

fn put_line(
    text: &mut String,
    types: &Types,
    name: &str,
    both: &[Counts; 2],
    met: impl Fn(&Key) -> bool,
) {
    write!(text, "{name:<20}").expect("a string takes all");
    for counts in both {
        put_cell(text, &total(counts, &met).to_string());
        for column in columns(types) {
            let count = total(counts, |key| key.kind == column && met(key));
            put_cell(text, &count.to_string());
        }
    }
    text.push('\n');
}

fn total(counts: &Counts, met: impl Fn(&Key) -> bool) -> u64 {
    let counted = counts.iter().filter(|(key, _)| met(key));
    counted.map(|(_, count)| count).sum()
}

/// The reasons of a number, where there is more than one.
fn reasons(both: &[Counts; 2], number: u8) -> Vec<&'static str> {
    let keys = both.iter().flat_map(|counts| counts.keys());
    let of_number = keys.filter(|key| key.number == number);
    let mut list: Vec<&'static str> = of_number.map(|key| key.why).collect();
    list.sort();
    list.dedup();
    if list.len() < 2 {
        list.clear();
    }
    list
}

fn reason(refusal: &Refusal) -> &'static str {
    match (refusal.number, refusal.detail) {
        (11, 0) => "detail 0",
        (11, _) => "detail not 0",
        _ => refusal.why,
    }
}

fn count(counts: &mut Counts, octet: Option<u8>, reached: (u8, &'static str), padded: bool) {
    let key = Key {
        number: reached.0,
        why: reached.1,
        kind: octet.and_then(types::find).map(|kind| kind.octet),
        padded,
    };
    *counts.entry(key).or_insert(0) += 1;
}

/// Whether the order is what was read of a padded component.
fn from_padded(case: &WriteCase) -> bool {
    let mut table = [0; TABLE_NUMBERS];
    let read = read(&case.source, case.head.code[0], &mut table);
    read.is_ok() && is_padded(&case.source)
}

fn count_reads(cases: u64, seed: u64) -> Counts {
    let mut counts = Counts::new();
    let mut random = read_random(seed);
    for _ in 0..cases {
        let case = read_case(&mut random);
        let reached = match &answer_read(&case).0 {
            Err(refusal) => (refusal.number, reason(refusal)),
            Ok(accepted) if accepted.other == 0 => (0, "named only"),
            Ok(_) => (0, "with others"),
        };
        let octet = case.component.first().copied();
        let padded = is_padded(&case.component);
        count(&mut counts, octet, reached, padded);
    }
    counts
}

fn count_writes(cases: u64, seed: u64) -> Counts {
    let mut counts = Counts::new();
    let mut random = write_random(seed);
    for _ in 0..cases {
        let case = write_case(&mut random);
        let reached = match &answer_write(&case).0 {
            Err(refusal) => (refusal.number, reason(refusal)),
            Ok(octets) if *octets == case.output => (0, "output filled"),
            Ok(_) => (0, "output longer"),
        };
        let octet = Some(case.head.kind);
        count(&mut counts, octet, reached, from_padded(&case));
    }
    counts
}

fn count_package(counts: &mut Counts, octet: Option<u8>, reached: (u8, &'static str)) {
    let key = Key {
        number: reached.0,
        why: reached.1,
        kind: octet.filter(|octet| KINDS.contains(octet)),
        padded: false,
    };
    *counts.entry(key).or_insert(0) += 1;
}

fn count_package_reads(cases: u64, seed: u64) -> Counts {
    const ACCEPTED: [&str; 9] = ["", "1", "2", "3", "4", "5", "6", "7", "8"];
    let mut counts = Counts::new();
    let mut random = package_read_random(seed);
    for _ in 0..cases {
        let case = package_read_case(&mut random);
        let reached = match &answer_package_read(&case) {
            Err(refusal) => (refusal.number, reason(refusal)),
            Ok(accepted) => (0, ACCEPTED[accepted.components.len()]),
        };
        count_package(&mut counts, case.package.first().copied(), reached);
    }
    counts
}

fn count_package_writes(cases: u64, seed: u64) -> Counts {
    let mut counts = Counts::new();
    let mut random = package_write_random(seed);
    for _ in 0..cases {
        let case = package_write_case(&mut random);
        let reached = match &answer_package_write(&case).0 {
            Err(refusal) => (refusal.number, reason(refusal)),
            Ok(octets) if *octets == case.output => (0, "output filled"),
            Ok(_) => (0, "output longer"),
        };
        count_package(&mut counts, Some(case.kind), reached);
    }
    counts
}
