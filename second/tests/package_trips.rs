//! Return trips of packages on generated cases, and how far the cases reach.

use second::cases::{answer_package_read, answer_package_write};
use second::cases::{package_read_random, package_write_random};
use second::generate::{package_read_case, package_write_case, PackageReadCase};
use second::package::reading::{self, Accepted, Inside};
use second::package::writing::{write, Package};
use second::package::{KINDS, MOST_COMPONENTS, TABLE_NUMBERS};
use second::reader::{self, packed, ENTRY_NUMBERS};
use second::refusal::Refusal;
use second::types::{ERROR, INVOKE, REJECT, RESULT};
use std::collections::{BTreeMap, BTreeSet};

const CASES: usize = 30_000;

fn table_of(accepted: &Accepted) -> Vec<u16> {
    let mut table = vec![0xAAAA; TABLE_NUMBERS];
    for (part, one) in table
        .chunks_mut(reader::TABLE_NUMBERS)
        .zip(&accepted.components)
    {
        part[..one.numbers.len()].copy_from_slice(&one.numbers);
    }
    table
}

/// What was read, written from the package itself: as long an output as what
/// is written is enough, and one octet less is not.
fn written_again(case: &PackageReadCase, accepted: &Accepted) -> Vec<u8> {
    let components = accepted.components.iter();
    let summaries: Vec<u64> = components.map(|one| packed(&Ok(one.accepted))).collect();
    let table = table_of(accepted);
    let package = Package {
        kind: accepted.kind,
        ids: &case.package[accepted.ids..][..accepted.id_count],
        summaries: &summaries,
        specifiers: case.specifiers,
        table: &table,
        source: &case.package,
    };
    let mut output = vec![0; case.package.len()];
    let needed = write(package, &mut output).expect("never longer than what was read");
    output.truncate(needed);
    let mut exact = vec![0; needed];
    assert_eq!(write(package, &mut exact), Ok(needed));
    assert_eq!(exact, output);
    let short = write(package, &mut exact[1..]);
    assert_eq!(short, Err(Refusal::new(17, needed, "")));
    output
}

fn read_again(octets: &[u8], specifiers: [u8; MOST_COMPONENTS]) -> Accepted {
    let mut table = vec![0; TABLE_NUMBERS];
    let mut summaries = [0; MOST_COMPONENTS];
    reading::read(octets, specifiers, &mut table, &mut summaries).expect("accepted")
}

/// Number, form and contents of each parameter.
type Shown<'a> = Vec<(u16, u16, &'a [u8])>;

fn shown<'a>(one: &Inside, octets: &'a [u8]) -> Shown<'a> {
    let entries = one.numbers.chunks_exact(ENTRY_NUMBERS);
    let shown = entries.map(|entry| {
        let contents = &octets[usize::from(entry[2])..][..usize::from(entry[3])];
        (entry[0], entry[1], contents)
    });
    shown.collect()
}

/// The same type, transaction IDs and components; only where they stand may
/// differ.
fn check_same(one: (&Accepted, &[u8]), other: (&Accepted, &[u8])) {
    assert_eq!(one.0.kind, other.0.kind);
    let ids = |(accepted, octets): (&Accepted, &[u8])| {
        octets[accepted.ids..][..accepted.id_count].to_vec()
    };
    assert_eq!(ids(one), ids(other));
    assert_eq!(one.0.components.len(), other.0.components.len());
    for (first, second) in one.0.components.iter().zip(&other.0.components) {
        assert_eq!(first.accepted, second.accepted);
        assert_eq!(shown(first, one.1), shown(second, other.1));
    }
}

/// A package in which every length is the shortest is written as it stood;
/// any other gets shorter, and is then written as it stands.
#[test]
fn writing_what_was_read_gives_the_shortest_form() {
    let mut random = package_read_random(31);
    let mut trips: BTreeMap<(u8, usize), usize> = BTreeMap::new();
    let mut shortened = 0;
    for _ in 0..CASES {
        let case = package_read_case(&mut random);
        let Ok(accepted) = answer_package_read(&case) else {
            continue;
        };
        let written = written_again(&case, &accepted);
        let same = written == case.package;
        assert!(same || written.len() < case.package.len());
        shortened += usize::from(!same);
        let again = read_again(&written, case.specifiers);
        check_same((&accepted, &case.package), (&again, &written));
        let shortest = PackageReadCase {
            package: written.clone(),
            ..case
        };
        assert_eq!(written_again(&shortest, &again), written);
        let key = (accepted.kind, accepted.components.len());
        *trips.entry(key).or_insert(0) += 1;
    }
    assert!(shortened > CASES / 20);
    for kind in [0xE2, 0xE4, 0xE5] {
        for count in 1..=MOST_COMPONENTS {
            let met = trips.get(&(kind, count)).copied().unwrap_or(0);
            assert!(met > 50, "{kind:X}, {count}: {met}");
        }
    }
    assert!(trips
        .keys()
        .all(|(kind, _)| [0xE2, 0xE4, 0xE5].contains(kind)));
}

#[test]
fn reading_what_was_written_gives_the_same_package() {
    let mut random = package_write_random(32);
    let mut trips = 0;
    for _ in 0..CASES {
        let case = package_write_case(&mut random);
        let (Ok(_), octets) = answer_package_write(&case) else {
            continue;
        };
        trips += 1;
        let accepted = read_again(&octets, case.specifiers);
        assert_eq!(accepted.kind, case.kind);
        assert_eq!(octets[accepted.ids..][..accepted.id_count], case.ids);
        assert_eq!(accepted.components.len(), case.summaries.len());
        let table = case.table();
        let parts = table.chunks(reader::TABLE_NUMBERS);
        for ((one, summary), part) in accepted.components.iter().zip(&case.summaries).zip(parts) {
            check_written(one, *summary);
            let given = Inside {
                numbers: part[..one.numbers.len()].to_vec(),
                ..one.clone()
            };
            assert_eq!(shown(one, &octets), shown(&given, &case.source));
        }
    }
    assert!(trips > CASES / 3);
}

/// All that the writer looked at of a summary.
fn check_written(one: &Inside, summary: u64) {
    let [_, kind, first, second, code, code_second, ..] = summary.to_le_bytes();
    let accepted = one.accepted;
    assert_eq!(accepted.kind, kind);
    assert_eq!(u64::from(accepted.id_count), summary >> 62);
    assert_eq!(accepted.all as u64, summary >> 55 & 127);
    let count = usize::from(accepted.id_count);
    assert_eq!(accepted.id[..count], [first, second][..count]);
    if kind != RESULT {
        assert_eq!(accepted.code[0], code);
    }
    if kind == REJECT {
        assert_eq!(accepted.code[1], code_second);
    }
}

/// How often each number is met, and where.
type Reached = BTreeMap<(u8, usize), usize>;

fn check_reached(reached: &Reached, number: u8, indices: std::ops::Range<usize>, least: usize) {
    for index in indices {
        let count = reached.get(&(number, index)).copied().unwrap_or(0);
        assert!(count >= least, "{number} at {index}: {count}");
    }
}

/// Where the components of a package begin, up to a place before which its
/// layout is sound: a walk of its own.
fn places_before(package: &[u8], end: usize) -> Vec<usize> {
    let octet = |place: usize| usize::from(package.get(place).copied().unwrap_or(0));
    let behind = |place: usize| match octet(place + 1) {
        0x81 => (place + 3, octet(place + 2)),
        0x82 => (place + 4, 256 * octet(place + 2) + octet(place + 3)),
        length => (place + 2, length),
    };
    let (ids, _) = behind(0);
    let (ids_start, count) = behind(ids);
    let (mut place, _) = behind(ids_start + count);
    let mut places = Vec::new();
    while place < end {
        places.push(place);
        let (start, count) = behind(place);
        place = start + count;
    }
    places
}

fn places(package: &[u8]) -> Vec<usize> {
    places_before(package, package.len())
}

/// The component that is refused first: by reading each alone.
fn refused_index(case: &PackageReadCase) -> Option<usize> {
    let places = places(&case.package);
    let ends = places.iter().skip(1).copied().chain([case.package.len()]);
    let mut spans = places.iter().zip(ends).zip(case.specifiers);
    spans.position(|((start, end), specifier)| {
        let mut table = [0; reader::TABLE_NUMBERS];
        reader::read(&case.package[*start..end], specifier, &mut table).is_err()
    })
}

#[test]
fn every_reader_number_is_reached_at_each_index() {
    let mut random = package_read_random(33);
    let mut own = Reached::new();
    let mut carriage = Reached::new();
    let mut others = Reached::new();
    for _ in 0..2 * CASES {
        let case = package_read_case(&mut random);
        let Err(refusal) = answer_package_read(&case) else {
            continue;
        };
        let (number, place) = (refusal.number, refusal.detail as usize);
        let (reached, index) = match number {
            1 | 2 | 22 | 23 => (
                &mut others,
                usize::from(case.package.first() == Some(&0xE5)),
            ),
            24 => {
                let index = places(&case.package).iter().position(|one| *one == place);
                (&mut carriage, index.expect("a component's place"))
            }
            _ => (&mut own, refused_index(&case).expect("one is refused")),
        };
        *reached.entry((number, index)).or_insert(0) += 1;
    }
    for number in [1, 2, 22, 23] {
        check_reached(&others, number, 0..2, 50);
    }
    for number in [3, 4, 5, 6, 7, 8, 9, 10, 11, 12, 13, 14, 20, 21, 25, 26] {
        check_reached(&own, number, 0..MOST_COMPONENTS, 1);
        check_reached(&own, number, 0..2, 20);
    }
    check_reached(&carriage, 24, 0..MOST_COMPONENTS, 20);
}

/// The walk's faults behind the eighth component, and every reason for 22.
#[test]
fn every_fault_of_the_layout_is_reached() {
    let mut random = package_read_random(34);
    let mut reasons: BTreeMap<(&str, u8), usize> = BTreeMap::new();
    let mut behind_the_eighth = 0;
    for _ in 0..CASES {
        let case = package_read_case(&mut random);
        let Err(refusal) = answer_package_read(&case) else {
            continue;
        };
        if ![22, 23].contains(&refusal.number) {
            continue;
        }
        *reasons.entry((refusal.why, case.package[0])).or_insert(0) += 1;
        if refusal.why.starts_with("component") {
            // The fault points to the component or to the octet behind.
            let sound = places_before(&case.package, refusal.detail as usize - 1);
            behind_the_eighth += usize::from(sound.len() >= MOST_COMPONENTS);
        }
    }
    let of_element = ["cut", "form", "ended", "overrun", "left over"];
    let own = [
        "transaction ID",
        "ID octets",
        "dialogue",
        "sequence",
        "none",
        "many",
    ];
    let walk = ["component cut", "component form", "component overrun"];
    for why in of_element.iter().chain(&own).chain(&walk) {
        for kind in [0xE2, 0xE4, 0xE5] {
            let count = reasons.get(&(*why, kind)).copied().unwrap_or(0);
            assert!(count >= 20, "{why}, {kind:X}: {count}");
        }
    }
    assert!(behind_the_eighth > 100, "{behind_the_eighth}");
}

/// Every package type with every component type, read and written.
#[test]
fn every_pair_is_met() {
    let mut random = package_read_random(35);
    let mut read: BTreeSet<(u8, u8)> = BTreeSet::new();
    let mut sizes = BTreeSet::new();
    let mut lent = BTreeSet::new();
    for _ in 0..CASES {
        let case = package_read_case(&mut random);
        lent.insert((case.numbers, case.summaries));
        let answer = answer_package_read(&case);
        sizes.insert((case.package.len(), answer.is_ok()));
        let sound = answer
            .as_ref()
            .map_or_else(|refusal| refusal.number == 24, |_| true);
        if sound {
            let places = places(&case.package).into_iter();
            read.extend(places.map(|place| (case.package[0], case.package[place])));
        }
    }
    for kind in KINDS {
        for inside in [INVOKE, RESULT, ERROR, REJECT] {
            assert!(read.contains(&(kind, inside)), "{kind:X}, {inside:X}");
        }
    }
    for size in [127, 128, 129, 255, 256, 257, 4095, 4096] {
        assert!(sizes.contains(&(size, true)), "{size}");
    }
    assert!(sizes.contains(&(4097, false)) && !sizes.contains(&(4097, true)));
    for pair in [
        (2560, 8),
        (2559, 8),
        (2560, 7),
        (2560, 0),
        (2048, 8),
        (0, 8),
        (2560, 9),
    ] {
        assert!(lent.contains(&pair), "{pair:?}");
    }
}

/// The number of each case and its detail or, accepted, its octets; with it
/// how many octets the output has more.
fn writings(seed: u64) -> Vec<(u8, usize, i64)> {
    let mut random = package_write_random(seed);
    let writing = |_| {
        let case = package_write_case(&mut random);
        let (number, detail) = match answer_package_write(&case).0 {
            Ok(octets) => (0, octets),
            Err(refusal) => (refusal.number, refusal.detail as usize),
        };
        (number, detail, case.output as i64 - detail as i64)
    };
    (0..CASES).map(writing).collect()
}

#[test]
fn every_writer_number_is_reached() {
    let mut numbers: BTreeMap<u8, usize> = BTreeMap::new();
    let mut carriage = Reached::new();
    for (number, detail, _) in writings(36) {
        *numbers.entry(number).or_insert(0) += 1;
        if number == 24 {
            *carriage.entry((24, detail)).or_insert(0) += 1;
        }
    }
    let wanted = [0, 1, 3, 6, 10, 11, 12, 13, 14, 15, 16, 17, 22, 23, 24, 26];
    assert!(numbers.keys().eq(wanted.iter()));
    assert!(numbers.values().all(|count| *count >= 5), "{numbers:?}");
    check_reached(&carriage, 24, 0..MOST_COMPONENTS, 5);
}

#[test]
fn every_size_is_written() {
    let met: BTreeSet<(u8, usize, i64)> = writings(37).into_iter().collect();
    let sizes: BTreeSet<(u8, usize)> = met.iter().map(|one| (one.0, one.1)).collect();
    for size in [127, 128, 129, 256, 257, 4095, 4096] {
        assert!(sizes.contains(&(0, size)), "{size}");
    }
    assert!(sizes.contains(&(15, 4097)) && sizes.contains(&(15, 4098)));
    for room in [(0, 0), (0, 1), (17, -1)] {
        assert!(met.iter().any(|one| (one.0, one.2) == room), "{room:?}");
    }
    let at_the_limit = |number, more| met.contains(&(number, 4096, more));
    assert!(at_the_limit(0, 0) && at_the_limit(17, -1));
}

#[test]
fn every_count_is_written() {
    let mut random = package_write_random(38);
    let cases = (0..CASES).map(|_| package_write_case(&mut random));
    let counts: BTreeSet<usize> = cases.map(|case| case.summaries.len()).collect();
    for count in (0..=10).chain([256, 257, 264]) {
        assert!(counts.contains(&count), "{count}");
    }
}
