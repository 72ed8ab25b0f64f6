//! The stored file of tagged fields for the listing of packages.

use super::{put_field, put_odd_specifier, put_skipped};
use crate::directed::packages::{self, worked, PackageCase};
use crate::generate::package_read_case;
use crate::random::Random;
use crate::reader::LONGEST;

const SEED: u64 = 2;
const DRAWN: usize = 800;

/// A drawn package of more octets is left out: the directed cases have those
/// at the limits, and the file stays small.
const LONGEST_DRAWN: usize = 200;

const COMPONENT: u8 = 1;
const SPECIFIER: u8 = 2;
const PACKAGE: u8 = 5;

/// The worked packages, what sets the specifier, the directed cases, then
/// drawn ones with other fields in between, and last a field that the input
/// cuts.
pub fn corpus() -> Vec<u8> {
    let mut octets = Vec::new();
    put_cases(&mut octets, &worked());
    put_directed_fields(&mut octets);
    put_cases(&mut octets, &packages::cases());
    let mut random = Random::new(SEED);
    for _ in 0..DRAWN {
        put_drawn(&mut random, &mut octets);
    }
    put_field(&mut octets, PACKAGE, &vec![0xE2; LONGEST + 500]);
    octets.extend(CUT);
    octets
}

/// A sound package but for the octet that is cut.
const CUT: [u8; 21] = [
    0x05, 0x00, 0x13, 0xE4, 0x11, 0xC7, 0x04, 0x00, 0x00, 0x00, 0x01, 0xE8, 0x09, 0xEA, 0x07, 0xCF,
    0x01, 0x05, 0xF2, 0x02, 0x85,
];

/// Each behind a field with its specifier.
fn put_cases(octets: &mut Vec<u8>, cases: &[PackageCase]) {
    let mut standing = None;
    for case in cases {
        if standing.replace(case.specifier) != Some(case.specifier) {
            put_field(octets, SPECIFIER, &[case.specifier]);
        }
        put_field(octets, PACKAGE, &case.package);
    }
}

/// A RESPONSE with HandoffBack's result: accepted with one named by 4, with
/// one other by 26, and without a row by 0.
const RESPONSE_4: [u8; 19] = [
    0xE4, 0x11, 0xC7, 0x04, 0x00, 0x00, 0x00, 0x01, 0xE8, 0x09, 0xEA, 0x07, 0xCF, 0x01, 0x05, 0xF2,
    0x02, 0x85, 0x00,
];
const RESULT_4: &[u8] = RESPONSE_4.split_at(10).1;

/// A QUERY with HandoffBack2's INVOKE, which leaves the specifier as it is.
const QUERY_37: [u8; 30] = [
    0xE2, 0x1C, 0xC7, 0x04, 0x00, 0x00, 0x00, 0x02, 0xE8, 0x14, 0xE9, 0x12, 0xCF, 0x00, 0xD1, 0x02,
    0x09, 0x25, 0xF2, 0x0A, 0x81, 0x00, 0x86, 0x02, 0x01, 0x07, 0x82, 0x02, 0x00, 0x11,
];

/// Tag 2 has to have one octet, other tags are skipped whatever they hold, and
/// a component alone is no package.
fn put_directed_fields(octets: &mut Vec<u8>) {
    let fields: [(u8, &[u8]); 24] = [
        (SPECIFIER, &[0]),
        (PACKAGE, &RESPONSE_4),
        (SPECIFIER, &[4]),
        (SPECIFIER, &[]),
        (PACKAGE, &RESPONSE_4),
        (SPECIFIER, &[26, 26]),
        (PACKAGE, &RESPONSE_4),
        (SPECIFIER, &[0; 257]),
        (PACKAGE, &RESPONSE_4),
        (COMPONENT, RESULT_4),
        (COMPONENT, &RESPONSE_4),
        (3, &[0, 0, 0, 26]),
        (4, &[]),
        (7, b"a note"),
        (0x85, &RESPONSE_4),
        (0x82, &[26]),
        (7, &[0x02, 0x00, 0x01, 0x1A]),
        (PACKAGE, &RESPONSE_4),
        (PACKAGE, &QUERY_37),
        (PACKAGE, &RESPONSE_4),
        (PACKAGE, RESULT_4),
        (PACKAGE, &RESPONSE_4),
        (SPECIFIER, &[26]),
        (PACKAGE, &RESPONSE_4),
    ];
    for (tag, contents) in fields {
        put_field(octets, tag, contents);
    }
}

/// A package whose eight specifiers are the same, mostly behind a field that
/// sets it.
fn put_drawn(random: &mut Random, octets: &mut Vec<u8>) {
    let case = package_read_case(random);
    let specifier = case.specifiers[0];
    let one_for_all = case.specifiers.iter().all(|one| *one == specifier);
    if !one_for_all || case.package.len() > LONGEST_DRAWN {
        return;
    }
    if random.percent(15) {
        put_skipped(random, octets, &[1, 1, 3, 4, 7, 7, 0, 0x85, 0xFF]);
    }
    if random.percent(90) {
        put_field(octets, SPECIFIER, &[specifier]);
    }
    if random.percent(10) {
        put_odd_specifier(random, octets);
    }
    put_field(octets, PACKAGE, &case.package);
}
