//! The stored file of tagged fields for the listing.

pub mod packages;

use crate::directed::{self, Case};
use crate::generate::read_case;
use crate::random::Random;
use crate::reader::LONGEST;

const SEED: u64 = 1;
const DRAWN: usize = 700;

/// A drawn component of more octets is left out: the directed cases have
/// those at the limits, and the file stays small.
const LONGEST_DRAWN: usize = 300;

/// The directed cases, then drawn ones with other fields in between, and last
/// a field that the input cuts.
pub fn corpus() -> Vec<u8> {
    let mut octets = Vec::new();
    put_directed_fields(&mut octets);
    put_cases(&mut octets, &directed::cases());
    let mut random = Random::new(SEED);
    for _ in 0..DRAWN {
        put_drawn(&mut random, &mut octets);
    }
    put_field(&mut octets, 1, &vec![0x85; LONGEST + 500]);
    octets.extend(CUT);
    octets
}

/// A sound component of a row that takes it, but for the octet that is cut.
const CUT: [u8; 9] = [0x01, 0x00, 0x07, 0xEA, 0x05, 0xCF, 0x01, 0x05, 0xF2];

fn put_field(octets: &mut Vec<u8>, tag: u8, contents: &[u8]) {
    let length = u16::try_from(contents.len()).expect("a field's length");
    octets.push(tag);
    octets.extend(length.to_be_bytes());
    octets.extend(contents);
}

/// Each behind a field with its specifier, unless that stands already.
fn put_cases(octets: &mut Vec<u8>, cases: &[Case]) {
    let mut standing = None;
    for case in cases {
        if standing.replace(case.specifier) != Some(case.specifier) {
            put_field(octets, 2, &[case.specifier]);
        }
        put_field(octets, 1, &case.component);
    }
}

/// HandoffBack's result: accepted with one named by specifier 4, with one
/// other by 26, and without a row by 0.
const RESULT_4: [u8; 9] = [0xEA, 0x07, 0xCF, 0x01, 0x05, 0xF2, 0x02, 0x85, 0x00];

/// HandoffBack2's INVOKE with all that must occur, and without any of it.
const INVOKE_37: [u8; 20] = [
    0xE9, 0x12, 0xCF, 0x00, 0xD1, 0x02, 0x09, 0x25, 0xF2, 0x0A, 0x81, 0x00, 0x86, 0x02, 0x01, 0x07,
    0x82, 0x02, 0x00, 0x11,
];
const INVOKE_37_REFUSED: [u8; 10] = [0xE9, 0x08, 0xCF, 0x00, 0xD1, 0x02, 0x09, 0x25, 0xF2, 0x00];

/// An ERROR and a REJECT whose codes would be specifiers, and an ERROR with a
/// code too long.
const ERROR_26: [u8; 12] = [
    0xEB, 0x0A, 0xCF, 0x01, 0x05, 0xD4, 0x01, 0x1A, 0xF2, 0x02, 0x85, 0x00,
];
const REJECT_26: [u8; 10] = [0xEC, 0x08, 0xCF, 0x00, 0xD5, 0x02, 0x09, 0x1A, 0xF2, 0x00];
const ERROR_REFUSED: [u8; 11] = [
    0xEB, 0x09, 0xCF, 0x01, 0x05, 0xD4, 0x02, 0x09, 0x1A, 0xF2, 0x00,
];

/// What sets the specifier and what does not: it is 0 at the start, tag 2 has
/// to have one octet, other tags are skipped, whatever they hold, and a
/// component of any type leaves it as it is.
fn put_directed_fields(octets: &mut Vec<u8>) {
    let fields: [(u8, &[u8]); 28] = [
        (1, &RESULT_4),
        (2, &[4]),
        (2, &[]),
        (1, &RESULT_4),
        (2, &[26, 26]),
        (1, &RESULT_4),
        (2, &[0; 257]),
        (1, &RESULT_4),
        (0, &[26]),
        (3, &[26]),
        (4, &[]),
        (0x81, &RESULT_4),
        (0x82, &[26]),
        (0x82, &[0x02, 0x00, 0x01, 0x1A]),
        (0xFF, &[0x1A; 300]),
        (1, &RESULT_4),
        (1, &INVOKE_37),
        (1, &RESULT_4),
        (1, &INVOKE_37_REFUSED),
        (1, &RESULT_4),
        (1, &ERROR_26),
        (1, &RESULT_4),
        (1, &REJECT_26),
        (1, &RESULT_4),
        (1, &ERROR_REFUSED),
        (1, &RESULT_4),
        (2, &[26]),
        (1, &RESULT_4),
    ];
    for (tag, contents) in fields {
        put_field(octets, tag, contents);
    }
}

/// A component, mostly behind a field that sets the specifier it wants.
fn put_drawn(random: &mut Random, octets: &mut Vec<u8>) {
    let case = read_case(random);
    if case.component.len() > LONGEST_DRAWN {
        return;
    }
    if random.percent(15) {
        put_skipped(random, octets, &SKIPPED);
    }
    if random.percent(80) {
        put_field(octets, 2, &[case.specifier]);
    }
    if random.percent(15) {
        put_odd_specifier(random, octets);
    }
    put_field(octets, 1, &case.component);
}

/// Tags other than 1 and 2.
const SKIPPED: [u8; 10] = [0, 3, 4, 0x10, 0x7F, 0x80, 0x81, 0x82, 0xFE, 0xFF];

/// With one of these tags, and at times with contents that look like a field.
fn put_skipped(random: &mut Random, octets: &mut Vec<u8>, tags: &[u8]) {
    let tag = random.pick(tags);
    let contents = match random.below(3) {
        0 => Vec::new(),
        1 => vec![0x02, 0x00, 0x01, 0x1A],
        _ => {
            let count = random.between(1, 300);
            random.octets(count)
        }
    };
    put_field(octets, tag, &contents);
}

/// Tag 2 with none, two or more octets changes nothing.
fn put_odd_specifier(random: &mut Random, octets: &mut Vec<u8>) {
    let count = random.pick(&[0, 0, 2, 2, 3, 256, 257]);
    let contents = random.octets(count);
    put_field(octets, 2, &contents);
}
