//! The worked packages, and each refusal of the package reader in its order.

use second::listing::list_packages;
use second::package::reading::{packed, read, Accepted};
use second::package::{MOST_COMPONENTS, TABLE_NUMBERS};
use second::reader;
use second::refusal::Refusal;

fn octets(text: &str) -> Vec<u8> {
    text.split_whitespace()
        .map(|pair| u8::from_str_radix(pair, 16).expect("a hexadecimal octet"))
        .collect()
}

const FILL: u16 = 0xAAAA;
const FILL_SUMMARY: u64 = 0xBBBB_BBBB_BBBB_BBBB;

/// What was read, and the table and the summaries after it.
struct Read {
    answer: Result<Accepted, Refusal>,
    table: Vec<u16>,
    summaries: Vec<u64>,
}

fn read_eight(package: &[u8], specifiers: [u8; MOST_COMPONENTS]) -> Read {
    let mut table = vec![FILL; TABLE_NUMBERS];
    let mut summaries = vec![FILL_SUMMARY; MOST_COMPONENTS];
    let answer = read(package, specifiers, &mut table, &mut summaries);
    if answer.is_err() {
        assert!(table.iter().all(|number| *number == FILL));
        assert!(summaries.iter().all(|one| *one == FILL_SUMMARY));
    }
    Read {
        answer,
        table,
        summaries,
    }
}

fn number_of(package: &[u8], specifiers: [u8; MOST_COMPONENTS]) -> (u8, u32) {
    match read_eight(package, specifiers).answer {
        Ok(_) => (0, 0),
        Err(refusal) => (refusal.number, refusal.detail),
    }
}

fn refused(text: &str, specifier: u8) -> (u8, u32) {
    number_of(&octets(text), [specifier; MOST_COMPONENTS])
}

const A: &str = "E9 1E CF 01 05 D1 02 09 04 F2 15 85 00 86 02 01 07 88 05 21 43 65 87 09 \
                 82 02 00 11 83 02 00 12";
const ID: &str = "C7 04 00 00 00 01";
const RESULT: &str = "EA 07 CF 01 05 F2 02 85 00";
const ERROR: &str = "EB 08 CF 01 05 D4 01 85 F2 00";
const REJECT: &str = "EC 08 CF 00 D5 02 01 01 F2 00";

#[test]
fn a_query_with_chart_a() {
    let package = octets(&format!("E2 28 {ID} E8 20 {A}"));
    assert_eq!(package.len(), 42);
    let read = read_eight(&package, [0; MOST_COMPONENTS]);
    let packed = packed(&read.answer);
    assert_eq!(packed.to_le_bytes(), [0, 0xE2, 4, 4, 0, 1, 0, 0]);
    let accepted = read.answer.expect("accepted");
    assert_eq!((accepted.ids, accepted.id_count), (4, 4));
    assert_eq!(accepted.components[0].place, 10);
    let entries = [
        [5, 0, 23, 0, 21],
        [6, 0, 25, 2, 23],
        [8, 0, 29, 5, 27],
        [2, 0, 36, 2, 34],
        [3, 0, 40, 2, 38],
    ];
    assert_eq!(read.table[..25], entries.concat());
    assert!(read.table[25..].iter().all(|number| *number == FILL));
    let mut alone = [0; reader::TABLE_NUMBERS];
    let summary = reader::packed(&reader::read(&octets(A), 0, &mut alone));
    assert_eq!(read.summaries[0], summary);
    assert!(read.summaries[1..].iter().all(|one| *one == FILL_SUMMARY));
}

#[test]
fn worked_packages() {
    assert_eq!(refused(&format!("E1 24 C7 00 E8 20 {A}"), 0), (24, 6));
    assert_eq!(refused(&format!("E4 11 {ID} E8 09 {RESULT}"), 4), (0, 0));
    let both = "C7 08 00 00 00 01 00 00 00 01";
    let conversation = format!("E5 16 {both} E8 0A {ERROR}");
    assert_eq!(refused(&conversation, 58), (0, 0));
    assert_eq!(refused(&conversation, 13), (24, 14));
    assert_eq!(refused(&format!("E2 08 {ID} E8 00"), 0), (23, 8));
    assert_eq!(refused(&format!("E2 0A {ID} F9 00 E8 00"), 0), (22, 8));
}

/// Each component has its own specifier, its part of the table and its
/// summary; what is not filled stays, between and behind.
#[test]
fn four_components() {
    let text = format!("E4 2C {ID} E8 24 {RESULT} {REJECT} EA 05 CF 01 07 F2 00 {ERROR}");
    let read = read_eight(&octets(&text), [4, 9, 26, 0, 1, 2, 3, 4]);
    assert_eq!(
        packed(&read.answer).to_le_bytes(),
        [0, 0xE4, 4, 4, 0, 4, 0, 0]
    );
    let accepted = read.answer.expect("accepted");
    let places: Vec<usize> = accepted.components.iter().map(|one| one.place).collect();
    assert_eq!(places, [10, 19, 29, 36]);
    assert_eq!(read.table[..5], [5, 0, 19, 0, 17]);
    assert!(read.table[5..].iter().all(|number| *number == FILL));
    let kinds: Vec<u8> = read
        .summaries
        .iter()
        .map(|one| one.to_le_bytes()[1])
        .collect();
    assert_eq!(kinds[..4], [0xEA, 0xEC, 0xEA, 0xEB]);
    assert!(read.summaries[4..].iter().all(|one| *one == FILL_SUMMARY));
    assert_eq!(read.summaries[2].to_le_bytes()[4], 26);
}

#[test]
fn lent_buffers() {
    let query = octets(&format!("E2 28 {ID} E8 20 {A}"));
    for (numbers, summaries) in [(2559, 8), (0, 8), (2560, 7), (2560, 0), (320, 1), (0, 0)] {
        // Asked before anything of the octets, none included.
        for package in [&query[..], &[], &vec![0; 4097]] {
            let mut table = vec![FILL; numbers];
            let mut lent = vec![FILL_SUMMARY; summaries];
            let answer = read(package, [0; MOST_COMPONENTS], &mut table, &mut lent);
            assert_eq!(answer, Err(Refusal::new(1, 0, "")));
        }
    }
    let mut table = vec![FILL; TABLE_NUMBERS + 1];
    let mut lent = vec![FILL_SUMMARY; MOST_COMPONENTS + 1];
    assert!(read(&query, [0; MOST_COMPONENTS], &mut table, &mut lent).is_ok());
}

#[test]
fn sizes() {
    assert_eq!(refused("", 0), (2, 0));
    assert_eq!(number_of(&[0x00; 4097], [0; MOST_COMPONENTS]), (2, 0));
    assert_eq!(number_of(&[0x00; 4096], [0; MOST_COMPONENTS]), (22, 0));
}

/// The package's own elements, from left to right.
#[test]
fn layout() {
    for octet in (0..=255u8).filter(|octet| !(0xE1..=0xE6).contains(octet)) {
        assert_eq!(number_of(&[octet], [0; MOST_COMPONENTS]), (22, 0));
    }
    for (text, place) in [
        ("E2", 1),
        ("E2 80", 1),
        ("E2 81", 1),
        ("E2 82 00", 1),
        ("E2 FF 00", 1),
        ("E2 01", 0),
        ("E2 00", 2),
        ("E2 00 C7", 2),
        ("E2 81 00", 3),
        ("E2 01 E8", 2),
        ("E2 01 C7", 3),
        ("E2 02 C7 80", 3),
        ("E2 02 C7 81", 3),
        ("E2 02 C7 01", 2),
        ("E2 02 C7 00", 2),
        ("E2 05 C7 03 00 00 00", 2),
        ("E2 07 C7 05 00 00 00 00 00", 2),
        ("E2 06 C7 04 00 00 00 01", 8),
        ("E2 07 C7 04 00 00 00 01 F9", 8),
        ("E2 07 C7 04 00 00 00 01 E9", 8),
        ("E2 07 C7 04 00 00 00 01 E8", 9),
        ("E2 08 C7 04 00 00 00 01 E8 80", 9),
        ("E2 08 C7 04 00 00 00 01 E8 01", 8),
        ("E2 09 C7 04 00 00 00 01 E8 00 00", 10),
        ("E5 06 C7 04 00 00 00 01", 2),
        ("E1 06 C7 04 00 00 00 01", 2),
        ("E4 0A C7 08 00 00 00 01 00 00 00 01", 2),
    ] {
        assert_eq!(refused(text, 0), (22, place), "{text}");
    }
}

/// The walk over the sequence: any octet begins a component.
#[test]
fn walk() {
    for (text, place) in [
        ("E2 09 C7 04 00 00 00 01 E8 01 E9", 11),
        ("E2 09 C7 04 00 00 00 01 E8 01 00", 11),
        ("E2 0A C7 04 00 00 00 01 E8 02 E9 80", 11),
        ("E2 0A C7 04 00 00 00 01 E8 02 E9 82", 11),
        ("E2 0A C7 04 00 00 00 01 E8 02 E9 01", 10),
        ("E2 0B C7 04 00 00 00 01 E8 03 00 00 00", 13),
        ("E2 0C C7 04 00 00 00 01 E8 04 00 00 E9 01", 12),
        // the component runs past the sequence and not past the package
        ("E2 0B C7 04 00 00 00 01 E8 02 E9 01 00", 12),
    ] {
        assert_eq!(refused(text, 0), (22, place), "{text}");
    }
    assert_eq!(refused("E2 0A C7 04 00 00 00 01 E8 02 00 00", 0), (3, 0));
}

/// A package with a sequence of these octets.
fn with_sequence(kind: u8, sequence: &[u8]) -> Vec<u8> {
    let ids = if kind == 0xE5 { 8 } else { 4 };
    let length = sequence.len();
    let size = 2 + ids + 4 + length;
    let mut package = vec![kind, 0x82, (size / 256) as u8, size as u8, 0xC7, ids as u8];
    package.extend(vec![0; ids]);
    package.extend([0xE8, 0x82, (length / 256) as u8, length as u8]);
    package.extend(sequence);
    package
}

/// Where the sequence of such a RESPONSE or QUERY stands.
const SEQUENCE: u32 = 10;
const FIRST: u32 = 14;

#[test]
fn counts() {
    let one = octets(RESULT);
    for count in 0..20 {
        let package = with_sequence(0xE4, &one.repeat(count));
        let wanted = if (1..=8).contains(&count) {
            (0, 0)
        } else {
            (23, SEQUENCE)
        };
        assert_eq!(number_of(&package, [4; 8]), wanted, "{count}");
    }
    // The walk goes on behind the eighth, before they are counted.
    for (bad, off) in [
        (&[0xEA, 0x80][..], 1),
        (&[0xEA, 0x05, 0xCF], 0),
        (&[0xEA], 1),
    ] {
        let sequence = [&one.repeat(8), bad].concat();
        let package = with_sequence(0xE4, &sequence);
        assert_eq!(number_of(&package, [4; 8]), (22, FIRST + 72 + off));
        let sequence = [&one.repeat(11), bad].concat();
        let package = with_sequence(0xE4, &sequence);
        assert_eq!(number_of(&package, [4; 8]), (22, FIRST + 99 + off));
    }
    // The count comes before any component is read.
    let wrong = octets("ED 00");
    assert_eq!(
        number_of(&with_sequence(0xE4, &wrong.repeat(9)), [4; 8]),
        (23, SEQUENCE)
    );
    assert_eq!(
        number_of(&with_sequence(0xE4, &wrong.repeat(8)), [4; 8]),
        (3, 0)
    );
}

/// Refused components with the number and the detail that they have alone,
/// all of them by the specifier 4.
const REFUSED: [(&str, u8, u32); 20] = [
    ("ED 07 CF 01 05 F2 02 85 00", 3, 0),
    ("EA 06 CF 80 05 F2 01 85", 4, 3),
    ("EA 04 CF 81 01 05", 25, 6),
    ("EA 07 CF 01 05 F2 01 85 00", 20, 8),
    ("EA 07 CF 01 05 F2 03 85 00", 5, 5),
    ("EA 06 CF 00 F2 02 85 00", 6, 2),
    ("E9 08 CF 00 D1 02 08 04 F2 00", 7, 4),
    ("EA 07 CF 01 05 F0 02 85 00", 8, 5),
    ("EA 07 CF 01 05 F2 02 05 00", 9, 7),
    ("E9 08 CF 00 D1 02 09 00 F2 00", 11, 7),
    ("E9 08 CF 00 D1 02 09 0E F2 00", 11, 7),
    ("EA 09 CF 01 05 F2 04 85 00 85 00", 12, 9),
    ("EA 05 CF 01 05 F2 00", 13, 5),
    ("E9 08 CF 00 D1 02 09 04 F2 00", 13, 5),
    (
        "E9 00 CF 00 D1 02 09 0D F2 1B 89 04 82 1A 2B 3C 88 05 21 43 65 87 09 95 03 00 0C 01 \
         91 00 96 01 02 9F 81 72 00",
        14,
        33,
    ),
    ("EA 08 CF 01 05 F2 03 85 01 00", 26, 7),
    ("EA 0B CF 01 05 F2 06 87 00 85 02 85 00", 26, 9),
    ("E9 0D CF 00 D1 02 09 0D F2 05 89 03 82 1A 2B", 26, 10),
    ("EB 08 CF 01 05 D5 01 85 F2 00", 21, 5),
    ("EC 07 CF 00 D5 01 01 F2 00", 21, 4),
];

fn whole(text: &str) -> Vec<u8> {
    let mut component = octets(text);
    component[1] = (component.len() - 2) as u8;
    component
}

fn alone(component: &[u8]) -> (u8, u32) {
    let mut table = [0; reader::TABLE_NUMBERS];
    let refusal = reader::read(component, 4, &mut table).expect_err("refused");
    (refusal.number, refusal.detail)
}

/// At each index: the number is the component's, and its place moves, but for
/// 3, 13 and a RESULT's 11. Behind it another that is refused, and before it
/// ones that the package does not carry, change nothing.
#[test]
fn refused_components() {
    for (text, number, detail) in REFUSED {
        let component = whole(text);
        assert_eq!(alone(&component), (number, detail), "{text}");
        for index in 0..8 {
            let before = octets(RESULT).repeat(index);
            let place = FIRST + before.len() as u32;
            let moved = if [3, 13].contains(&number) {
                detail
            } else {
                place + detail
            };
            for behind in [Vec::new(), octets("ED 00"), octets(ERROR)] {
                let sequence = [
                    &before[..],
                    &component,
                    &behind[..behind.len() * (7 - index).min(1)],
                ];
                for kind in [0xE4, 0xE2] {
                    let package = with_sequence(kind, &sequence.concat());
                    assert_eq!(
                        number_of(&package, [4; 8]),
                        (number, moved),
                        "{text}, {index}"
                    );
                }
            }
        }
    }
}

/// 11 of a RESULT keeps 0 at each index; an INVOKE's points to its specifier.
#[test]
fn no_row_of_a_result() {
    for index in 0..8 {
        let sequence = octets(RESULT).repeat(8);
        let mut specifiers = [4; 8];
        specifiers[index] = 5;
        assert_eq!(
            number_of(&with_sequence(0xE4, &sequence), specifiers),
            (11, 0)
        );
    }
}

#[test]
fn sixty_five_parameters() {
    let component = |count: usize| {
        let set = [0x80, 0x00].repeat(count);
        let head = [
            0xEB,
            0x81,
            9 + set.len() as u8,
            0xCF,
            0x01,
            0x05,
            0xD4,
            0x01,
            0x81,
        ];
        [&head[..], &[0xF2, 0x81, set.len() as u8], &set].concat()
    };
    let crowd = component(64).repeat(8);
    let read = read_eight(&with_sequence(0xE5, &crowd), [58; 8]);
    assert!(read.answer.is_ok() && read.table.iter().all(|number| *number != FILL));
    let before = component(64).repeat(7);
    let package = with_sequence(0xE5, &[&before[..], &component(65)].concat());
    let place = FIRST as usize + 4 + before.len() + 12 + 128;
    assert_eq!(number_of(&package, [58; 8]), (10, place as u32));
}

/// 24 with the first that is wrongly carried, and only where no component is
/// refused.
#[test]
fn wrong_package() {
    let carried = octets(RESULT);
    let other = octets(A);
    for index in 0..8 {
        let place = FIRST + 9 * index as u32;
        let mut components = vec![carried.clone(); 8];
        components[index] = other.clone();
        assert_eq!(
            number_of(&with_sequence(0xE4, &components.concat()), [4; 8]),
            (24, place)
        );
        for later in index + 1..8 {
            let mut two = components.clone();
            two[later] = other.clone();
            assert_eq!(
                number_of(&with_sequence(0xE4, &two.concat()), [4; 8]),
                (24, place)
            );
            two[later] = octets("ED 00");
            assert_eq!(
                number_of(&with_sequence(0xE4, &two.concat()), [4; 8]),
                (3, 0)
            );
        }
    }
}

/// A component's length that reaches into the next one shows in that one
/// component, or in what is then left of the next.
#[test]
fn reaching_into_the_next() {
    let mut first = octets(RESULT);
    first[1] += 9;
    let sequence = [&first[..], &octets(RESULT)].concat();
    let left = FIRST + 9;
    assert_eq!(
        number_of(&with_sequence(0xE4, &sequence), [4; 8]),
        (20, left)
    );
    // with its set: the next one's octets are read as parameters, and EA is none
    first[6] += 9;
    let sequence = [&first[..], &octets(RESULT)].concat();
    assert_eq!(
        number_of(&with_sequence(0xE4, &sequence), [4; 8]),
        (9, left)
    );
    // by one octet: 07 CF begins the next, and runs past the sequence
    let mut first = octets(RESULT);
    first[1] += 1;
    let sequence = [&first[..], &octets(RESULT)].concat();
    assert_eq!(
        number_of(&with_sequence(0xE4, &sequence), [4; 8]),
        (22, FIRST + 11)
    );
}

/// Each of the package's own lengths in each form.
#[test]
fn padded_lengths() {
    let forms: [fn(u8) -> Vec<u8>; 3] = [|n| vec![n], |n| vec![0x81, n], |n| vec![0x82, 0, n]];
    for outer in forms {
        for ids in forms {
            for sequence in forms {
                let ids = [vec![0xC7], ids(4), vec![0, 0, 0, 1]].concat();
                let result = octets(RESULT);
                let sequence = [vec![0xE8], sequence(result.len() as u8), result].concat();
                let body = [ids, sequence].concat();
                let package = [vec![0xE4], outer(body.len() as u8), body].concat();
                let read = read_eight(&package, [4; 8]);
                let accepted = read.answer.expect("accepted");
                assert_eq!(accepted.components[0].place, package.len() - 9);
                assert_eq!(read.table[4] as usize, package.len() - 2);
                assert_eq!(package[accepted.ids..][..accepted.id_count], [0, 0, 0, 1]);
            }
        }
    }
}

/// A package's line, and behind it its components'.
#[test]
fn listed() {
    let response = octets(&format!("E4 1B {ID} E8 13 {RESULT} {ERROR}"));
    let field = |tag: u8, contents: &[u8]| [&[tag, 0, contents.len() as u8], contents].concat();
    let input = [
        field(7, b"note"),
        field(5, &response),
        field(2, &[4]),
        field(5, &response),
        field(1, &octets(A)),
        field(2, &[26, 26]),
        field(5, &octets(A)),
        field(5, &response),
        vec![5, 0],
    ];
    let expected = "item answer detail type components\n1 11 0 0 0\n2 0 0 228 2\n 10 0 0 1 0\n \
                    19 0 0 0 0\n3 22 0 0 0\n4 0 0 228 2\n 10 0 0 1 0\n 19 0 0 0 0\ncut\n";
    assert_eq!(list_packages(&input.concat()), expected);
    assert_eq!(list_packages(&[]), "item answer detail type components\n");
}
