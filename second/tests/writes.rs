//! The writer's numbers and their order.

use second::cases::{answer_write, write_random};
use second::generate::write_case;
use second::reader::{ENTRY_NUMBERS, TABLE_NUMBERS};
use second::refusal::Refusal;
use second::writer::{write, Head};
use std::collections::BTreeSet;

const HEAD: Head = Head {
    kind: 0xEA,
    id_count: 1,
    id_first: 0x05,
    id_second: 0x06,
    code: [4, 0xBB],
};

/// The code's second octet, 0xBB, is looked at in a REJECT only.
const ERROR: Head = Head {
    kind: 0xEB,
    code: [0x81, 0xBB],
    ..HEAD
};
const REJECT: Head = Head {
    kind: 0xEC,
    id_count: 0,
    code: [0x01, 0x02],
    ..HEAD
};

/// What the writer does not look at.
const PLACE: u16 = 0xAAAA;

/// A table of entries, which are given without their places.
fn table<const COUNT: usize>(entries: [[u16; ENTRY_NUMBERS - 1]; COUNT]) -> Vec<u16> {
    let placed = entries.map(|[number, form, start, length]| [number, form, start, length, PLACE]);
    placed.concat()
}

/// As many octets as a row that names it takes, and here any row.
fn right_size(number: u16) -> u16 {
    match number {
        22 => 1,
        2 | 3 | 6 => 2,
        21 => 3,
        9 => 4,
        8 => 5,
        _ => 0,
    }
}

/// An entry of the source's first octets.
fn sized(number: u16) -> [u16; ENTRY_NUMBERS - 1] {
    [number, 0, 0, right_size(number)]
}

const SOURCE: [u8; 5] = [0x11, 0x22, 0x33, 0x44, 0x55];

fn answer(head: Head, entries: usize, table: &[u16], source: &[u8], room: usize) -> (u8, u32) {
    let before = vec![0x5A; room];
    let mut output = before.clone();
    match write(head, entries, table, source, &mut output) {
        Ok(count) => {
            assert_eq!(output[count..], before[count..]);
            (0, count as u32)
        }
        Err(Refusal { number, detail, .. }) => {
            assert_eq!(output, before);
            (number, detail)
        }
    }
}

#[test]
fn charts_are_written() {
    let mut output = [0x5A; 12];
    let count = write(HEAD, 1, &[5, 0, 0, 0, 7], &[], &mut output);
    assert_eq!(count, Ok(9));
    let expected = [
        0xEA, 0x07, 0xCF, 0x01, 0x05, 0xF2, 0x02, 0x85, 0x00, 0x5A, 0x5A, 0x5A,
    ];
    assert_eq!(output, expected);
    let invoke = Head {
        kind: 0xE9,
        id_count: 2,
        ..HEAD
    };
    let table = table([
        [5, 0, 5, 0],
        [6, 0, 0, 2],
        [8, 0, 0, 5],
        [2, 0, 1, 2],
        [3, 0, 3, 2],
        [16383, 1, 0, 2],
    ]);
    let mut output = [0x5A; 40];
    let count = write(invoke, 6, &table, &SOURCE, &mut output);
    let expected = [
        0xE9, 0x25, 0xCF, 0x02, 0x05, 0x06, 0xD1, 0x02, 0x09, 0x04, 0xF2, 0x1B, 0x85, 0x00, 0x86,
        0x02, 0x11, 0x22, 0x88, 0x05, 0x11, 0x22, 0x33, 0x44, 0x55, 0x82, 0x02, 0x22, 0x33, 0x83,
        0x02, 0x44, 0x55, 0xBF, 0xFF, 0x7F, 0x02, 0x11, 0x22,
    ];
    assert_eq!(count, Ok(expected.len()));
    assert_eq!(output[..expected.len()], expected);
}

#[test]
fn errors_and_rejects_are_written() {
    let parameter = table([[5, 0, 0, 0]]);
    let error = [
        0xEB, 0x0A, 0xCF, 0x01, 0x05, 0xD4, 0x01, 0x81, 0xF2, 0x02, 0x85, 0x00,
    ];
    assert_eq!(written(ERROR, &parameter), error);
    let reject = [
        0xEC, 0x0A, 0xCF, 0x00, 0xD5, 0x02, 0x01, 0x02, 0xF2, 0x02, 0x85, 0x00,
    ];
    assert_eq!(written(REJECT, &parameter), reject);
    let with_id = Head {
        id_count: 1,
        ..REJECT
    };
    let octets = [
        0xEC, 0x09, 0xCF, 0x01, 0x05, 0xD5, 0x02, 0x01, 0x02, 0xF2, 0x00,
    ];
    assert_eq!(written(with_id, &[]), octets);
}

/// The octets of an accepted writing.
fn written(head: Head, table: &[u16]) -> Vec<u8> {
    let mut output = vec![0x5A; 40];
    let entries = table.len() / ENTRY_NUMBERS;
    let count = write(head, entries, table, &SOURCE, &mut output).expect("accepted");
    output.truncate(count);
    output
}

/// Every second octet of the code gives the same but in a REJECT; so does
/// every first one in a RESULT that has the same row.
#[test]
fn octets_of_the_code_that_are_not_looked_at() {
    for octet in 0..=255 {
        let second = |head: Head| Head {
            code: [head.code[0], octet],
            ..head
        };
        let channel_data = table([[5, 0, 0, 0]]);
        assert_eq!(
            written(second(HEAD), &channel_data),
            written(HEAD, &channel_data)
        );
        let invoke = Head {
            kind: 0xE9,
            code: [37, 0],
            ..HEAD
        };
        let mandatory = table([1, 6, 2].map(sized));
        assert_eq!(
            written(second(invoke), &mandatory),
            written(invoke, &mandatory)
        );
        assert_eq!(written(second(ERROR), &[]), written(ERROR, &[]));
        assert_eq!(written(second(REJECT), &[])[6..8], [0x01, octet]);
    }
}

/// Nothing is named, so nothing is missing and nothing occurs again.
#[test]
fn no_row_is_asked_of_errors_and_rejects() {
    let list = table([5, 5, 8, 242, 8].map(|number| [number, 0, 0, 0]));
    for head in [ERROR, REJECT] {
        for specifier in [0, 4, 13, 26] {
            let head = Head {
                code: [specifier, specifier],
                ..head
            };
            assert_eq!(answer(head, 0, &[], &[], 9), (17, 10));
            assert_eq!(answer(head, 0, &[], &[], 10), (0, 10));
            assert_eq!(answer(head, 5, &list, &[], 22), (0, 22));
            assert_eq!(answer(head, 5, &list, &[], 21), (17, 22));
        }
        let long = table([[7, 0, 0, 5000]]);
        assert_eq!(answer(head, 1, &long, &[0; 5000], 0), (15, 5018));
    }
}

#[test]
fn head_and_counts() {
    let type_wrong = Head {
        kind: 0x30,
        id_count: 9,
        ..HEAD
    };
    assert_eq!(answer(type_wrong, usize::MAX, &[], &[], 0), (3, 0));
    for id_count in [0, 2, 3, 255] {
        let head = Head { id_count, ..HEAD };
        assert_eq!(answer(head, usize::MAX, &[], &[], 0), (6, 0));
    }
    for id_count in [3, 255] {
        let head = Head {
            kind: 0xE9,
            id_count,
            ..HEAD
        };
        assert_eq!(answer(head, 0, &[], &[], 0), (6, 0));
    }
    for (head, wrong) in [(ERROR, [0, 2, 3]), (REJECT, [2, 3, 255])] {
        for id_count in wrong {
            let head = Head { id_count, ..head };
            assert_eq!(answer(head, usize::MAX, &[], &[], 0), (6, 0));
        }
        assert_eq!(answer(head, 65, &[], &[], 0), (10, 0));
        assert_eq!(answer(head, 1, &[5, 0, 0, 0], &[], 0), (1, 0));
        assert_eq!(answer(head, 1, &[5, 2, 0, 0, 0], &[], 0), (16, 0));
    }
    for kind in [0xE8, 0xED, 0xCB, 0x6C] {
        let head = Head { kind, ..ERROR };
        assert_eq!(answer(head, 0, &[], &[], 0), (3, 0));
    }
    for entries in [65, usize::MAX, usize::MAX / ENTRY_NUMBERS + 1] {
        assert_eq!(answer(HEAD, entries, &[], &[], 0), (10, 0));
    }
    assert_eq!(answer(HEAD, 64, &[0; TABLE_NUMBERS - 1], &[], 0), (1, 0));
    assert_eq!(answer(HEAD, 64, &[0; 256], &[], 0), (1, 0));
    assert_eq!(answer(HEAD, 64, &[0; TABLE_NUMBERS], &[], 0), (13, 5));
    for numbers in 0..ENTRY_NUMBERS {
        let short = &[16384, 2, 9, 9, 0][..numbers];
        assert_eq!(answer(HEAD, 1, short, &[], 0), (1, 0));
    }
}

#[test]
fn entries() {
    let lowest = table([
        [5, 0, 0, 0],
        [16383, 1, 3, 0],
        [16384, 0, 0, 0],
        [1, 2, 0, 0],
    ]);
    assert_eq!(answer(HEAD, 4, &lowest, &[0; 3], 0), (16, 2));
    for bad in [
        [16384, 0, 0, 0],
        [65535, 0, 0, 0],
        [7, 2, 0, 0],
        [7, 65535, 0, 0],
        [7, 0, 0, 4],
        [7, 0, 3, 1],
        [7, 0, 4, 0],
        [7, 0, 65535, 65535],
        [7, 0, 65535, 1],
    ] {
        let got = answer(HEAD, 1, &table([bad]), &[0; 3], 0);
        assert_eq!(got, (16, 0), "{bad:?}");
    }
    let at_the_end = table([[5, 0, 3, 0]]);
    assert_eq!(answer(HEAD, 1, &at_the_end, &[0; 3], 9), (0, 9));
    assert_eq!(answer(HEAD, 1, &at_the_end, &[0; 3], 8), (17, 9));
}

#[test]
fn rows_are_asked_between_15_and_17() {
    let none = Head {
        code: [0, 4],
        ..HEAD
    };
    assert_eq!(answer(none, 0, &[], &[], 0), (11, 0));
    let long = table([[7, 0, 0, 5000]]);
    assert_eq!(answer(none, 1, &long, &[0; 5000], 0), (15, 5015));
    assert_eq!(answer(HEAD, 0, &[], &[], 0), (13, 5));
    let again = [(7, 0), (5, 0), (5, 1), (5, 0), (5, 0)];
    let again = table(again.map(|(number, form)| [number, form, 0, 0]));
    assert_eq!(answer(HEAD, 5, &again, &[], 0), (12, 3));
    let choice = Head {
        kind: 0xE9,
        code: [13, 0],
        ..HEAD
    };
    let both = table([9, 242, 21, 17, 8, 22].map(sized));
    assert_eq!(answer(choice, 6, &both, &SOURCE, 0), (14, 4));
    assert_eq!(answer(choice, 5, &both, &SOURCE, 0), (13, 22));
}

/// The answer to these primitive numbers with as few contents as they may
/// have, into enough room.
fn ordered(head: Head, numbers: &[u16]) -> (u8, u32) {
    let entries = numbers.iter().map(|number| table([sized(*number)]));
    let table = entries.collect::<Vec<_>>().concat();
    answer(head, numbers.len(), &table, &SOURCE, 64)
}

/// InterSystemPage and InterSystemSMSPage with what must occur beside the
/// group, and how many octets that takes.
const PAGES: [(u8, [u16; 2], u32); 2] = [(32, [1, 9], 8), (101, [105, 116], 6)];

fn page(specifier: u8) -> Head {
    Head {
        kind: 0xE9,
        id_count: 0,
        code: [specifier, 0xBB],
        ..HEAD
    }
}

#[test]
fn pages_are_written() {
    let by_network_tmsi = [
        0xE9, 0x14, 0xCF, 0x00, 0xD1, 0x02, 0x09, 0x20, 0xF2, 0x0C, 0x81, 0x00, 0x89, 0x04, 0x11,
        0x22, 0x33, 0x44, 0x9F, 0x81, 0x69, 0x00,
    ];
    let entries = table([1, 9, 233].map(sized));
    assert_eq!(written(page(32), &entries), by_network_tmsi);
    let by_all_three = [
        0xE9, 0x1D, 0xCF, 0x00, 0xD1, 0x02, 0x09, 0x65, 0xF2, 0x15, 0x9F, 0x81, 0x69, 0x00, 0x9F,
        0x69, 0x00, 0x88, 0x05, 0x11, 0x22, 0x33, 0x44, 0x55, 0x9F, 0x74, 0x00, 0x9F, 0x81, 0x72,
        0x00,
    ];
    let entries = table([233, 105, 8, 116, 242].map(sized));
    assert_eq!(written(page(101), &entries), by_all_three);
}

#[test]
fn groups() {
    for (specifier, [first, second], octets) in PAGES {
        let head = page(specifier);
        let asked = |numbers: &[u16]| ordered(head, numbers);
        for (members, more) in [
            (&[8][..], 7),
            (&[242], 4),
            (&[233], 4),
            (&[8, 242], 11),
            (&[233, 8], 11),
            (&[242, 233], 8),
            (&[8, 242, 233], 15),
            (&[233, 242, 8], 15),
        ] {
            let taken = (0, 10 + octets + more);
            assert_eq!(asked(&[&[first, second], members].concat()), taken);
            assert_eq!(asked(&[members, &[second, first]].concat()), taken);
        }
        assert_eq!(asked(&[first, second]), (13, 8));
        assert_eq!(asked(&[first, second, 234, 105 + 256, 200]), (13, 8));
        for members in [&[][..], &[8], &[242], &[233]] {
            let without = |kept: &[u16]| asked(&[members, kept].concat());
            assert_eq!(without(&[second]), (13, u32::from(first)));
            assert_eq!(without(&[first]), (13, u32::from(second)));
            assert_eq!(without(&[]), (13, u32::from(first)));
        }
    }
}

/// 12 gives the second's entry, whatever other members there are, and comes
/// before 13; a twin is no second, and stands for no member.
#[test]
fn members_of_groups_again() {
    for (specifier, [first, second], octets) in PAGES {
        let head = page(specifier);
        for member in [8, 242, 233] {
            let asked = |numbers: &[u16]| ordered(head, numbers);
            assert_eq!(asked(&[member, first, second, member]), (12, 3));
            assert_eq!(asked(&[first, member, member, second]), (12, 2));
            assert_eq!(asked(&[member, member]), (12, 1));
            assert_eq!(asked(&[8, 242, 233, first, second, member]), (12, 5));
            let twin = [member, 1, 0, 0];
            let twins = table([twin, sized(first), sized(second), twin]);
            assert_eq!(answer(head, 4, &twins, &SOURCE, 64), (13, 8));
            let beside = table([twin, sized(first), sized(second), sized(member)]);
            let size = if member == 8 { 2 + 7 } else { 4 + 4 };
            let taken = (0, 10 + octets + size);
            assert_eq!(answer(head, 4, &beside, &SOURCE, 64), taken);
        }
        assert_eq!(ordered(head, &[first, second, second]), (12, 2));
    }
    // HandoffBack2 names only IMSI of them.
    assert_eq!(ordered(page(37), &[1, 6, 2, 233, 8, 233, 8]), (0, 42));
    assert_eq!(ordered(page(37), &[1, 6, 2, 242, 233, 242]), (12, 5));
}

/// Octets needed by a result of equal entries of one-octet numbers.
fn needed(entries: usize, length: u16) -> (u8, u32) {
    let table = table([[7, 0, 0, length]]).repeat(entries);
    let head = Head {
        code: [26, 0],
        ..HEAD
    };
    answer(head, entries, &table, &vec![0; usize::from(length)], 0)
}

#[test]
fn fields_over_65535_count_as_4() {
    assert_eq!(needed(1, 4081), (17, 4096));
    assert_eq!(needed(1, 4082), (15, 4097));
    // Set 65,528 and body 65,535; then body 65,536; then set 65,535 and
    // 65,536. Fields of 3, one of 4, and two of 4.
    assert_eq!(needed(1, 65524), (15, 65535 + 4));
    assert_eq!(needed(1, 65525), (15, 65536 + 5));
    assert_eq!(needed(1, 65531), (15, 65535 + 4 + 3 + 5));
    assert_eq!(needed(1, 65532), (15, 65536 + 5 + 3 + 5));
    let set = 64 * (65535 + 4);
    assert_eq!(needed(64, 65535), (15, set + 5 + 3 + 5));
}

/// Places in a component, at the end of the longest one, and in none.
const PLACES: [u16; 8] = [0, 1, 7, 4095, 4096, 4097, 16384, 65535];

#[test]
fn the_fifth_number_changes_nothing() {
    let mut random = write_random(15);
    let mut answers = BTreeSet::new();
    for _ in 0..5000 {
        let mut case = write_case(&mut random);
        let expected = answer_write(&case);
        for place in PLACES {
            put_places(&mut case.table, place);
            assert_eq!(answer_write(&case), expected);
        }
        answers.insert(expected.0.map_or_else(|refusal| refusal.number, |_| 0));
    }
    let all = [0, 1, 3, 6, 10, 11, 12, 13, 14, 15, 16, 17, 26];
    assert_eq!(answers, all.into());
}

fn put_places(table: &mut [u16], place: u16) {
    for entry in table.chunks_exact_mut(ENTRY_NUMBERS) {
        entry[4] = place;
    }
}
