//! The package writer's numbers and their order.

use second::package::reading::{self, Accepted};
use second::package::writing::{write, Package};
use second::package::{MOST_COMPONENTS, TABLE_NUMBERS};
use second::reader;
use second::refusal::Refusal;

const PART: usize = reader::TABLE_NUMBERS;

/// A summary with an answer and a count of named ones that are not looked at.
fn summary(kind: u8, ids: &[u8], code: [u8; 2], entries: u16) -> u64 {
    let id = [0, 1].map(|index| ids.get(index).copied().unwrap_or(0xEE));
    let counts = 16384 * ids.len() as u16 + 128 * entries + 77;
    let [low, high] = counts.to_le_bytes();
    u64::from_le_bytes([99, kind, id[0], id[1], code[0], code[1], low, high])
}

/// HandoffBack's result with ChannelData of no octets; its code is not looked
/// at.
fn result() -> u64 {
    summary(0xEA, &[5], [0xDD, 0xDD], 1)
}

fn error() -> u64 {
    summary(0xEB, &[5], [0x85, 0xDD], 0)
}

/// Every part begins with ChannelData of no octets, the last number is not
/// looked at, and all others are no entries.
fn table() -> Vec<u16> {
    let mut table = vec![0xFFFF; TABLE_NUMBERS];
    for part in table.chunks_mut(PART) {
        part[..4].copy_from_slice(&[5, 0, 0, 0]);
    }
    table
}

fn response<'a>(summaries: &'a [u64], table: &'a [u16]) -> Package<'a> {
    Package {
        kind: 0xE4,
        ids: &[0, 0, 0, 1],
        summaries,
        specifiers: [4; MOST_COMPONENTS],
        table,
        source: &[],
    }
}

/// Into so many octets; a refusal changes none, and an accepted package only
/// those that it has.
fn answer(package: Package, room: usize) -> Result<Vec<u8>, (u8, u32)> {
    let mut output = vec![0x5A; room];
    let answer = write(package, &mut output);
    let count = answer.unwrap_or(0);
    assert!(output[count..].iter().all(|octet| *octet == 0x5A));
    output.truncate(count);
    answer
        .map(|_| output)
        .map_err(|Refusal { number, detail, .. }| (number, detail))
}

#[test]
fn worked_packages_are_written() {
    let table = table();
    let package = response(&[0], &table);
    let octets = answer(
        Package {
            summaries: &[result()],
            ..package
        },
        40,
    );
    let expected = [
        0xE4, 0x11, 0xC7, 0x04, 0x00, 0x00, 0x00, 0x01, 0xE8, 0x09, 0xEA, 0x07, 0xCF, 0x01, 0x05,
        0xF2, 0x02, 0x85, 0x00,
    ];
    assert_eq!(octets, Ok(expected.to_vec()));
    let conversation = Package {
        kind: 0xE5,
        ids: &[0, 0, 0, 1, 0, 0, 0, 1],
        summaries: &[error()],
        specifiers: [58; MOST_COMPONENTS],
        ..package
    };
    let expected = [
        0xE5, 0x16, 0xC7, 0x08, 0x00, 0x00, 0x00, 0x01, 0x00, 0x00, 0x00, 0x01, 0xE8, 0x0A, 0xEB,
        0x08, 0xCF, 0x01, 0x05, 0xD4, 0x01, 0x85, 0xF2, 0x00,
    ];
    assert_eq!(answer(conversation, 24), Ok(expected.to_vec()));
    let by_13 = Package {
        specifiers: [13; MOST_COMPONENTS],
        ..conversation
    };
    assert_eq!(answer(by_13, 24), Err((24, 0)));
}

/// Each is asked where all before it is sound and all behind it is not.
#[test]
fn order_before_the_components() {
    let table = table();
    let wrong = summary(0xED, &[5], [0, 0], 0);
    let mut package = Package {
        kind: 0xE7,
        ids: &[0; 9],
        summaries: &[wrong; 9],
        specifiers: [0; MOST_COMPONENTS],
        table: &table[..TABLE_NUMBERS - 1],
        source: &[],
    };
    assert_eq!(answer(package, 0), Err((1, 0)));
    package.table = &table;
    assert_eq!(answer(package, 0), Err((22, 0)));
    package.kind = 0xE4;
    assert_eq!(answer(package, 0), Err((22, 0)));
    package.ids = &[0; 4];
    assert_eq!(answer(package, 0), Err((23, 0)));
    package.summaries = &[];
    assert_eq!(answer(package, 0), Err((23, 0)));
    // HandoffBack2 without its parameters, which a RESPONSE does not carry
    let summaries = [summary(0xE9, &[], [37, 0], 0), result(), wrong];
    package.summaries = &summaries;
    assert_eq!(answer(package, 0), Err((13, 1)));
}

#[test]
fn order_behind_the_components() {
    let mut table = table();
    table[PART + 5..][..5].copy_from_slice(&[200, 0, 0, 4070, 0]);
    let source = [0; 4070];
    let long = summary(0xEA, &[5], [0, 0], 2);
    let summaries = [error(), long, result()];
    let mut package = Package {
        source: &source,
        ..response(&summaries, &table)
    };
    // the ERROR of an operation whose errors only a CONVERSATION carries, and
    // behind it a RESULT without a row; the whole is too long
    package.specifiers = [58, 4, 0, 0, 0, 0, 0, 0];
    assert_eq!(answer(package, 0), Err((11, 0)));
    package.specifiers = [58, 4, 4, 0, 0, 0, 0, 0];
    assert_eq!(answer(package, 0), Err((24, 0)));
    package.specifiers = [0, 4, 4, 0, 0, 0, 0, 0];
    assert_eq!(answer(package, 0), Err((15, 4122)));
    let summaries = [error(), result(), result()];
    package.summaries = &summaries;
    for room in [0, 37] {
        assert_eq!(answer(package, room), Err((17, 38)));
    }
    assert_eq!(answer(package, 38).map(|octets| octets.len()), Ok(38));
}

/// The index is that of the first that the package does not carry.
#[test]
fn wrong_package() {
    let table = table();
    for index in 0..8 {
        for other in index..8 {
            let mut summaries = [result(); 8];
            let mut specifiers = [4; MOST_COMPONENTS];
            for at in [index, other] {
                summaries[at] = error();
                specifiers[at] = 58;
            }
            let package = Package {
                specifiers,
                ..response(&summaries, &table)
            };
            assert_eq!(answer(package, 200), Err((24, index as u32)));
        }
    }
}

#[test]
fn types_and_transaction_ids() {
    let table = table();
    let summaries = [result()];
    for kind in 0..=255 {
        for count in 0..12 {
            let ids = vec![0x77; count];
            let package = Package {
                kind,
                ids: &ids,
                ..response(&summaries, &table)
            };
            let fits = match kind {
                0xE1 => count == 0,
                0xE2..=0xE4 => count == 4,
                0xE5 | 0xE6 => count == 8,
                _ => false,
            };
            let number = answer(package, 40).err().map(|refusal| refusal.0);
            let wanted = match (fits, kind) {
                (false, _) => Some(22),
                (true, 0xE4) => None,
                (true, _) => Some(24),
            };
            assert_eq!(number, wanted, "{kind:X}, {count}");
        }
    }
}

#[test]
fn counts() {
    let table = table();
    for count in (0..20).chain([256, 257, 264]) {
        let summaries = vec![result(); count];
        let answer = answer(response(&summaries, &table), 100);
        if (1..=8).contains(&count) {
            assert_eq!(answer.map(|octets| octets.len()), Ok(10 + 9 * count));
        } else {
            assert_eq!(answer, Err((23, 0)));
        }
    }
}

/// A component's own numbers at each index, the details as alone: an entry is
/// counted in its part, and 15 needs the component's octets.
#[test]
fn refused_components() {
    let cases = [
        (summary(0xED, &[5], [0, 0], 1), 3, 0),
        (summary(0xEA, &[], [0, 0], 1), 6, 0),
        (summary(0xEB, &[5, 6], [0, 0], 1), 6, 0),
        (summary(0xEA, &[5], [0, 0], 65), 10, 0),
        (summary(0xEA, &[5], [0, 0], 127), 10, 0),
        (summary(0xEA, &[5], [0, 0], 2), 16, 1),
        (summary(0xE9, &[], [0, 0], 1), 11, 0),
        (summary(0xE9, &[], [14, 0], 1), 11, 0),
        (summary(0xEA, &[5], [0, 0], 0), 13, 5),
    ];
    let table = table();
    for (wrong, number, detail) in cases {
        for index in 0..8 {
            let mut summaries = [result(); 8];
            summaries[index] = wrong;
            assert_eq!(
                answer(response(&summaries, &table), 0),
                Err((number, detail))
            );
        }
    }
}

/// 12, 14 and 26 give the entry, and 15 of a component comes before its row.
#[test]
fn entries_of_a_component() {
    let source = [0; 4096];
    let entry = |number: u16, length: u16| [number, 0, 0, length, 0];
    for index in 0..8 {
        let mut table = table();
        let mut put = |numbers: &[[u16; 5]]| {
            let part = &mut table[PART * index..][..5 * numbers.len()];
            part.copy_from_slice(&numbers.concat());
            let mut summaries = [result(); 8];
            summaries[index] = summary(0xEA, &[5], [0, 0], numbers.len() as u16);
            let package = Package {
                source: &source,
                ..response(&summaries, &table)
            };
            answer(package, 0).expect_err("refused")
        };
        assert_eq!(put(&[entry(7, 0), entry(5, 0), entry(5, 1)]), (12, 2));
        assert_eq!(put(&[entry(5, 1), entry(5, 0)]), (12, 1));
        assert_eq!(put(&[entry(7, 0), entry(5, 1)]), (26, 1));
        assert_eq!(put(&[entry(7, 4), entry(5, 4)]), (26, 1));
        assert_eq!(put(&[entry(7, 4096)]), (15, 4111));
        assert_eq!(put(&[entry(5, 4096)]), (15, 4111));
        assert_eq!(put(&[entry(5, 0), entry(7, 4097)]), (16, 1));
    }
}

/// 15 of the package: the components fit, and what stands around them does
/// not.
#[test]
fn the_package_s_size() {
    let source = [0; 4096];
    for (length, wanted) in [(4062, 4095), (4063, 4096), (4064, 4097), (4077, 4110)] {
        let mut table = table();
        table[5..10].copy_from_slice(&[200, 1, 0, length, 0]);
        let summaries = [summary(0xEA, &[5], [0, 0], 2)];
        let package = Package {
            source: &source,
            ..response(&summaries, &table)
        };
        let got = answer(package, 5000).map(|octets| octets.len() as u32);
        let expected = if wanted > 4096 {
            Err((15, wanted))
        } else {
            Ok(wanted)
        };
        assert_eq!(got, expected, "{length}");
        let short = answer(package, wanted as usize - 1).expect_err("refused").0;
        assert_eq!(short, if wanted > 4096 { 15 } else { 17 });
    }
}

/// An INVOKE is written with its own code, whatever the caller's specifier.
#[test]
fn the_invoke_s_code() {
    let mut table = table();
    table[..15].copy_from_slice(&[1, 0, 0, 0, 0, 6, 0, 0, 2, 0, 2, 0, 1, 2, 0]);
    for specifier in 0..=255 {
        let package = Package {
            kind: 0xE2,
            specifiers: [specifier; MOST_COMPONENTS],
            source: &[0x01, 0x07, 0x11],
            ..response(&[0], &table)
        };
        let summaries = [summary(0xE9, &[1, 2], [37, 0xDD], 3)];
        let octets = answer(
            Package {
                summaries: &summaries,
                ..package
            },
            60,
        )
        .expect("accepted");
        let component = [
            0xE9, 0x14, 0xCF, 0x02, 0x01, 0x02, 0xD1, 0x02, 0x09, 0x25, 0xF2, 0x0A, 0x81, 0x00,
            0x86, 0x02, 0x01, 0x07, 0x82, 0x02, 0x07, 0x11,
        ];
        assert_eq!(octets[10..], component);
        let accepted: Accepted = read_again(&octets);
        assert_eq!(accepted.components[0].accepted.code, [37, 0]);
    }
}

fn read_again(octets: &[u8]) -> Accepted {
    let mut table = vec![0; TABLE_NUMBERS];
    let mut summaries = [0; MOST_COMPONENTS];
    reading::read(octets, [0; MOST_COMPONENTS], &mut table, &mut summaries).expect("accepted")
}
