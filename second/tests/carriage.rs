//! Table 2, every cell of it, and what follows for packages.

use second::carriage::{carrier, LINES};
use second::package::reading::read;
use second::package::writing::{write, Package};
use second::package::{id_octets, KINDS, MOST_COMPONENTS, TABLE_NUMBERS};
use second::reader::packed;
use second::refusal::Refusal;
use second::rows::ROWS;
use second::types::{ERROR, INVOKE, REJECT, RESULT};

/// Operation, specifier, and the package of an INVOKE, a RESULT, an ERROR and
/// a REJECT; the last line is that of all other operations.
const TABLE_2: [(&str, u8, [&str; 4]); 13] = [
    ("FacilitiesDirective", 2, ["QW", "CW", "R", "R"]),
    ("MobileOnChannel", 3, ["R", "-", "-", "-"]),
    ("FacilitiesDirective2", 36, ["QW", "CW", "R", "R"]),
    (
        "RemoteUserInteractionDirective",
        50,
        ["CWO", "CW", "CW", "CW"],
    ),
    ("ChangeFacilities", 58, ["CWO", "CW", "CW", "CW"]),
    ("ConnectionFailureReport", 65, ["CW", "-", "CW", "CW"]),
    ("ConnectResource", 66, ["CWO", "-", "CW", "CW"]),
    ("DisconnectResource", 67, ["CWO", "-", "CW", "CW"]),
    ("InstructionRequest", 69, ["CW", "R", "R", "R"]),
    ("ResetTimer", 71, ["CWO", "-", "CW", "CW"]),
    ("SeizeResource", 73, ["QW", "CWO", "R", "R"]),
    ("SRFDirective", 74, ["CWO", "CW", "R", "R"]),
    ("SMSDeliveryPointToPointAck", 78, ["U", "-", "-", "-"]),
];
const LAST_LINE: [&str; 4] = ["QW", "R", "R", "R"];

fn octet(name: &str) -> Option<u8> {
    let names = ["U", "QW", "QWO", "R", "CW", "CWO"];
    let place = names.iter().position(|one| *one == name)?;
    Some(0xE1 + place as u8)
}

fn line(specifier: u8) -> [&'static str; 4] {
    let named = TABLE_2.iter().find(|line| line.1 == specifier);
    named.map_or(LAST_LINE, |line| line.2)
}

#[test]
fn every_cell() {
    for specifier in 0..=255 {
        for (kind, name) in [INVOKE, RESULT, ERROR, REJECT]
            .into_iter()
            .zip(line(specifier))
        {
            assert_eq!(
                carrier(kind, specifier),
                octet(name),
                "{kind:X}, {specifier}"
            );
        }
        for other in [0x00, 0xE8, 0xED, 0xEE, 0xFF] {
            assert_eq!(carrier(other, specifier), None);
        }
    }
}

#[test]
fn every_name() {
    assert_eq!(LINES.len(), TABLE_2.len());
    for one in &LINES {
        let named = TABLE_2.iter().find(|line| line.1 == one.specifier);
        assert_eq!(named.expect("a line").0, one.operation);
    }
}

/// A component of one octet of ID and no parameters.
fn bare(kind: u8, code: &[u8]) -> Vec<u8> {
    let id: &[u8] = &[0xCF, 0x01, 0x05];
    let body = [id, code, &[0xF2, 0x00]].concat();
    [&[kind, body.len() as u8], &body[..]].concat()
}

fn packaged(kind: u8, component: &[u8]) -> Vec<u8> {
    let ids = vec![0x01; id_octets(kind).expect("a package type")];
    let ids = [&[0xC7, ids.len() as u8], &ids[..]].concat();
    let sequence = [&[0xE8, component.len() as u8], component].concat();
    let body = [ids, sequence].concat();
    [&[kind, body.len() as u8], &body[..]].concat()
}

fn answer(package: &[u8], specifier: u8) -> (u8, u32) {
    let specifiers = [specifier; MOST_COMPONENTS];
    let mut table = vec![0; TABLE_NUMBERS];
    match read(package, specifiers, &mut table, &mut [0; MOST_COMPONENTS]) {
        Ok(_) => (0, 0),
        Err(refusal) => (refusal.number, refusal.detail),
    }
}

/// Errors and rejects have no row, so every specifier shows its line.
#[test]
fn errors_and_rejects_are_carried_by_every_line() {
    let components = [
        (2, bare(ERROR, &[0xD4, 0x01, 0x81])),
        (3, bare(REJECT, &[0xD5, 0x02, 0x01, 0x02])),
    ];
    for kind in KINDS {
        for specifier in 0..=255 {
            for (column, component) in &components {
                let package = packaged(kind, component);
                let place = (package.len() - component.len()) as u32;
                let carried = octet(line(specifier)[*column]) == Some(kind);
                let wanted = if carried { (0, 0) } else { (24, place) };
                assert_eq!(answer(&package, specifier), wanted, "{kind:X}, {specifier}");
            }
        }
    }
}

/// Every row takes the last line, so that three package types carry nothing
/// that is accepted.
#[test]
fn rows_take_the_last_line() {
    assert!(ROWS.iter().all(|row| line(row.specifier) == LAST_LINE));
    for kind in [0xE1, 0xE3, 0xE6] {
        for specifier in 0..=255 {
            let names = line(specifier);
            let carried = |column: usize| octet(names[column]) == Some(kind);
            let has_row = |octet| second::rows::find(octet, specifier).is_some();
            assert!(!carried(2) && !carried(3));
            assert!(!(carried(0) && has_row(INVOKE)));
            assert!(!(carried(1) && has_row(RESULT)));
        }
    }
}

/// The INVOKE is asked by its own specifier, whatever the caller's is.
#[test]
fn an_invoke_ignores_the_caller() {
    let parameters = [0x81, 0x00, 0x86, 0x02, 0x01, 0x07, 0x82, 0x02, 0x00, 0x11];
    let head = [0xE9, 0x12, 0xCF, 0x00, 0xD1, 0x02, 0x09, 0x25, 0xF2, 0x0A];
    let component = [&head[..], &parameters].concat();
    for specifier in 0..=255 {
        assert_eq!(answer(&packaged(0xE2, &component), specifier), (0, 0));
        assert_eq!(answer(&packaged(0xE5, &component), specifier), (24, 14));
    }
}

/// The writer asks as the reader does: an ERROR's code is no specifier.
#[test]
fn the_writer_asks_by_the_caller_s_specifier() {
    let accepted = second::reader::Accepted {
        kind: ERROR,
        id_count: 1,
        id: [5, 0],
        code: [58, 0],
        all: 0,
        named: 0,
        other: 0,
    };
    let table = vec![0; TABLE_NUMBERS];
    for kind in KINDS {
        for specifier in 0..=255 {
            let package = Package {
                kind,
                ids: &vec![0; id_octets(kind).expect("a package type")],
                summaries: &[packed(&Ok(accepted))],
                specifiers: [specifier; MOST_COMPONENTS],
                table: &table,
                source: &[],
            };
            let carried = octet(line(specifier)[2]) == Some(kind);
            let answer = write(package, &mut [0; 40]);
            let wanted = if carried {
                None
            } else {
                Some(Refusal::new(24, 0, ""))
            };
            assert_eq!(answer.err(), wanted, "{kind:X}, {specifier}");
        }
    }
}
