//! Directed packages: the worked ones, every package type with every
//! component type, each fault of a package's own elements, of the walk over
//! its sequence and of its components at each index, and the limits.

mod inside;
mod outside;

use super::parts::sound;
use crate::carriage::LINES;
use crate::generate::draft::{Draft, Element};
use crate::generate::package_draft::PackageDraft;
use crate::package::{id_octets, CONVERSATION, KINDS, QUERY, RESPONSE};
use crate::rows::{self, ROWS};
use crate::types::{self, ERROR, INVOKE, REJECT, RESULT, TYPES};
use std::collections::HashSet;

/// A package, and the specifier that the caller gives for each component.
pub struct PackageCase {
    pub specifier: u8,
    pub package: Vec<u8>,
}

impl PackageCase {
    fn of(specifier: u8, draft: &PackageDraft) -> PackageCase {
        PackageCase {
            specifier,
            package: draft.octets(),
        }
    }
}

pub fn cases() -> Vec<PackageCase> {
    let groups = [
        every_pair(),
        every_line(),
        every_row(),
        outside::cases(),
        inside::cases(),
    ];
    each_once(groups.into_iter().flatten())
}

/// Two rules may ask for the same octets.
fn each_once(cases: impl Iterator<Item = PackageCase>) -> Vec<PackageCase> {
    let mut met = HashSet::new();
    let fresh = |case: &PackageCase| met.insert((case.specifier, case.package.clone()));
    cases.filter(fresh).collect()
}

const CHART_A: [u8; 32] = [
    0xE9, 0x1E, 0xCF, 0x01, 0x05, 0xD1, 0x02, 0x09, 0x04, 0xF2, 0x15, 0x85, 0x00, 0x86, 0x02, 0x01,
    0x07, 0x88, 0x05, 0x21, 0x43, 0x65, 0x87, 0x09, 0x82, 0x02, 0x00, 0x11, 0x83, 0x02, 0x00, 0x12,
];
const RESULT_4: [u8; 9] = [0xEA, 0x07, 0xCF, 0x01, 0x05, 0xF2, 0x02, 0x85, 0x00];
const ERROR_85: [u8; 10] = [0xEB, 0x08, 0xCF, 0x01, 0x05, 0xD4, 0x01, 0x85, 0xF2, 0x00];

/// The packages that were worked out beside the standards.
pub fn worked() -> Vec<PackageCase> {
    let ids: &[u8] = &[0xC7, 0x04, 0x00, 0x00, 0x00, 0x01];
    let both: &[u8] = &[0xC7, 0x08, 0, 0, 0, 1, 0, 0, 0, 1];
    let packages: [(u8, &[&[u8]]); 7] = [
        (0, &[&[0xE2, 0x28], ids, &[0xE8, 0x20], &CHART_A]),
        (0, &[&[0xE1, 0x24, 0xC7, 0x00, 0xE8, 0x20], &CHART_A]),
        (4, &[&[0xE4, 0x11], ids, &[0xE8, 0x09], &RESULT_4]),
        (58, &[&[0xE5, 0x16], both, &[0xE8, 0x0A], &ERROR_85]),
        (13, &[&[0xE5, 0x16], both, &[0xE8, 0x0A], &ERROR_85]),
        (13, &[&[0xE2, 0x08], ids, &[0xE8, 0x00]]),
        (13, &[&[0xE2, 0x0A], ids, &[0xF9, 0x00, 0xE8, 0x00]]),
    ];
    let case = |(specifier, parts): (u8, &[&[u8]])| PackageCase {
        specifier,
        package: parts.concat(),
    };
    packages.map(case).into()
}

/// Transaction IDs of this type, each octet another.
fn ids(kind: u8) -> Vec<u8> {
    let count = id_octets(kind).expect("a package type") as u8;
    (0x11..0x11 + count).collect()
}

fn package(kind: u8, components: Vec<Draft>) -> PackageDraft {
    PackageDraft::of(kind, ids(kind), components)
}

/// A short component that is accepted, of InterSystemSMSPage where a row is
/// asked; the ID tells one from another.
fn short(kind: u8, id: u8) -> Draft {
    let mut draft = sound(types::of(kind));
    let kept: &[&[u8]] = match kind {
        INVOKE => &[&[0x88], &[0x9F, 0x69], &[0x9F, 0x74]],
        RESULT => &[&[0x9F, 0x69]],
        _ => &[&[0x85]],
    };
    draft
        .parameters
        .retain(|one| kept.contains(&&one.identifier[..]));
    for one in &mut draft.parameters {
        // MIN keeps its size.
        if one.identifier != [0x88] {
            one.contents.truncate(1);
        }
    }
    draft.id = Some(Element::new(vec![0xCF], vec![id]));
    draft
}

/// By which `short` is accepted, a RESULT included.
const SPECIFIER: u8 = 101;

/// What this package carries of these by `SPECIFIER`, a CONVERSATION by
/// `CONVERSING`; those that carry nothing that can be accepted get an ERROR.
fn carried(package: u8) -> u8 {
    match package {
        QUERY => INVOKE,
        RESPONSE => RESULT,
        _ => ERROR,
    }
}

/// ChangeFacilities: a CONVERSATION carries its errors.
const CONVERSING: u8 = 58;

/// So many components that the package carries.
fn full(kind: u8, count: usize) -> PackageDraft {
    let inside = carried(kind);
    package(
        kind,
        (1..=count as u8).map(|id| short(inside, id)).collect(),
    )
}

/// The specifier by which it carries them.
fn specifier_of(kind: u8) -> u8 {
    if kind == CONVERSATION {
        CONVERSING
    } else {
        SPECIFIER
    }
}

/// Every package type with every component type, alone and behind one that a
/// RESPONSE carries.
fn every_pair() -> Vec<PackageCase> {
    let mut cases = Vec::new();
    for kind in KINDS {
        for one in &TYPES {
            let component = short(one.octet, 1);
            let behind = vec![short(RESULT, 2), component.clone()];
            cases.push(PackageCase::of(SPECIFIER, &package(kind, vec![component])));
            cases.push(PackageCase::of(SPECIFIER, &package(kind, behind)));
        }
    }
    cases
}

/// An ERROR and a REJECT of each operation that Table 2 names, and of some
/// that it does not, in each package type.
fn every_line() -> Vec<PackageCase> {
    let named = LINES.iter().map(|line| line.specifier);
    let specifiers: Vec<u8> = named.chain([0, 1, 64, 255]).collect();
    let mut cases = Vec::new();
    for kind in KINDS {
        for specifier in &specifiers {
            for octet in [ERROR, REJECT] {
                let mut component = short(octet, 1);
                component.parameters.clear();
                cases.push(PackageCase::of(*specifier, &package(kind, vec![component])));
            }
        }
    }
    cases
}

/// The mandatory parameters of each row in the package that carries it, and
/// an INVOKE and a RESULT of each operation that Table 2 names, which has no
/// row.
fn every_row() -> Vec<PackageCase> {
    let of_row = |row: &'static rows::Row| {
        let kind = if row.kind == INVOKE { QUERY } else { RESPONSE };
        let draft = super::draft(row, &super::lists::mandatory(row));
        PackageCase::of(row.specifier, &package(kind, vec![draft]))
    };
    let mut cases: Vec<PackageCase> = ROWS.iter().map(of_row).collect();
    for line in &LINES {
        for (octet, carrier) in [INVOKE, RESULT].into_iter().zip(line.carriers) {
            let mut draft = short(octet, 1);
            if let Some(code) = &mut draft.code {
                code.contents = vec![0x09, line.specifier];
            }
            let kind = carrier.unwrap_or(RESPONSE);
            cases.push(PackageCase::of(line.specifier, &package(kind, vec![draft])));
        }
    }
    cases
}
