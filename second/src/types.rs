//! The component types, each as data: one walk reads them all, and one
//! composes them all.

use std::ops::RangeInclusive;

pub const INVOKE: u8 = 0xE9;
pub const RESULT: u8 = 0xEA;
pub const ERROR: u8 = 0xEB;
pub const REJECT: u8 = 0xEC;

/// What names the operation, the error or the problem: an INVOKE's specifier,
/// the specifier handed in with a RESULT, an ERROR's octet, a REJECT's two.
/// The second is 0 where there is none.
pub type Code = [u8; 2];

/// The element between component ID and set.
#[derive(Debug)]
pub struct CodeElement {
    pub identifier: u8,
    /// Octets before the code; only an INVOKE has one.
    pub family: &'static [u8],
    /// How many octets the code has.
    pub octets: usize,
    /// The number that refuses it.
    pub refused_by: u8,
}

impl CodeElement {
    pub fn contents(&self, code: Code) -> Vec<u8> {
        [self.family, &code[..self.octets]].concat()
    }

    pub fn length(&self) -> usize {
        self.family.len() + self.octets
    }
}

#[derive(Debug)]
pub struct ComponentType {
    pub octet: u8,
    pub id_octets: RangeInclusive<usize>,
    /// A RESULT has none.
    pub code: Option<CodeElement>,
    /// Whether a row is asked, for 11 to 14 and 26 and for what is named.
    pub has_row: bool,
}

const fn element(
    identifier: u8,
    family: &'static [u8],
    octets: usize,
    refused_by: u8,
) -> Option<CodeElement> {
    Some(CodeElement {
        identifier,
        family,
        octets,
        refused_by,
    })
}

pub static TYPES: [ComponentType; 4] = [
    ComponentType {
        octet: INVOKE,
        id_octets: 0..=2,
        code: element(0xD1, &[9], 1, 7),
        has_row: true,
    },
    ComponentType {
        octet: RESULT,
        id_octets: 1..=1,
        code: None,
        has_row: true,
    },
    ComponentType {
        octet: ERROR,
        id_octets: 1..=1,
        code: element(0xD4, &[], 1, 21),
        has_row: false,
    },
    ComponentType {
        octet: REJECT,
        id_octets: 0..=1,
        code: element(0xD5, &[], 2, 21),
        has_row: false,
    },
];

pub fn find(octet: u8) -> Option<&'static ComponentType> {
    TYPES.iter().find(|one| one.octet == octet)
}

/// Of an octet that is known to be a type.
pub fn of(octet: u8) -> &'static ComponentType {
    find(octet).expect("one of the four types")
}
