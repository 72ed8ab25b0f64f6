//! Packages: a type, the transaction IDs, and a sequence of one to eight
//! components.

pub mod reading;
pub mod writing;

use crate::reader;
use crate::types::{Code, INVOKE};

pub const UNIDIRECTIONAL: u8 = 0xE1;
/// A QUERY and a CONVERSATION are with permission, unless it is said.
pub const QUERY: u8 = 0xE2;
pub const QUERY_WITHOUT: u8 = 0xE3;
pub const RESPONSE: u8 = 0xE4;
pub const CONVERSATION: u8 = 0xE5;
pub const CONVERSATION_WITHOUT: u8 = 0xE6;

pub const KINDS: [u8; 6] = [
    UNIDIRECTIONAL,
    QUERY,
    QUERY_WITHOUT,
    RESPONSE,
    CONVERSATION,
    CONVERSATION_WITHOUT,
];

pub const TRANSACTION_ID: u8 = 0xC7;
pub const SEQUENCE: u8 = 0xE8;

pub const MOST_COMPONENTS: usize = 8;

/// For each possible component the numbers that it has alone.
pub const TABLE_NUMBERS: usize = MOST_COMPONENTS * reader::TABLE_NUMBERS;

/// The caller's, one for each possible component.
pub type Specifiers = [u8; MOST_COMPONENTS];

/// How many octets the transaction IDs of a package type have: none, the
/// originating one, or that and the responding one.
pub fn id_octets(kind: u8) -> Option<usize> {
    match kind {
        UNIDIRECTIONAL => Some(0),
        QUERY | QUERY_WITHOUT | RESPONSE => Some(4),
        CONVERSATION | CONVERSATION_WITHOUT => Some(8),
        _ => None,
    }
}

/// The operation that Table 2 is asked for: an INVOKE names its own, of the
/// others the caller says it.
fn operation(kind: u8, code: Code, specifier: u8) -> u8 {
    if kind == INVOKE {
        code[0]
    } else {
        specifier
    }
}
