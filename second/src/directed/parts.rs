//! The elements of a component as places where a fault can stand.

use super::draft_of;
use crate::generate::draft::{Draft, Length};
use crate::generate::Subject;
use crate::rows::{find, Identifier};
use crate::types::{ComponentType, ERROR, INVOKE, RESULT};

#[derive(Clone, Copy)]
pub enum Part {
    Whole,
    Id,
    Code,
    Set,
    Parameter(usize),
}

use Part::{Code, Id, Parameter, Set, Whole};

/// A component that is accepted, with identifiers of one, two and three
/// octets: InterSystemSMSPage, which has a row for both types. An ERROR and a
/// REJECT have a parameter twice that this row names.
pub fn sound(kind: &ComponentType) -> Draft {
    let numbers: &[u16] = match kind.octet {
        INVOKE => &[8, 105, 242, 116],
        RESULT => &[7, 105, 153],
        _ => &[153, 5, 153],
    };
    let list: Vec<Identifier> = numbers.iter().copied().map(Identifier::primitive).collect();
    let code = match kind.octet {
        INVOKE | RESULT => [101, 0],
        ERROR => [0x81, 0],
        _ => [1, 2],
    };
    let row = find(RESULT, 101).expect("the InterSystemSMSPage result's row");
    draft_of(Subject::new(kind.octet, code, row), &list)
}

/// From left to right. Of an ERROR and a REJECT only those in which they
/// differ from the other types, and the set behind.
pub fn parts(kind: &ComponentType) -> Vec<Part> {
    if !kind.has_row {
        return vec![Id, Code, Set];
    }
    let parameters = (0..sound(kind).parameters.len()).map(Parameter);
    let code = kind.code.as_ref().map(|_| Code);
    let head = [Some(Whole), Some(Id), code, Some(Set)];
    head.into_iter().flatten().chain(parameters).collect()
}

impl Part {
    pub fn identifier(self, draft: &Draft) -> Vec<u8> {
        match self {
            Whole => vec![draft.kind],
            Id => vec![0xCF],
            Code => draft.code.as_ref().expect("a code").identifier.clone(),
            Set => vec![0xF2],
            Parameter(index) => draft.parameters[index].identifier.clone(),
        }
    }

    /// Changes the identifier's first octet.
    pub fn begin_with(self, draft: &mut Draft, octet: u8) {
        match self {
            Whole => draft.kind = octet,
            Id => draft.id.as_mut().expect("an ID").identifier = vec![octet],
            Code => draft.code.as_mut().expect("a code").identifier = vec![octet],
            Set => draft.set_identifier = Some(octet),
            Parameter(index) => draft.parameters[index].identifier[0] = octet,
        }
    }

    pub fn set_length(self, draft: &mut Draft, length: Length) {
        let field = match self {
            Whole => &mut draft.outer,
            Id => &mut draft.id.as_mut().expect("an ID").length,
            Code => &mut draft.code.as_mut().expect("a code").length,
            Set => &mut draft.set_length,
            Parameter(index) => &mut draft.parameters[index].length,
        };
        *field = length;
    }
}
