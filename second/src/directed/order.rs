//! Two faults at once: the earliest from left to right is given, the first
//! asked at one element, and the layout's before the row's.

use super::parts::{parts, sound, Part};
use super::{filling, padded, parameter, Case, PADDED};
use crate::generate::draft::{Draft, Form, Length};
use crate::rows::Identifier;
use crate::types::{ComponentType, INVOKE, TYPES};

#[derive(Clone, Copy)]
enum Fault {
    Octet,
    Field,
    PastTheEnd,
    LeftOver,
    Size,
    Family,
}

const FAULTS: [Fault; 6] = [
    Fault::Octet,
    Fault::Field,
    Fault::PastTheEnd,
    Fault::LeftOver,
    Fault::Size,
    Fault::Family,
];

pub fn cases() -> Vec<Case> {
    let mut cases = Vec::new();
    for kind in &TYPES {
        let faults = faults(kind);
        for (index, first) in faults.iter().enumerate() {
            cases.extend(
                faults[index..]
                    .iter()
                    .map(|other| both(kind, *first, *other)),
            );
            cases.extend(
                refused_by_row(kind)
                    .into_iter()
                    .map(|draft| broken(draft, *first)),
            );
            cases.extend(behind_padded(kind, *first));
        }
        cases.extend(refused_by_row(kind).iter().map(Case::of));
    }
    cases
}

/// Every fault at every element; all parameters but two are alike in this.
fn faults(kind: &ComponentType) -> Vec<(Part, Fault)> {
    let parts = parts(kind).into_iter();
    let kept = parts.filter(|part| !matches!(part, Part::Parameter(2..)));
    kept.flat_map(|part| FAULTS.map(|fault| (part, fault)))
        .collect()
}

fn both(kind: &ComponentType, first: (Part, Fault), other: (Part, Fault)) -> Case {
    let mut draft = sound(kind);
    put(&mut draft, first);
    broken(draft, other)
}

fn broken(mut draft: Draft, fault: (Part, Fault)) -> Case {
    put(&mut draft, fault);
    Case::of(&draft)
}

/// The place that is given moves with the padding before it.
fn behind_padded(kind: &ComponentType, fault: (Part, Fault)) -> [Case; 2] {
    PADDED.map(|forms| broken(padded(sound(kind), forms), fault))
}

/// What an element cannot have is left out: the case is then made twice, and
/// kept once.
fn put(draft: &mut Draft, (part, fault): (Part, Fault)) {
    match (fault, part) {
        (Fault::Octet, _) => part.begin_with(draft, 0x00),
        (Fault::Field, _) => part.set_length(draft, Length::Raw(vec![0x80])),
        (Fault::PastTheEnd, _) => part.set_length(draft, Length::Off(Form::Shortest, 300)),
        (Fault::LeftOver, Part::Whole) => draft.behind = filling(1),
        (Fault::LeftOver, Part::Set) => draft.behind_set = filling(2),
        (Fault::Size, Part::Id) => draft.id.as_mut().expect("an ID").contents = filling(3),
        (Fault::Size, Part::Code) => code(draft).push(0x00),
        (Fault::Family, Part::Code) if code(draft)[0] == 0x09 => code(draft)[0] = 0x08,
        _ => {}
    }
}

fn code(draft: &mut Draft) -> &mut Vec<u8> {
    &mut draft.code.as_mut().expect("a code").contents
}

/// Sound in its layout, but without a row, with a named one again, with what
/// is mandatory missing, or with an INVOKE's MIN of a wrong size; nothing of
/// it is asked of an ERROR or a REJECT.
fn refused_by_row(kind: &ComponentType) -> [Draft; 4] {
    let mut drafts = [(); 4].map(|_| sound(kind));
    drafts[0].specifier = 0;
    if kind.octet == INVOKE {
        code(&mut drafts[0])[1] = 0;
    }
    drafts[1]
        .parameters
        .push(parameter(Identifier::primitive(105)));
    drafts[2].parameters.remove(1);
    drafts[3].parameters[0].contents.truncate(2);
    drafts
}
