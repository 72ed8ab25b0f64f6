//! Types (3), sizes (2) and counts (10), at their borders.

use super::lists::{all, holding, mandatory, with, List};
use super::parts::{sound, Part};
use super::{cases_of, draft, filling, nameless, of_type, Case};
use crate::generate::draft::{Draft, Length};
use crate::random::Random;
use crate::reader::{LONGEST, MOST_PARAMETERS};
use crate::rows::{Identifier, Row, ROWS};
use crate::types::{self, ComponentType, INVOKE, TYPES};

pub fn cases() -> Vec<Case> {
    let mut cases = vec![raw(0, &[])];
    cases.extend(OTHER_TYPES.into_iter().flat_map(other_type));
    cases.extend(TYPES.iter().flat_map(edges));
    cases.extend([
        longest(LONGEST),
        longest(LONGEST + 1),
        overlong_of_no_type(),
    ]);
    cases.extend(ROWS.iter().flat_map(crowds));
    cases.extend(broken_in_crowd());
    cases.extend(TYPES.iter().flat_map(crowds_of_type));
    cases
}

fn raw(specifier: u8, octets: &[u8]) -> Case {
    Case {
        specifier,
        component: octets.to_vec(),
    }
}

const OTHER_TYPES: [u8; 8] = [0x00, 0x30, 0x85, 0xE8, 0xED, 0xCB, 0xF2, 0xFF];

/// Alone, with a bad length field, and before components that are else sound.
fn other_type(octet: u8) -> Vec<Case> {
    let before = |kind: &ComponentType| {
        let mut draft = sound(kind);
        draft.kind = octet;
        Case::of(&draft)
    };
    let mut cases = vec![raw(0, &[octet]), raw(0, &[octet, 0x80])];
    cases.extend(TYPES.iter().map(before));
    cases
}

/// Bodies and sets at the borders of the three forms of the length.
fn edges(kind: &ComponentType) -> Vec<Case> {
    let mut cases = Vec::new();
    for target in [127, 128, 255, 256] {
        cases.push(Case::of(&fitted(kind, target, |draft| draft.body().len())));
        let set = fitted(kind, target, |draft| draft.set_contents().len());
        cases.push(Case::of(&set));
    }
    cases
}

fn fitted(kind: &ComponentType, target: usize, measured: fn(&Draft) -> usize) -> Draft {
    fit(sound(kind), target, measured)
}

pub fn fit(mut draft: Draft, target: usize, measured: fn(&Draft) -> usize) -> Draft {
    draft.fit(&mut Random::new(0), target, measured);
    draft
}

fn longest(size: usize) -> Case {
    let draft = fitted(types::of(INVOKE), size, |draft| draft.octets().len());
    Case::of(&draft)
}

/// The size is asked before the type.
fn overlong_of_no_type() -> Case {
    raw(0, &filling(LONGEST + 1))
}

/// A number that no row names, of no octets in the cases.
const OTHER: Identifier = Identifier::primitive(28);

/// 64 and 65 parameters: the mandatory ones stand first or last.
fn crowds(row: &'static Row) -> Vec<Case> {
    let mut lists = Vec::new();
    for count in [MOST_PARAMETERS, MOST_PARAMETERS + 1] {
        let mandatory = mandatory(row);
        let others = vec![OTHER; count - mandatory.len()];
        lists.push(with(&mandatory, &others));
        lists.push(with(&others, &mandatory));
    }
    lists.extend(all(row).into_iter().map(|one| again_as_last(row, one)));
    cases_of(row, &lists)
}

/// One named by the row again as the 64th.
fn again_as_last(row: &Row, one: Identifier) -> List {
    let mut list = holding(row, one);
    list.resize(MOST_PARAMETERS - 1, OTHER);
    with(&list, &[one])
}

pub fn crowd(count: usize) -> Draft {
    draft(nameless(), &vec![OTHER; count])
}

/// A broken 64th is given as such, a broken 65th is only a 65th.
fn broken_in_crowd() -> Vec<Case> {
    let mut cases = Vec::new();
    for index in [MOST_PARAMETERS - 1, MOST_PARAMETERS, MOST_PARAMETERS + 1] {
        let mut draft = crowd(MOST_PARAMETERS + 2);
        Part::Parameter(index).begin_with(&mut draft, 0x05);
        cases.push(Case::of(&draft));
        let mut draft = crowd(MOST_PARAMETERS + 2);
        Part::Parameter(index).set_length(&mut draft, Length::Raw(vec![0x80]));
        cases.push(Case::of(&draft));
    }
    cases
}

/// 64 and 65 parameters of each type: the 65th is one also where a row would
/// refuse what stands there, as a RESULT's by this specifier.
fn crowds_of_type(kind: &ComponentType) -> [Case; 2] {
    [MOST_PARAMETERS, MOST_PARAMETERS + 1].map(|count| {
        let mut draft = of_type(kind);
        draft.specifier = 0;
        draft.parameters = crowd(count).parameters;
        Case::of(&draft)
    })
}
