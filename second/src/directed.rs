//! Directed cases: each rule of the paper met on purpose, at each place where
//! it can be met. They are made from the rows and the register, so that a row
//! more brings its own cases.

mod identifiers;
mod layout;
mod limits;
mod lists;
mod names;
mod order;
pub mod packages;
mod padding;
mod parts;
mod row_cases;
mod sizes;

use crate::generate::draft::{identifier, Draft, Element, Forms, WITH_81, WITH_82};
use crate::generate::Subject;
use crate::random::Random;
use crate::rows::{self, Identifier, Row, ROWS};
use crate::types::{ComponentType, RESULT};
use lists::List;
use std::collections::HashSet;

/// A component and the specifier that the caller gives with it.
pub struct Case {
    pub specifier: u8,
    pub component: Vec<u8>,
}

pub fn cases() -> Vec<Case> {
    let groups = [
        ROWS.iter().flat_map(of_row).collect(),
        names::every_specifier(),
        names::errors_and_problems(),
        identifiers::cases(),
        layout::cases(),
        order::cases(),
        limits::cases(),
        padding::cases(),
        sizes::cases(),
    ];
    each_once(groups.into_iter().flatten())
}

/// Two rules may ask for the same octets.
fn each_once(cases: impl Iterator<Item = Case>) -> Vec<Case> {
    let mut met = HashSet::new();
    let fresh = |case: &Case| met.insert((case.specifier, case.component.clone()));
    cases.filter(fresh).collect()
}

impl Case {
    fn of(draft: &Draft) -> Case {
        Case {
            specifier: draft.specifier,
            component: draft.octets(),
        }
    }
}

fn of_row(row: &'static Row) -> Vec<Case> {
    let mut cases = cases_of(row, &row_cases::lists(row));
    cases.extend(cases_of(row, &names::lists(row)));
    cases.push(names::of_no_octets(row));
    cases.extend(names::other_callers(row));
    cases.extend(names::not_asked(row));
    cases.extend(sizes::of_row(row));
    cases
}

fn cases_of(row: &'static Row, lists: &[List]) -> Vec<Case> {
    let drafts = lists.iter().map(|list| draft(row, list));
    drafts.map(|draft| Case::of(&draft)).collect()
}

/// Contents of a size that the parameter may have.
fn parameter(one: Identifier) -> Element {
    let sizes = rows::sizes(one.number);
    let count = sizes.map_or(usize::from(one.number % 4), |sizes| sizes[0]);
    of_size(one, count)
}

/// Contents of octets that would read as parameters where a reader strays
/// into them.
fn of_size(one: Identifier, count: usize) -> Element {
    Element::new(identifier(one.number, one.constructor), filling(count))
}

fn filling(count: usize) -> Vec<u8> {
    [0x85, 0x00].into_iter().cycle().take(count).collect()
}

fn draft(row: &'static Row, list: &[Identifier]) -> Draft {
    draft_of(Subject::of_row(row), list)
}

fn draft_of(subject: Subject, list: &[Identifier]) -> Draft {
    Draft::of(subject, list.iter().map(|one| parameter(*one)).collect())
}

/// The two ways to pad a length.
const PADDED: [Forms; 2] = [WITH_81, WITH_82];

/// All its length fields padded in one of these ways.
fn padded(mut draft: Draft, forms: Forms) -> Draft {
    draft.pad(&mut Random::new(0), forms);
    draft
}

/// A row that names nothing.
fn nameless() -> &'static Row {
    rows::find(RESULT, 26).expect("the FlashRequest result's row")
}

/// A component of this type with an empty set.
fn of_type(kind: &ComponentType) -> Draft {
    let row = ROWS.iter().find(|row| row.kind == kind.octet);
    let without_row = || Subject::new(kind.octet, [0x81, 0x01], nameless());
    draft_of(row.map_or_else(without_row, Subject::of_row), &[])
}
