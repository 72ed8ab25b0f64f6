//! Which parameters a row names, and which row it is.

use super::lists::{all, holding, leaving_out, line_of, mandatory, primitives};
use super::lists::{twins, with, List};
use super::{draft, draft_of, nameless, of_type, Case};
use crate::generate::draft::Element;
use crate::generate::{Subject, REGISTER};
use crate::reader::MOST_PARAMETERS;
use crate::rows::{is_right_size, Identifier, Row, ROWS};
use crate::types::{self, ERROR, INVOKE, REJECT, RESULT};

pub fn lists(row: &Row) -> Vec<List> {
    let questions = [other_form, register, others, alike];
    let lists = questions.iter().flat_map(|question| question(row));
    lists.collect()
}

/// The constructor twin does not stand for a named one and does not repeat it.
fn other_form(row: &Row) -> Vec<List> {
    let mut lists = vec![twins(&all(row))];
    for one in all(row) {
        let list = holding(row, one);
        let instead = |member: &Identifier| if *member == one { one.twin() } else { *member };
        lists.push(list.iter().map(instead).collect());
        lists.push(with(&list, &[one.twin()]));
        lists.push(with(&[one.twin(), one.twin()], &list));
    }
    lists
}

/// Every number below 256 that the row does not name, as many at once as may
/// be.
fn others(row: &Row) -> Vec<List> {
    let numbers = (0..256).map(Identifier::primitive);
    let others: List = numbers.filter(|one| !row.names(*one)).collect();
    let mandatory = mandatory(row);
    let room = MOST_PARAMETERS - mandatory.len();
    let lists = others.chunks(room).map(|some| with(&mandatory, some));
    lists.collect()
}

/// Every number of the register: once where the row names it, again where it
/// does not, and its twin.
fn register(row: &Row) -> Vec<List> {
    let list = |number: &u16| {
        let one = Identifier::primitive(*number);
        let mut list = holding(row, one);
        if !row.names(one) {
            list.push(one);
        }
        with(&list, &[one.twin()])
    };
    REGISTER.iter().map(list).collect()
}

/// Numbers that agree with a named one in their low bits, the last seven of
/// them alone too: beside it and in place of its line.
fn alike(row: &Row) -> Vec<List> {
    let mut lists = Vec::new();
    for one in all(row) {
        let far = [32, 128, 256, 1024, 8192].map(|more| one.number + more);
        let far = primitives(&[&far[..], &[one.number % 128]].concat());
        let others: List = far.into_iter().filter(|far| !row.names(*far)).collect();
        let list = holding(row, one);
        lists.push(with(&others, &list));
        lists.push(with(&others, &leaving_out(&list, &line_of(row, one))));
    }
    lists
}

/// No octets of contents still counts as occurring, where they are a right
/// size.
pub fn of_no_octets(row: &'static Row) -> Case {
    let all = all(row);
    let mut draft = draft(row, &all);
    for (one, parameter) in all.iter().zip(&mut draft.parameters) {
        if is_right_size(one.number, 0) {
            parameter.contents.clear();
        }
    }
    Case::of(&draft)
}

/// The row's components with each row's specifier from the caller: an INVOKE
/// ignores it, a RESULT is read by it.
pub fn other_callers(row: &'static Row) -> Vec<Case> {
    let with_caller = |other: &Row| {
        let mut draft = draft(row, &mandatory(row));
        draft.specifier = other.specifier;
        Case::of(&draft)
    };
    ROWS.iter().map(with_caller).collect()
}

/// What the row names, all of it twice, in an ERROR and in a REJECT that have
/// its specifier as their code and from the caller: no row is asked.
pub fn not_asked(row: &'static Row) -> [Case; 2] {
    [ERROR, REJECT].map(|kind| {
        let subject = Subject::new(kind, [row.specifier, 9], row);
        let mut draft = draft_of(subject, &with(&all(row), &all(row)));
        draft.specifier = row.specifier;
        Case::of(&draft)
    })
}

/// Errors with a name and those around them, and problems of each kind: none
/// is refused, whatever its octets are.
pub fn errors_and_problems() -> Vec<Case> {
    let errors = (127..=143).chain([0, 4, 9, 13, 0xD4, 0xDF, 0xE0, 0xFF]);
    let errors = errors.map(|code| (ERROR, [code, 0]));
    let problems = (0..=6).flat_map(|first| [0, 1, 9, 0xFF].map(|second| [first, second]));
    let problems = problems.chain([[0x80, 0x01], [0xD5, 0x02], [0xFF, 0x00], [0xFF, 0xFF]]);
    let all = errors.chain(problems.map(|code| (REJECT, code)));
    let case = |(kind, code)| Case::of(&draft_of(Subject::new(kind, code, nameless()), &[]));
    all.map(case).collect()
}

/// Every specifier in both types, with an empty set: most have no row, and
/// some have one in the other type only. The ID octets move the specifier.
pub fn every_specifier() -> Vec<Case> {
    let mut cases = Vec::new();
    for specifier in 0..=u8::MAX {
        let mut invoke = of_type(types::of(INVOKE));
        let id_count = usize::from(specifier % 3);
        invoke.id = Some(Element::new(vec![0xCF], vec![0x05; id_count]));
        invoke.code = Element::code(types::of(INVOKE), [specifier, 0]);
        let mut result = of_type(types::of(RESULT));
        result.specifier = specifier;
        cases.extend([Case::of(&invoke), Case::of(&result)]);
    }
    cases
}
