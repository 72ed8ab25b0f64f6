//! Parameter identifiers: numbers at the edges of their forms, and all ways
//! to be ill formed (9).

use super::{draft, nameless, Case};
use crate::generate::draft::{Draft, Element, Length};
use crate::generate::NUMBERS;
use crate::rows::Identifier;

pub fn cases() -> Vec<Case> {
    let ill_formed = ill_formed();
    let mut cases: Vec<Case> = NUMBERS.iter().flat_map(|number| edge(*number)).collect();
    cases.extend(ill_formed.iter().flat_map(|octets| among_others(octets)));
    cases.extend(ill_formed.iter().map(|octets| with_bad_field(octets)));
    cases.extend(cut_runs().iter().map(|octets| last(octets)));
    cases
}

/// Once, and again in both forms: none of it is named.
fn edge(number: u16) -> [Case; 3] {
    let one = Identifier::primitive(number);
    let lists = [
        vec![one],
        vec![one.twin()],
        vec![one, one.twin(), one.twin(), one],
    ];
    lists.map(|list| Case::of(&draft(nameless(), &list)))
}

/// Class bits 00, 01 and 11 in every form, and runs that are too long, begin
/// with 80, or hold a number that has a shorter form.
fn ill_formed() -> Vec<Vec<u8>> {
    let mut list = Vec::new();
    for class in [0x00, 0x40, 0xC0] {
        for low in [0x00, 0x05, 0x1E, 0x20, 0x25] {
            list.push(vec![class | low]);
        }
        list.push(vec![class | 0x1F, 0x20]);
        list.push(vec![class | 0x3F, 0x81, 0x00]);
    }
    for first in [0x9F, 0xBF] {
        for number in [0, 4, 5, 29, 30] {
            list.push(vec![first, number]);
        }
        list.push(vec![first, 0x80, 0x05]);
        list.push(vec![first, 0x80, 0x20]);
        list.push(vec![first, 0x80, 0x81, 0x00]);
        list.push(vec![first, 0x81, 0x80, 0x00]);
        list.push(vec![first, 0x81, 0x80, 0x7F]);
        list.push(vec![first, 0xFF, 0xFF, 0x7F]);
        list.push(vec![first, 0xFF, 0xFF, 0xFF, 0x7F]);
    }
    list
}

/// Runs that the set's end cuts.
fn cut_runs() -> Vec<Vec<u8>> {
    let run = [0xFF, 0x81, 0x80, 0x80];
    let cut = |first| (0..=run.len()).map(move |kept| [&[first], &run[..kept]].concat());
    [0x9F, 0xBF].into_iter().flat_map(cut).collect()
}

fn three() -> Draft {
    let list = [7, 100, 200].map(Identifier::primitive);
    draft(nameless(), &list)
}

fn among_others(octets: &[u8]) -> Vec<Case> {
    let at = |index: usize| {
        let mut draft = three();
        draft.parameters[index].identifier = octets.to_vec();
        Case::of(&draft)
    };
    (0..3).map(at).collect()
}

/// The identifier is asked before the length field behind it.
fn with_bad_field(octets: &[u8]) -> Case {
    let mut draft = three();
    draft.parameters[1].identifier = octets.to_vec();
    draft.parameters[1].length = Length::Raw(vec![0x80]);
    Case::of(&draft)
}

fn last(octets: &[u8]) -> Case {
    let mut draft = three();
    draft.parameters.push(Element::raw(octets.to_vec()));
    Case::of(&draft)
}
