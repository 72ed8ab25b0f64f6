//! Padded lengths, which are taken as the shortest are: at each field, at the
//! borders of the forms, at the limits, and before what a refusal points to.

use super::limits::{crowd, fit};
use super::parts::{sound, Part};
use super::{draft, filling, of_type, padded, Case, PADDED};
use crate::generate::draft::{Draft, Element, Form, Forms, Length, ANY_FORM, WITH_81};
use crate::reader::{LONGEST, MOST_PARAMETERS};
use crate::rows::{self, Identifier};
use crate::types::{self, ComponentType, INVOKE, TYPES};
use std::ops::Range;

pub fn cases() -> Vec<Case> {
    let mut cases = Vec::new();
    for kind in &TYPES {
        cases.extend(every_way(&sound(kind)));
        cases.extend(edges(kind));
    }
    cases.extend(without_row());
    cases.extend(refused_by_row().iter().flat_map(every_way));
    cases.extend(crowds());
    cases.extend(longest());
    cases
}

/// Each length field padded alone, and all of them, in each form.
fn every_way(draft: &Draft) -> Vec<Case> {
    let fields = draft.clone().lengths().len();
    let alone = |index: usize| {
        PADDED.map(|forms| {
            let mut draft = draft.clone();
            *draft.lengths()[index] = Length::True(forms[0]);
            Case::of(&draft)
        })
    };
    let all = PADDED.map(|forms| Case::of(&padded(draft.clone(), forms)));
    (0..fields).flat_map(alone).chain(all).collect()
}

/// The body, the set and each parameter of as many octets as the forms begin
/// and end with: its own length is padded, or every one.
fn edges(kind: &ComponentType) -> Vec<Case> {
    let mut drafts = Vec::new();
    for target in [127, 128, 255, 256] {
        for forms in PADDED {
            let body = |draft: Draft| fit(draft, target, |draft| draft.body().len());
            let set = |draft: Draft| fit(draft, target, |draft| draft.set_contents().len());
            drafts.extend(one_and_all(kind, Part::Whole, forms).map(body));
            drafts.extend(one_and_all(kind, Part::Set, forms).map(set));
            for index in long_ones(kind) {
                let long = |mut draft: Draft| {
                    draft.parameters[index].contents = filling(target);
                    draft
                };
                drafts.extend(one_and_all(kind, Part::Parameter(index), forms).map(long));
            }
        }
    }
    drafts.iter().map(Case::of).collect()
}

/// The file stays small: one parameter where no row is asked.
fn long_ones(kind: &ComponentType) -> Range<usize> {
    let all = sound(kind).parameters.len();
    0..if kind.has_row { all } else { 1 }
}

fn one_and_all(kind: &ComponentType, part: Part, forms: Forms) -> [Draft; 2] {
    let mut one = sound(kind);
    part.set_length(&mut one, Length::True(forms[0]));
    [one, padded(sound(kind), forms)]
}

/// 11 points to the specifier, behind three length fields: each of them in
/// each form, with every count of ID octets.
fn without_row() -> Vec<Case> {
    let mut cases = Vec::new();
    for id_count in 0..3 {
        for (first, second, third) in three_forms() {
            let mut draft = of_type(types::of(INVOKE));
            draft.id = Some(Element::new(vec![0xCF], filling(id_count)));
            draft.code = Element::code(types::of(INVOKE), [0, 0]);
            Part::Whole.set_length(&mut draft, Length::True(first));
            Part::Id.set_length(&mut draft, Length::True(second));
            Part::Code.set_length(&mut draft, Length::True(third));
            cases.push(Case::of(&draft));
        }
    }
    cases
}

fn three_forms() -> impl Iterator<Item = (Form, Form, Form)> {
    let pairs = |first: &'static Form| ANY_FORM.iter().map(move |second| (*first, *second));
    let third = |(first, second)| ANY_FORM.iter().map(move |third| (first, second, *third));
    ANY_FORM.iter().flat_map(pairs).flat_map(third)
}

/// By 12, 13, 14 and 26, of which all but 13 point to a parameter.
fn refused_by_row() -> [Draft; 4] {
    let row = rows::find(INVOKE, 13).expect("the row with a choice");
    let lists: [&[u16]; 4] = [
        &[9, 8, 21, 17, 22, 9],
        &[9, 8, 21, 17],
        &[9, 8, 21, 17, 22, 242],
        &[9, 8, 21, 17, 22],
    ];
    let mut drafts = lists.map(|numbers| {
        let list: Vec<Identifier> = numbers.iter().copied().map(Identifier::primitive).collect();
        draft(row, &list)
    });
    drafts[3].parameters[2].contents = filling(2);
    drafts
}

/// 64 and 65 parameters, one of them or all padded.
fn crowds() -> Vec<Case> {
    let mut cases = Vec::new();
    for count in [MOST_PARAMETERS, MOST_PARAMETERS + 1] {
        for forms in PADDED {
            cases.push(Case::of(&padded(crowd(count), forms)));
            for index in [0, count - 1] {
                let mut draft = crowd(count);
                draft.parameters[index].length = Length::True(forms[0]);
                cases.push(Case::of(&draft));
            }
        }
    }
    cases
}

/// The octets count as they stand. The shortest form of the longer ones would
/// fit, by one octet or by many.
fn longest() -> Vec<Case> {
    let invoke = types::of(INVOKE);
    let sizes = [LONGEST, LONGEST + 1];
    let drafts = one_and_all(invoke, Part::Id, WITH_81);
    let of_size = |draft: &Draft, size| fit(draft.clone(), size, |draft| draft.octets().len());
    let cases = drafts
        .iter()
        .flat_map(|draft| sizes.map(|size| of_size(draft, size)));
    cases.map(|draft| Case::of(&draft)).collect()
}
