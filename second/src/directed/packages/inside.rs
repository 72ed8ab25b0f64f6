//! Components that are refused, at each index, and those that the package
//! does not carry.

use super::{full, package, short, specifier_of, PackageCase, CONVERSING, SPECIFIER};
use crate::directed::limits::crowd;
use crate::directed::parts::{sound, Part};
use crate::directed::{draft, filling};
use crate::generate::draft::{Draft, Element, Form, Length};
use crate::generate::package_draft::PackageDraft;
use crate::generate::SIZES;
use crate::package::{CONVERSATION, MOST_COMPONENTS, QUERY, RESPONSE};
use crate::reader::MOST_PARAMETERS;
use crate::rows::{self, Identifier};
use crate::types::{self, ERROR, INVOKE, REJECT, RESULT};

pub fn cases() -> Vec<PackageCase> {
    let mut cases = Vec::new();
    for refused in refused() {
        let kind = carrier(&refused);
        cases.extend(at_each_index(kind, &refused));
    }
    cases.extend(two_refused());
    cases.extend(wrong_sizes());
    cases.extend(not_carried());
    cases.extend(crowds());
    cases
}

/// The package in which only what is wrong in it is wrong.
fn carrier(one: &Draft) -> u8 {
    match one.kind {
        INVOKE => QUERY,
        RESULT => RESPONSE,
        _ => CONVERSATION,
    }
}

/// In place of the first, second and third of three, and of the eighth.
fn at_each_index(kind: u8, refused: &Draft) -> Vec<PackageCase> {
    let places = [
        (0, 3),
        (1, 3),
        (2, 3),
        (MOST_COMPONENTS - 1, MOST_COMPONENTS),
    ];
    let case = |(index, count)| {
        let mut draft = full(kind, count);
        draft.components[index] = refused.clone();
        PackageCase::of(specifier_of(kind), &draft)
    };
    places.map(case).into()
}

/// One for each number of a component's own.
fn refused() -> Vec<Draft> {
    let mut drafts = Vec::new();
    for kind in [INVOKE, RESULT, ERROR, REJECT] {
        let other = |change: &dyn Fn(&mut Draft)| {
            let mut draft = short(kind, 3);
            change(&mut draft);
            draft
        };
        drafts.push(other(&|draft| draft.kind = 0xED));
        drafts.push(other(&|draft| draft.set_length = Length::Raw(vec![0x80])));
        drafts.push(other(&|draft| {
            draft.set_length = Length::Off(Form::Shortest, 1)
        }));
        drafts.push(other(&|draft| draft.behind_set = filling(2)));
        drafts.push(other(&|draft| draft.body_cut = Some(0)));
        drafts.push(other(&|draft| draft.set_identifier = None));
        drafts.push(other(&|draft| {
            draft.id = Some(Element::new(vec![0xCF], filling(3)))
        }));
        drafts.push(other(&|draft| draft.set_identifier = Some(0xF0)));
        drafts.push(other(&|draft| Part::Parameter(0).begin_with(draft, 0x05)));
        drafts.push(other(&|draft| {
            draft.parameters = crowd(MOST_PARAMETERS + 1).parameters;
        }));
    }
    drafts.extend(wrong_codes());
    drafts.extend(refused_by_row());
    drafts
}

/// 7 and 21.
fn wrong_codes() -> Vec<Draft> {
    let wrong = |kind: u8| {
        let mut draft = short(kind, 3);
        Part::Code.begin_with(&mut draft, 0xD3);
        draft
    };
    [INVOKE, ERROR, REJECT].map(wrong).into()
}

/// 11 to 14 and 26 of an INVOKE; of a RESULT 12, and by other specifiers more
/// (see `two_refused` and `wrong_sizes`).
fn refused_by_row() -> Vec<Draft> {
    let row = rows::find(INVOKE, 13).expect("the row with a choice");
    let lists: [&[u16]; 4] = [
        &[9, 8, 21, 17, 22, 9],
        &[9, 8, 21, 17],
        &[9, 8, 21, 17, 22, 242],
        &[9, 8, 21, 17, 22],
    ];
    let mut drafts: Vec<Draft> = lists.map(|numbers| of_numbers(row, numbers)).into();
    drafts[3].parameters[2].contents = filling(4);
    let mut rowless = short(INVOKE, 3);
    rowless.code = Element::code(types::of(INVOKE), [0, 0]);
    drafts.push(rowless);
    let result = rows::find(RESULT, SPECIFIER).expect("the InterSystemSMSPage result's row");
    drafts.push(of_numbers(result, &[153, 105, 153]));
    drafts
}

fn of_numbers(row: &'static rows::Row, numbers: &[u16]) -> Draft {
    let list: Vec<Identifier> = numbers.iter().copied().map(Identifier::primitive).collect();
    draft(row, &list)
}

/// The first of two is given; the specifier decides what is wrong with each
/// RESULT: no row by 0, a parameter missing by 4.
fn two_refused() -> Vec<PackageCase> {
    let mut cases = Vec::new();
    for specifier in [0, 4, 13] {
        cases.push(PackageCase::of(specifier, &full(RESPONSE, 2)));
        let mut behind = full(RESPONSE, 3);
        behind.components[0] = short(ERROR, 1);
        cases.push(PackageCase::of(specifier, &behind));
        behind.components[1].set_identifier = Some(0xF0);
        cases.push(PackageCase::of(specifier, &behind));
        behind.components.swap(1, 2);
        cases.push(PackageCase::of(specifier, &behind));
    }
    cases
}

/// HandoffBack's results, by whose specifier ChannelData has none or three
/// octets: of each size at each index, and at two of them; beside one that
/// the package does not carry, which is asked later.
fn wrong_sizes() -> Vec<PackageCase> {
    let row = rows::find(RESULT, 4).expect("the HandoffBack result's row");
    let result = |count: usize| {
        let mut draft = of_numbers(row, &[5]);
        draft.parameters[0].contents = filling(count);
        draft
    };
    let mut cases = Vec::new();
    for count in SIZES {
        for index in 0..3 {
            let mut components = vec![result(0); 3];
            components[index] = result(count);
            let mut draft = package(RESPONSE, components);
            cases.push(PackageCase::of(row.specifier, &draft));
            draft.components[2] = result(2);
            cases.push(PackageCase::of(row.specifier, &draft));
            draft.components[0] = short(INVOKE, 1);
            cases.push(PackageCase::of(row.specifier, &draft));
        }
    }
    cases
}

/// At each index one or two that the package does not carry, alone and beside
/// one that is refused, which comes first wherever it stands. The file stays
/// small: all are alike in this but for how they are carried.
fn not_carried() -> Vec<PackageCase> {
    let mut cases = Vec::new();
    for index in 0..MOST_COMPONENTS {
        cases.extend(not_carried_at(CONVERSATION, INVOKE, index));
    }
    for (kind, other) in [(QUERY, RESULT), (RESPONSE, INVOKE)] {
        for index in [0, MOST_COMPONENTS - 1] {
            cases.extend(not_carried_at(kind, other, index));
        }
    }
    cases
}
fn not_carried_at(kind: u8, other: u8, index: usize) -> Vec<PackageCase> {
    let last = MOST_COMPONENTS - 1;
    let mut one = full(kind, MOST_COMPONENTS);
    one.components[index] = short(other, 9);
    let mut drafts = [one.clone(), one.clone(), one.clone(), one];
    drafts[1].components[last] = short(other, 10);
    drafts[2].components[0].set_identifier = Some(0xF0);
    drafts[3].components[last].set_identifier = Some(0xF0);
    let specifier = specifier_of(kind);
    let cases = drafts.iter().map(|draft| PackageCase::of(specifier, draft));
    cases.collect()
}

/// Eight components of 64 parameters, of which the eighth may have one more.
fn crowds() -> Vec<PackageCase> {
    let crowded = |count: usize| {
        let mut one = sound(types::of(ERROR));
        one.parameters = crowd(count).parameters;
        one
    };
    let last = |count: usize| -> PackageDraft {
        let mut components = vec![crowded(MOST_PARAMETERS); MOST_COMPONENTS];
        components[MOST_COMPONENTS - 1] = crowded(count);
        package(CONVERSATION, components)
    };
    [MOST_PARAMETERS, MOST_PARAMETERS + 1]
        .map(|count| PackageCase::of(CONVERSING, &last(count)))
        .into()
}
