//! Faults and limits of a package's own elements, and of the walk over its
//! sequence.

use super::{carried, full, package, short, specifier_of, PackageCase};
use crate::directed::filling;
use crate::generate::draft::{Draft, Form, Length};
use crate::generate::package_draft::PackageDraft;
use crate::package::{CONVERSATION, KINDS, QUERY, RESPONSE};
use crate::random::Random;
use crate::reader::LONGEST;
use crate::types::INVOKE;

/// The package types that can be accepted.
const CARRYING: [u8; 3] = [QUERY, RESPONSE, CONVERSATION];

pub fn cases() -> Vec<PackageCase> {
    let mut cases = vec![raw(&[])];
    cases.extend(KINDS.into_iter().flat_map(id_sizes));
    cases.extend(KINDS.into_iter().flat_map(dialogues));
    for kind in CARRYING {
        let drafts = [
            other_octets(kind),
            other_lengths(kind),
            cuts(kind),
            padded(kind),
            left_over(kind),
            counts(kind),
            walks(kind),
        ];
        let drafts = drafts.iter().flatten();
        cases.extend(drafts.map(|draft| PackageCase::of(specifier_of(kind), draft)));
    }
    cases.extend(beginnings());
    cases.extend(limits());
    cases
}

fn raw(octets: &[u8]) -> PackageCase {
    PackageCase {
        specifier: 0,
        package: octets.to_vec(),
    }
}

/// Other octets in the type's place, alone, before a length, and before a
/// package that is else sound; a component is no package.
fn beginnings() -> Vec<PackageCase> {
    let mut cases = Vec::new();
    for octet in [0x00, 0x30, 0xC7, 0xE0, 0xE7, 0xE8, 0xE9, 0xF6, 0xFF] {
        let mut draft = full(QUERY, 1);
        draft.kind = octet;
        cases.extend([raw(&[octet]), raw(&[octet, 0x80]), raw(&draft.octets())]);
    }
    cases.push(raw(&short(INVOKE, 1).octets()));
    cases
}

/// The transaction IDs of each count.
fn id_sizes(kind: u8) -> Vec<PackageCase> {
    let of_count = |count| {
        let mut draft = full(kind, 1);
        draft.ids.as_mut().expect("IDs").contents = filling(count);
        PackageCase::of(specifier_of(kind), &draft)
    };
    let short = (0..=9).map(of_count);
    short.chain([12, 128, 256, 260].map(of_count)).collect()
}

/// A dialogue portion before the sequence, in its place, behind it, and
/// before the transaction IDs.
fn dialogues(kind: u8) -> Vec<PackageCase> {
    let mut drafts = Vec::new();
    for portion in [&[0xF9, 0x00][..], &[0xF9, 0x02, 0xE8, 0x00], &[0xF9, 0x80]] {
        let sound = full(kind, 1);
        let mut before = sound.clone();
        before.between = portion.to_vec();
        let mut instead = before.clone();
        instead.sequence_identifier = None;
        let mut behind = sound.clone();
        behind.behind_sequence = portion.to_vec();
        let mut first = before.clone();
        let ids = first.ids.take().expect("IDs");
        ids.put(&mut first.between);
        drafts.extend([before, instead, behind, first]);
    }
    drafts
        .iter()
        .map(|draft| PackageCase::of(specifier_of(kind), draft))
        .collect()
}

/// Each bit of each identifier changed, the rest sound.
fn other_octets(kind: u8) -> Vec<PackageDraft> {
    let mut drafts = Vec::new();
    for bit in 0..8 {
        let mut draft = full(kind, 1);
        draft.kind ^= 1 << bit;
        drafts.push(draft);
        let mut draft = full(kind, 1);
        draft.ids.as_mut().expect("IDs").identifier[0] ^= 1 << bit;
        drafts.push(draft);
        let mut draft = full(kind, 1);
        draft.sequence_identifier = draft.sequence_identifier.map(|octet| octet ^ (1 << bit));
        drafts.push(draft);
    }
    drafts
}

/// A length of another value in each form, or of wrong form, at each of the
/// package's own elements.
fn other_lengths(kind: u8) -> Vec<PackageDraft> {
    let lengths = [
        Length::Off(Form::Shortest, 1),
        Length::Off(Form::Shortest, -1),
        Length::Off(Form::With81, 1),
        Length::Off(Form::With81, -1),
        Length::Off(Form::With82, 1),
        Length::Off(Form::With82, -1),
        Length::Off(Form::Shortest, 200),
        Length::Off(Form::Shortest, 4096),
        Length::Raw(Vec::new()),
        Length::Raw(vec![0x80]),
        Length::Raw(vec![0x83, 0x00, 0x00, 0x05]),
        Length::Raw(vec![0xFF]),
    ];
    let mut drafts = Vec::new();
    for length in &lengths {
        for index in 0..3 {
            let mut draft = full(kind, 2);
            *draft.lengths()[index] = length.clone();
            drafts.push(draft);
        }
    }
    drafts
}

/// The body cut after each of its octets up to the second component; and the
/// sequence, within the first.
fn cuts(kind: u8) -> Vec<PackageDraft> {
    let whole = full(kind, 2);
    let before = whole.body().len() - whole.sequence().len();
    let first = whole.components[0].octets().len();
    let body = (0..before + first + 3).map(|kept| PackageDraft {
        body_cut: Some(kept),
        ..whole.clone()
    });
    let sequence = (0..first + 3).map(|kept| PackageDraft {
        sequence_cut: Some(kept),
        ..whole.clone()
    });
    body.chain(sequence).collect()
}

/// Each of the package's own lengths in each form: alone, and all of them,
/// also around a fault that moves with them.
fn padded(kind: u8) -> Vec<PackageDraft> {
    let forms = [Form::Shortest, Form::With81, Form::With82];
    let mut drafts = Vec::new();
    for outer in forms {
        for ids in forms {
            for sequence in forms {
                let mut draft = full(kind, 2);
                for (length, form) in draft.lengths().into_iter().zip([outer, ids, sequence]) {
                    *length = Length::True(form);
                }
                drafts.push(draft.clone());
                draft.components[1].set_identifier = Some(0xF0);
                drafts.push(draft);
            }
        }
    }
    drafts
}

/// Octets behind the sequence and behind the package; and a sequence that
/// ends before its last component does, which stays inside the package.
fn left_over(kind: u8) -> Vec<PackageDraft> {
    let mut drafts = Vec::new();
    for behind_sequence in 0..3 {
        for behind in 0..3 {
            let mut draft = full(kind, 1);
            draft.behind_sequence = filling(behind_sequence);
            draft.behind = filling(behind);
            drafts.push(draft);
        }
    }
    let last = short(carried(kind), 2).octets().len() as i32;
    for less in [1, 2, last - 1, last, last + 1] {
        let mut draft = full(kind, 2);
        draft.sequence_length = Length::Off(Form::Shortest, -less);
        drafts.push(draft);
    }
    drafts
}

/// None to ten components, and more; behind the eighth a bad length, which is
/// met before they are counted.
fn counts(kind: u8) -> Vec<PackageDraft> {
    let mut drafts: Vec<PackageDraft> = (0..=10).map(|count| full(kind, count)).collect();
    drafts.push(full(kind, 17));
    for index in [8, 9] {
        for length in [Length::Raw(vec![0x80]), Length::Off(Form::Shortest, 200)] {
            let mut draft = full(kind, 10);
            draft.components[index].outer = length;
            drafts.push(draft);
        }
    }
    drafts
}

/// At each of three components a bad length, one that runs past the sequence,
/// and one that reaches into the next or leaves a part behind.
fn walks(kind: u8) -> Vec<PackageDraft> {
    let next = short(carried(kind), 2).octets().len() as i32;
    let offs = [1, 2, next, next + 1, 2 * next, 200, 4096, -1, -2];
    let lengths = offs.map(|off| Length::Off(Form::Shortest, off));
    let bad = [&[][..], &[0x80], &[0x83], &[0xFF]].map(|octets| Length::Raw(octets.to_vec()));
    let mut drafts = Vec::new();
    for index in 0..3 {
        for length in lengths.iter().chain(&bad) {
            let mut draft = full(kind, 3);
            draft.components[index].outer = length.clone();
            drafts.push(draft);
        }
        drafts.push(swallowing(kind, index, next));
    }
    for octets in [&[0xE9][..], &[0x00], &[0xE9, 0x81], &[0xE9, 0x82, 0x00]] {
        let mut draft = full(kind, 2);
        draft.components[1].behind = octets.to_vec();
        drafts.push(draft);
    }
    drafts
}

/// Its length and its set's reach over the next one.
fn swallowing(kind: u8, index: usize, next: i32) -> PackageDraft {
    let mut draft = full(kind, 3);
    let one: &mut Draft = &mut draft.components[index];
    one.outer = Length::Off(Form::Shortest, next);
    one.set_length = Length::Off(Form::Shortest, next);
    draft
}

/// 4,096 and 4,097 octets; the size is asked before the type. At the borders
/// of the length forms the sequence's, the body's and the package's octets.
fn limits() -> Vec<PackageCase> {
    let fitted = |target| {
        let mut draft = package(QUERY, vec![short(INVOKE, 1), short(INVOKE, 2)]);
        draft.fit(&mut Random::new(0), 1, target);
        PackageCase::of(specifier_of(QUERY), &draft)
    };
    let overlong = raw(&filling(LONGEST + 1));
    let sizes = [LONGEST, LONGEST + 1].into_iter();
    let sizes = sizes.chain(126..=141).chain(256..=272);
    sizes.map(fitted).chain([overlong]).collect()
}
