//! The layout (4 to 9, and 21) at each element of all types.

use super::parts::{parts, sound, Part};
use super::{filling, Case};
use crate::generate::draft::{Draft, Element, Form, Length};
use crate::types::{CodeElement, ComponentType, TYPES};

pub fn cases() -> Vec<Case> {
    let mut cases = Vec::new();
    for kind in &TYPES {
        for part in parts(kind) {
            cases.extend(other_octets(kind, part));
            cases.extend(other_lengths(kind, part));
            // The file stays small: other elements end alike in all types.
            if kind.has_row || matches!(part, Part::Code) {
                cases.extend(endings(kind, part));
            }
        }
        cases.extend(cuts(kind));
        cases.extend(id_sizes(kind));
        cases.extend(left_over(kind));
        cases.extend(left_out(kind));
        cases.extend(codes(kind));
    }
    cases
}

/// Each bit of the first octet changed, the rest sound.
fn other_octets(kind: &ComponentType, part: Part) -> Vec<Case> {
    let changed = |bit| {
        let mut draft = sound(kind);
        let octet = part.identifier(&draft)[0] ^ (1u8 << bit);
        part.begin_with(&mut draft, octet);
        Case::of(&draft)
    };
    (0..8).map(changed).collect()
}

/// A length of another value in each form, or of wrong form, the rest sound.
fn other_lengths(kind: &ComponentType, part: Part) -> Vec<Case> {
    let lengths = [
        Length::Off(Form::Shortest, 1),
        Length::Off(Form::Shortest, -1),
        Length::Off(Form::With81, 1),
        Length::Off(Form::With81, -1),
        Length::Off(Form::With82, 1),
        Length::Off(Form::With82, -1),
        Length::Off(Form::Shortest, 200),
        Length::Off(Form::Shortest, 4096),
        Length::Raw(Vec::new()),
        Length::Raw(vec![0x80]),
        Length::Raw(vec![0x83, 0x00, 0x00, 0x05]),
    ];
    let changed = |length| {
        let mut draft = sound(kind);
        part.set_length(&mut draft, length);
        Case::of(&draft)
    };
    lengths.map(changed).into()
}

/// Length fields of wrong form, or cut where they end.
const BAD_FIELDS: [&[u8]; 9] = [
    &[],
    &[0x80],
    &[0x83],
    &[0xFF],
    &[0x81],
    &[0x82],
    &[0x82, 0x00],
    &[0x82, 0x01],
    &[0x82, 0xFF],
];

/// Each form of the length with the contents' count that it gives, first the
/// shortest ones, then those that are padded.
const FIELDS: [(&[u8], usize); 13] = [
    (&[0x01], 1),
    (&[0x03], 3),
    (&[0x7F], 127),
    (&[0x81, 0x80], 128),
    (&[0x81, 0xFF], 255),
    (&[0x82, 0x01, 0x00], 256),
    (&[0x81, 0x00], 0),
    (&[0x81, 0x05], 5),
    (&[0x81, 0x7F], 127),
    (&[0x82, 0x00, 0x00], 0),
    (&[0x82, 0x00, 0x05], 5),
    (&[0x82, 0x00, 0x80], 128),
    (&[0x82, 0x00, 0xFF], 255),
];

/// The part stands last and all its parents end with it: within its
/// identifier, in its length field, one octet before its contents end, and
/// where they end.
fn endings(kind: &ComponentType, part: Part) -> Vec<Case> {
    let identifier = part.identifier(&sound(kind));
    let mut ends: Vec<Vec<u8>> = (0..identifier.len())
        .map(|kept| identifier[..kept].to_vec())
        .collect();
    for field in BAD_FIELDS {
        ends.push([&identifier, field].concat());
    }
    for (field, count) in FIELDS {
        for there in [0, count.saturating_sub(1), count] {
            ends.push([&identifier, field, &filling(there)].concat());
        }
    }
    ends.iter()
        .map(|octets| ending(kind, part, octets))
        .collect()
}

/// These octets in place of the part and of all behind it.
fn ending(kind: &ComponentType, part: Part, octets: &[u8]) -> Case {
    let mut draft = sound(kind);
    let last = Element::raw(octets.to_vec());
    match part {
        Part::Whole => {
            return Case {
                specifier: draft.specifier,
                component: octets.to_vec(),
            }
        }
        Part::Parameter(index) => {
            draft.parameters.truncate(index);
            draft.parameters.push(last);
            return Case::of(&draft);
        }
        Part::Set => draft.behind_set = octets.to_vec(),
        Part::Code => draft.code = Some(last),
        Part::Id => {
            draft.id = Some(last);
            draft.code = None;
        }
    }
    draft.set_identifier = None;
    Case::of(&draft)
}

/// The body, or the set in it, cut after each of its octets.
fn cuts(kind: &ComponentType) -> Vec<Case> {
    let whole = sound(kind);
    let body = (0..whole.body().len()).map(|kept| Draft {
        body_cut: Some(kept),
        ..whole.clone()
    });
    let set = (0..whole.set_contents().len()).map(|kept| Draft {
        set_cut: Some(kept),
        ..whole.clone()
    });
    body.chain(set).map(|draft| Case::of(&draft)).collect()
}

/// ID octets of each count, few of which a type allows.
fn id_sizes(kind: &ComponentType) -> Vec<Case> {
    let of_count = |count| {
        let mut draft = sound(kind);
        draft.id = Some(Element::new(vec![0xCF], filling(count)));
        Case::of(&draft)
    };
    [0, 1, 2, 3, 4, 128, 256].map(of_count).into()
}

/// Octets behind the set and behind the component, alone and together.
fn left_over(kind: &ComponentType) -> Vec<Case> {
    let mut cases = Vec::new();
    for behind_set in 0..3 {
        for behind in 0..3 {
            let mut draft = sound(kind);
            draft.behind_set = filling(behind_set);
            draft.behind = filling(behind);
            cases.push(Case::of(&draft));
        }
    }
    cases
}

/// An element left out while the rest is sound, and in place of the code
/// what stands there in each type: nothing in a RESULT.
fn left_out(kind: &ComponentType) -> Vec<Case> {
    let mut drafts = vec![sound(kind), sound(kind)];
    drafts[0].id = None;
    drafts[1].set_identifier = None;
    drafts.extend(TYPES.iter().map(|other| Draft {
        code: sound(other).code,
        ..sound(kind)
    }));
    drafts.iter().map(Case::of).collect()
}

/// Codes of each size, in an INVOKE with the right family and with others.
fn codes(kind: &ComponentType) -> Vec<Case> {
    let mut cases = Vec::new();
    let Some(element) = &kind.code else {
        return cases;
    };
    for first in first_octets(element) {
        for count in [0, 1, 2, 3, 128] {
            let mut draft = sound(kind);
            let mut contents = vec![first, 101];
            contents.resize(count, 101);
            draft.code = Some(Element::new(vec![element.identifier], contents));
            cases.push(Case::of(&draft));
        }
    }
    cases
}

/// Without a family any octet is as good.
fn first_octets(element: &CodeElement) -> Vec<u8> {
    match *element.family {
        [family] => (0..8)
            .map(|bit| family ^ (1u8 << bit))
            .chain([family, 0])
            .collect(),
        _ => vec![0x09, 0x81],
    }
}
