//! The damages: each breaks one thing, or does something that looks broken
//! and is not.

use super::draft::{element, identifier, Draft, Element, Form, Length};
use super::{draw_kind, draw_named, draw_of_wrong_size, draw_other, draw_rowless};
use super::{draw_wrong_size, members, Drawn, NUMBERS};
use crate::random::Random;
use crate::rows::{is_right_size, Row, SIZED};
use crate::types::{self, INVOKE};

type Damage = fn(&mut Random, &mut Draft);

/// Some stand more than once to be met more often.
const DAMAGES: [Damage; 59] = [
    wrong_type,
    swapped_type,
    no_id,
    wrong_id_identifier,
    wrong_id_length,
    wrong_id_length,
    no_code,
    other_type_s_code,
    wrong_code_identifier,
    wrong_code_identifier,
    wrong_code_length,
    wrong_code_length,
    wrong_code_field,
    cut_at_code,
    cut_at_code,
    wrong_family,
    no_set,
    wrong_set_identifier,
    wrong_set_identifier,
    no_row,
    no_row,
    wrong_class,
    long_run,
    long_run,
    leading_80,
    long_form_below_31,
    identifier_cut,
    padded_length,
    padded_length,
    wrong_length_form,
    wrong_length_form,
    length_off,
    length_off,
    length_cut_in_set,
    cut_set,
    cut_body,
    left_over,
    left_over,
    twin_instead,
    twin_added,
    repeat_any,
    repeat_any,
    repeat_any,
    repeat_any,
    repeat_any,
    drop_one,
    drop_one,
    drop_one,
    every_member,
    no_member,
    no_member,
    twins_of_members,
    wrong_size,
    wrong_size,
    wrong_size,
    wrong_sizes,
    wrong_size_and_more,
    all_empty,
    empty_set,
];

pub fn apply(random: &mut Random, draft: &mut Draft) {
    random.pick(&DAMAGES)(random, draft);
}

fn wrong_type(random: &mut Random, draft: &mut Draft) {
    let near = [
        0xE8, 0xED, 0xEE, 0xC9, 0xCA, 0xCB, 0xCC, 0x69, 0x6C, 0x30, 0x00, 0xFF,
    ];
    draft.kind = random.pick(&near);
}

/// The rest stays as it was in another type.
fn swapped_type(random: &mut Random, draft: &mut Draft) {
    draft.kind = draw_kind(random);
}

fn no_id(_: &mut Random, draft: &mut Draft) {
    draft.id = None;
}

fn wrong_id_identifier(random: &mut Random, draft: &mut Draft) {
    if let Some(id) = &mut draft.id {
        id.identifier = vec![random.pick(&[0xCE, 0xEF, 0x8F, 0x4F, 0x0F, 0xD1, 0xF2, 0xDF, 0x02])];
    }
}

fn wrong_id_length(random: &mut Random, draft: &mut Draft) {
    let count = random.pick(&[0, 0, 1, 2, 2, 3, 3, 4, 5, 127, 128, 256]);
    if let Some(id) = &mut draft.id {
        id.contents = random.octets(count);
    }
}

fn no_code(_: &mut Random, draft: &mut Draft) {
    draft.code = None;
}

/// An INVOKE with a problem, a RESULT with an error, and so on.
fn other_type_s_code(random: &mut Random, draft: &mut Draft) {
    let kind = types::of(draw_kind(random));
    let length = draft.draw_length(random);
    let code = Element::code(kind, [random.octet(), random.octet()]);
    draft.code = code.map(|code| Element { length, ..code });
}

/// Mostly what stands there in another type.
fn wrong_code_identifier(random: &mut Random, draft: &mut Draft) {
    let octet = if random.percent(60) {
        random.pick(&[0xD1, 0xD3, 0xD4, 0xD5, 0xF2])
    } else {
        random.pick(&[
            0xD0, 0xD2, 0xF1, 0xF4, 0xF5, 0x91, 0x94, 0x95, 0x51, 0x54, 0x55, 0xCF, 0x02,
        ])
    };
    if let Some(code) = &mut draft.code {
        code.identifier = vec![octet];
    }
}

fn wrong_code_length(random: &mut Random, draft: &mut Draft) {
    let count = random.pick(&[0, 0, 1, 1, 2, 2, 3, 3, 4, 127, 128, 256]);
    if let Some(code) = &mut draft.code {
        code.contents.resize(count, 0x04);
    }
}

/// Ill formed, or of contents that run past the parent.
fn wrong_code_field(random: &mut Random, draft: &mut Draft) {
    let form = random.pick(draft.forms);
    let length = match random.below(3) {
        0 => Length::Raw(vec![random.pick(&[0x80, 0x83, 0xFF])]),
        1 => Length::Off(form, random.pick(&[100, 127, 250])),
        _ => Length::Off(form, random.pick(&[1000, 4096, 60000])),
    };
    if let Some(code) = &mut draft.code {
        code.length = length;
    }
}

/// The component ends where the element behind its ID is wanted, or soon
/// after: in a length field of each form.
fn cut_at_code(random: &mut Random, draft: &mut Draft) {
    let length = match random.below(4) {
        0 => Length::Raw(vec![0x81]),
        1 => Length::Raw(vec![0x82, random.pick(&[0x00, 0x01])]),
        _ => draft.draw_length(random),
    };
    if let Some(code) = &mut draft.code {
        code.length = length;
    }
    let kept = draft.id_octets().len() + random.below(4);
    draft.body_cut = Some(kept);
}

/// Of an INVOKE; another octet is as good for an error or a problem.
fn wrong_family(random: &mut Random, draft: &mut Draft) {
    let family = random.pick(&[0x00, 0x08, 0x0A, 0x89, 0x19, 0xFF, 0x01]);
    if let Some(code) = &mut draft.code {
        if let Some(first) = code.contents.first_mut() {
            *first = family;
        }
    }
}

fn no_set(_: &mut Random, draft: &mut Draft) {
    draft.set_identifier = None;
}

fn wrong_set_identifier(random: &mut Random, draft: &mut Draft) {
    draft.set_identifier = Some(random.pick(&[0xF1, 0xF3, 0xD2, 0xB2, 0x72, 0x30, 0x31, 0xCF]));
}

fn no_row(random: &mut Random, draft: &mut Draft) {
    let specifier = draw_rowless(random, draft.kind);
    if draft.kind != INVOKE {
        draft.specifier = specifier;
    } else if let Some(code) = &mut draft.code {
        code.contents = vec![0x09, specifier];
    }
}

/// Puts a parameter anywhere among the others.
fn insert(random: &mut Random, draft: &mut Draft, mut parameter: Element) {
    parameter.length = draft.draw_length(random);
    let at = random.below(draft.parameters.len() + 1);
    draft.parameters.insert(at, parameter);
}

fn add(random: &mut Random, draft: &mut Draft, drawn: Drawn) {
    let one = element(random, drawn);
    insert(random, draft, one);
}

fn insert_raw(random: &mut Random, draft: &mut Draft, identifier: Vec<u8>) {
    let count = random.below(4);
    let contents = random.octets(count);
    insert(random, draft, Element::new(identifier, contents));
}

/// Class bits 00, 01 or 11, with the other bits of any kind.
fn wrong_class(random: &mut Random, draft: &mut Draft) {
    let class = random.pick(&[0x00, 0x40, 0xC0]);
    let first = class | random.octet() & 0x3F;
    insert_raw(random, draft, vec![first, 0x20]);
}

fn form(random: &mut Random) -> u8 {
    random.pick(&[0x9F, 0xBF])
}

/// Three to six octets of number, mostly the least number over 16,383.
fn long_run(random: &mut Random, draft: &mut Draft) {
    let mut octets = vec![form(random), 0x81, 0x80];
    if random.percent(50) {
        octets[1] = random.between(0x81, 0xFF) as u8;
        octets[2] = random.between(0x80, 0xFF) as u8;
        for _ in 0..random.below(4) {
            octets.push(random.between(0x80, 0xFF) as u8);
        }
    }
    octets.push(random.below(0x80) as u8);
    insert_raw(random, draft, octets);
}

fn leading_80(random: &mut Random, draft: &mut Draft) {
    let mut octets = vec![form(random), 0x80];
    if random.percent(30) {
        octets.push(random.between(0x80, 0xFF) as u8);
    }
    octets.push(random.below(0x80) as u8);
    insert_raw(random, draft, octets);
}

fn long_form_below_31(random: &mut Random, draft: &mut Draft) {
    let number = random.pick(&[0, 4, 5, 8, 22, 29, 30, 30]);
    let octets = vec![form(random), number];
    insert_raw(random, draft, octets);
}

/// The set ends within the last identifier.
fn identifier_cut(random: &mut Random, draft: &mut Draft) {
    let first = form(random);
    let high = random.between(0x80, 0xFF) as u8;
    let kept = match random.below(4) {
        0 | 1 => vec![first],
        2 => vec![first, high],
        _ => vec![first, high, 0x80, 0x80],
    };
    draft.parameters.push(Element::raw(kept));
}

/// One of the length fields at any level.
fn any_length<'a>(random: &mut Random, draft: &'a mut Draft) -> &'a mut Length {
    let parameters = draft.parameters.len();
    match random.below(6) {
        0 => &mut draft.outer,
        1 if draft.id.is_some() => &mut draft.id.as_mut().expect("there").length,
        2 if draft.code.is_some() => &mut draft.code.as_mut().expect("there").length,
        4 | 5 if parameters > 0 => &mut draft.parameters[random.below(parameters)].length,
        _ => &mut draft.set_length,
    }
}

/// One padded length, mostly the only one: no fault.
fn padded_length(random: &mut Random, draft: &mut Draft) {
    let form = random.pick(&[Form::With81, Form::With82]);
    *any_length(random, draft) = Length::True(form);
}

fn wrong_length_form(random: &mut Random, draft: &mut Draft) {
    let first = match random.below(3) {
        0 => 0x80,
        1 => random.pick(&[0x83, 0x84, 0xFE, 0xFF]),
        _ => random.between(0x83, 0xFF) as u8,
    };
    let more = random.below(4);
    let mut octets = vec![first];
    octets.extend(random.octets(more));
    *any_length(random, draft) = Length::Raw(octets);
}

/// Too long or too short by one, a few or many.
fn length_off(random: &mut Random, draft: &mut Draft) {
    let off = match random.below(10) {
        0..=2 => 1,
        3..=5 => -1,
        6 => random.between(2, 10) as i32,
        7 => -(random.between(2, 10) as i32),
        8 => random.pick(&[100, 127, 128, 255, 256]),
        _ => random.pick(&[4095, 4096, 30000, 60000]),
    };
    let form = random.pick(draft.forms);
    *any_length(random, draft) = Length::Off(form, off);
}

/// The set ends before or within the last length field.
fn length_cut_in_set(random: &mut Random, draft: &mut Draft) {
    let number = random.pick(&NUMBERS);
    let mut last = Element::new(identifier(number, random.percent(50)), Vec::new());
    let octets: &[u8] = match random.below(5) {
        0 => &[],
        1 => &[0x81],
        2 => &[0x82],
        3 => &[0x82, 0x00],
        _ => &[0x82, 0x01],
    };
    last.length = Length::Raw(octets.to_vec());
    draft.parameters.push(last);
}

fn cut_set(random: &mut Random, draft: &mut Draft) {
    let count = draft.set_contents().len();
    draft.set_cut = Some(random.below(count + 1));
}

fn cut_body(random: &mut Random, draft: &mut Draft) {
    let count = draft.body().len();
    let most = if random.percent(60) {
        count.min(12)
    } else {
        count
    };
    draft.body_cut = Some(random.below(most + 1));
}

fn left_over(random: &mut Random, draft: &mut Draft) {
    let count = random.between(1, 3);
    let octets = if random.percent(30) {
        vec![0; count]
    } else {
        random.octets(count)
    };
    if random.percent(50) {
        draft.behind_set = octets;
    } else {
        draft.behind = octets;
    }
}

fn twin_instead(random: &mut Random, draft: &mut Draft) {
    if !draft.parameters.is_empty() {
        let at = random.below(draft.parameters.len());
        draft.parameters[at].identifier[0] ^= 0x20;
    }
}

fn twin_added(random: &mut Random, draft: &mut Draft) {
    if !draft.parameters.is_empty() {
        let mut twin = draft.parameters[random.below(draft.parameters.len())].clone();
        twin.identifier[0] ^= 0x20;
        insert(random, draft, twin);
    }
}

/// A named one again (12), or Digits or another again, which is no fault.
fn repeat_any(random: &mut Random, draft: &mut Draft) {
    for _ in 0..random.between(1, 2) {
        if !draft.parameters.is_empty() {
            let mut again = draft.parameters[random.below(draft.parameters.len())].clone();
            let count = random.below(5);
            again.contents = random.octets(count);
            insert(random, draft, again);
        }
    }
}

fn drop_one(random: &mut Random, draft: &mut Draft) {
    for _ in 0..random.between(1, 2) {
        if !draft.parameters.is_empty() {
            let at = random.below(draft.parameters.len());
            draft.parameters.remove(at);
        }
    }
}

/// Adds the members of a choice (14) or of a group that do not occur.
pub fn every_member(random: &mut Random, draft: &mut Draft) {
    for number in members(draft.row) {
        let octets = identifier(*number, false);
        if !draft.parameters.iter().any(|one| one.identifier == octets) {
            let drawn = draw_named(random, *number);
            add(random, draft, drawn);
        }
    }
}

fn is_member(row: &Row, octets: &[u8]) -> bool {
    let mut members = members(row).iter();
    members.any(|number| identifier(*number, false) == octets)
}

/// Without any of them (13), and at times without another, which may be asked
/// for earlier.
fn no_member(random: &mut Random, draft: &mut Draft) {
    let row = draft.row;
    let kept = |one: &Element| !is_member(row, &one.identifier);
    draft.parameters.retain(kept);
    if random.percent(40) {
        drop_one(random, draft);
    }
}

fn twins_of_members(_: &mut Random, draft: &mut Draft) {
    for one in &mut draft.parameters {
        if is_member(draft.row, &one.identifier) {
            one.identifier[0] ^= 0x20;
        }
    }
}

/// The number of a primitive parameter of fixed size.
fn sized_number(one: &Element) -> Option<u16> {
    let mut numbers = SIZED.iter().map(|(number, _)| *number);
    numbers.find(|number| one.identifier == identifier(*number, false))
}

/// One of fixed size gets another (26); where none stands there, one is added
/// that the row may not name, and then it is no fault.
pub fn wrong_size(random: &mut Random, draft: &mut Draft) {
    let each = draft.parameters.iter().enumerate();
    let sized: Vec<(usize, u16)> = each
        .filter_map(|(at, one)| Some((at, sized_number(one)?)))
        .collect();
    if sized.is_empty() {
        let drawn = draw_of_wrong_size(random);
        return add(random, draft, drawn);
    }
    let (at, number) = random.pick(&sized);
    let count = draw_wrong_size(random, number);
    draft.parameters[at].contents = random.octets(count);
}

/// Mostly of several parameters: the earliest is given.
fn wrong_sizes(random: &mut Random, draft: &mut Draft) {
    for _ in 0..random.between(2, 4) {
        wrong_size(random, draft);
    }
}

/// Beside what is asked before it, 12, and behind it, 13 and 14.
fn wrong_size_and_more(random: &mut Random, draft: &mut Draft) {
    wrong_size(random, draft);
    random.pick::<Damage>(&[repeat_any, drop_one, every_member, no_member])(random, draft);
}

/// In place of what stands there with the same identifier, or added.
pub(super) fn instead(random: &mut Random, draft: &mut Draft, drawn: Drawn) {
    let octets = identifier(drawn.number, drawn.constructor);
    let mut standing = draft.parameters.iter_mut();
    match standing.find(|one| one.identifier == octets) {
        Some(one) => one.contents = random.octets(drawn.length),
        None => add(random, draft, drawn),
    }
}

/// But for those whose size is fixed, no octets still count as occurring.
fn all_empty(_: &mut Random, draft: &mut Draft) {
    for parameter in &mut draft.parameters {
        if sized_number(parameter).is_none_or(|number| is_right_size(number, 0)) {
            parameter.contents.clear();
        }
    }
}

fn empty_set(_: &mut Random, draft: &mut Draft) {
    draft.parameters.clear();
}

/// Up to `count` parameters, all that come in addition not named.
pub fn fill_up(random: &mut Random, draft: &mut Draft, count: usize) {
    while draft.parameters.len() < count {
        add_other(random, draft);
    }
}

/// A short parameter that the row does not name.
pub fn add_other(random: &mut Random, draft: &mut Draft) {
    let mut drawn = draw_other(random, draft.row);
    drawn.length = drawn.length.min(8);
    add(random, draft, drawn);
}

/// Breaks a parameter at this index, if there is one: for the 65th, where 10
/// comes before 9.
pub fn break_at(random: &mut Random, draft: &mut Draft, index: usize) {
    if let Some(parameter) = draft.parameters.get_mut(index) {
        match random.below(3) {
            0 => parameter.identifier = vec![random.pick(&[0x05, 0x45, 0xC5])],
            1 => parameter.identifier = vec![0x9F, 0x80, 0x05],
            _ => parameter.length = Length::Raw(vec![0x80]),
        }
    }
}

/// Flips, inserts and deletes of single octets.
pub fn mutate(random: &mut Random, octets: &mut Vec<u8>) {
    for _ in 0..random.between(1, 4) {
        let count = octets.len();
        let octet = random.octet();
        match random.below(4) {
            0 if count > 0 => octets[random.below(count)] ^= 1 << random.below(8),
            1 if count > 0 => octets[random.below(count)] = octet,
            2 if count > 0 => {
                octets.remove(random.below(count));
            }
            _ => octets.insert(random.below(count + 1), octet),
        }
    }
}
