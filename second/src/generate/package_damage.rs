//! The damages of a package, as those of a component: each breaks one thing,
//! or does something that looks broken and is not.

use super::damage;
use super::draft::{Draft, Form, Length};
use super::package_draft::{any_component, component, PackageDraft};
use super::{draw_kind, draw_rowless, Subject};
use crate::package::{KINDS, MOST_COMPONENTS, TRANSACTION_ID};
use crate::random::Random;
use crate::rows;
use crate::types::{self, INVOKE, RESULT};

type Damage = fn(&mut Random, &mut PackageDraft);

/// Of the package's own elements and of the walk over its sequence. Some
/// stand more than once to be met more often.
const OUTSIDE: [Damage; 36] = [
    no_package_type,
    other_package_type,
    no_ids,
    wrong_ids_identifier,
    wrong_ids_count,
    wrong_ids_count,
    wrong_ids_count,
    dialogue,
    dialogue,
    dialogue_misplaced,
    no_sequence,
    wrong_sequence_identifier,
    padded_length,
    padded_length,
    wrong_length_form,
    length_off,
    length_off,
    length_cut,
    cut_body,
    cut_sequence,
    left_over,
    short_sequence,
    short_sequence,
    no_component,
    no_component,
    nine_or_more,
    nine_or_more,
    bad_ninth,
    bad_ninth,
    component_length_off,
    component_length_off,
    component_length_form,
    into_the_next,
    into_the_next,
    into_the_next,
    last_octet_alone,
];

/// Of its components.
const INSIDE: [Damage; 19] = [
    one_damaged,
    one_damaged,
    one_damaged,
    one_damaged,
    one_damaged,
    one_damaged,
    one_damaged,
    two_damaged,
    two_damaged,
    no_type_inside,
    without_row,
    without_row,
    doubled_choice,
    wrong_size_inside,
    wrong_size_inside,
    crowded,
    not_carried_then_damaged,
    not_carried_then_damaged,
    damaged_then_not_carried,
];

/// Of what carries them.
const CARRIAGE: [Damage; 6] = [
    retyped,
    retyped,
    not_carried,
    not_carried,
    not_carried_twice,
    specifiers_moved,
];

pub fn apply(random: &mut Random, draft: &mut PackageDraft) {
    let damages: &[Damage] = match random.below(100) {
        0..=44 => &OUTSIDE,
        45..=84 => &INSIDE,
        _ => &CARRIAGE,
    };
    random.pick(damages)(random, draft);
}

fn no_package_type(random: &mut Random, draft: &mut PackageDraft) {
    draft.kind = random.pick(&[
        0xE0, 0xE7, 0xE8, 0xE9, 0xF6, 0xC2, 0xA2, 0x62, 0x02, 0x00, 0xFF,
    ]);
}

/// The count of ID octets stays, and fits or not.
fn other_package_type(random: &mut Random, draft: &mut PackageDraft) {
    draft.kind = random.pick(&KINDS);
}

/// As above with ID octets that fit: mostly a package that does not carry
/// what is in it.
fn retyped(random: &mut Random, draft: &mut PackageDraft) {
    draft.retype(random.pick(&KINDS));
}

fn no_ids(_: &mut Random, draft: &mut PackageDraft) {
    draft.ids = None;
}

fn wrong_ids_identifier(random: &mut Random, draft: &mut PackageDraft) {
    if let Some(ids) = &mut draft.ids {
        ids.identifier = vec![random.pick(&[0xC6, 0xCF, 0xE7, 0x87, 0x47, 0xE8, 0xF9, 0x00])];
    }
}

fn wrong_ids_count(random: &mut Random, draft: &mut PackageDraft) {
    let count = random.pick(&[0, 0, 1, 3, 4, 4, 5, 7, 8, 8, 9, 12, 127, 128, 256, 260]);
    if let Some(ids) = &mut draft.ids {
        ids.contents = random.octets(count);
    }
}

fn draw_dialogue(random: &mut Random) -> Vec<u8> {
    let count = random.pick(&[0, 0, 1, 3, 6, 130]);
    let contents = random.octets(count);
    let field = Form::Shortest.octets(count);
    [vec![0xF9], field, contents].concat()
}

fn dialogue(random: &mut Random, draft: &mut PackageDraft) {
    draft.between = draw_dialogue(random);
}

/// In place of the sequence or behind it, or before the transaction IDs.
fn dialogue_misplaced(random: &mut Random, draft: &mut PackageDraft) {
    let octets = draw_dialogue(random);
    match random.below(3) {
        0 => {
            draft.between = octets;
            draft.sequence_identifier = None;
        }
        1 => draft.behind_sequence = octets,
        _ => {
            if let Some(ids) = draft.ids.take() {
                draft.between = octets;
                ids.put(&mut draft.between);
            }
        }
    }
}

fn no_sequence(_: &mut Random, draft: &mut PackageDraft) {
    draft.sequence_identifier = None;
}

fn wrong_sequence_identifier(random: &mut Random, draft: &mut PackageDraft) {
    let octet = random.pick(&[
        0xE7,
        0xE9,
        0xEA,
        0xC8,
        0xA8,
        0x68,
        0x30,
        0xF2,
        TRANSACTION_ID,
    ]);
    draft.sequence_identifier = Some(octet);
}

/// One of the package's own length fields.
fn any_length<'a>(random: &mut Random, draft: &'a mut PackageDraft) -> &'a mut Length {
    let mut lengths = draft.lengths();
    let at = random.below(lengths.len());
    lengths.swap_remove(at)
}

/// One padded length, or all: no fault.
fn padded_length(random: &mut Random, draft: &mut PackageDraft) {
    let form = random.pick(&[Form::With81, Form::With82]);
    if random.percent(60) {
        *any_length(random, draft) = Length::True(form);
    } else {
        let lengths = draft.lengths().into_iter();
        lengths.for_each(|length| *length = Length::True(form));
    }
}

fn bad_form(random: &mut Random) -> Length {
    let first = random.pick(&[0x80, 0x80, 0x83, 0x84, 0xC7, 0xFE, 0xFF]);
    let more = random.below(4);
    Length::Raw([vec![first], random.octets(more)].concat())
}

fn wrong_length_form(random: &mut Random, draft: &mut PackageDraft) {
    *any_length(random, draft) = bad_form(random);
}

fn draw_off(random: &mut Random) -> i32 {
    match random.below(10) {
        0..=2 => 1,
        3..=5 => -1,
        6 => random.between(2, 12) as i32,
        7 => -(random.between(2, 12) as i32),
        8 => random.pick(&[100, 127, 128, 255, 256]),
        _ => random.pick(&[4095, 4096, 30000, 60000]),
    }
}

fn length_off(random: &mut Random, draft: &mut PackageDraft) {
    let form = random.pick(draft.forms);
    let off = draw_off(random);
    *any_length(random, draft) = Length::Off(form, off);
}

/// The package ends before or within one of its own length fields.
fn length_cut(random: &mut Random, draft: &mut PackageDraft) {
    let octets = random.pick(&[&[][..], &[0x81], &[0x82], &[0x82, 0x00], &[0x82, 0x01]]);
    let cut = Length::Raw(octets.to_vec());
    match random.below(3) {
        0 => {
            draft.outer = cut;
            draft.body_cut = Some(0);
        }
        1 => {
            if let Some(ids) = &mut draft.ids {
                ids.length = cut;
                draft.body_cut = Some(1 + octets.len());
            }
        }
        _ => {
            draft.sequence_length = cut;
            draft.sequence_cut = Some(0);
        }
    }
}

fn cut_body(random: &mut Random, draft: &mut PackageDraft) {
    let count = draft.body().len();
    let most = if random.percent(60) {
        count.min(16)
    } else {
        count
    };
    draft.body_cut = Some(random.below(most + 1));
}

fn cut_sequence(random: &mut Random, draft: &mut PackageDraft) {
    let count = draft.sequence().len();
    draft.sequence_cut = Some(random.below(count + 1));
}

fn left_over(random: &mut Random, draft: &mut PackageDraft) {
    let count = random.between(1, 3);
    let octets = if random.percent(30) {
        vec![0; count]
    } else {
        random.octets(count)
    };
    if random.percent(60) {
        draft.behind_sequence = octets;
    } else {
        draft.behind = octets;
    }
}

/// The last component runs past the sequence and stays inside the package.
fn short_sequence(random: &mut Random, draft: &mut PackageDraft) {
    let count = draft.sequence().len();
    let last = draft.components.last().map_or(0, |one| one.octets().len());
    let less = if random.percent(60) { last } else { count };
    let off = random.between(1, less.max(1)) as i32;
    draft.sequence_length = Length::Off(random.pick(draft.forms), -off);
}

fn no_component(_: &mut Random, draft: &mut PackageDraft) {
    draft.components.clear();
}

fn fill_up(random: &mut Random, draft: &mut PackageDraft, count: usize) {
    while draft.components.len() < count {
        let one = component(random, draft.kind);
        draft.components.push(one);
    }
}

fn nine_or_more(random: &mut Random, draft: &mut PackageDraft) {
    let count = random.pick(&[9, 9, 9, 10, 12, 16, 17]);
    fill_up(random, draft, count);
}

/// The walk goes on behind the eighth, and what it finds there comes before
/// the count.
fn bad_ninth(random: &mut Random, draft: &mut PackageDraft) {
    let count = random.pick(&[9, 9, 10, 11]);
    fill_up(random, draft, count);
    let at = random.between(MOST_COMPONENTS, count - 1);
    let length = match random.below(3) {
        0 => bad_form(random),
        1 => Length::Off(Form::Shortest, random.pick(&[100, 1000, 4096])),
        _ => Length::Off(Form::Shortest, draw_off(random)),
    };
    draft.components[at].outer = length;
}

fn any(random: &mut Random, draft: &PackageDraft) -> Option<usize> {
    let count = draft.components.len();
    (count > 0).then(|| random.below(count))
}

fn component_length_off(random: &mut Random, draft: &mut PackageDraft) {
    let off = draw_off(random);
    if let Some(at) = any(random, draft) {
        let one = &mut draft.components[at];
        one.outer = Length::Off(random.pick(one.forms), off);
    }
}

fn component_length_form(random: &mut Random, draft: &mut PackageDraft) {
    let length = bad_form(random);
    if let Some(at) = any(random, draft) {
        draft.components[at].outer = length;
    }
}

/// As far as the next one's end, a part of it, or all that follow; at times
/// the set reaches as far, so that the next one's octets are its parameters.
fn into_the_next(random: &mut Random, draft: &mut PackageDraft) {
    if draft.components.len() < 2 {
        fill_up(random, draft, 2);
    }
    let at = random.below(draft.components.len() - 1);
    let sizes: Vec<usize> = draft
        .components
        .iter()
        .map(|one| one.octets().len())
        .collect();
    let off = match random.below(4) {
        0 | 1 => sizes[at + 1],
        2 => random.between(1, sizes[at + 1]),
        _ => sizes[at + 1..].iter().sum(),
    } as i32;
    let one = &mut draft.components[at];
    one.outer = Length::Off(random.pick(one.forms), off);
    if random.percent(40) {
        one.set_length = Length::Off(random.pick(one.forms), off);
    }
}

/// The sequence ends with the first octet of a component.
fn last_octet_alone(random: &mut Random, draft: &mut PackageDraft) {
    let octet = random.pick(&[0xE9, 0xEA, 0xEB, 0xEC, 0x00]);
    if let Some(last) = draft.components.last_mut() {
        last.behind = vec![octet];
    }
}

fn damage_at(random: &mut Random, draft: &mut PackageDraft, at: usize) {
    damage::apply(random, &mut draft.components[at]);
}

fn one_damaged(random: &mut Random, draft: &mut PackageDraft) {
    if let Some(at) = any(random, draft) {
        damage_at(random, draft, at);
    }
}

/// The first of the two is given.
fn two_damaged(random: &mut Random, draft: &mut PackageDraft) {
    for _ in 0..2 {
        one_damaged(random, draft);
    }
}

fn no_type_inside(random: &mut Random, draft: &mut PackageDraft) {
    let other = draw_kind(random);
    let octet = random.pick(&[0xE8, 0xED, 0xEE, 0x00, 0x30, 0xFF, other]);
    if let Some(at) = any(random, draft) {
        draft.components[at].kind = octet;
    }
}

/// Mostly a RESULT, whose 11 points nowhere.
fn without_row(random: &mut Random, draft: &mut PackageDraft) {
    let results = draft.components.iter().position(|one| one.kind == RESULT);
    let Some(at) = results.or_else(|| any(random, draft)) else {
        return;
    };
    let one = &mut draft.components[at];
    let Some(kind) = types::find(one.kind).filter(|kind| kind.has_row) else {
        return;
    };
    let specifier = draw_rowless(random, kind.octet);
    one.specifier = specifier;
    if let Some(code) = &mut one.code {
        code.contents = vec![0x09, specifier];
    }
}

/// The only row with a choice, with both members of it.
fn doubled_choice(random: &mut Random, draft: &mut PackageDraft) {
    if let Some(at) = any(random, draft) {
        let row = rows::find(INVOKE, 13).expect("the row with a choice");
        let mut one = Draft::valid(random, Subject::of_row(row));
        damage::every_member(random, &mut one);
        draft.components[at] = one;
    }
}

/// In one or two of them, of which the first is given.
fn wrong_size_inside(random: &mut Random, draft: &mut PackageDraft) {
    for _ in 0..random.between(1, 2) {
        if let Some(at) = any(random, draft) {
            damage::wrong_size(random, &mut draft.components[at]);
        }
    }
}

/// 63 to 66 parameters in one of them.
fn crowded(random: &mut Random, draft: &mut PackageDraft) {
    let count = random.pick(&[63, 64, 64, 65, 65, 66]);
    if let Some(at) = any(random, draft) {
        damage::fill_up(random, &mut draft.components[at], count);
    }
}

/// Put in the place of another: of any type, and so mostly not carried.
fn replace(random: &mut Random, draft: &mut PackageDraft, at: usize) {
    draft.components[at] = any_component(random);
}

fn not_carried(random: &mut Random, draft: &mut PackageDraft) {
    if let Some(at) = any(random, draft) {
        replace(random, draft, at);
    }
}

fn not_carried_twice(random: &mut Random, draft: &mut PackageDraft) {
    not_carried(random, draft);
    not_carried(random, draft);
}

/// Two of them, the first before the second, where there are so many.
fn two_of(random: &mut Random, draft: &mut PackageDraft) -> (usize, usize) {
    fill_up(random, draft, 2);
    let count = draft.components.len();
    let first = random.below(count - 1);
    (first, random.between(first + 1, count - 1))
}

/// 24 comes behind the own refusal of a later one.
fn not_carried_then_damaged(random: &mut Random, draft: &mut PackageDraft) {
    let (first, second) = two_of(random, draft);
    replace(random, draft, first);
    damage_at(random, draft, second);
}

fn damaged_then_not_carried(random: &mut Random, draft: &mut PackageDraft) {
    let (first, second) = two_of(random, draft);
    damage_at(random, draft, first);
    replace(random, draft, second);
}

/// Each component gets the next one's, as if they were counted from the other
/// end or from 1.
fn specifiers_moved(random: &mut Random, draft: &mut PackageDraft) {
    let mut specifiers: Vec<u8> = draft.components.iter().map(|one| one.specifier).collect();
    if random.percent(50) {
        specifiers.reverse();
    } else if !specifiers.is_empty() {
        specifiers.rotate_left(1);
    }
    let each = draft.components.iter_mut().zip(specifiers);
    each.for_each(|(one, specifier): (&mut Draft, u8)| one.specifier = specifier);
}
