//! Whole cases for the reader.

use super::damage;
use super::draft::{draw_forms, element, Draft};
use super::{draw_kind, draw_named, draw_of_any_size, draw_subject, Subject};
use crate::random::Random;
use crate::reader::{MOST_PARAMETERS, TABLE_NUMBERS};
use crate::rows::{self, ROWS};
use crate::types::INVOKE;

/// What a call of the reader takes; the table's numbers before the call
/// follow from their index.
pub struct ReadCase {
    pub component: Vec<u8>,
    pub specifier: u8,
    pub numbers: usize,
}

pub fn read_case(random: &mut Random) -> ReadCase {
    let (component, specifier) = match random.below(1000) {
        0..=194 => valid(random),
        195..=219 => of_any_size(random),
        220..=764 => damaged(random),
        765..=779 => doubled_choice(random),
        780..=829 => mutated(random),
        830..=869 => truncated(random),
        870..=904 => crowded(random),
        905..=921 => sized(random),
        922..=934 => sized_large(random),
        935..=954 => wide_parameter(random),
        955..=959 => (Vec::new(), random.octet()),
        960..=979 => noise(random),
        980..=989 => noisy_body(random),
        _ => noisy_set(random),
    };
    ReadCase {
        component,
        specifier,
        numbers: table_length(random),
    }
}

/// Most tables are just long enough; one in a hundred would be if an entry
/// had no place.
fn table_length(random: &mut Random) -> usize {
    match random.below(100) {
        0..=89 => TABLE_NUMBERS,
        90..=94 => TABLE_NUMBERS + random.between(1, MOST_PARAMETERS),
        95..=96 => TABLE_NUMBERS - 1,
        97 => TABLE_NUMBERS - MOST_PARAMETERS,
        98 => 0,
        _ => random.below(TABLE_NUMBERS),
    }
}

fn draft(random: &mut Random) -> Draft {
    let subject = draw_subject(random);
    Draft::valid(random, subject)
}

fn finished(draft: &Draft) -> (Vec<u8>, u8) {
    (draft.octets(), draft.specifier)
}

fn valid(random: &mut Random) -> (Vec<u8>, u8) {
    finished(&draft(random))
}

/// Mostly one damage, sometimes more, for the order among the faults.
fn damaged(random: &mut Random) -> (Vec<u8>, u8) {
    let mut draft = draft(random);
    damage::apply(random, &mut draft);
    while random.percent(20) {
        damage::apply(random, &mut draft);
    }
    finished(&draft)
}

fn mutated(random: &mut Random) -> (Vec<u8>, u8) {
    let mut draft = draft(random);
    if random.percent(20) {
        damage::apply(random, &mut draft);
    }
    let (mut octets, specifier) = finished(&draft);
    damage::mutate(random, &mut octets);
    (octets, specifier)
}

fn truncated(random: &mut Random) -> (Vec<u8>, u8) {
    let (mut octets, specifier) = valid(random);
    let most = if random.percent(50) {
        octets.len().min(14)
    } else {
        octets.len()
    };
    octets.truncate(random.below(most));
    (octets, specifier)
}

/// 63 to 66 parameters; a broken 65th must still give 10, a broken 64th not.
fn crowded(random: &mut Random) -> (Vec<u8>, u8) {
    let mut draft = draft(random);
    let count = random.pick(&[63, 64, 64, 65, 65, 66, 70]);
    damage::fill_up(random, &mut draft, count);
    match random.below(10) {
        0..=1 => damage::break_at(random, &mut draft, 64),
        2 => damage::break_at(random, &mut draft, 63),
        3..=4 => damage::apply(random, &mut draft),
        _ => {}
    }
    finished(&draft)
}

/// Edges of the length forms, for the whole, the body and the set. Where
/// lengths are padded, these are the octets with their padding.
fn sized(random: &mut Random) -> (Vec<u8>, u8) {
    let mut draft = draft(random);
    let target = random.pick(&[126, 127, 128, 129, 254, 255, 256, 257]);
    let measured: fn(&Draft) -> usize = match random.below(3) {
        0 => |draft| draft.octets().len(),
        1 => |draft| draft.body().len(),
        _ => |draft| draft.set_contents().len(),
    };
    draft.fit(random, target, measured);
    if random.percent(20) {
        damage::apply(random, &mut draft);
    }
    finished(&draft)
}

/// Around 4,096 octets with their padding: of a padded component of 4,097,
/// which is refused, the shortest form fits.
fn sized_large(random: &mut Random) -> (Vec<u8>, u8) {
    let mut draft = draft(random);
    if random.percent(20) {
        damage::fill_up(random, &mut draft, 63);
    }
    let target = match random.below(20) {
        0..=16 => random.pick(&[4095, 4096, 4097, 4097]),
        17 => 4098,
        18 => random.between(1000, 4090),
        _ => random.between(4099, 6000),
    };
    draft.fit(random, target, |draft| draft.octets().len());
    if random.percent(20) {
        damage::apply(random, &mut draft);
    }
    finished(&draft)
}

/// One parameter, named or not, of a length at an edge of the forms.
fn wide_parameter(random: &mut Random) -> (Vec<u8>, u8) {
    let mut draft = draft(random);
    let count = random.pick(&[126, 127, 128, 129, 254, 255, 256, 257, 300]);
    if draft.parameters.is_empty() || random.percent(50) {
        damage::add_other(random, &mut draft);
    }
    let at = random.below(draft.parameters.len());
    draft.parameters[at].contents = random.octets(count);
    if random.percent(20) {
        damage::apply(random, &mut draft);
    }
    finished(&draft)
}

/// Every row with every parameter of fixed size, of right and wrong sizes.
fn of_any_size(random: &mut Random) -> (Vec<u8>, u8) {
    let row = &ROWS[random.below(ROWS.len())];
    let mut draft = Draft::valid(random, Subject::of_row(row));
    let drawn = draw_of_any_size(random, row);
    damage::instead(random, &mut draft, drawn);
    finished(&draft)
}

/// The only row with a choice, with both members of it.
fn doubled_choice(random: &mut Random) -> (Vec<u8>, u8) {
    let row = rows::find(INVOKE, 13).expect("the row with a choice");
    let mut draft = Draft::valid(random, Subject::of_row(row));
    damage::every_member(random, &mut draft);
    if random.percent(30) {
        damage::apply(random, &mut draft);
    }
    finished(&draft)
}

fn noise(random: &mut Random) -> (Vec<u8>, u8) {
    let count = random.between(1, 24);
    let mut octets = random.octets(count);
    if random.percent(75) {
        octets[0] = draw_kind(random);
    }
    (octets, random.pick(&[4, 13, 14, 26, 64, 101]))
}

/// Right outer length, anything in the body.
fn noisy_body(random: &mut Random) -> (Vec<u8>, u8) {
    let count = random.below(24);
    let mut body = random.octets(count);
    if random.percent(80) && count > 0 {
        body[0] = 0xCF;
    }
    let forms = draw_forms(random);
    let field = random.pick(forms).octets(count);
    let octets = [vec![draw_kind(random)], field, body].concat();
    (octets, random.pick(&[4, 13, 14, 26, 64, 101]))
}

/// Anything in the set, all octets with the class bits of a parameter.
fn noisy_set(random: &mut Random) -> (Vec<u8>, u8) {
    let mut draft = draft(random);
    let mut parameters = Vec::new();
    for _ in 0..random.between(1, 12) {
        let drawn = draw_named(random, 0);
        let mut one = element(random, drawn);
        one.identifier = vec![random.octet() & 0x3F | 0x80];
        one.length = draft.draw_length(random);
        one.contents.truncate(4);
        parameters.push(one);
    }
    draft.parameters = parameters;
    finished(&draft)
}
