//! Whole cases for the reader of packages.

use super::damage;
use super::draft::Length;
use super::package_damage;
use super::package_draft::{component, draw_count, PackageDraft};
use crate::package::{id_octets, Specifiers, KINDS, MOST_COMPONENTS, TABLE_NUMBERS};
use crate::random::Random;

/// What a call of the package reader takes; the table's numbers and the
/// summaries before the call follow from their index.
pub struct PackageReadCase {
    pub package: Vec<u8>,
    pub specifiers: Specifiers,
    pub numbers: usize,
    pub summaries: usize,
}

pub fn package_read_case(random: &mut Random) -> PackageReadCase {
    let (package, specifiers) = match random.below(1000) {
        0..=349 => finished(&PackageDraft::valid(random)),
        350..=789 => damaged(random),
        790..=829 => finished(&PackageDraft::of_a_line(random)),
        830..=869 => mutated(random),
        870..=899 => truncated(random),
        900..=929 => of_any_type(random),
        930..=949 => sized(random),
        950..=964 => sized_large(random),
        965..=974 => crowd(random),
        975..=979 => (Vec::new(), any_specifiers(random)),
        980..=989 => noise(random),
        _ => noisy_sequence(random),
    };
    PackageReadCase {
        package,
        specifiers,
        numbers: table_length(random),
        summaries: summaries_length(random),
    }
}

/// Most are just long enough; some would be for fewer components, or if an
/// entry had no place.
fn table_length(random: &mut Random) -> usize {
    match random.below(200) {
        0..=183 => TABLE_NUMBERS,
        184..=191 => TABLE_NUMBERS + random.between(1, 320),
        192..=193 => TABLE_NUMBERS - 1,
        194 => TABLE_NUMBERS - 320,
        195 => 8 * 256,
        196 => 320,
        197 => 0,
        _ => random.below(TABLE_NUMBERS),
    }
}

fn summaries_length(random: &mut Random) -> usize {
    match random.below(100) {
        0..=91 => MOST_COMPONENTS,
        92..=95 => random.between(9, 20),
        96..=97 => MOST_COMPONENTS - 1,
        98 => 0,
        _ => random.below(MOST_COMPONENTS),
    }
}

fn finished(draft: &PackageDraft) -> (Vec<u8>, Specifiers) {
    (draft.octets(), draft.specifiers())
}

fn any_specifiers(random: &mut Random) -> Specifiers {
    [(); MOST_COMPONENTS].map(|_| random.octet())
}

/// Mostly one damage, sometimes more, for the order among the faults.
fn damaged(random: &mut Random) -> (Vec<u8>, Specifiers) {
    let mut draft = PackageDraft::valid(random);
    package_damage::apply(random, &mut draft);
    while random.percent(20) {
        package_damage::apply(random, &mut draft);
    }
    finished(&draft)
}

fn mutated(random: &mut Random) -> (Vec<u8>, Specifiers) {
    let (mut octets, specifiers) = finished(&PackageDraft::valid(random));
    damage::mutate(random, &mut octets);
    (octets, specifiers)
}

fn truncated(random: &mut Random) -> (Vec<u8>, Specifiers) {
    let (mut octets, specifiers) = finished(&PackageDraft::valid(random));
    let most = if random.percent(50) {
        octets.len().min(16)
    } else {
        octets.len()
    };
    octets.truncate(random.below(most));
    (octets, specifiers)
}

/// Sound in all but that it may not carry what is in it.
fn of_any_type(random: &mut Random) -> (Vec<u8>, Specifiers) {
    let kind = random.pick(&KINDS);
    let ids = random.octets(id_octets(kind).expect("a package type"));
    let carried = random.pick(&KINDS);
    let count = draw_count(random);
    let components = (0..count).map(|_| component(random, carried)).collect();
    finished(&PackageDraft::of(kind, ids, components))
}

/// Edges of the length forms, for the package, its body and its sequence.
fn sized(random: &mut Random) -> (Vec<u8>, Specifiers) {
    let mut draft = PackageDraft::valid(random);
    draft.components.truncate(2);
    let edge = random.pick(&[126, 127, 128, 129, 254, 255, 256, 257]);
    // The sequence stands 10 to 20 octets behind the package's start.
    let target = edge + random.pick(&[0, 2, 3, 4, 10, 11, 12, 14, 15, 16]);
    let at = random.below(draft.components.len());
    draft.fit(random, at, target);
    finished(&draft)
}

/// Around 4,096 octets with their padding.
fn sized_large(random: &mut Random) -> (Vec<u8>, Specifiers) {
    let mut draft = PackageDraft::valid(random);
    let at = random.below(draft.components.len());
    let target = random.pick(&[4094, 4095, 4096, 4096, 4097, 4097, 4098, 4200, 5000]);
    draft.fit(random, at, target);
    if random.percent(20) {
        package_damage::apply(random, &mut draft);
    }
    finished(&draft)
}

/// Eight components of many parameters, up to 64 each.
fn crowd(random: &mut Random) -> (Vec<u8>, Specifiers) {
    let mut draft = PackageDraft::valid(random);
    let count = random.pick(&[20, 40, 63, 64, 64]);
    for one in &mut draft.components {
        damage::fill_up(random, one, count);
    }
    finished(&draft)
}

fn noise(random: &mut Random) -> (Vec<u8>, Specifiers) {
    let count = random.between(1, 30);
    let mut octets = random.octets(count);
    if random.percent(75) {
        octets[0] = random.pick(&KINDS);
    }
    (octets, any_specifiers(random))
}

/// Anything in a sequence that stands where it must.
fn noisy_sequence(random: &mut Random) -> (Vec<u8>, Specifiers) {
    let mut draft = PackageDraft::valid(random);
    let count = random.below(40);
    draft.sequence_cut = Some(0);
    draft.behind_sequence = random.octets(count);
    draft.sequence_length = Length::Off(random.pick(draft.forms), count as i32);
    if random.percent(50) {
        // Short elements, so that the walk goes some way.
        draft
            .behind_sequence
            .iter_mut()
            .for_each(|octet| *octet %= 4);
    }
    finished(&draft)
}
