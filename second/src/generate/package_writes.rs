//! Whole cases for the writer of packages.

use super::package_draft::{draw_carried, draw_count, draw_of_a_line};
use super::package_reads::package_read_case;
use super::write_cases::{self, Draft, Entry};
use crate::cases::table_before;
use crate::package::reading::{self, Accepted};
use crate::package::writing::{self, Package};
use crate::package::{id_octets, Specifiers, CONVERSATION, KINDS};
use crate::package::{MOST_COMPONENTS, QUERY, RESPONSE, TABLE_NUMBERS};
use crate::random::Random;
use crate::reader::{self, ENTRY_NUMBERS};
use crate::types::RESULT;

/// What a call of the package writer takes; the output's octets before the
/// call follow from their index.
pub struct PackageWriteCase {
    pub kind: u8,
    pub ids: Vec<u8>,
    pub summaries: Vec<u64>,
    pub specifiers: Specifiers,
    /// How many numbers the table has.
    pub numbers: usize,
    /// The leading numbers of each component's part; all others follow from
    /// their index, as before a reading.
    pub runs: Vec<Vec<u16>>,
    pub source: Vec<u8>,
    pub output: usize,
}

impl PackageWriteCase {
    pub fn table(&self) -> Vec<u16> {
        let mut table = table_before(self.numbers);
        let parts = table.chunks_mut(reader::TABLE_NUMBERS);
        for (part, run) in parts.zip(&self.runs) {
            let each = part.iter_mut().zip(run);
            each.for_each(|(number, given)| *number = *given);
        }
        table
    }

    pub fn package<'a>(&'a self, table: &'a [u16]) -> Package<'a> {
        Package {
            kind: self.kind,
            ids: &self.ids,
            summaries: &self.summaries,
            specifiers: self.specifiers,
            table,
            source: &self.source,
        }
    }

    /// The octets of the whole package, as far as the writer counts them; not
    /// those of a component that is too long by itself.
    fn needed(&self) -> Option<usize> {
        match writing::write(self.package(&self.table()), &mut []) {
            Err(refusal) if refusal.number == 17 || refusal.why == "package" => {
                Some(refusal.detail as usize)
            }
            _ => None,
        }
    }
}

/// A component while it is drawn, with the caller's specifier for it.
#[derive(Clone)]
struct Component {
    draft: Draft,
    specifier: u8,
}

/// A case while it is drawn.
struct PackageDraft {
    kind: u8,
    ids: Vec<u8>,
    components: Vec<Component>,
    /// The component whose contents end with the source, so that what runs
    /// past them runs past the source.
    last: usize,
    numbers: usize,
}

type Damage = fn(&mut Random, &mut PackageDraft);

/// Some stand more than once to be met more often.
const DAMAGES: [Damage; 26] = [
    short_table,
    no_package_type,
    other_package_type,
    wrong_ids_count,
    wrong_ids_count,
    no_component,
    nine_or_more,
    nine_or_more,
    retyped,
    retyped,
    one_damaged,
    one_damaged,
    one_damaged,
    one_damaged,
    one_damaged,
    one_damaged,
    two_damaged,
    wrong_size_inside,
    wrong_size_inside,
    no_type_inside,
    too_long_inside,
    not_carried,
    not_carried,
    not_carried,
    not_carried_then_damaged,
    specifiers_moved,
];

/// One in ten is what a reading gave.
pub fn package_write_case(random: &mut Random) -> PackageWriteCase {
    if random.percent(10) {
        return as_read(random);
    }
    if random.percent(4) {
        return PackageDraft::of_a_line(random).finish(random);
    }
    let mut draft = PackageDraft::valid(random);
    match random.below(1000) {
        0..=399 => {}
        400..=849 => damage(random, &mut draft),
        850..=869 => crowded(random, &mut draft),
        870..=909 => sized(random, &mut draft),
        910..=984 => sized_large(random, &mut draft),
        _ => too_long_together(random, &mut draft),
    }
    draft.finish(random)
}

/// What was read of a package, which may be padded, is written again from the
/// package itself.
fn as_read(random: &mut Random) -> PackageWriteCase {
    loop {
        let case = package_read_case(random);
        let mut table = vec![0; TABLE_NUMBERS];
        let mut summaries = vec![0; MOST_COMPONENTS];
        let answer = reading::read(&case.package, case.specifiers, &mut table, &mut summaries);
        if let Ok(accepted) = answer {
            summaries.truncate(accepted.components.len());
            return again(random, &accepted, summaries, case.package, case.specifiers);
        }
    }
}

/// Into as many octets as the package has, as many as its shortest form
/// needs, or one fewer than either.
fn again(
    random: &mut Random,
    accepted: &Accepted,
    summaries: Vec<u64>,
    source: Vec<u8>,
    specifiers: Specifiers,
) -> PackageWriteCase {
    let mut case = PackageWriteCase {
        kind: accepted.kind,
        ids: source[accepted.ids..][..accepted.id_count].to_vec(),
        summaries,
        specifiers,
        numbers: TABLE_NUMBERS,
        runs: accepted
            .components
            .iter()
            .map(|one| one.numbers.clone())
            .collect(),
        output: 0,
        source,
    };
    let needed = case.needed().expect("what was read can be written");
    let less = random.pick(&[0, 0, 1]);
    case.output = random.pick(&[case.source.len(), needed]) - less;
    case
}

/// Mostly one, sometimes more, for the order among the numbers.
fn damage(random: &mut Random, draft: &mut PackageDraft) {
    random.pick(&DAMAGES)(random, draft);
    while random.percent(25) {
        random.pick(&DAMAGES)(random, draft);
    }
}

fn draw_component(random: &mut Random, package: u8) -> Component {
    let (subject, specifier) = draw_carried(random, package);
    let draft = Draft::valid(random, subject);
    Component { draft, specifier }
}

impl Component {
    /// A RESULT is judged by the caller's specifier, which a damage changes
    /// as it would the code.
    fn specifier(&self) -> u8 {
        if self.draft.head.kind == RESULT {
            self.draft.head.code[0]
        } else {
            self.specifier
        }
    }

    /// Anything where the writer does not look: in the answer, in the count
    /// of the named ones, and in a RESULT's code.
    fn summary(&self, random: &mut Random) -> u64 {
        let head = self.draft.head;
        let [mut first, mut second] = head.code;
        if head.kind == RESULT && random.percent(60) {
            [first, second] = [random.octet(), random.octet()];
        }
        let id_count = u16::from(head.id_count.min(3));
        let entries = self.draft.entries().min(127) as u16;
        let named = random.below(128) as u16;
        let [low, high] = (16384 * id_count + 128 * entries + named).to_le_bytes();
        let answer = random.pick(&[0, 0, 0, 22, 255]);
        let ids = [head.id_first, head.id_second];
        u64::from_le_bytes([answer, head.kind, ids[0], ids[1], first, second, low, high])
    }

    /// Its entries, with starts in a source that has its own from here on.
    fn entries(&self, from: usize) -> Vec<Entry> {
        let mut list = self.draft.list.clone();
        list.truncate(reader::TABLE_NUMBERS / ENTRY_NUMBERS);
        for entry in &mut list {
            entry[2] = entry[2].saturating_add(from as u16);
        }
        list
    }
}

impl PackageDraft {
    fn valid(random: &mut Random) -> PackageDraft {
        let kind = random.pick(&[QUERY, QUERY, RESPONSE, RESPONSE, CONVERSATION]);
        let count = draw_count(random);
        PackageDraft {
            kind,
            ids: random.octets(id_octets(kind).expect("a package type")),
            components: (0..count).map(|_| draw_component(random, kind)).collect(),
            last: count - 1,
            numbers: draw_numbers(random),
        }
    }

    /// As for the reader: each shows a cell of Table 2.
    fn of_a_line(random: &mut Random) -> PackageDraft {
        let (subject, specifier) = draw_of_a_line(random);
        let draft = Draft::valid(random, subject);
        let kind = random.pick(&KINDS);
        PackageDraft {
            kind,
            ids: random.octets(id_octets(kind).expect("a package type")),
            components: vec![Component { draft, specifier }],
            last: 0,
            numbers: TABLE_NUMBERS,
        }
    }

    /// All sources behind one another, and where each begins.
    fn source(&self) -> (Vec<u8>, Vec<usize>) {
        let count = self.components.len();
        let mut order: Vec<usize> = (0..count).filter(|at| *at != self.last).collect();
        order.extend((self.last < count).then_some(self.last));
        let mut source = Vec::new();
        let mut starts = vec![0; count];
        for at in order {
            starts[at] = source.len();
            source.extend(&self.components[at].draft.source);
        }
        (source, starts)
    }

    fn case(&self, random: &mut Random) -> PackageWriteCase {
        let (source, starts) = self.source();
        let components = self.components.iter();
        let lists = components
            .clone()
            .zip(starts)
            .map(|(one, from)| one.entries(from));
        let lists: Vec<Vec<Entry>> = lists.collect();
        let mut specifiers = [(); MOST_COMPONENTS].map(|_| random.octet());
        for (specifier, one) in specifiers.iter_mut().zip(components.clone()) {
            *specifier = one.specifier();
        }
        let runs = lists
            .iter()
            .map(|list| write_cases::with_places(random, list).concat());
        PackageWriteCase {
            kind: self.kind,
            ids: self.ids.clone(),
            runs: runs.collect(),
            summaries: components.map(|one| one.summary(random)).collect(),
            specifiers,
            numbers: self.numbers,
            source,
            output: 0,
        }
    }

    /// Lengthens the last entry of a component until the package needs the
    /// target, or comes near it; its contents are the source's start.
    fn fit(&mut self, at: usize, target: usize) {
        for _ in 0..6 {
            let now = self.case(&mut Random::new(0)).needed().unwrap_or(target);
            let draft = &mut self.components[at].draft;
            let room = draft.source.len();
            if let Some(entry) = draft.list.last_mut() {
                let wanted = (usize::from(entry[3]) + target).saturating_sub(now);
                entry[3] = wanted.min(room) as u16;
            }
        }
    }

    fn finish(self, random: &mut Random) -> PackageWriteCase {
        let mut case = self.case(random);
        case.output = match case.needed() {
            Some(needed) => write_cases::output_length(random, needed.min(4200)),
            None => random.below(200),
        };
        case
    }

    fn any(&mut self, random: &mut Random) -> Option<usize> {
        let count = self.components.len();
        (count > 0).then(|| random.below(count))
    }

    fn fill_up(&mut self, random: &mut Random, count: usize) {
        while self.components.len() < count {
            let one = draw_component(random, self.kind);
            self.components.push(one);
        }
    }
}

fn draw_numbers(random: &mut Random) -> usize {
    match random.below(100) {
        0..=95 => TABLE_NUMBERS,
        _ => TABLE_NUMBERS + random.between(1, 320),
    }
}

fn short_table(random: &mut Random, draft: &mut PackageDraft) {
    draft.numbers = match random.below(6) {
        0 | 1 => TABLE_NUMBERS - 1,
        2 => 8 * 256,
        3 => 320 * draft.components.len().min(7),
        4 => 0,
        _ => random.below(TABLE_NUMBERS),
    };
}

fn no_package_type(random: &mut Random, draft: &mut PackageDraft) {
    draft.kind = random.pick(&[0xE0, 0xE7, 0xE8, 0xE9, 0xF6, 0xC2, 0x62, 0x00, 0xFF]);
}

/// The count of ID octets stays, and fits or not.
fn other_package_type(random: &mut Random, draft: &mut PackageDraft) {
    draft.kind = random.pick(&KINDS);
}

fn wrong_ids_count(random: &mut Random, draft: &mut PackageDraft) {
    let count = random.pick(&[0, 0, 1, 3, 4, 5, 7, 8, 9, 12, 255, 256, 260]);
    draft.ids = random.octets(count);
}

fn no_component(_: &mut Random, draft: &mut PackageDraft) {
    draft.components.clear();
}

/// Counts too of which the low octet alone would do.
fn nine_or_more(random: &mut Random, draft: &mut PackageDraft) {
    let count = random.pick(&[9, 9, 9, 10, 12, 16]);
    draft.fill_up(random, count);
    if random.percent(10) {
        let count = random.pick(&[256, 257, 264]);
        let first = draft.components[0].clone();
        draft.components.resize(count, first);
        draft.components[1..]
            .iter_mut()
            .for_each(|one| one.draft.source.clear());
    }
}

/// With ID octets that fit: mostly a package that does not carry what is in
/// it.
fn retyped(random: &mut Random, draft: &mut PackageDraft) {
    draft.kind = random.pick(&KINDS);
    let count = id_octets(draft.kind).expect("a package type");
    draft.ids = random.octets(count);
}

fn damage_at(random: &mut Random, draft: &mut PackageDraft, at: usize) {
    draft.last = at;
    write_cases::damage(random, &mut draft.components[at].draft);
}

fn one_damaged(random: &mut Random, draft: &mut PackageDraft) {
    if let Some(at) = draft.any(random) {
        damage_at(random, draft, at);
    }
}

fn two_damaged(random: &mut Random, draft: &mut PackageDraft) {
    one_damaged(random, draft);
    one_damaged(random, draft);
}

/// In one or two of them, of which the first is given.
fn wrong_size_inside(random: &mut Random, draft: &mut PackageDraft) {
    for _ in 0..random.between(1, 2) {
        if let Some(at) = draft.any(random) {
            write_cases::wrong_size(random, &mut draft.components[at].draft);
        }
    }
}

fn no_type_inside(random: &mut Random, draft: &mut PackageDraft) {
    let octet = random.pick(&[0xE8, 0xED, 0xEE, 0x00, 0x30, 0xFF]);
    if let Some(at) = draft.any(random) {
        draft.components[at].draft.head.kind = octet;
    }
}

/// A component's own 15.
fn too_long_inside(random: &mut Random, draft: &mut PackageDraft) {
    if let Some(at) = draft.any(random) {
        write_cases::many_long(random, &mut draft.components[at].draft);
    }
}

fn replace(random: &mut Random, draft: &mut PackageDraft, at: usize) {
    let package = random.pick(&[QUERY, RESPONSE, RESPONSE, CONVERSATION]);
    draft.components[at] = draw_component(random, package);
}

fn not_carried(random: &mut Random, draft: &mut PackageDraft) {
    if let Some(at) = draft.any(random) {
        replace(random, draft, at);
    }
}

/// 24 comes behind the own refusal of a later one.
fn not_carried_then_damaged(random: &mut Random, draft: &mut PackageDraft) {
    draft.fill_up(random, 2);
    let count = draft.components.len();
    let first = random.below(count - 1);
    let second = random.between(first + 1, count - 1);
    replace(random, draft, first);
    damage_at(random, draft, second);
}

/// Table 2 asks an INVOKE by its code and the others by the caller's, each
/// its own.
fn specifiers_moved(random: &mut Random, draft: &mut PackageDraft) {
    let mut specifiers: Vec<u8> = draft.components.iter().map(|one| one.specifier).collect();
    if random.percent(50) {
        specifiers.reverse();
    } else if !specifiers.is_empty() {
        specifiers.rotate_left(1);
    }
    for (one, specifier) in draft.components.iter_mut().zip(specifiers) {
        one.specifier = specifier;
        if one.draft.head.kind == RESULT {
            one.draft.head.code[0] = specifier;
        }
    }
}

/// 63 to 66 entries in one of them.
fn crowded(random: &mut Random, draft: &mut PackageDraft) {
    if let Some(at) = draft.any(random) {
        draft.last = at;
        write_cases::crowd(random, &mut draft.components[at].draft);
    }
}

/// A last entry that no row names, with so many octets to take.
fn add_filler(random: &mut Random, draft: &mut PackageDraft, octets: usize) -> usize {
    let at = random.below(draft.components.len());
    let one = &mut draft.components[at].draft;
    write_cases::lengthen(random, one, octets);
    write_cases::add_filler(random, one);
    at
}

/// Edges of the length forms, of the package, its body and its sequence.
fn sized(random: &mut Random, draft: &mut PackageDraft) {
    draft.components.truncate(2);
    let at = add_filler(random, draft, 280);
    let edge = random.pick(&[127, 128, 255, 256]);
    draft.fit(at, edge + random.between(0, 18));
}

/// Around 4,096 octets.
fn sized_large(random: &mut Random, draft: &mut PackageDraft) {
    let at = add_filler(random, draft, 4200);
    draft.fit(at, random.pick(&[4094, 4095, 4096, 4096, 4097, 4097, 4098]));
    if random.percent(15) {
        damage(random, draft);
    }
}

/// Each component within 4,096 octets, and the package not.
fn too_long_together(random: &mut Random, draft: &mut PackageDraft) {
    let count = random.between(2, MOST_COMPONENTS);
    draft.fill_up(random, count);
    let length = random.pick(&[600, 1300, 2100, 3900]);
    for one in &mut draft.components {
        write_cases::lengthen(random, &mut one.draft, length);
        write_cases::add_filler(random, &mut one.draft);
        let filler = one.draft.list.last_mut().expect("just put there");
        filler[3] = length as u16;
    }
}
