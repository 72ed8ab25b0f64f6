//! Whole cases for the writer.

use super::{draw_id_count, draw_named, draw_of_any_size, draw_of_wrong_size, draw_other};
use super::{draw_parameters, draw_rowless, draw_subject, draw_wrong_size, members};
use super::{read_case, Drawn, Subject, FILLER};
use crate::random::Random;
use crate::reader::{self, Accepted, ENTRY_NUMBERS, TABLE_NUMBERS};
use crate::rows::{sizes, Row, ROWS};
use crate::types::REJECT;
use crate::writer::{self, Head};

/// What a call of the writer takes; the output's octets before the call
/// follow from their index.
pub struct WriteCase {
    pub head: Head,
    pub entries: usize,
    pub table: Vec<u16>,
    pub source: Vec<u8>,
    pub output: usize,
}

pub(super) type Entry = [u16; ENTRY_NUMBERS];

/// The place is put in when the table is made, after all damages.
fn entry(number: u16, constructor: bool, start: u16, length: u16) -> Entry {
    [number, u16::from(constructor), start, length, 0]
}

/// A case while it is drawn.
#[derive(Clone)]
pub(super) struct Draft {
    row: &'static Row,
    pub head: Head,
    pub list: Vec<Entry>,
    pub source: Vec<u8>,
    /// An entry count other than the list's.
    claimed: Option<usize>,
    /// Numbers kept of each entry.
    width: usize,
    /// Numbers missing at the table's end, or in addition behind it.
    missing: usize,
    more: usize,
}

type Damage = fn(&mut Random, &mut Draft);

/// Some stand more than once to be met more often.
const DAMAGES: [Damage; 40] = [
    wrong_type,
    wrong_id_count,
    wrong_id_count,
    claim_other,
    claim_huge,
    short_table,
    short_table,
    no_places,
    no_table,
    number_over,
    form_over,
    contents_just_past,
    contents_just_past,
    contents_far_past,
    start_past,
    start_at_end,
    short_source,
    no_row,
    no_row,
    repeat_any,
    repeat_any,
    repeat_any,
    repeat_any,
    drop_one,
    drop_one,
    drop_one,
    twin_instead,
    every_member,
    every_member,
    every_member,
    no_member,
    no_member,
    twins_of_members,
    wrong_size,
    wrong_size,
    wrong_size,
    wrong_sizes,
    wrong_size_and_more,
    overlapping,
    crowd,
];

/// One in ten is what a reading gave.
pub fn write_case(random: &mut Random) -> WriteCase {
    if random.percent(10) {
        return as_read(random);
    }
    if random.percent(3) {
        return of_any_size(random);
    }
    let subject = draw_subject(random);
    let mut draft = Draft::valid(random, subject);
    match random.below(2000) {
        0..=699 => {}
        700..=1799 => damage(random, &mut draft),
        1800..=1829 => crowd(random, &mut draft),
        1830..=1879 => sized(random, &mut draft),
        1880..=1909 => sized_large(random, &mut draft),
        1910..=1949 => beyond_65535(random, &mut draft),
        1950..=1989 => many_long(random, &mut draft),
        1990..=1998 => many_long_damaged(random, &mut draft),
        _ => longest(random, &mut draft),
    }
    draft.finish(random)
}

/// What was read of a component, which may be padded, is written again from
/// the component itself.
fn as_read(random: &mut Random) -> WriteCase {
    loop {
        let case = read_case(random);
        let mut table = vec![0; TABLE_NUMBERS];
        if let Ok(accepted) = reader::read(&case.component, case.specifier, &mut table) {
            table.truncate(ENTRY_NUMBERS * accepted.all);
            return again(random, &accepted, table, case.component);
        }
    }
}

/// Into as many octets as the component has, as many as its shortest form
/// needs, or one fewer than either.
fn again(random: &mut Random, accepted: &Accepted, table: Vec<u16>, source: Vec<u8>) -> WriteCase {
    let head = Head::of(accepted);
    let refusal = writer::write(head, accepted.all, &table, &source, &mut []);
    let needed = refusal.expect_err("no output").detail as usize;
    let less = random.pick(&[0, 0, 1]);
    WriteCase {
        head,
        entries: accepted.all,
        output: random.pick(&[source.len(), needed]) - less,
        table,
        source,
    }
}

/// Every row with every parameter of fixed size, of right and wrong sizes.
fn of_any_size(random: &mut Random) -> WriteCase {
    let row = &ROWS[random.below(ROWS.len())];
    let mut draft = Draft::valid(random, Subject::of_row(row));
    let drawn = draw_of_any_size(random, row);
    draft.instead(random, drawn);
    draft.finish(random)
}

/// Mostly one, sometimes more, for the order among the numbers.
pub(super) fn damage(random: &mut Random, draft: &mut Draft) {
    random.pick(&DAMAGES)(random, draft);
    while random.percent(30) {
        random.pick(&DAMAGES)(random, draft);
    }
}

impl Draft {
    pub fn valid(random: &mut Random, subject: Subject) -> Draft {
        let lead = random.below(6);
        let mut draft = Draft {
            row: subject.row,
            head: draw_head(random, subject),
            list: Vec::new(),
            source: random.octets(lead),
            claimed: None,
            width: ENTRY_NUMBERS,
            missing: 0,
            more: 0,
        };
        for drawn in draw_parameters(random, subject) {
            draft.append(random, drawn);
        }
        if random.percent(10) {
            draft.more = random.between(1, 9);
        }
        draft
    }

    /// The contents go to the end of the source.
    fn append(&mut self, random: &mut Random, drawn: Drawn) {
        let start = self.source.len() as u16;
        let contents = random.octets(drawn.length);
        self.source.extend(contents);
        let length = drawn.length as u16;
        self.list
            .push(entry(drawn.number, drawn.constructor, start, length));
    }

    /// In place of what stands there with the same identifier, or added.
    fn instead(&mut self, random: &mut Random, drawn: Drawn) {
        let alike = [drawn.number, u16::from(drawn.constructor)];
        let standing = self.list.iter().position(|one| one[..2] == alike);
        self.append(random, drawn);
        if let Some(at) = standing {
            self.list.swap_remove(at);
        }
    }

    fn any(&mut self, random: &mut Random) -> Option<&mut Entry> {
        let count = self.list.len();
        (count > 0).then(|| &mut self.list[random.below(count)])
    }

    pub fn entries(&self) -> usize {
        self.claimed.unwrap_or(self.list.len())
    }

    fn table(&self, random: &mut Random) -> Vec<u16> {
        let placed = with_places(random, &self.list);
        let kept = placed.iter().map(|entry| &entry[..self.width]);
        let mut table = kept.collect::<Vec<_>>().concat();
        table.truncate(table.len().saturating_sub(self.missing));
        for _ in 0..self.more {
            table.push(random.draw() as u16);
        }
        table
    }

    /// The octets needed, as far as the writer gets to counting them.
    fn needed(&self, table: &[u16]) -> Option<usize> {
        match writer::write(self.head, self.entries(), table, &self.source, &mut []) {
            Err(refusal) if refusal.number == 15 || refusal.number == 17 => {
                Some(refusal.detail as usize)
            }
            _ => None,
        }
    }

    /// Changes the filler's length until the writer needs the target, or
    /// comes near it; the filler takes its contents from the source's start.
    fn fit(&mut self, target: usize) {
        let at = self.list.len() - 1;
        for _ in 0..6 {
            let table = self.list.concat();
            let now = self.needed(&table).unwrap_or(target);
            let wanted = (usize::from(self.list[at][3]) + target).saturating_sub(now);
            self.list[at][3] = wanted.min(self.source.len()) as u16;
        }
    }

    fn finish(self, random: &mut Random) -> WriteCase {
        let table = self.table(random);
        let output = match self.needed(&table) {
            Some(needed) => output_length(random, needed.min(4200)),
            None => random.below(80),
        };
        WriteCase {
            head: self.head,
            entries: self.entries(),
            table,
            source: self.source,
            output,
        }
    }
}

/// The code's second octet is anything where the writer does not look at it.
fn draw_head(random: &mut Random, subject: Subject) -> Head {
    let [first, second] = subject.code;
    let unused = subject.kind.octet != REJECT && random.percent(70);
    Head {
        kind: subject.kind.octet,
        id_count: draw_id_count(random, subject.kind) as u8,
        id_first: random.octet(),
        id_second: random.octet(),
        code: [first, if unused { random.octet() } else { second }],
    }
}

/// Places of all kinds, as the writer ignores them: in some tables one kind
/// for all entries, in most each entry its own.
pub(super) fn with_places(random: &mut Random, list: &[Entry]) -> Vec<Entry> {
    let same = random.percent(40).then(|| random.pick(&PLACES));
    let mut list = list.to_vec();
    for entry in &mut list {
        let kind = same.unwrap_or_else(|| random.pick(&PLACES));
        entry[4] = kind(random, entry);
    }
    list
}

type Place = fn(&mut Random, &Entry) -> u16;

const PLACES: [Place; 6] = [
    |_, _| 0,
    |_, _| u16::MAX,
    |_, entry| right_place(entry),
    |random, entry| right_place(entry).wrapping_add(random.pick(&[1, 2, 3, u16::MAX])),
    |random, _| random.pick(&[4095, 4096, 4097]),
    |random, _| random.draw() as u16,
];

/// Where a reader that found the contents at this start found the identifier,
/// if the length was not padded.
fn right_place(entry: &Entry) -> u16 {
    let [number, _, start, length, _] = *entry;
    let octets = writer::identifier_size(number) + writer::field_size(usize::from(length));
    start.wrapping_sub(octets as u16)
}

/// Just long enough, longer, one octet short, or far too short.
pub(super) fn output_length(random: &mut Random, needed: usize) -> usize {
    match random.below(100) {
        0..=59 => needed,
        60..=84 => needed + random.between(1, 20),
        85..=93 => needed - 1,
        94..=95 => 0,
        _ => random.below(needed),
    }
}

fn wrong_type(random: &mut Random, draft: &mut Draft) {
    draft.head.kind = random.pick(&[
        0xE8, 0xED, 0xC9, 0xCB, 0x6C, 0x30, 0x00, 0xFF, 0xE9, 0xEA, 0xEB, 0xEC,
    ]);
}

fn wrong_id_count(random: &mut Random, draft: &mut Draft) {
    draft.head.id_count = random.pick(&[0, 1, 2, 3, 3, 4, 127, 128, 255]);
}

/// A count that the table may or may not hold.
fn claim_other(random: &mut Random, draft: &mut Draft) {
    let count = draft.list.len();
    draft.claimed = Some(match random.below(4) {
        0 => count + 1,
        1 => count.saturating_sub(1),
        2 => random.below(count + 1),
        _ => random.pick(&[63, 64, 65, 66]),
    });
}

/// Counts of which five or four times would wrap to something small.
fn claim_huge(random: &mut Random, draft: &mut Draft) {
    let fifth = usize::MAX / ENTRY_NUMBERS + 1;
    let quarter = 1 << (usize::BITS - 2);
    let counts = [
        65,
        256,
        65536,
        fifth,
        fifth + 1,
        quarter,
        quarter + 1,
        usize::MAX,
        usize::MAX - 1,
    ];
    draft.claimed = Some(random.pick(&counts));
}

fn short_table(random: &mut Random, draft: &mut Draft) {
    draft.more = 0;
    draft.missing = random.pick(&[1, 1, 1, 2, 3, 4, 5, 6]);
}

/// Entries of four numbers, without their places.
fn no_places(random: &mut Random, draft: &mut Draft) {
    draft.more = random.pick(&[0, 0, 0, 1]);
    draft.width = ENTRY_NUMBERS - 1;
}

fn no_table(_: &mut Random, draft: &mut Draft) {
    draft.more = 0;
    draft.missing = usize::MAX;
}

fn number_over(random: &mut Random, draft: &mut Draft) {
    let number = random.pick(&[16384, 16384, 16385, 20000, 32768, 65535]);
    if let Some(entry) = draft.any(random) {
        entry[0] = number;
    }
}

fn form_over(random: &mut Random, draft: &mut Draft) {
    let form = random.pick(&[2, 2, 3, 32, 255, 256, 257, 65535]);
    if let Some(entry) = draft.any(random) {
        entry[1] = form;
    }
}

/// One octet more than the source has.
fn contents_just_past(random: &mut Random, draft: &mut Draft) {
    let count = draft.source.len() as u16;
    let start = random.below(draft.source.len() + 1) as u16;
    if let Some(entry) = draft.any(random) {
        entry[2] = start;
        entry[3] = count - start + 1;
    }
}

/// Sums at and over 65,536 too, which 16 bits would wrap.
fn contents_far_past(random: &mut Random, draft: &mut Draft) {
    let (start, length) = match random.below(5) {
        0 => (65535, 65535),
        1 => (65535, 1),
        2 => (random.below(20) as u16, 65535),
        3 => (65535, 0),
        _ => (random.draw() as u16, random.draw() as u16),
    };
    if let Some(entry) = draft.any(random) {
        entry[2] = start;
        entry[3] = length;
    }
}

/// No octets, but from a place past the source: outside as well.
fn start_past(random: &mut Random, draft: &mut Draft) {
    let start = (draft.source.len() + random.between(1, 3)) as u16;
    if let Some(entry) = draft.any(random) {
        entry[2] = start;
        entry[3] = 0;
    }
}

/// No octets at the source's very end: this fits, though it may be a wrong
/// size.
fn start_at_end(random: &mut Random, draft: &mut Draft) {
    let start = draft.source.len() as u16;
    if let Some(entry) = draft.any(random) {
        entry[2] = start;
        entry[3] = 0;
    }
}

fn short_source(random: &mut Random, draft: &mut Draft) {
    let count = draft.source.len();
    let kept = if random.percent(50) {
        count.saturating_sub(1)
    } else {
        random.below(count + 1)
    };
    draft.source.truncate(kept);
}

fn no_row(random: &mut Random, draft: &mut Draft) {
    draft.head.code[0] = draw_rowless(random, draft.head.kind);
}

fn insert(random: &mut Random, draft: &mut Draft, entry: Entry) {
    let at = random.below(draft.list.len() + 1);
    draft.list.insert(at, entry);
}

/// Puts a parameter anywhere among the others.
fn add(random: &mut Random, draft: &mut Draft, drawn: Drawn) {
    draft.append(random, drawn);
    let entry = draft.list.pop().expect("just put there");
    insert(random, draft, entry);
}

/// At times with contents of another size.
fn repeat_any(random: &mut Random, draft: &mut Draft) {
    for _ in 0..random.between(1, 2) {
        if let Some(entry) = draft.any(random) {
            let mut again = *entry;
            again[3] = again[3].min(random.below(12) as u16);
            insert(random, draft, again);
        }
    }
}

fn drop_one(random: &mut Random, draft: &mut Draft) {
    for _ in 0..random.between(1, 2) {
        if !draft.list.is_empty() {
            let at = random.below(draft.list.len());
            draft.list.remove(at);
        }
    }
}

fn twin_instead(random: &mut Random, draft: &mut Draft) {
    if let Some(entry) = draft.any(random) {
        entry[1] ^= 1;
    }
}

/// Adds the members of a choice (14) or of a group that do not occur.
fn every_member(random: &mut Random, draft: &mut Draft) {
    for number in members(draft.row) {
        if !draft.list.iter().any(|one| one[..2] == [*number, 0]) {
            let drawn = draw_named(random, *number);
            add(random, draft, drawn);
        }
    }
}

fn is_member(row: &Row, entry: &Entry) -> bool {
    entry[1] == 0 && members(row).contains(&entry[0])
}

/// Without any of them (13), and at times without another, which may be asked
/// for earlier.
fn no_member(random: &mut Random, draft: &mut Draft) {
    let row = draft.row;
    draft.list.retain(|one| !is_member(row, one));
    if random.percent(40) {
        drop_one(random, draft);
    }
}

fn twins_of_members(_: &mut Random, draft: &mut Draft) {
    for one in &mut draft.list {
        if is_member(draft.row, one) {
            one[1] = 1;
        }
    }
}

/// A primitive one of fixed size.
fn is_sized(entry: &Entry) -> bool {
    entry[1] == 0 && sizes(entry[0]).is_some()
}

/// One of fixed size gets another (26); where none stands there, one is added
/// that the row may not name, and then it is no fault.
pub(super) fn wrong_size(random: &mut Random, draft: &mut Draft) {
    let each = draft.list.iter().enumerate();
    let sized: Vec<usize> = each
        .filter_map(|(at, one)| is_sized(one).then_some(at))
        .collect();
    if sized.is_empty() {
        let drawn = draw_of_wrong_size(random);
        return add(random, draft, drawn);
    }
    let at = random.pick(&sized);
    let length = draw_wrong_size(random, draft.list[at][0]);
    let start = draft.source.len();
    lengthen(random, draft, start + length);
    draft.list[at][2] = start as u16;
    draft.list[at][3] = length as u16;
}

/// Mostly of several entries: the earliest is given.
fn wrong_sizes(random: &mut Random, draft: &mut Draft) {
    for _ in 0..random.between(2, 4) {
        wrong_size(random, draft);
    }
}

/// Beside what is asked before it, 12, and behind it, 13 and 14.
fn wrong_size_and_more(random: &mut Random, draft: &mut Draft) {
    wrong_size(random, draft);
    random.pick::<Damage>(&[repeat_any, drop_one, every_member, no_member])(random, draft);
}

/// Contents anywhere in the source, over one another; where the size is fixed
/// it stays.
fn overlapping(random: &mut Random, draft: &mut Draft) {
    let count = draft.source.len();
    for entry in &mut draft.list {
        if is_sized(entry) {
            let last = count.saturating_sub(usize::from(entry[3]));
            entry[2] = random.below(last + 1) as u16;
            continue;
        }
        let start = random.below(count + 1);
        entry[2] = start as u16;
        entry[3] = random.below((count - start).min(12) + 1) as u16;
    }
}

/// 63 to 66 entries.
pub(super) fn crowd(random: &mut Random, draft: &mut Draft) {
    let count = random.pick(&[63, 64, 64, 65, 66]);
    while draft.list.len() < count {
        let mut drawn = draw_other(random, draft.row);
        drawn.length = drawn.length.min(4);
        draft.append(random, drawn);
    }
    if random.percent(70) {
        random.shuffle(&mut draft.list);
    }
}

/// A source of at least so many octets.
pub(super) fn lengthen(random: &mut Random, draft: &mut Draft, count: usize) {
    let more = count.saturating_sub(draft.source.len());
    let octets = random.octets(more);
    draft.source.extend(octets);
}

/// A last entry that the row does not name.
pub(super) fn add_filler(random: &mut Random, draft: &mut Draft) {
    draft.list.push(entry(FILLER, random.percent(50), 0, 0));
}

/// Edges of the length forms.
fn sized(random: &mut Random, draft: &mut Draft) {
    lengthen(random, draft, 270);
    add_filler(random, draft);
    let target = match random.below(2) {
        0 => random.between(124, 145),
        _ => random.between(252, 280),
    };
    draft.fit(target);
}

/// Around 4,096 octets, mostly of many entries over one short source.
fn sized_large(random: &mut Random, draft: &mut Draft) {
    let target = random.pick(&[4094, 4095, 4096, 4096, 4097, 4097, 4098]);
    if random.percent(80) {
        lengthen(random, draft, 300);
        fill_with(random, draft, 16, 230);
    } else {
        lengthen(random, draft, 4200);
    }
    add_filler(random, draft);
    draft.fit(target);
    if random.percent(15) {
        damage(random, draft);
    }
}

/// Fillers of this length that all take the source's start.
fn fill_with(random: &mut Random, draft: &mut Draft, count: usize, length: u16) {
    for _ in 0..count {
        draft
            .list
            .push(entry(FILLER, random.percent(50), 0, length));
    }
}

/// The set's or the body's length around 65,535: fields of 3 and of 4.
fn beyond_65535(random: &mut Random, draft: &mut Draft) {
    draft.list.truncate(12);
    lengthen(random, draft, 1500);
    fill_with(random, draft, 48, 1340);
    add_filler(random, draft);
    draft.fit(random_target(random));
}

fn random_target(random: &mut Random) -> usize {
    if random.percent(90) {
        random.between(65530, 65570)
    } else {
        random.between(60000, 66000)
    }
}

/// Entries over a source of a few hundred octets, of any sum over 4,096.
pub(super) fn many_long(random: &mut Random, draft: &mut Draft) {
    let length = random.between(100, 700);
    lengthen(random, draft, length);
    while draft.list.len() < 64 && random.percent(96) {
        let number = random.pick(&[FILLER, 30, 31, 127, 128, 16383]);
        draft.list.push(entry(number, true, 0, length as u16));
    }
}

fn many_long_damaged(random: &mut Random, draft: &mut Draft) {
    many_long(random, draft);
    damage(random, draft);
}

/// Up to 64 entries of 65,535 octets. The source is that long, so these
/// cases stay few.
fn longest(random: &mut Random, draft: &mut Draft) {
    lengthen(random, draft, 65535);
    let count = random.pick(&[1, 2, 63, 64]);
    draft.list.clear();
    fill_with(random, draft, count, 65535);
    if random.percent(20) {
        draft.list[0][2] = 1;
    }
}
