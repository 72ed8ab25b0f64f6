//! Parameters of fixed size (26): each of each size, in each row, in either
//! form, read and written, alone and in packages.

use second::cases::{answer_read, answer_write, read_random, write_random};
use second::generate::{read_case, write_case};
use second::package::reading;
use second::package::writing::{self, Package};
use second::package::{self, MOST_COMPONENTS};
use second::reader::{self, ENTRY_NUMBERS, TABLE_NUMBERS};
use second::rows::{self, Identifier, Row, ROWS};
use second::types::{self, ERROR, INVOKE, REJECT, RESULT};
use second::writer::{self, Head};
use std::collections::BTreeMap;

/// The paper's line, with each parameter's number, by name.
const FIXED: [(&str, u16, &[usize]); 8] = [
    ("ESN", 9, &[4]),
    ("MIN", 8, &[5]),
    ("MSCID", 21, &[3]),
    ("InterMSCCircuitID", 6, &[2]),
    ("ServingCellID", 2, &[2]),
    ("TargetCellID", 3, &[2]),
    ("SystemMyTypeCode", 22, &[1]),
    ("ChannelData", 5, &[0, 3]),
];

const SIZES: [usize; 9] = [0, 1, 2, 3, 4, 5, 6, 200, 256 + 4];

fn right(number: u16) -> Option<&'static [usize]> {
    let fixed = FIXED.iter().find(|fixed| fixed.1 == number);
    fixed.map(|(_, _, sizes)| *sizes)
}

/// A parameter: its number, its form, and its octets of contents.
type One = (u16, u16, usize);

fn named(number: u16) -> One {
    (number, 0, right(number).map_or(0, |sizes| sizes[0]))
}

/// The first of each line that must occur.
fn mandatory(row: &Row) -> Vec<One> {
    row.lines().map(|line| named(line[0])).collect()
}

/// Component and entries of these parameters, behind a head of few octets.
struct Made {
    component: Vec<u8>,
    table: Vec<u16>,
    head: Head,
}

fn length(count: usize) -> Vec<u8> {
    let [high, low] = (count as u16).to_be_bytes();
    match count {
        0..0x80 => vec![low],
        0x80..0x100 => vec![0x81, low],
        _ => vec![0x82, high, low],
    }
}

fn element(identifier: &[u8], contents: &[u8]) -> Vec<u8> {
    [identifier, &length(contents.len()), contents].concat()
}

fn identifier(number: u16, form: u16) -> Vec<u8> {
    let first = 0x80 + 0x20 * form as u8;
    match number {
        0..=30 => vec![first + number as u8],
        31..=127 => vec![first + 31, number as u8],
        _ => vec![
            first + 31,
            0x80 + (number / 128) as u8,
            (number % 128) as u8,
        ],
    }
}

fn made(kind: u8, code: [u8; 2], list: &[One]) -> Made {
    let contents = |count: usize| vec![0x77; count];
    let each = list.iter();
    let set = each.map(|one| element(&identifier(one.0, one.1), &contents(one.2)));
    let set = element(&[0xF2], &set.collect::<Vec<_>>().concat());
    let element_of_code = match kind {
        INVOKE => vec![0xD1, 2, 9, code[0]],
        ERROR => vec![0xD4, 1, code[0]],
        REJECT => vec![0xD5, 2, code[0], code[1]],
        _ => Vec::new(),
    };
    let component = element(&[kind], &[vec![0xCF, 1, 5], element_of_code, set].concat());
    let entries = list.iter().map(|one| [one.0, one.1, 0, one.2 as u16, 0]);
    Made {
        component,
        table: entries.collect::<Vec<_>>().concat(),
        head: Head {
            kind,
            id_count: 1,
            id_first: 5,
            id_second: 0,
            code,
        },
    }
}

fn number_and_detail<T>(answer: Result<T, second::refusal::Refusal>) -> (u8, u32) {
    answer.map_or_else(|refusal| (refusal.number, refusal.detail), |_| (0, 0))
}

impl Made {
    fn read(&self, specifier: u8) -> (u8, u32) {
        let mut table = [0; TABLE_NUMBERS];
        number_and_detail(reader::read(&self.component, specifier, &mut table))
    }

    fn write(&self) -> (u8, u32) {
        let entries = self.table.len() / ENTRY_NUMBERS;
        let source = [0x77; 300];
        let mut output = [0; 4096];
        let answer = writer::write(self.head, entries, &self.table, &source, &mut output);
        let count = *answer.as_ref().unwrap_or(&0);
        if count > 0 {
            assert_eq!(output[..count], self.component);
        }
        number_and_detail(answer)
    }

    /// Where the entry's identifier stands, by a walk from the end.
    fn place(&self, entry: usize) -> u32 {
        let entries = self.table.chunks_exact(ENTRY_NUMBERS).skip(entry);
        let octets = entries.map(|one| {
            let contents = usize::from(one[3]);
            identifier(one[0], one[1]).len() + length(contents).len() + contents
        });
        (self.component.len() - octets.sum::<usize>()) as u32
    }
}

/// Read and written by the row: the number, and the entry that both point to,
/// where it is one that points.
fn asked(row: &Row, list: &[One]) -> (u8, Option<usize>) {
    let made = made(row.kind, [row.specifier, 0], list);
    let (number, entry) = made.write();
    let read = made.read(row.specifier);
    let points = [12, 14, 26].contains(&number);
    let place = if points {
        made.place(entry as usize)
    } else {
        entry
    };
    assert_eq!(read, (number, place), "{row:?}, {list:?}");
    (number, points.then_some(entry as usize))
}

fn names(row: &Row, number: u16) -> bool {
    row.names(Identifier::primitive(number))
}

/// Everything but this one that the row asks for, which is not said where the
/// one stands for another of its line.
fn beside(row: &Row, number: u16) -> Vec<One> {
    let lines = row.lines().filter(|line| !line.contains(&number));
    lines.map(|line| named(line[0])).collect()
}

#[test]
fn every_size_of_each_that_a_row_names() {
    let mut held = 0;
    for row in &ROWS {
        for (name, number, sizes) in FIXED {
            let rest = beside(row, number);
            for count in SIZES {
                let one = (number, 0, count);
                let wrong = names(row, number) && !sizes.contains(&count);
                held += usize::from(wrong);
                for at in [0, rest.len()] {
                    let list = [&rest[..at], &[one], &rest[at..]].concat();
                    let wanted = if wrong { (26, Some(at)) } else { (0, None) };
                    assert_eq!(asked(row, &list), wanted, "{name}, {count}");
                }
            }
        }
    }
    // Of 21 that the rows name, nine sizes but the right ones.
    assert_eq!(held, 21 * 8 - 2);
}

/// The constructor twin is another identifier, and not named.
#[test]
fn twins_are_of_any_size() {
    for row in &ROWS {
        for (_, number, _) in FIXED {
            for count in SIZES {
                let twin = (number, 1, count);
                let list = [&[twin], &mandatory(row)[..], &[twin]].concat();
                assert_eq!(asked(row, &list), (0, None));
            }
        }
    }
}

/// An ERROR and a REJECT have no row, whatever row their code would name.
#[test]
fn nothing_is_held_to_a_size_without_a_row() {
    for row in &ROWS {
        for kind in [ERROR, REJECT] {
            for count in SIZES {
                let list = FIXED.map(|(_, number, _)| (number, 0, count));
                let made = made(kind, [row.specifier, row.specifier], &list);
                assert_eq!(made.read(row.specifier), (0, 0));
                assert_eq!(made.write(), (0, 0));
            }
        }
    }
}

/// A wrong size that is near the right one.
fn wrong(number: u16) -> One {
    let right = right(number).expect("a fixed size")[0];
    (number, 0, right + 1)
}

/// What the row names of fixed size.
fn held(row: &Row) -> Vec<u16> {
    let numbers = FIXED.iter().map(|fixed| fixed.1);
    numbers.filter(|number| names(row, *number)).collect()
}

#[test]
fn the_earliest_is_given() {
    for row in &ROWS {
        for one in held(row) {
            for other in held(row).into_iter().filter(|other| *other != one) {
                let rest = mandatory(row).into_iter();
                let rest: Vec<One> = rest
                    .filter(|rest| ![one, other].contains(&rest.0))
                    .collect();
                let last = [&rest[..], &[wrong(one), wrong(other)]].concat();
                assert_eq!(asked(row, &last), (26, Some(rest.len())));
                let around = [&[wrong(one)], &rest[..], &[wrong(other)]].concat();
                assert_eq!(asked(row, &around), (26, Some(0)));
                let second = [&[named(one)], &rest[..], &[wrong(other)]].concat();
                assert_eq!(asked(row, &second), (26, Some(rest.len() + 1)));
            }
        }
    }
}

/// 12 of the whole run comes before 26 of any parameter.
#[test]
fn a_repeat_comes_before() {
    for row in &ROWS {
        for one in held(row) {
            let rest = beside(row, one);
            let last = rest.len() + 1;
            for (first, second) in [
                (wrong(one), named(one)),
                (named(one), wrong(one)),
                (wrong(one), wrong(one)),
            ] {
                let list = [&[first], &rest[..], &[second]].concat();
                assert_eq!(asked(row, &list), (12, Some(last)));
            }
            for other in rest.iter().filter(|other| other.0 != rows::DIGITS) {
                let list = [&[wrong(one)], &rest[..], &[*other]].concat();
                assert_eq!(asked(row, &list), (12, Some(last)));
                let list = [&[*other], &rest[..], &[wrong(one)]].concat();
                let second = 1 + rest.iter().position(|rest| rest == other).expect("there");
                assert_eq!(asked(row, &list), (12, Some(second)));
            }
        }
    }
    // Digits again is no repeat.
    let request = rows::find(INVOKE, 15).expect("the LocationRequest row");
    let list = [named(4), wrong(21), named(4), named(1), named(22)];
    assert_eq!(asked(request, &list), (26, Some(1)));
}

#[test]
fn what_is_missing_comes_behind() {
    for row in &ROWS {
        for one in held(row) {
            assert_eq!(asked(row, &[wrong(one)]), (26, Some(0)));
            let rest = beside(row, one);
            for index in 0..rest.len() {
                let mut list = rest.clone();
                list[index] = (200, 0, 0);
                list.push(wrong(one));
                assert_eq!(asked(row, &list), (26, Some(rest.len())));
                list[rest.len()] = named(one);
                assert_eq!(asked(row, &list).0, 13);
            }
        }
    }
}

#[test]
fn both_members_of_a_choice_come_behind() {
    let row = rows::find(INVOKE, 13).expect("the row with a choice");
    let both = [9, 8, 242, 21, 17, 22].map(named);
    assert_eq!(asked(row, &both), (14, Some(2)));
    for (index, one) in both.iter().enumerate() {
        if right(one.0).is_some() {
            let mut list = both;
            list[index] = wrong(one.0);
            assert_eq!(asked(row, &list), (26, Some(index)));
        }
    }
}

/// The layout, and in writing 16 and 15, come before, and so does 11; a
/// writer's 17 comes behind.
#[test]
fn asked_between_12_and_17() {
    let head = made(RESULT, [4, 0], &[]).head;
    let write = |head: Head, table: &[[u16; 5]]| {
        let answer = writer::write(head, table.len(), &table.concat(), &[0; 5000], &mut []);
        number_and_detail(answer)
    };
    let wrong = [5, 0, 0, 1, 0];
    assert_eq!(write(head, &[wrong]), (26, 0));
    assert_eq!(write(head, &[[5, 0, 0, 3, 0]]), (17, 12));
    assert_eq!(write(head, &[wrong, [7, 2, 0, 0, 0]]), (16, 1));
    assert_eq!(write(head, &[wrong, [7, 0, 0, 4090, 0]]), (15, 4108));
    let rowless = Head {
        code: [0, 0],
        ..head
    };
    assert_eq!(write(rowless, &[wrong]), (11, 0));
    assert_eq!(made(RESULT, [0, 0], &[(5, 0, 1)]).read(0), (11, 0));
    let mut cut = made(RESULT, [4, 0], &[(5, 0, 1), (7, 0, 0)]).component;
    let last = cut.len() - 1;
    cut[last] = 1;
    let mut table = [0; TABLE_NUMBERS];
    let answer = reader::read(&cut, 4, &mut table);
    assert_eq!(number_and_detail(answer), (5, last as u32 - 1));
}

/// A size is that of the contents, in whatever form the length says it.
#[test]
fn a_padded_length_is_the_same_size() {
    let mut table = [0; TABLE_NUMBERS];
    for field in [&[3][..], &[0x81, 3], &[0x82, 0, 3]] {
        let component = |count: u8| {
            let mut field = field.to_vec();
            *field.last_mut().expect("a length") = count;
            let contents = vec![0x77; usize::from(count)];
            let one = [&[0x85], &field[..], &contents].concat();
            let set = element(&[0xF2], &one);
            element(&[RESULT], &[&[0xCF, 1, 5], &set[..]].concat())
        };
        for count in 0..=6 {
            let answer = number_and_detail(reader::read(&component(count), 4, &mut table));
            let wanted = if [0, 3].contains(&count) {
                (0, 0)
            } else {
                (26, 7)
            };
            assert_eq!(answer, wanted, "{field:X?}, {count}");
        }
    }
}

/// Three of HandoffBack's results: the first of wrong size is given, its
/// place counted from the package's start, its entry as alone; before 24.
#[test]
fn in_packages() {
    for counts in [[0, 3, 1], [2, 0, 0], [3, 4, 1], [0, 0, 200], [0, 3, 0]] {
        let components = counts.map(|count| made(RESULT, [4, 0], &[(5, 0, count)]));
        let wrong = counts.iter().position(|count| ![0, 3].contains(count));
        for kind in [0xE4, 0xE2] {
            let octets = components.each_ref().map(|one| &one.component[..]).concat();
            let ids = element(&[0xC7], &[1, 2, 3, 4]);
            let package = element(&[kind], &[ids, element(&[0xE8], &octets)].concat());
            let starts = package.len() - octets.len();
            let place = |index: usize| {
                let before = components[..index].iter().map(|one| one.component.len());
                (starts + before.sum::<usize>()) as u32 + components[index].place(0)
            };
            let otherwise = if kind == 0xE4 {
                (0, 0)
            } else {
                (24, starts as u32)
            };
            let wanted = wrong.map_or(otherwise, |index| (26, place(index)));
            assert_eq!(read_package(&package), wanted);
            let otherwise = if kind == 0xE4 { 0 } else { 24 };
            let wanted = (if wrong.is_some() { 26 } else { otherwise }, 0);
            assert_eq!(write_package(kind, &components), wanted);
        }
    }
}

fn read_package(octets: &[u8]) -> (u8, u32) {
    let mut table = [0; package::TABLE_NUMBERS];
    let mut summaries = [0; MOST_COMPONENTS];
    let specifiers = [4; MOST_COMPONENTS];
    number_and_detail(reading::read(
        octets,
        specifiers,
        &mut table,
        &mut summaries,
    ))
}

fn write_package(kind: u8, components: &[Made]) -> (u8, u32) {
    let mut table = vec![0; package::TABLE_NUMBERS];
    for (part, one) in table.chunks_mut(TABLE_NUMBERS).zip(components) {
        part[..one.table.len()].copy_from_slice(&one.table);
    }
    // A RESULT with one ID octet and one entry.
    let summary = u64::from_le_bytes([0, RESULT, 5, 0, 0, 0, 0x80, 0x40]);
    let package = Package {
        kind,
        ids: &[1, 2, 3, 4],
        summaries: &vec![summary; components.len()],
        specifiers: [4; MOST_COMPONENTS],
        table: &table,
        source: &[0x77; 300],
    };
    number_and_detail(writing::write(package, &mut [0; 4096]))
}

/// How often a parameter of fixed size is met: its number and size, and
/// whether it is named, in accepted components and those refused with 26.
#[derive(Default)]
struct Met {
    counts: BTreeMap<(u16, usize, bool), usize>,
    refused: usize,
}

impl Met {
    fn add(&mut self, kind: u8, specifier: u8, table: &[u16]) {
        let row = rows::find(kind, specifier);
        for entry in table.chunks_exact(ENTRY_NUMBERS) {
            let number = entry[0];
            if right(number).is_some() && entry[1] == 0 {
                let named = row.is_some_and(|row| names(row, number));
                let key = (number, usize::from(entry[3]), named);
                *self.counts.entry(key).or_insert(0) += 1;
            }
        }
    }

    /// Of each size that is right, where it is named; of each of these where
    /// it is not, or where it is written and wrong.
    fn check(&self, all_named: bool) {
        for (name, number, sizes) in FIXED {
            for count in [0, 1, 2, 3, 4, 5, 6, 200] {
                for named in [false, true] {
                    if named && !all_named && !sizes.contains(&count) {
                        continue;
                    }
                    let met = self.counts.get(&(number, count, named));
                    let met = met.copied().unwrap_or(0);
                    assert!(met >= 3, "{name}, {count}, {named}: {met}");
                }
            }
        }
        assert!(self.refused > 1000, "{}", self.refused);
    }
}

#[test]
fn every_size_is_drawn_to_be_read() {
    let mut random = read_random(41);
    let mut met = Met::default();
    for _ in 0..60_000 {
        let case = read_case(&mut random);
        match answer_read(&case) {
            (Ok(accepted), table) => {
                assert!(types::find(accepted.kind).is_some());
                met.add(accepted.kind, accepted.code[0], &table);
            }
            (Err(refusal), _) => met.refused += usize::from(refusal.number == 26),
        }
    }
    met.check(false);
}

#[test]
fn every_size_is_drawn_to_be_written() {
    let mut random = write_random(42);
    let mut met = Met::default();
    for _ in 0..60_000 {
        let case = write_case(&mut random);
        let number = number_and_detail(answer_write(&case).0).0;
        if [0, 26].contains(&number) {
            let table = &case.table[..ENTRY_NUMBERS * case.entries];
            met.add(case.head.kind, case.head.code[0], table);
            met.refused += usize::from(number == 26);
        }
    }
    met.check(true);
}
