//! Padded lengths: each of the three forms is taken at every length field.

use second::cases::{answer_read, answer_write, read_random, write_random};
use second::directed;
use second::generate::{read_case, write_case};
use second::padding::{is_padded, length_fields};
use second::reader::{packed, read, Accepted, ENTRY_NUMBERS, TABLE_NUMBERS};
use second::refusal::Refusal;
use second::writer::{write, Head};
use std::collections::{BTreeMap, BTreeSet};

type Elements = &'static [(u8, &'static [u8])];

/// A component without its lengths.
struct Chart {
    kind: u8,
    specifier: u8,
    head: Elements,
    parameters: Elements,
}

/// Chart A, and one of each other type.
const CHARTS: [Chart; 4] = [
    Chart {
        kind: 0xE9,
        specifier: 0,
        head: &[(0xCF, &[0x05]), (0xD1, &[0x09, 0x04])],
        parameters: &[
            (0x85, &[]),
            (0x86, &[0x01, 0x07]),
            (0x88, &[0x21, 0x43, 0x65, 0x87, 0x09]),
            (0x82, &[0x00, 0x11]),
            (0x83, &[0x00, 0x12]),
        ],
    },
    Chart {
        kind: 0xEA,
        specifier: 4,
        head: &[(0xCF, &[0x05])],
        parameters: &[(0x85, &[]), (0x84, &[0x82, 0x00])],
    },
    Chart {
        kind: 0xEB,
        specifier: 0,
        head: &[(0xCF, &[0x05]), (0xD4, &[0x81])],
        parameters: &[(0x85, &[]), (0x85, &[0x81])],
    },
    Chart {
        kind: 0xEC,
        specifier: 0,
        head: &[(0xCF, &[]), (0xD5, &[0x01, 0x01])],
        parameters: &[(0x84, &[0x81, 0x01])],
    },
];

/// A length below 128 in the form that has so many octets.
fn field(length: usize, octets: usize) -> Vec<u8> {
    let padding: [&[u8]; 3] = [&[], &[0x81], &[0x82, 0x00]];
    [padding[octets - 1], &[length as u8]].concat()
}

fn element(identifier: u8, contents: &[u8], octets: usize) -> Vec<u8> {
    [&[identifier], &field(contents.len(), octets)[..], contents].concat()
}

impl Chart {
    fn fields(&self) -> usize {
        2 + self.head.len() + self.parameters.len()
    }

    /// The component with its length fields of so many octets, from left to
    /// right, and the entries that a reading of it fills.
    fn with(&self, fields: &[usize]) -> (Vec<u8>, Vec<u16>) {
        let (outer, fields) = fields.split_first().expect("the component's");
        let (head, fields) = fields.split_at(self.head.len());
        let (set_field, fields) = fields.split_first().expect("the set's");
        let put = |((identifier, contents), octets): (&(u8, &[u8]), &usize)| {
            element(*identifier, contents, *octets)
        };
        let parameters: Vec<Vec<u8>> = self.parameters.iter().zip(fields).map(put).collect();
        let mut body: Vec<Vec<u8>> = self.head.iter().zip(head).map(put).collect();
        body.push(element(0xF2, &parameters.concat(), *set_field));
        let component = element(self.kind, &body.concat(), *outer);
        let entries = self.entries(&parameters, component.len());
        (component, entries)
    }

    /// The set ends with the component, so the places are told from there.
    fn entries(&self, parameters: &[Vec<u8>], end: usize) -> Vec<u16> {
        let mut place = end - parameters.concat().len();
        let mut entries = Vec::new();
        for ((identifier, contents), octets) in self.parameters.iter().zip(parameters) {
            let start = place + octets.len() - contents.len();
            let number = usize::from(identifier % 32);
            entries.extend([number, 0, start, contents.len(), place].map(|number| number as u16));
            place += octets.len();
        }
        entries
    }
}

fn read_one(component: &[u8], specifier: u8) -> (Result<Accepted, Refusal>, Vec<u16>) {
    let mut table = vec![0; TABLE_NUMBERS];
    let answer = read(component, specifier, &mut table);
    table.truncate(ENTRY_NUMBERS * answer.as_ref().map_or(0, |accepted| accepted.all));
    (answer, table)
}

/// Every list of so many numbers from 1 to 3.
fn ways(count: usize) -> impl Iterator<Item = Vec<usize>> {
    let digits = move |way: usize| (0..count).map(move |at| 1 + way / 3usize.pow(at as u32) % 3);
    (0..3usize.pow(count as u32)).map(move |way| digits(way).collect())
}

/// All ways to write the charts, 19,683 of them chart A's: each is read as
/// its shortest form is, but for starts and places, and written as that.
#[test]
fn every_length_in_every_form() {
    for chart in &CHARTS {
        let (shortest, entries) = chart.with(&vec![1; chart.fields()]);
        let (answer, table) = read_one(&shortest, chart.specifier);
        let accepted = answer.expect("accepted");
        assert_eq!(table, entries);
        for way in ways(chart.fields()) {
            let (component, entries) = chart.with(&way);
            let (answer, table) = read_one(&component, chart.specifier);
            assert_eq!((answer, &table), (Ok(accepted), &entries), "{way:?}");
            let mut output = vec![0; shortest.len()];
            let head = Head::of(&accepted);
            let written = write(head, accepted.all, &table, &component, &mut output);
            assert_eq!((written, &output), (Ok(shortest.len()), &shortest));
            assert_eq!(is_padded(&component), component != shortest);
        }
    }
}

/// 80 and 83 to FF, at each length field, behind fields of each form.
#[test]
fn other_forms_are_refused_at_their_place() {
    for chart in &CHARTS {
        for octets in 1..=3 {
            let (component, _) = chart.with(&vec![octets; chart.fields()]);
            let fields = length_fields(&component);
            assert_eq!(fields.len(), chart.fields());
            for field in fields {
                for wrong in (0x83..=0xFF).chain([0x80]) {
                    let mut component = component.clone();
                    component[field.place] = wrong;
                    let (answer, _) = read_one(&component, chart.specifier);
                    assert_eq!(answer, Err(Refusal::new(4, field.place, "")));
                }
            }
        }
    }
}

/// 11 points to the specifier behind three lengths.
#[test]
fn no_row_behind_padded_lengths() {
    let at = |outer: usize, id: usize, code: usize| {
        let chart = Chart {
            head: &[(0xCF, &[0x05]), (0xD1, &[0x09, 0x1A])],
            parameters: &[],
            ..CHARTS[0]
        };
        let (component, _) = chart.with(&[outer, id, code, 1]);
        read_one(&component, 4).0.expect_err("refused")
    };
    assert_eq!(at(1, 1, 1), Refusal::new(11, 8, ""));
    assert_eq!(at(3, 1, 1), Refusal::new(11, 10, ""));
    assert_eq!(at(1, 2, 1), Refusal::new(11, 9, ""));
    assert_eq!(at(1, 1, 3), Refusal::new(11, 10, ""));
    assert_eq!(at(3, 3, 3), Refusal::new(11, 14, ""));
}

/// A result of this many octets, two of which pad the length of its ID.
fn result_of(count: usize) -> Vec<u8> {
    let two = |length: usize| [(length >> 8) as u8, length as u8];
    let mut component = vec![0xEA, 0x82];
    component.extend(two(count - 4));
    component.extend([0xCF, 0x82, 0x00, 0x01, 0x05, 0xF2, 0x82]);
    component.extend(two(count - 13));
    component.extend([0x80, 0x82]);
    component.extend(two(count - 17));
    component.resize(count, 0x77);
    component
}

/// 4,096 octets as they stand, though two fewer would be written.
#[test]
fn longest_component() {
    let component = result_of(4096);
    let (answer, table) = read_one(&component, 26);
    let accepted = answer.expect("accepted");
    assert_eq!(table, [0, 0, 17, 4079, 13]);
    let head = Head::of(&accepted);
    let written = write(head, 1, &table, &component, &mut [0; 4096]);
    assert_eq!(written, Ok(4094));
    let (answer, _) = read_one(&result_of(4097), 26);
    assert_eq!(answer, Err(Refusal::new(2, 0, "")));
}

/// How far cases reach.
#[derive(Default)]
struct Reach {
    /// The length fields of accepted components: of which element, of how
    /// many octets, and what they say.
    fields: BTreeSet<(&'static str, usize, usize)>,
    /// Of padded components: their sizes, whether accepted, and the answers.
    sizes: BTreeSet<(usize, bool)>,
    numbers: BTreeMap<u64, usize>,
}

impl Reach {
    fn add(&mut self, component: &[u8], answer: &Result<Accepted, Refusal>) {
        for field in length_fields(component) {
            if answer.is_ok() {
                let key = (name(field.element), field.octets, field.length);
                self.fields.insert(key);
            }
        }
        if is_padded(component) {
            self.sizes.insert((component.len(), answer.is_ok()));
            *self.numbers.entry(packed(answer) & 0xFF).or_insert(0) += 1;
        }
    }

    /// Every length field in every form, what has any length with as many
    /// octets as the forms begin and end with, and the limit.
    fn check(&self) {
        let fixed = [
            ("ID", 1, 1),
            ("operation code", 2, 1),
            ("error", 1, 1),
            ("problem", 2, 1),
        ];
        let edges = [(127, 1), (128, 2), (255, 2), (256, 3)];
        let of_edges = |name| edges.map(|(length, least)| (name, length, least));
        let free = ["component", "set", "parameter"].map(of_edges).concat();
        for (name, length, least) in fixed.into_iter().chain(free) {
            for octets in least..=3 {
                let key = (name, octets, length);
                assert!(self.fields.contains(&key), "{key:?}");
            }
        }
        assert!(self.sizes.contains(&(4096, true)) && self.sizes.contains(&(4097, false)));
    }
}

fn name(element: u8) -> &'static str {
    match element {
        0xE9..=0xEC => "component",
        0xCF => "ID",
        0xD1 => "operation code",
        0xD4 => "error",
        0xD5 => "problem",
        0xF2 => "set",
        _ => "parameter",
    }
}

#[test]
fn every_form_is_drawn() {
    let mut random = read_random(18);
    let mut reach = Reach::default();
    for _ in 0..60_000 {
        let case = read_case(&mut random);
        reach.add(&case.component, &answer_read(&case).0);
    }
    reach.check();
    let wanted = [0, 20, 21, 25, 26].into_iter().chain(1..=14);
    assert_eq!(
        reach.numbers.keys().copied().collect::<BTreeSet<_>>(),
        wanted.collect()
    );
    let least = reach.numbers.values().min();
    assert!(least > Some(&100), "{:?}", reach.numbers);
}

#[test]
fn every_form_is_directed() {
    let mut reach = Reach::default();
    for case in directed::cases() {
        let (answer, _) = read_one(&case.component, case.specifier);
        reach.add(&case.component, &answer);
    }
    reach.check();
    let wanted = [0, 20, 21, 25, 26].into_iter().chain(2..=14);
    assert_eq!(
        reach.numbers.into_keys().collect::<BTreeSet<_>>(),
        wanted.collect()
    );
}

/// What was read is among the orders for the writer: into an output as long
/// as the component, into less, and into too little.
#[test]
fn orders_as_they_were_read() {
    let mut random = write_random(19);
    let mut met: BTreeMap<(bool, bool, bool), usize> = BTreeMap::new();
    for _ in 0..60_000 {
        let case = write_case(&mut random);
        let (Ok(accepted), table) = read_one(&case.source, case.head.code[0]) else {
            continue;
        };
        if case.head == Head::of(&accepted) && case.table == table {
            let whole = case.output == case.source.len();
            let key = (
                is_padded(&case.source),
                whole,
                answer_write(&case).0.is_ok(),
            );
            *met.entry(key).or_insert(0) += 1;
        }
    }
    let padded = [
        (true, true, true),
        (true, false, true),
        (true, false, false),
    ];
    let shortest = [(false, true, true), (false, false, false)];
    assert_eq!(met.len(), 5);
    for key in padded.iter().chain(&shortest) {
        assert!(met[key] > 100, "{key:?}: {}", met[key]);
    }
}
