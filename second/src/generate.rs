//! Seeded cases for the readers and the writers.

mod damage;
pub(crate) mod draft;
mod package_damage;
pub(crate) mod package_draft;
mod package_reads;
mod package_writes;
mod read_cases;
mod write_cases;

pub use package_reads::{package_read_case, PackageReadCase};
pub use package_writes::{package_write_case, PackageWriteCase};
pub use read_cases::{read_case, ReadCase};
pub use write_cases::{write_case, WriteCase};

use crate::random::Random;
use crate::rows::{self, is_right_size, sizes, Identifier, Row, DIGITS, ROWS, SIZED};
use crate::types::{self, Code, ComponentType, ERROR, INVOKE, REJECT, TYPES};

/// Numbers at the edges of the three identifier forms, and others around the
/// register's.
pub(crate) const NUMBERS: [u16; 29] = [
    0, 7, 10, 29, 30, 31, 32, 33, 63, 64, 100, 105, 116, 123, 126, 127, 128, 129, 153, 200, 233,
    242, 255, 256, 4095, 8191, 8192, 16382, 16383,
];

/// The numbers of the register: other rows name them, this one may not.
pub(crate) const REGISTER: [u16; 18] = [
    1, 2, 3, 4, 5, 6, 8, 9, 17, 21, 22, 32, 105, 116, 123, 153, 233, 242,
];

/// A number that no row names, for filling up to a size.
pub(crate) const FILLER: u16 = 200;

/// One parameter as the generator draws it.
#[derive(Clone, Copy)]
struct Drawn {
    number: u16,
    constructor: bool,
    length: usize,
}

/// What a component is drawn as. An ERROR or a REJECT, which has no row, gets
/// parameters like those of any row.
#[derive(Clone, Copy)]
pub(crate) struct Subject {
    pub kind: &'static ComponentType,
    pub code: Code,
    pub row: &'static Row,
}

impl Subject {
    pub fn of_row(row: &'static Row) -> Subject {
        Subject::new(row.kind, [row.specifier, 0], row)
    }

    pub fn new(kind: u8, code: Code, row: &'static Row) -> Subject {
        let kind = types::of(kind);
        Subject { kind, code, row }
    }
}

/// Two of three with a row, of which there is more to ask.
fn draw_subject(random: &mut Random) -> Subject {
    let row = draw_row(random);
    match random.below(100) {
        0..=16 => Subject::new(ERROR, [draw_error(random, row), 0], row),
        17..=33 => Subject::new(REJECT, draw_problem(random, row), row),
        _ => Subject::of_row(row),
    }
}

/// A code with a name, the specifier of a row, or any octet.
fn draw_error(random: &mut Random, row: &Row) -> u8 {
    match random.below(3) {
        0 => random.between(129, 142) as u8,
        1 => row.specifier,
        _ => random.octet(),
    }
}

/// Octets of a known problem, those that an operation code has, or any.
fn draw_problem(random: &mut Random, row: &Row) -> Code {
    match random.below(3) {
        0 => [random.between(1, 5) as u8, random.between(1, 6) as u8],
        1 => random.pick(&[[9, row.specifier], [row.specifier, 0]]),
        _ => [random.octet(), random.octet()],
    }
}

/// The row with a choice is the only way to 14, and of a row with a group
/// there is more to ask, so they are drawn more often.
fn draw_row(random: &mut Random) -> &'static Row {
    let has_group = |row: &&Row| !row.group.is_empty();
    match random.below(100) {
        0..=11 => rows::find(INVOKE, 13).expect("the row with a choice"),
        12..=17 => random.pick(&ROWS.iter().filter(has_group).collect::<Vec<_>>()),
        _ => &ROWS[random.below(ROWS.len())],
    }
}

/// The members of the row's choice or of its group; for a row with neither
/// the numbers that are members in others.
fn members(row: &Row) -> &[u16] {
    let mut lines = row.lines();
    lines.find(|line| line.len() > 1).unwrap_or(&[8, 242, 233])
}

/// A specifier without a row in this component type, often one of which
/// another type has a row.
fn draw_rowless(random: &mut Random, kind: u8) -> u8 {
    loop {
        let specifier = if random.percent(50) {
            random.pick(&[0, 4, 13, 14, 15, 26, 32, 37, 64, 101, 255])
        } else {
            random.octet()
        };
        if rows::find(kind, specifier).is_none() {
            return specifier;
        }
    }
}

/// No octets often, mostly a few.
fn draw_length(random: &mut Random) -> usize {
    match random.below(100) {
        0..=29 => 0,
        30..=95 => random.between(1, 8),
        96..=98 => random.between(9, 40),
        _ => random.pick(&[126, 127, 128, 129, 254, 255, 256, 257]),
    }
}

/// A parameter the row does not name: another number, or the constructor
/// twin of a named one.
fn draw_other(random: &mut Random, row: &Row) -> Drawn {
    let number = match random.below(3) {
        0 => random.pick(&NUMBERS),
        1 => random.pick(&REGISTER),
        _ => random.below(16384) as u16,
    };
    Drawn {
        number,
        constructor: row.names(Identifier::primitive(number)) || random.percent(30),
        length: draw_length(random),
    }
}

/// Of a size that the row takes.
fn draw_named(random: &mut Random, number: u16) -> Drawn {
    let length = match sizes(number) {
        Some(sizes) => random.pick(sizes),
        None => draw_length(random),
    };
    Drawn {
        number,
        constructor: false,
        length,
    }
}

/// Sizes around all the fixed ones, and a large one.
pub(crate) const SIZES: [usize; 8] = [0, 1, 2, 3, 4, 5, 6, 200];

/// A parameter of fixed size in either form, of any of these sizes: one that
/// the row names, or as often any.
fn draw_of_any_size(random: &mut Random, row: &Row) -> Drawn {
    let mut numbers: Vec<u16> = SIZED.iter().map(|(number, _)| *number).collect();
    let any = random.pick(&numbers);
    numbers.retain(|number| row.names(Identifier::primitive(*number)));
    if numbers.is_empty() || random.percent(50) {
        numbers = vec![any];
    }
    Drawn {
        number: random.pick(&numbers),
        constructor: random.percent(25),
        length: random.pick(&SIZES),
    }
}

/// A primitive one of a size that is wrong where a row names it.
fn draw_of_wrong_size(random: &mut Random) -> Drawn {
    let number = random.pick(&SIZED).0;
    Drawn {
        number,
        constructor: false,
        length: draw_wrong_size(random, number),
    }
}

/// A size that is wrong where a row names this one: mostly near the right
/// one, sometimes one that agrees with it in the low octet, or at an edge of
/// the length forms.
fn draw_wrong_size(random: &mut Random, number: u16) -> usize {
    loop {
        let size = match random.below(20) {
            0..=15 => random.pick(&SIZES),
            16..=17 => 256 + random.pick(sizes(number).unwrap_or(&[0])),
            _ => random.pick(&[7, 8, 127, 128, 255, 256]),
        };
        if !is_right_size(number, size) {
            return size;
        }
    }
}

/// Parameters that are accepted, in any order.
fn draw_parameters(random: &mut Random, subject: Subject) -> Vec<Drawn> {
    let mut list = draw_for_row(random, subject.row);
    if !subject.kind.has_row {
        loosen(random, &mut list);
    }
    if random.percent(80) {
        random.shuffle(&mut list);
    }
    list
}

/// Parameters that the row takes.
fn draw_for_row(random: &mut Random, row: &Row) -> Vec<Drawn> {
    let mut list = Vec::new();
    for must in row.must {
        let number = random.pick(must.members());
        list.push(draw_named(random, number));
    }
    for number in draw_some(random, row.group) {
        list.push(draw_named(random, number));
    }
    for number in row.also {
        if random.percent(40) {
            list.push(draw_named(random, *number));
        }
    }
    while random.percent(35) {
        list.push(draw_other(random, row));
    }
    let names_digits = row.names(Identifier::primitive(DIGITS));
    while names_digits && random.percent(40) {
        list.push(draw_named(random, DIGITS));
    }
    list
}

/// One member of a group as often as two, or all.
fn draw_some(random: &mut Random, group: &[u16]) -> Vec<u16> {
    let mut members = group.to_vec();
    random.shuffle(&mut members);
    if !members.is_empty() {
        members.truncate(random.between(1, group.len()));
    }
    members
}

/// As the row would often refuse it: some of any size, some left out, some
/// again.
fn loosen(random: &mut Random, list: &mut Vec<Drawn>) {
    for one in list.iter_mut() {
        if random.percent(40) {
            one.length = draw_length(random);
        }
    }
    while !list.is_empty() && random.percent(40) {
        list.remove(random.below(list.len()));
    }
    while !list.is_empty() && random.percent(40) {
        list.push(random.pick(list));
    }
}

fn draw_id_count(random: &mut Random, kind: &ComponentType) -> usize {
    random.between(*kind.id_octets.start(), *kind.id_octets.end())
}

fn draw_kind(random: &mut Random) -> u8 {
    TYPES[random.below(TYPES.len())].octet
}
