//! The writer: the other way, from entries and their source to octets.

use crate::reader::{Accepted, ENTRY_NUMBERS};
use crate::refusal::Refusal;
use crate::rows::{self, Identifier, RowFault};
use crate::types::{self, Code, ComponentType};

const LONGEST: usize = 4096;
const MOST_ENTRIES: usize = 64;
const HIGHEST_NUMBER: u16 = 16383;

/// Everything that names the component apart from its entries. The count of
/// ID octets may be any; only two are given, as no more are ever allowed. The
/// code's second octet is looked at in a REJECT only.
#[derive(Clone, Copy, Debug, PartialEq, Eq)]
pub struct Head {
    pub kind: u8,
    pub id_count: u8,
    pub id_first: u8,
    pub id_second: u8,
    pub code: Code,
}

impl Head {
    /// What was read, to be written again.
    pub fn of(accepted: &Accepted) -> Head {
        Head {
            kind: accepted.kind,
            id_count: accepted.id_count,
            id_first: accepted.id[0],
            id_second: accepted.id[1],
            code: accepted.code,
        }
    }
}

/// Accepted: the count of octets written.
pub type Answer = Result<usize, Refusal>;

struct Entry<'a> {
    identifier: Identifier,
    contents: &'a [u8],
}

/// The lengths that the component's two outer length fields give, and the
/// count of all its octets.
struct Sizes {
    set: usize,
    body: usize,
    whole: usize,
}

/// Writes a component. Only the leading octets of an accepted component
/// change in the output.
pub fn write(
    head: Head,
    entries: usize,
    table: &[u16],
    source: &[u8],
    output: &mut [u8],
) -> Answer {
    let kind = check_head(head)?;
    if entries > MOST_ENTRIES {
        return Err(Refusal::new(10, 0, "entries"));
    }
    if table.len() < ENTRY_NUMBERS * entries {
        return Err(Refusal::new(1, 0, "table"));
    }
    let list = take_entries(&table[..ENTRY_NUMBERS * entries], source)?;
    let sizes = measure(kind, head, &list);
    if sizes.whole > LONGEST {
        return Err(Refusal::new(15, sizes.whole, too_long(&sizes)));
    }
    if kind.has_row {
        ask_row(head, &list)?;
    }
    if output.len() < sizes.whole {
        return Err(Refusal::new(17, sizes.whole, "output"));
    }
    let octets = compose(kind, head, &list, &sizes);
    output[..octets.len()].copy_from_slice(&octets);
    Ok(octets.len())
}

fn check_head(head: Head) -> Result<&'static ComponentType, Refusal> {
    let kind = types::find(head.kind).ok_or_else(|| Refusal::new(3, 0, "type"))?;
    if !kind.id_octets.contains(&usize::from(head.id_count)) {
        return Err(Refusal::new(6, 0, "length"));
    }
    Ok(kind)
}

fn take_entries<'a>(table: &[u16], source: &'a [u8]) -> Result<Vec<Entry<'a>>, Refusal> {
    table
        .chunks_exact(ENTRY_NUMBERS)
        .enumerate()
        .map(|(index, numbers)| take_entry(index, numbers, source))
        .collect()
}

/// The fifth number, the place of an identifier that was read, is ignored.
fn take_entry<'a>(index: usize, numbers: &[u16], source: &'a [u8]) -> Result<Entry<'a>, Refusal> {
    if numbers[0] > HIGHEST_NUMBER {
        return Err(Refusal::new(16, index, "number"));
    }
    if numbers[1] > 1 {
        return Err(Refusal::new(16, index, "form"));
    }
    let start = usize::from(numbers[2]);
    let end = start + usize::from(numbers[3]);
    // `get` answers nothing when the end lies past the source, also for no
    // octets: start plus length is held against the count of octets there.
    let contents = source
        .get(start..end)
        .ok_or_else(|| Refusal::new(16, index, "contents"))?;
    Ok(Entry {
        identifier: Identifier {
            number: numbers[0],
            constructor: numbers[1] == 1,
        },
        contents,
    })
}

/// Octets of a length field; over 65,535 it counts as 4.
pub(crate) fn field_size(length: usize) -> usize {
    match length {
        0..=0x7F => 1,
        0x80..=0xFF => 2,
        0x100..=0xFFFF => 3,
        _ => 4,
    }
}

pub(crate) fn identifier_size(number: u16) -> usize {
    match number {
        0..=30 => 1,
        31..=127 => 2,
        _ => 3,
    }
}

/// An element's octets: identifier, length field, contents.
fn element_size(identifier: usize, length: usize) -> usize {
    identifier + field_size(length) + length
}

fn measure(kind: &ComponentType, head: Head, list: &[Entry]) -> Sizes {
    let set = list
        .iter()
        .map(|one| element_size(identifier_size(one.identifier.number), one.contents.len()))
        .sum();
    let id = element_size(1, usize::from(head.id_count));
    let code = kind.code.as_ref();
    let code = code.map_or(0, |element| element_size(1, element.length()));
    let body = id + code + element_size(1, set);
    Sizes {
        set,
        body,
        whole: element_size(1, body),
    }
}

fn too_long(sizes: &Sizes) -> &'static str {
    match (sizes.set > 0xFFFF, sizes.body > 0xFFFF) {
        (false, false) => "fields of 3",
        (false, true) => "one field of 4",
        _ => "two fields of 4",
    }
}

fn ask_row(head: Head, list: &[Entry]) -> Result<(), Refusal> {
    let row = rows::find(head.kind, head.code[0]).ok_or_else(|| Refusal::new(11, 0, "row"))?;
    let identifiers: Vec<Identifier> = list.iter().map(|one| one.identifier).collect();
    let octets: Vec<usize> = list.iter().map(|one| one.contents.len()).collect();
    let checked = row.check(&identifiers, &octets);
    checked.map_err(|fault| match fault {
        RowFault::Repeat(index) => Refusal::new(12, index, "again"),
        RowFault::Size(index) => Refusal::new(26, index, "size"),
        RowFault::Missing(number) => Refusal::new(13, usize::from(number), "missing"),
        RowFault::Both(index) => Refusal::new(14, index, "both"),
    })
}

fn compose(kind: &ComponentType, head: Head, list: &[Entry], sizes: &Sizes) -> Vec<u8> {
    let mut octets = vec![head.kind];
    put_length(&mut octets, sizes.body);
    octets.extend([0xCF, head.id_count]);
    octets.extend(&[head.id_first, head.id_second][..usize::from(head.id_count)]);
    if let Some(element) = &kind.code {
        octets.extend([element.identifier, element.length() as u8]);
        octets.extend(element.contents(head.code));
    }
    octets.push(0xF2);
    put_length(&mut octets, sizes.set);
    for one in list {
        put_identifier(&mut octets, one.identifier);
        put_length(&mut octets, one.contents.len());
        octets.extend(one.contents);
    }
    assert_eq!(octets.len(), sizes.whole);
    octets
}

/// The shortest form; only called for a length of at most 65,535.
pub(crate) fn put_length(octets: &mut Vec<u8>, length: usize) {
    let [high, low] = u16::try_from(length).expect("a short length").to_be_bytes();
    match field_size(length) {
        1 => octets.push(low),
        2 => octets.extend([0x81, low]),
        _ => octets.extend([0x82, high, low]),
    }
}

fn put_identifier(octets: &mut Vec<u8>, identifier: Identifier) {
    let form = if identifier.constructor { 0xA0 } else { 0x80 };
    let number = identifier.number;
    match identifier_size(number) {
        1 => octets.push(form | number as u8),
        2 => octets.extend([form | 0x1F, number as u8]),
        _ => {
            let high = 0x80 | (number >> 7) as u8;
            octets.extend([form | 0x1F, high, (number & 0x7F) as u8]);
        }
    }
}

/// Octet 0 the answer; octets 1 to 4 the octet count when accepted.
pub fn packed(answer: &Answer) -> u64 {
    match answer {
        Err(refusal) => refusal.packed(),
        Ok(count) => (*count as u64) << 8,
    }
}
