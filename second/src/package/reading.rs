//! The reader of packages: its own layout from left to right, then each
//! component by the component's reader.

use super::{id_octets, operation, Specifiers};
use super::{MOST_COMPONENTS, SEQUENCE, TABLE_NUMBERS, TRANSACTION_ID};
use crate::carriage::carrier;
use crate::reader::{self, Contents, ENTRY_NUMBERS, LONGEST};
use crate::refusal::Refusal;
use crate::types::RESULT;

/// A component of an accepted package, and where it stands.
#[derive(Clone, Debug, PartialEq, Eq)]
pub struct Inside {
    pub place: usize,
    pub accepted: reader::Accepted,
    /// Its entries, starts and places counted from the package's start.
    pub numbers: Vec<u16>,
}

#[derive(Clone, Debug, PartialEq, Eq)]
pub struct Accepted {
    pub kind: u8,
    /// Where the transaction ID octets stand, and how many there are.
    pub ids: usize,
    pub id_count: usize,
    pub components: Vec<Inside>,
}

pub type Answer = Result<Accepted, Refusal>;

/// The package's own elements.
struct Frame {
    kind: u8,
    ids: Contents,
    /// The place of E8, and its contents.
    sequence_place: usize,
    sequence: Contents,
}

/// Reads a package. Table and summaries change only when it is accepted.
pub fn read(
    package: &[u8],
    specifiers: Specifiers,
    table: &mut [u16],
    summaries: &mut [u64],
) -> Answer {
    if table.len() < TABLE_NUMBERS {
        return Err(Refusal::new(1, 0, "table"));
    }
    if summaries.len() < MOST_COMPONENTS {
        return Err(Refusal::new(1, 0, "summaries"));
    }
    if package.is_empty() {
        return Err(Refusal::new(2, 0, "empty"));
    }
    if package.len() > LONGEST {
        return Err(Refusal::new(2, 0, "too long"));
    }
    let frame = read_frame(package).map_err(as_layout)?;
    let spans = walk(package, frame.sequence).map_err(as_layout)?;
    check_count(&frame, &spans)?;
    let components = read_components(package, &spans, specifiers)?;
    check_carried(frame.kind, &components, specifiers)?;
    fill(table, summaries, &components);
    Ok(Accepted {
        kind: frame.kind,
        ids: frame.ids.start,
        id_count: frame.ids.count(),
        components,
    })
}

/// The faults of an element, 4, 5, 20 and 25 in a component, are 22 in a
/// package, with the same places.
fn as_layout(refusal: Refusal) -> Refusal {
    Refusal {
        number: 22,
        ..refusal
    }
}

fn read_frame(package: &[u8]) -> Result<Frame, Refusal> {
    let kind = package[0];
    let count = id_octets(kind).ok_or_else(|| Refusal::new(22, 0, "type"))?;
    let body = reader::contents_to_the_end(package, 0, 1, package.len())?;
    let ids = read_ids(package, count, body)?;
    let sequence_place = ids.end;
    let sequence = read_sequence(package, sequence_place, body.end)?;
    Ok(Frame {
        kind,
        ids,
        sequence_place,
        sequence,
    })
}

fn read_ids(package: &[u8], count: usize, body: Contents) -> Result<Contents, Refusal> {
    let place = body.start;
    if reader::wanted(package, place, body.end)? != TRANSACTION_ID {
        return Err(Refusal::new(22, place, "transaction ID"));
    }
    let ids = reader::contents_within(package, place, place + 1, body.end)?;
    if ids.count() != count {
        return Err(Refusal::new(22, place, "ID octets"));
    }
    Ok(ids)
}

/// A dialogue portion would stand where the sequence is wanted.
fn read_sequence(package: &[u8], place: usize, end: usize) -> Result<Contents, Refusal> {
    match reader::wanted(package, place, end)? {
        SEQUENCE => reader::contents_to_the_end(package, place, place + 1, end),
        0xF9 => Err(Refusal::new(22, place, "dialogue")),
        _ => Err(Refusal::new(22, place, "sequence")),
    }
}

/// Where each component of the sequence stands, to the sequence's end, however
/// many there are. Of a component only its length is looked at.
fn walk(package: &[u8], sequence: Contents) -> Result<Vec<Contents>, Refusal> {
    let mut spans = Vec::new();
    let mut place = sequence.start;
    while place < sequence.end {
        let contents = reader::contents_within(package, place, place + 1, sequence.end);
        let end = contents.map_err(of_component)?.end;
        spans.push(Contents { start: place, end });
        place = end;
    }
    Ok(spans)
}

/// Tells the walk's faults from those of the package's own elements.
fn of_component(refusal: Refusal) -> Refusal {
    let why = match refusal.why {
        "cut" => "component cut",
        "form" => "component form",
        _ => "component overrun",
    };
    Refusal { why, ..refusal }
}

fn check_count(frame: &Frame, spans: &[Contents]) -> Result<(), Refusal> {
    let why = match spans.len() {
        0 => "none",
        1..=MOST_COMPONENTS => return Ok(()),
        _ => "many",
    };
    Err(Refusal::new(23, frame.sequence_place, why))
}

/// In order, up to the first that is refused.
fn read_components(
    package: &[u8],
    spans: &[Contents],
    specifiers: Specifiers,
) -> Result<Vec<Inside>, Refusal> {
    let each = spans.iter().zip(specifiers);
    each.map(|(span, specifier)| read_inside(package, *span, specifier))
        .collect()
}

/// As a component alone, then everything moved to where it stands.
fn read_inside(package: &[u8], span: Contents, specifier: u8) -> Result<Inside, Refusal> {
    let component = &package[span.start..span.end];
    let mut numbers = vec![0; reader::TABLE_NUMBERS];
    let accepted = reader::read(component, specifier, &mut numbers)
        .map_err(|refusal| moved(refusal, component[0], span.start))?;
    numbers.truncate(ENTRY_NUMBERS * accepted.all);
    for entry in numbers.chunks_exact_mut(ENTRY_NUMBERS) {
        // Start and place; a package has at most 4,096 octets.
        entry[2] += span.start as u16;
        entry[4] += span.start as u16;
    }
    Ok(Inside {
        place: span.start,
        accepted,
        numbers,
    })
}

/// The details that are no places in the octets stay: of 3, of 13, and of a
/// RESULT's 11.
fn moved(refusal: Refusal, kind: u8, place: usize) -> Refusal {
    let stays = match refusal.number {
        3 | 13 => true,
        11 => kind == RESULT,
        _ => false,
    };
    let place = if stays { 0 } else { place };
    Refusal::new(refusal.number, refusal.detail as usize + place, refusal.why)
}

fn check_carried(
    package: u8,
    components: &[Inside],
    specifiers: Specifiers,
) -> Result<(), Refusal> {
    let mut each = components.iter().zip(specifiers);
    let other = each.find(|(one, specifier)| {
        let kind = one.accepted.kind;
        let operation = operation(kind, one.accepted.code, *specifier);
        carrier(kind, operation) != Some(package)
    });
    other.map_or(Ok(()), |(one, _)| {
        Err(Refusal::new(24, one.place, "carriage"))
    })
}

/// To each component its part of the table and its summary; all between and
/// behind stays.
fn fill(table: &mut [u16], summaries: &mut [u64], components: &[Inside]) {
    let parts = table.chunks_mut(reader::TABLE_NUMBERS).zip(summaries);
    for ((part, summary), one) in parts.zip(components) {
        part[..one.numbers.len()].copy_from_slice(&one.numbers);
        *summary = reader::packed(&Ok(one.accepted));
    }
}

/// Octet 0 the answer; accepted, octet 1 is the type, 2 the count of
/// transaction ID octets, 3 and 4 their place, 5 the count of components.
pub fn packed(answer: &Answer) -> u64 {
    match answer {
        Err(refusal) => refusal.packed(),
        Ok(accepted) => {
            let [low, high] = (accepted.ids as u16).to_le_bytes();
            let ids = accepted.id_count as u8;
            let count = accepted.components.len() as u8;
            u64::from_le_bytes([0, accepted.kind, ids, low, high, count, 0, 0])
        }
    }
}
