//! The writer of packages: each component by the component's writer, then the
//! package's own elements around them.

use super::{id_octets, operation, Specifiers};
use super::{MOST_COMPONENTS, SEQUENCE, TABLE_NUMBERS, TRANSACTION_ID};
use crate::carriage::carrier;
use crate::reader::{self, LONGEST};
use crate::refusal::Refusal;
use crate::types::RESULT;
use crate::writer::{self, Answer, Head};

/// What is to be written.
#[derive(Clone, Copy)]
pub struct Package<'a> {
    pub kind: u8,
    pub ids: &'a [u8],
    /// One for each component, as a reading gives it.
    pub summaries: &'a [u64],
    pub specifiers: Specifiers,
    pub table: &'a [u16],
    pub source: &'a [u8],
}

/// Writes a package. Only the leading octets of an accepted package change in
/// the output.
pub fn write(package: Package, output: &mut [u8]) -> Answer {
    check_head(package)?;
    let heads = heads(package);
    let components = write_components(package, &heads)?;
    check_carried(package, &heads)?;
    let octets = compose(package, &components);
    if octets.len() > LONGEST {
        return Err(Refusal::new(15, octets.len(), "package"));
    }
    if octets.len() > output.len() {
        return Err(Refusal::new(17, octets.len(), "output"));
    }
    output[..octets.len()].copy_from_slice(&octets);
    Ok(octets.len())
}

fn check_head(package: Package) -> Result<(), Refusal> {
    if package.table.len() < TABLE_NUMBERS {
        return Err(Refusal::new(1, 0, "table"));
    }
    let count = id_octets(package.kind).ok_or_else(|| Refusal::new(22, 0, "type"))?;
    if package.ids.len() != count {
        return Err(Refusal::new(22, 0, "ID octets"));
    }
    match package.summaries.len() {
        0 => Err(Refusal::new(23, 0, "none")),
        1..=MOST_COMPONENTS => Ok(()),
        _ => Err(Refusal::new(23, 0, "many")),
    }
}

/// What a summary and the caller say of a component.
struct Said {
    head: Head,
    entries: usize,
    specifier: u8,
}

/// Its answer and its count of named parameters are not looked at.
fn said(summary: u64, specifier: u8) -> Said {
    let [_, kind, id_first, id_second, first, second, low, high] = summary.to_le_bytes();
    let counts = u16::from_le_bytes([low, high]);
    // A RESULT has no code in its octets: its row is the caller's to say.
    let code = if kind == RESULT {
        [specifier, 0]
    } else {
        [first, second]
    };
    Said {
        head: Head {
            kind,
            id_count: (counts / 16384) as u8,
            id_first,
            id_second,
            code,
        },
        entries: usize::from(counts / 128 % 128),
        specifier,
    }
}

fn heads(package: Package) -> Vec<Said> {
    let each = package.summaries.iter().zip(package.specifiers);
    each.map(|(summary, specifier)| said(*summary, specifier))
        .collect()
}

/// In order, up to the first that is refused. The output is as long as a
/// component may be, so that 17 does not arise.
fn write_components(package: Package, heads: &[Said]) -> Result<Vec<Vec<u8>>, Refusal> {
    let parts = package.table.chunks(reader::TABLE_NUMBERS);
    let write = |(said, part): (&Said, &[u16])| {
        let mut octets = vec![0; LONGEST];
        let count = writer::write(said.head, said.entries, part, package.source, &mut octets)?;
        octets.truncate(count);
        Ok(octets)
    };
    heads.iter().zip(parts).map(write).collect()
}

fn check_carried(package: Package, heads: &[Said]) -> Result<(), Refusal> {
    let carried = |said: &Said| {
        let Head { kind, code, .. } = said.head;
        carrier(kind, operation(kind, code, said.specifier)) == Some(package.kind)
    };
    let other = heads.iter().position(|said| !carried(said));
    other.map_or(Ok(()), |index| Err(Refusal::new(24, index, "carriage")))
}

/// Eight components of 4,096 octets are below what a length field can say.
fn compose(package: Package, components: &[Vec<u8>]) -> Vec<u8> {
    let ids = element(TRANSACTION_ID, package.ids);
    let sequence = element(SEQUENCE, &components.concat());
    element(package.kind, &[ids, sequence].concat())
}

fn element(identifier: u8, contents: &[u8]) -> Vec<u8> {
    let mut octets = vec![identifier];
    writer::put_length(&mut octets, contents.len());
    octets.extend(contents);
    octets
}
