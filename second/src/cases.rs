//! The stream of cases for a harness in C.
//!
//! All numbers are little endian. Each case begins with a kind octet; the
//! stream ends with the octet 'E'.
//!
//! 'R', a call of the reader:
//!   u8 specifier
//!   u32 component length, the octets
//!   u32 table length in numbers; the harness fills table[i] before the call
//!       with (i * 40503 + 7) mod 65536
//!   expected: u64 packed result
//!   u32 count of leading table numbers that changed, these numbers as u16
//!
//! 'W', a call of the writer:
//!   u8 type, u8 id_count, u8 id_first, u8 id_second
//!   u8 code_first, u8 code_second
//!   u64 entries
//!   u32 table length in numbers, the numbers as u16
//!   u32 source length, the octets
//!   u32 output length; the harness fills output[i] before the call with
//!       (i * 167 + 13) mod 256
//!   expected: u64 packed result
//!   u32 count of leading output octets that changed, these octets
//!
//! 'N', a call for the name of an error:
//!   u8 code
//!   u32 length of the lent buffer; the harness fills it as it does an output
//!   expected: u64 packed result
//!   u32 count of leading octets that changed, these octets
//!
//! 'P', a call of the package reader:
//!   u64 specifiers, the first component's in the least significant octet
//!   u32 package length, the octets
//!   u32 table length in numbers, filled as for 'R'
//!   u32 count of summaries lent; the harness fills summaries[i] before the
//!       call with (i + 1) * 11400714819323198485 mod 2^64
//!   expected: u64 packed result
//!   u32 count of components that are shown, and for each: u64 summary, u32
//!       count of leading numbers of its part that changed, these as u16
//!
//! 'Q', a call of the package writer:
//!   u8 type
//!   u32 count of transaction ID octets, the octets
//!   u32 count of summaries, these as u64
//!   u64 specifiers, as for 'P'
//!   u32 table length in numbers, filled as for 'R'
//!   u32 count of parts that begin otherwise, and for each: u32 count of its
//!       leading numbers, these as u16
//!   u32 source length, the octets
//!   u32 output length, filled as for 'W'
//!   expected: u64 packed result
//!   u32 count of leading output octets that changed, these octets
//!
//! Part i of a package's table begins at 320 * i, with its first component's
//! at 0.
//!
//! An entry of a table is 5 numbers: the parameter's number, 0 primitive or 1
//! constructor, start of contents, length, and the place of the identifier,
//! which a writer ignores.
//!
//! "Changed" means written: an entry a parameter, or the component's octets,
//! or the name's, when accepted, else 0. All other numbers and octets stay as
//! filled.
//!
//! Packed result: octet 0 (least significant) is the answer, 0 accepted.
//! Refused: octets 1 to 4 the detail, least significant first, the rest 0.
//! Reader accepted: octets 1 to 5 are type, first and second ID octet, first
//! and second octet of the code (each 0 where absent); octets 6 and 7 are a
//! number, least significant octet first: 16,384 times the count of ID octets,
//! 128 times the count of all parameters, and the count of named ones.
//! Package reader accepted: octets 1 to 5 are type, count of transaction ID
//! octets, the place of the first in two octets, least significant first, and
//! the count of components; the rest 0. A summary is the packed result of its
//! component.
//! Writers accepted, or a name: octets 1 to 4 the octet count, the rest 0.

use crate::errors;
use crate::generate::{package_read_case, package_write_case, read_case, write_case};
use crate::generate::{PackageReadCase, PackageWriteCase, ReadCase, WriteCase};
use crate::package::{reading, writing};
use crate::random::Random;
use crate::reader::{self, ENTRY_NUMBERS, TABLE_NUMBERS};
use crate::writer;
use std::io::{self, Write};

/// Seeds the cases of each reader and writer apart from those of the others,
/// so that the count of the one does not change the other.
const WRITER_SEED: u64 = 0x5752_4954_4552_0000;
const PACKAGE_READER_SEED: u64 = 0x5041_434B_5244_0000;
const PACKAGE_WRITER_SEED: u64 = 0x5041_434B_5752_0000;

pub fn read_random(seed: u64) -> Random {
    Random::new(seed)
}

pub fn write_random(seed: u64) -> Random {
    Random::new(seed ^ WRITER_SEED)
}

pub fn package_read_random(seed: u64) -> Random {
    Random::new(seed ^ PACKAGE_READER_SEED)
}

pub fn package_write_random(seed: u64) -> Random {
    Random::new(seed ^ PACKAGE_WRITER_SEED)
}

/// How many cases of each call a stream has.
#[derive(Clone, Copy, Default)]
pub struct Counts {
    pub reads: u64,
    pub writes: u64,
    pub package_reads: u64,
    pub package_writes: u64,
}

/// The table before a call.
pub fn table_before(numbers: usize) -> Vec<u16> {
    (0..numbers).map(|i| (i * 40503 + 7) as u16).collect()
}

/// The output before a call.
pub fn output_before(octets: usize) -> Vec<u8> {
    (0..octets).map(|i| (i * 167 + 13) as u8).collect()
}

/// The summaries before a call.
pub fn summaries_before(count: usize) -> Vec<u64> {
    let filled = |index: usize| (index as u64 + 1).wrapping_mul(0x9E37_79B9_7F4A_7C15);
    (0..count).map(filled).collect()
}

/// Answers a reader case; the second is the part of the table that changed.
pub fn answer_read(case: &ReadCase) -> (reader::Answer, Vec<u16>) {
    let before = table_before(case.numbers);
    let mut table = before.clone();
    let answer = reader::read(&case.component, case.specifier, &mut table);
    let changed = answer
        .as_ref()
        .map_or(0, |accepted| ENTRY_NUMBERS * accepted.all);
    assert_eq!(table[changed..], before[changed..]);
    table.truncate(changed);
    (answer, table)
}

/// Answers a writer case; the second is the part of the output that changed.
pub fn answer_write(case: &WriteCase) -> (writer::Answer, Vec<u8>) {
    let before = output_before(case.output);
    let mut output = before.clone();
    let answer = writer::write(
        case.head,
        case.entries,
        &case.table,
        &case.source,
        &mut output,
    );
    let changed = answer.unwrap_or(0);
    assert_eq!(output[changed..], before[changed..]);
    output.truncate(changed);
    (answer, output)
}

/// Answers a case of the package reader, and checks that nothing changes but
/// what it shows of its components.
pub fn answer_package_read(case: &PackageReadCase) -> reading::Answer {
    let mut table = table_before(case.numbers);
    let mut summaries = summaries_before(case.summaries);
    let (mut expected, mut shown) = (table.clone(), summaries.clone());
    let answer = reading::read(&case.package, case.specifiers, &mut table, &mut summaries);
    let components = answer.iter().flat_map(|accepted| &accepted.components);
    for (index, one) in components.enumerate() {
        let numbers = one.numbers.len();
        expected[TABLE_NUMBERS * index..][..numbers].copy_from_slice(&one.numbers);
        shown[index] = reader::packed(&Ok(one.accepted));
    }
    assert!(table == expected && summaries == shown);
    answer
}

/// Answers a case of the package writer; the second is the part of the output
/// that changed.
pub fn answer_package_write(case: &PackageWriteCase) -> (writer::Answer, Vec<u8>) {
    let before = output_before(case.output);
    let mut output = before.clone();
    let answer = writing::write(case.package(&case.table()), &mut output);
    let changed = answer.unwrap_or(0);
    assert_eq!(output[changed..], before[changed..]);
    output.truncate(changed);
    (answer, output)
}

pub fn stream(out: &mut impl Write, counts: Counts, seed: u64) -> io::Result<()> {
    let mut random = read_random(seed);
    for _ in 0..counts.reads {
        put_read(out, &read_case(&mut random))?;
    }
    let mut random = write_random(seed);
    for _ in 0..counts.writes {
        put_write(out, &write_case(&mut random))?;
    }
    let mut random = package_read_random(seed);
    for _ in 0..counts.package_reads {
        put_package_read(out, &package_read_case(&mut random))?;
    }
    let mut random = package_write_random(seed);
    for _ in 0..counts.package_writes {
        put_package_write(out, &package_write_case(&mut random))?;
    }
    put_names(out)?;
    out.write_all(b"E")
}

/// Every code, with buffers that its name fits and does not fit.
fn put_names(out: &mut impl Write) -> io::Result<()> {
    for code in 0..=u8::MAX {
        let needed = errors::name(code).len();
        for octets in [0, needed.saturating_sub(1), needed, needed + 1, 40] {
            put_name(out, code, octets)?;
        }
    }
    Ok(())
}

fn put_name(out: &mut impl Write, code: u8, octets: usize) -> io::Result<()> {
    let mut buffer = output_before(octets);
    let answer = errors::put_name(code, &mut buffer);
    buffer.truncate(answer.unwrap_or(0));
    out.write_all(&[b'N', code])?;
    put_count(out, octets)?;
    out.write_all(&writer::packed(&answer).to_le_bytes())?;
    put_octets(out, &buffer)
}

fn put_count(out: &mut impl Write, count: usize) -> io::Result<()> {
    let count = u32::try_from(count).expect("a count fits 32 bits");
    out.write_all(&count.to_le_bytes())
}

fn put_octets(out: &mut impl Write, octets: &[u8]) -> io::Result<()> {
    put_count(out, octets.len())?;
    out.write_all(octets)
}

fn put_numbers(out: &mut impl Write, numbers: &[u16]) -> io::Result<()> {
    put_count(out, numbers.len())?;
    for number in numbers {
        out.write_all(&number.to_le_bytes())?;
    }
    Ok(())
}

fn put_read(out: &mut impl Write, case: &ReadCase) -> io::Result<()> {
    let (answer, changed) = answer_read(case);
    out.write_all(&[b'R', case.specifier])?;
    put_octets(out, &case.component)?;
    put_count(out, case.numbers)?;
    out.write_all(&reader::packed(&answer).to_le_bytes())?;
    put_numbers(out, &changed)
}

fn put_write(out: &mut impl Write, case: &WriteCase) -> io::Result<()> {
    let (answer, changed) = answer_write(case);
    let head = case.head;
    out.write_all(&[b'W', head.kind, head.id_count])?;
    out.write_all(&[head.id_first, head.id_second])?;
    out.write_all(&head.code)?;
    out.write_all(&(case.entries as u64).to_le_bytes())?;
    put_numbers(out, &case.table)?;
    put_octets(out, &case.source)?;
    put_count(out, case.output)?;
    out.write_all(&writer::packed(&answer).to_le_bytes())?;
    put_octets(out, &changed)
}

fn put_package_read(out: &mut impl Write, case: &PackageReadCase) -> io::Result<()> {
    let answer = answer_package_read(case);
    out.write_all(b"P")?;
    out.write_all(&case.specifiers)?;
    put_octets(out, &case.package)?;
    put_count(out, case.numbers)?;
    put_count(out, case.summaries)?;
    out.write_all(&reading::packed(&answer).to_le_bytes())?;
    let components = answer.map_or(Vec::new(), |accepted| accepted.components);
    put_count(out, components.len())?;
    for one in components {
        let summary = reader::packed(&Ok(one.accepted));
        out.write_all(&summary.to_le_bytes())?;
        put_numbers(out, &one.numbers)?;
    }
    Ok(())
}

fn put_package_write(out: &mut impl Write, case: &PackageWriteCase) -> io::Result<()> {
    let (answer, changed) = answer_package_write(case);
    out.write_all(&[b'Q', case.kind])?;
    put_octets(out, &case.ids)?;
    put_count(out, case.summaries.len())?;
    for summary in &case.summaries {
        out.write_all(&summary.to_le_bytes())?;
    }
    out.write_all(&case.specifiers)?;
    put_parts(out, case)?;
    put_octets(out, &case.source)?;
    put_count(out, case.output)?;
    out.write_all(&writer::packed(&answer).to_le_bytes())?;
    put_octets(out, &changed)
}

/// The table, of each part only what was put there and is within the table.
fn put_parts(out: &mut impl Write, case: &PackageWriteCase) -> io::Result<()> {
    put_count(out, case.numbers)?;
    let table = case.table();
    let parts: Vec<&[u16]> = table.chunks(TABLE_NUMBERS).collect();
    let count = parts.len().min(case.runs.len());
    put_count(out, count)?;
    for (part, run) in parts.iter().zip(&case.runs) {
        put_numbers(out, &part[..run.len().min(part.len())])?;
    }
    Ok(())
}
