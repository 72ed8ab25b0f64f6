//! The listings of a run of tagged fields: of its components, or of its
//! packages.

use crate::package::reading::{self, Inside};
use crate::package::{self, MOST_COMPONENTS};
use crate::reader::{self, TABLE_NUMBERS};
use std::fmt::Write;

const HEADER: &str = "item answer detail named other\n";
const PACKAGES_HEADER: &str = "item answer detail type components\n";
const COMPONENT: u8 = 1;
const SPECIFIER: u8 = 2;
const PACKAGE: u8 = 5;

/// What stands at the front of the input.
enum Front<'a> {
    Field(u8, &'a [u8], &'a [u8]),
    Cut,
    Nothing,
}

/// The components of an input.
pub fn list(input: &[u8]) -> String {
    listed(input, HEADER, COMPONENT, line)
}

/// The packages of an input, each with its components.
pub fn list_packages(input: &[u8]) -> String {
    listed(input, PACKAGES_HEADER, PACKAGE, package_lines)
}

/// What is said of an item with this number and specifier.
type Lines = fn(u64, &[u8], u8) -> String;

/// The fields with this tag are the items; tag 2 sets the specifier for those
/// behind it.
fn listed(input: &[u8], header: &str, item_tag: u8, of_item: Lines) -> String {
    let mut lines = String::from(header);
    let mut rest = input;
    let mut specifier = 0;
    let mut item = 0u64;
    loop {
        match take_field(rest) {
            Front::Nothing => return lines,
            Front::Cut => {
                lines.push_str("cut\n");
                return lines;
            }
            Front::Field(tag, contents, behind) => {
                rest = behind;
                match contents {
                    contents if tag == item_tag => {
                        item += 1;
                        lines.push_str(&of_item(item, contents, specifier));
                    }
                    [only] if tag == SPECIFIER => specifier = *only,
                    _ => {}
                }
            }
        }
    }
}

/// Tag, two octets of length with the high one first, contents. A field is
/// cut when the input ends within any of them.
fn take_field(input: &[u8]) -> Front<'_> {
    match input {
        [] => Front::Nothing,
        [tag, high, low, behind @ ..] => {
            let length = usize::from(u16::from_be_bytes([*high, *low]));
            match behind.split_at_checked(length) {
                Some((contents, behind)) => Front::Field(*tag, contents, behind),
                None => Front::Cut,
            }
        }
        _ => Front::Cut,
    }
}

fn line(item: u64, component: &[u8], specifier: u8) -> String {
    let mut table = [0; TABLE_NUMBERS];
    let (number, detail, named, other) = match reader::read(component, specifier, &mut table) {
        Ok(accepted) => (0, 0, accepted.named, accepted.other),
        Err(refusal) => (refusal.number, refusal.detail, 0, 0),
    };
    let mut text = String::new();
    writeln!(text, "{item} {number} {detail} {named} {other}").expect("a string takes all");
    text
}

/// The package's line, and behind it one for each component.
fn package_lines(item: u64, octets: &[u8], specifier: u8) -> String {
    let mut table = [0; package::TABLE_NUMBERS];
    let mut summaries = [0; MOST_COMPONENTS];
    let specifiers = [specifier; MOST_COMPONENTS];
    match reading::read(octets, specifiers, &mut table, &mut summaries) {
        Err(refusal) => format!("{item} {} {} 0 0\n", refusal.number, refusal.detail),
        Ok(accepted) => {
            let count = accepted.components.len();
            let inside: String = accepted.components.iter().map(inside_line).collect();
            format!("{item} 0 0 {} {count}\n{inside}", accepted.kind)
        }
    }
}

/// The component's place stands for its item.
fn inside_line(one: &Inside) -> String {
    let reader::Accepted { named, other, .. } = one.accepted;
    format!(" {} 0 0 {named} {other}\n", one.place)
}
