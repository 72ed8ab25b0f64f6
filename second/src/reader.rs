//! The reader: one component, checked from left to right.

use crate::refusal::Refusal;
use crate::rows::{self, Identifier, RowFault};
use crate::types::{self, Code, CodeElement, ComponentType};

pub const LONGEST: usize = 4096;
pub const MOST_PARAMETERS: usize = 64;

/// Number, 0 primitive or 1 constructor, start of contents, length, and the
/// place of the identifier.
pub const ENTRY_NUMBERS: usize = 5;
pub const TABLE_NUMBERS: usize = MOST_PARAMETERS * ENTRY_NUMBERS;

const COMPONENT_ID: u8 = 0xCF;
const PARAMETER_SET: u8 = 0xF2;

#[derive(Clone, Copy, Debug, PartialEq, Eq)]
pub struct Accepted {
    pub kind: u8,
    pub id_count: u8,
    /// 0 where there is no such octet.
    pub id: [u8; 2],
    pub code: Code,
    pub all: usize,
    pub named: usize,
    pub other: usize,
}

pub type Answer = Result<Accepted, Refusal>;

/// Start and end of an element's contents.
#[derive(Clone, Copy)]
pub(crate) struct Contents {
    pub start: usize,
    pub end: usize,
}

impl Contents {
    pub fn count(self) -> usize {
        self.end - self.start
    }
}

struct Parameter {
    place: usize,
    identifier: Identifier,
    contents: Contents,
}

/// What stands before the parameter set, and the set's contents.
struct Frame {
    kind: &'static ComponentType,
    id: Contents,
    /// Where the code stands; nowhere in a RESULT.
    code: Option<Contents>,
    set: Contents,
}

/// Reads a component. `specifier` is the caller's and counts for a RESULT
/// only. The table changes only when the component is accepted.
pub fn read(component: &[u8], specifier: u8, table: &mut [u16]) -> Answer {
    if table.len() < TABLE_NUMBERS {
        return Err(Refusal::new(1, 0, "table"));
    }
    if component.is_empty() {
        return Err(Refusal::new(2, 0, "empty"));
    }
    if component.len() > LONGEST {
        return Err(Refusal::new(2, 0, "too long"));
    }
    let frame = read_frame(component)?;
    let parameters = read_parameters(component, frame.set)?;
    let accepted = judge(component, specifier, &frame, &parameters)?;
    fill(table, &parameters);
    Ok(accepted)
}

fn read_frame(component: &[u8]) -> Result<Frame, Refusal> {
    let kind = types::find(component[0]).ok_or_else(|| Refusal::new(3, 0, "type"))?;
    let body = contents_to_the_end(component, 0, 1, component.len())?;
    let id = read_id(component, kind, body)?;
    let code = match &kind.code {
        Some(element) => Some(read_code(component, element, id.end, body.end)?),
        None => None,
    };
    let set_place = code.map_or(id.end, |code| code.end);
    let set = read_set(component, set_place, body.end)?;
    Ok(Frame {
        kind,
        id,
        code,
        set,
    })
}

fn read_id(component: &[u8], kind: &ComponentType, body: Contents) -> Result<Contents, Refusal> {
    let place = body.start;
    if wanted(component, place, body.end)? != COMPONENT_ID {
        return Err(Refusal::new(6, place, "identifier"));
    }
    let id = contents_within(component, place, place + 1, body.end)?;
    if !kind.id_octets.contains(&id.count()) {
        return Err(Refusal::new(6, place, "length"));
    }
    Ok(id)
}

/// The operation code, error or problem element; answers where the code in
/// it stands.
fn read_code(
    component: &[u8],
    element: &CodeElement,
    place: usize,
    end: usize,
) -> Result<Contents, Refusal> {
    let refused = |why| Err(Refusal::new(element.refused_by, place, why));
    if wanted(component, place, end)? != element.identifier {
        return refused("identifier");
    }
    let contents = contents_within(component, place, place + 1, end)?;
    if contents.count() != element.length() {
        return refused("length");
    }
    let start = contents.end - element.octets;
    if component[contents.start..start] != *element.family {
        return refused("family");
    }
    Ok(Contents {
        start,
        end: contents.end,
    })
}

fn read_set(component: &[u8], place: usize, end: usize) -> Result<Contents, Refusal> {
    if wanted(component, place, end)? != PARAMETER_SET {
        return Err(Refusal::new(8, place, "identifier"));
    }
    contents_to_the_end(component, place, place + 1, end)
}

fn read_parameters(component: &[u8], set: Contents) -> Result<Vec<Parameter>, Refusal> {
    let mut parameters = Vec::new();
    let mut place = set.start;
    while place < set.end {
        // 10 comes before 9: the 65th is not looked at.
        if parameters.len() == MOST_PARAMETERS {
            return Err(Refusal::new(10, place, "65th"));
        }
        let (identifier, field) = read_identifier(component, place, set.end)?;
        let contents = contents_within(component, place, field, set.end)?;
        parameters.push(Parameter {
            place,
            identifier,
            contents,
        });
        place = contents.end;
    }
    Ok(parameters)
}

/// The octet at a place where an element must begin.
pub(crate) fn wanted(component: &[u8], place: usize, end: usize) -> Result<u8, Refusal> {
    if place == end {
        return Err(Refusal::new(25, place, "ended"));
    }
    Ok(component[place])
}

/// A parameter identifier; answers also the place behind it.
fn read_identifier(
    component: &[u8],
    place: usize,
    end: usize,
) -> Result<(Identifier, usize), Refusal> {
    let first = component[place];
    if first & 0xC0 != 0x80 {
        return Err(Refusal::new(9, place, "class"));
    }
    let constructor = first & 0x20 != 0;
    let low = first & 0x1F;
    let (number, behind) = if low < 0x1F {
        (u16::from(low), place + 1)
    } else {
        read_run(component, place, end)?
    };
    let identifier = Identifier {
        number,
        constructor,
    };
    Ok((identifier, behind))
}

/// The number that follows an identifier octet whose low five bits are ones.
fn read_run(component: &[u8], place: usize, end: usize) -> Result<(u16, usize), Refusal> {
    let run = &component[place + 1..end];
    match *run {
        [] => Err(Refusal::new(9, place, "cut")),
        [0x80, ..] => Err(Refusal::new(9, place, "leading 80")),
        [only, ..] if only < 31 => Err(Refusal::new(9, place, "below 31")),
        [only, ..] if only < 0x80 => Ok((u16::from(only), place + 2)),
        [_] => Err(Refusal::new(9, place, "cut")),
        [high, low, ..] if low < 0x80 => {
            let number = u16::from(high & 0x7F) << 7 | u16::from(low);
            Ok((number, place + 3))
        }
        _ => Err(long_run(run, place)),
    }
}

/// A run of more than two octets. The paper's form allows no longer run, so
/// it is ill formed (9), and two octets hold no number over 16,383.
fn long_run(run: &[u8], place: usize) -> Refusal {
    let ends = run.iter().any(|octet| *octet < 0x80);
    Refusal::new(9, place, if ends { "long run" } else { "cut" })
}

/// The contents of the element at `place` with its length field at `field`;
/// they may not run past `end`, where the parent ends.
pub(crate) fn contents_within(
    component: &[u8],
    place: usize,
    field: usize,
    end: usize,
) -> Result<Contents, Refusal> {
    let (length, start) = read_length(&component[..end], field)?;
    if length > end - start {
        return Err(Refusal::new(5, place, "overrun"));
    }
    Ok(Contents {
        start,
        end: start + length,
    })
}

/// As above, for the component and F2, which must end where the parent ends.
pub(crate) fn contents_to_the_end(
    component: &[u8],
    place: usize,
    field: usize,
    end: usize,
) -> Result<Contents, Refusal> {
    let contents = contents_within(component, place, field, end)?;
    if contents.end < end {
        return Err(Refusal::new(20, contents.end, "left over"));
    }
    Ok(contents)
}

/// A length field in `parent`, which ends with the parent; answers the
/// length and the place behind the field. Each of the three forms is taken
/// for any value that it can say.
fn read_length(parent: &[u8], field: usize) -> Result<(usize, usize), Refusal> {
    match parent[field..] {
        [] | [0x81] | [0x82] | [0x82, _] => Err(Refusal::new(4, field, "cut")),
        [length @ 0x00..=0x7F, ..] => Ok((usize::from(length), field + 1)),
        [0x81, length, ..] => Ok((usize::from(length), field + 2)),
        [0x82, high, low, ..] => Ok((usize::from(high) << 8 | usize::from(low), field + 3)),
        _ => Err(Refusal::new(4, field, "form")),
    }
}

/// Makes the accepted answer, where there is no row or the row accepts.
fn judge(component: &[u8], specifier: u8, frame: &Frame, parameters: &[Parameter]) -> Answer {
    let code = match frame.code {
        Some(code) => two_octets(component, code),
        None => [specifier, 0],
    };
    let named = if frame.kind.has_row {
        ask_row(frame, code[0], parameters)?
    } else {
        0
    };
    Ok(Accepted {
        kind: frame.kind.octet,
        id_count: frame.id.count() as u8,
        id: two_octets(component, frame.id),
        code,
        all: parameters.len(),
        named,
        other: parameters.len() - named,
    })
}

/// 0 for each octet that is not there.
fn two_octets(component: &[u8], contents: Contents) -> [u8; 2] {
    let mut octets = [0; 2];
    octets[..contents.count()].copy_from_slice(&component[contents.start..contents.end]);
    octets
}

/// Asks 11 to 14, and 26 behind 12, and counts what the row names.
fn ask_row(frame: &Frame, specifier: u8, parameters: &[Parameter]) -> Result<usize, Refusal> {
    let place = frame.code.map_or(0, |code| code.start);
    let row =
        rows::find(frame.kind.octet, specifier).ok_or_else(|| Refusal::new(11, place, "row"))?;
    let list: Vec<Identifier> = parameters.iter().map(|one| one.identifier).collect();
    let octets: Vec<usize> = parameters.iter().map(|one| one.contents.count()).collect();
    row.check(&list, &octets).map_err(|fault| match fault {
        RowFault::Repeat(index) => Refusal::new(12, parameters[index].place, "again"),
        RowFault::Size(index) => Refusal::new(26, parameters[index].place, "size"),
        RowFault::Missing(number) => Refusal::new(13, usize::from(number), "missing"),
        RowFault::Both(index) => Refusal::new(14, parameters[index].place, "both"),
    })?;
    Ok(row.count_named(&list))
}

/// An entry a parameter; the numbers behind them stay.
fn fill(table: &mut [u16], parameters: &[Parameter]) {
    for (numbers, one) in table.chunks_exact_mut(ENTRY_NUMBERS).zip(parameters) {
        // Starts, lengths and places lie below 4,097.
        numbers[0] = one.identifier.number;
        numbers[1] = u16::from(one.identifier.constructor);
        numbers[2] = one.contents.start as u16;
        numbers[3] = one.contents.count() as u16;
        numbers[4] = one.place as u16;
    }
}

/// Octet 0 the answer; accepted, octets 1 to 5 are type, the two ID octets
/// and the two of the code, and octets 6 and 7 hold the counts.
pub fn packed(answer: &Answer) -> u64 {
    match answer {
        Err(refusal) => refusal.packed(),
        Ok(accepted) => {
            let [low, high] = counts(accepted).to_le_bytes();
            let [id_first, id_second] = accepted.id;
            let [first, second] = accepted.code;
            let kind = accepted.kind;
            u64::from_le_bytes([0, kind, id_first, id_second, first, second, low, high])
        }
    }
}

/// 16,384 times the count of ID octets, 128 times that of all, and named.
fn counts(accepted: &Accepted) -> u16 {
    let parameters = 128 * accepted.all + accepted.named;
    16384 * u16::from(accepted.id_count) + parameters as u16
}
