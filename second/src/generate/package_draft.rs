//! A package in pieces, its components as drafts of their own.

use super::draft::{draw_forms, Draft, Element, Form, Forms, Length, SHORTEST};
use super::{draw_error, draw_problem, draw_row, Subject};
use crate::carriage::{carrier, LINES};
use crate::package::{id_octets, Specifiers, CONVERSATION, KINDS, MOST_COMPONENTS};
use crate::package::{QUERY, RESPONSE, SEQUENCE, TRANSACTION_ID};
use crate::random::Random;
use crate::rows::{Row, ROWS};
use crate::types::{ERROR, INVOKE, REJECT, RESULT};

/// The pieces of a package, its sequence's identifier and length apart from
/// the components in it.
#[derive(Clone)]
pub struct PackageDraft {
    pub kind: u8,
    /// For the lengths of elements that are put in later.
    pub forms: Forms,
    pub outer: Length,
    pub ids: Option<Element>,
    /// Octets between the transaction IDs and the sequence.
    pub between: Vec<u8>,
    pub sequence_identifier: Option<u8>,
    pub sequence_length: Length,
    /// Each with the specifier that the caller gives for it.
    pub components: Vec<Draft>,
    /// What the caller gives where there is no component.
    pub spare: Specifiers,
    /// Keep only so many octets of the sequence's contents, or of the body.
    pub sequence_cut: Option<usize>,
    pub body_cut: Option<usize>,
    /// Octets behind the sequence within the body, and behind the package.
    pub behind_sequence: Vec<u8>,
    pub behind: Vec<u8>,
}

impl PackageDraft {
    pub fn of(kind: u8, ids: Vec<u8>, components: Vec<Draft>) -> PackageDraft {
        PackageDraft {
            kind,
            forms: SHORTEST,
            outer: Length::True(Form::Shortest),
            ids: Some(Element::new(vec![TRANSACTION_ID], ids)),
            between: Vec::new(),
            sequence_identifier: Some(SEQUENCE),
            sequence_length: Length::True(Form::Shortest),
            components,
            spare: [0; MOST_COMPONENTS],
            sequence_cut: None,
            body_cut: None,
            behind_sequence: Vec::new(),
            behind: Vec::new(),
        }
    }

    /// A package that is accepted: in three of ten all components are of one
    /// operation, and the caller gives its specifier eight times.
    pub fn valid(random: &mut Random) -> PackageDraft {
        let count = draw_count(random);
        if random.percent(30) {
            return PackageDraft::of_one_operation(random, count);
        }
        let kind = random.pick(&[QUERY, QUERY, RESPONSE, RESPONSE, CONVERSATION]);
        let components = (0..count).map(|_| component(random, kind)).collect();
        let mut draft = PackageDraft::padded(random, kind, components);
        draft.spare = [(); MOST_COMPONENTS].map(|_| random.octet());
        draft
    }

    /// Of an operation with a row or, so that a CONVERSATION carries it, one
    /// that Table 2 names.
    fn of_one_operation(random: &mut Random, count: usize) -> PackageDraft {
        let row = draw_row(random);
        let (kind, specifier) = match row.kind {
            _ if random.percent(30) => (CONVERSATION, draw_conversing(random)),
            INVOKE => (QUERY, random.octet()),
            _ => (RESPONSE, row.specifier),
        };
        let mut component = || {
            let subject = match kind {
                QUERY => Subject::of_row(row),
                RESPONSE if random.percent(60) => Subject::of_row(row),
                _ => rowless(random),
            };
            of_specifier(random, subject, specifier)
        };
        let components = (0..count).map(|_| component()).collect();
        let mut draft = PackageDraft::padded(random, kind, components);
        draft.spare = [specifier; MOST_COMPONENTS];
        draft
    }

    /// An ERROR or a REJECT of an operation that Table 2 names, in a package
    /// of any type: each shows a cell of the table.
    pub fn of_a_line(random: &mut Random) -> PackageDraft {
        let (subject, specifier) = draw_of_a_line(random);
        let component = of_specifier(random, subject, specifier);
        let kind = random.pick(&KINDS);
        PackageDraft::padded(random, kind, vec![component])
    }

    /// With transaction IDs of the type, and lengths in forms of its own.
    fn padded(random: &mut Random, kind: u8, components: Vec<Draft>) -> PackageDraft {
        let count = id_octets(kind).expect("a package type");
        let mut draft = PackageDraft::of(kind, random.octets(count), components);
        draft.forms = draw_forms(random);
        for field in 0..draft.lengths().len() {
            *draft.lengths()[field] = Length::True(random.pick(draft.forms));
        }
        draft
    }

    /// The package's own length fields from left to right.
    pub fn lengths(&mut self) -> Vec<&mut Length> {
        let ids = self.ids.iter_mut().map(|ids| &mut ids.length);
        let outer = [&mut self.outer].into_iter();
        outer
            .chain(ids)
            .chain([&mut self.sequence_length])
            .collect()
    }

    /// Makes it another type, with as many ID octets as that has.
    pub fn retype(&mut self, kind: u8) {
        self.kind = kind;
        if let (Some(ids), Some(count)) = (&mut self.ids, id_octets(kind)) {
            ids.contents.resize(count, 0x01);
        }
    }

    pub fn specifiers(&self) -> Specifiers {
        let mut specifiers = self.spare;
        for (specifier, one) in specifiers.iter_mut().zip(&self.components) {
            *specifier = one.specifier;
        }
        specifiers
    }

    pub fn sequence(&self) -> Vec<u8> {
        let octets: Vec<Vec<u8>> = self.components.iter().map(Draft::octets).collect();
        let mut octets = octets.concat();
        if let Some(kept) = self.sequence_cut {
            octets.truncate(kept);
        }
        octets
    }

    pub fn body(&self) -> Vec<u8> {
        let mut octets = Vec::new();
        self.ids.iter().for_each(|ids| ids.put(&mut octets));
        octets.extend(&self.between);
        let sequence = self.sequence();
        if let Some(identifier) = self.sequence_identifier {
            octets.push(identifier);
            octets.extend(self.sequence_length.octets(sequence.len()));
            octets.extend(sequence);
        }
        octets.extend(&self.behind_sequence);
        if let Some(kept) = self.body_cut {
            octets.truncate(kept);
        }
        octets
    }

    pub fn octets(&self) -> Vec<u8> {
        let body = self.body();
        let mut octets = vec![self.kind];
        octets.extend(self.outer.octets(body.len()));
        octets.extend(body);
        octets.extend(&self.behind);
        octets
    }

    /// Lengthens a component until the package has the target's octets, or
    /// comes near it where a longer length field leaps over it.
    pub fn fit(&mut self, random: &mut Random, at: usize, target: usize) {
        let sizes = |draft: &PackageDraft| {
            let component = draft.components[at].octets().len();
            (component, draft.octets().len())
        };
        for _ in 0..6 {
            let (component, now) = sizes(self);
            let wanted = (component + target).saturating_sub(now);
            if wanted <= component {
                return;
            }
            let whole = |draft: &Draft| draft.octets().len();
            self.components[at].fit(random, wanted, whole);
        }
    }
}

/// One to eight, mostly few.
pub fn draw_count(random: &mut Random) -> usize {
    match random.below(100) {
        0..=34 => 1,
        35..=59 => 2,
        60..=84 => random.between(3, 7),
        _ => MOST_COMPONENTS,
    }
}

/// The operations of which a CONVERSATION carries errors and rejects.
fn draw_conversing(random: &mut Random) -> u8 {
    random.pick(&[50, 58, 65, 66, 67, 71])
}

/// An ERROR or a REJECT.
fn rowless(random: &mut Random) -> Subject {
    let row = draw_row(random);
    if random.percent(50) {
        Subject::new(ERROR, [draw_error(random, row), 0], row)
    } else {
        Subject::new(REJECT, draw_problem(random, row), row)
    }
}

/// A specifier by which this package carries errors and rejects; any that
/// there is where none does.
fn draw_specifier(random: &mut Random, package: u8) -> u8 {
    match package {
        CONVERSATION => draw_conversing(random),
        RESPONSE => loop {
            let specifier = match random.below(3) {
                0 => random.pick(&[0, 2, 36, 69, 73, 74, 255]),
                1 => draw_row(random).specifier,
                _ => random.octet(),
            };
            if carrier(ERROR, specifier) == Some(RESPONSE) {
                return specifier;
            }
        },
        _ => random.octet(),
    }
}

/// An ERROR or a REJECT with a specifier that has a line of its own.
pub fn draw_of_a_line(random: &mut Random) -> (Subject, u8) {
    let line = &LINES[random.below(LINES.len())];
    (rowless(random), line.specifier)
}

fn of_specifier(random: &mut Random, subject: Subject, specifier: u8) -> Draft {
    let mut draft = Draft::valid(random, subject);
    draft.specifier = specifier;
    draft
}

/// A component that a package of this type carries, where it carries any.
pub fn component(random: &mut Random, package: u8) -> Draft {
    let (subject, specifier) = draw_carried(random, package);
    of_specifier(random, subject, specifier)
}

/// What such a component is, and the specifier that the caller gives for it.
pub fn draw_carried(random: &mut Random, package: u8) -> (Subject, u8) {
    let subject = match package {
        QUERY => Subject::of_row(row_of(random, INVOKE)),
        RESPONSE if random.percent(50) => Subject::of_row(row_of(random, RESULT)),
        _ => rowless(random),
    };
    let specifier = match subject.kind.octet {
        INVOKE => random.octet(),
        RESULT => subject.code[0],
        _ => draw_specifier(random, package),
    };
    (subject, specifier)
}

fn row_of(random: &mut Random, kind: u8) -> &'static Row {
    let of_kind: Vec<&'static Row> = ROWS.iter().filter(|row| row.kind == kind).collect();
    random.pick(&of_kind)
}

/// A component of any type and operation.
pub fn any_component(random: &mut Random) -> Draft {
    let package = random.pick(&[QUERY, RESPONSE, RESPONSE, CONVERSATION]);
    component(random, package)
}
