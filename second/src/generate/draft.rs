//! A component in pieces, so that one piece can be damaged while the lengths
//! around it stay right and the reader gets as far as that piece.

use super::{draw_id_count, draw_parameters, draw_rowless, Drawn, Subject, FILLER};
use crate::random::Random;
use crate::rows::Row;
use crate::types::{Code, ComponentType};

/// The form of a length field: each is taken for any length that it can say.
#[derive(Clone, Copy)]
pub enum Form {
    Shortest,
    /// 81 and one octet, or 82 and two: padded where a shorter form would do.
    /// Of a length that 81 cannot say it is the shortest.
    With81,
    With82,
}

/// Forms from which each length field of a component is taken.
pub type Forms = &'static [Form];

pub const SHORTEST: Forms = &[Form::Shortest];
pub const WITH_81: Forms = &[Form::With81];
pub const WITH_82: Forms = &[Form::With82];
pub const ANY_FORM: Forms = &[Form::Shortest, Form::With81, Form::With82];

/// How a length field is made.
#[derive(Clone)]
pub enum Length {
    True(Form),
    /// Of so many octets more than there are.
    Off(Form, i32),
    /// These octets instead of a field.
    Raw(Vec<u8>),
}

#[derive(Clone)]
pub struct Element {
    pub identifier: Vec<u8>,
    pub length: Length,
    pub contents: Vec<u8>,
}

/// The pieces of a component, its set identifier and length apart from the
/// parameters in it.
#[derive(Clone)]
pub struct Draft {
    pub row: &'static Row,
    /// For the lengths of elements that are put in later.
    pub forms: Forms,
    pub kind: u8,
    /// The caller's.
    pub specifier: u8,
    pub outer: Length,
    pub id: Option<Element>,
    /// Operation code, error or problem.
    pub code: Option<Element>,
    pub set_identifier: Option<u8>,
    pub set_length: Length,
    pub parameters: Vec<Element>,
    /// Keep only so many octets of the set's contents, or of the body.
    pub set_cut: Option<usize>,
    pub body_cut: Option<usize>,
    /// Octets behind F2 within the body, and behind the whole component.
    pub behind_set: Vec<u8>,
    pub behind: Vec<u8>,
}

impl Element {
    pub fn new(identifier: Vec<u8>, contents: Vec<u8>) -> Element {
        Element {
            identifier,
            length: Length::True(Form::Shortest),
            contents,
        }
    }

    /// Octets that may be less than an element, or no element at all.
    pub fn raw(octets: Vec<u8>) -> Element {
        Element {
            identifier: octets,
            length: Length::Raw(Vec::new()),
            contents: Vec::new(),
        }
    }

    /// The element with this code in a component of this type, if it has one.
    pub fn code(kind: &ComponentType, code: Code) -> Option<Element> {
        let element = kind.code.as_ref();
        element.map(|element| Element::new(vec![element.identifier], element.contents(code)))
    }

    pub fn put(&self, octets: &mut Vec<u8>) {
        octets.extend(&self.identifier);
        octets.extend(self.length.octets(self.contents.len()));
        octets.extend(&self.contents);
    }
}

impl Form {
    pub fn octets(self, length: usize) -> Vec<u8> {
        let [high, low] = [(length >> 8) as u8, length as u8];
        match (self, length) {
            (Form::Shortest, 0..=0x7F) => vec![low],
            (Form::Shortest | Form::With81, 0..=0xFF) => vec![0x81, low],
            _ => vec![0x82, high, low],
        }
    }
}

impl Length {
    pub fn octets(&self, length: usize) -> Vec<u8> {
        match self {
            Length::True(form) => form.octets(length),
            Length::Off(form, off) => form.octets(length.saturating_add_signed(*off as isize)),
            Length::Raw(octets) => octets.clone(),
        }
    }
}

/// Two of five components come from switches that pad: some of their lengths,
/// or all in one form.
pub fn draw_forms(random: &mut Random) -> Forms {
    match random.below(100) {
        0..=59 => SHORTEST,
        60..=79 => ANY_FORM,
        80..=89 => WITH_81,
        _ => WITH_82,
    }
}

/// Identifier octets in the form the paper takes.
pub fn identifier(number: u16, constructor: bool) -> Vec<u8> {
    let form = 0x80 + 0x20 * u8::from(constructor);
    let low = (number % 128) as u8;
    if number < 31 {
        vec![form + low]
    } else if number < 128 {
        vec![form + 31, low]
    } else {
        vec![form + 31, 128 + (number / 128) as u8, low]
    }
}

pub(super) fn element(random: &mut Random, drawn: Drawn) -> Element {
    Element::new(
        identifier(drawn.number, drawn.constructor),
        random.octets(drawn.length),
    )
}

/// What the caller gives: anything but in a RESULT, as it plays no part, and
/// often the specifier of a row.
fn draw_caller(random: &mut Random, subject: Subject) -> u8 {
    if subject.kind.code.is_none() {
        return subject.code[0];
    }
    match random.below(3) {
        0 => subject.row.specifier,
        1 => draw_rowless(random, subject.kind.octet),
        _ => random.octet(),
    }
}

impl Draft {
    /// A component with one ID octet. But for a RESULT the caller gives 0,
    /// which has no row.
    pub fn of(subject: Subject, parameters: Vec<Element>) -> Draft {
        let code = Element::code(subject.kind, subject.code);
        Draft {
            row: subject.row,
            forms: SHORTEST,
            kind: subject.kind.octet,
            specifier: code.as_ref().map_or(subject.code[0], |_| 0),
            outer: Length::True(Form::Shortest),
            id: Some(Element::new(vec![0xCF], vec![0x05])),
            code,
            set_identifier: Some(0xF2),
            set_length: Length::True(Form::Shortest),
            parameters,
            set_cut: None,
            body_cut: None,
            behind_set: Vec::new(),
            behind: Vec::new(),
        }
    }

    /// A component that is accepted.
    pub fn valid(random: &mut Random, subject: Subject) -> Draft {
        let id_count = draw_id_count(random, subject.kind);
        let id = random.octets(id_count);
        let caller = draw_caller(random, subject);
        let drawn = draw_parameters(random, subject);
        let parameters = drawn.iter().map(|one| element(random, *one)).collect();
        let mut draft = Draft::of(subject, parameters);
        draft.id = Some(Element::new(vec![0xCF], id));
        draft.specifier = caller;
        let forms = draw_forms(random);
        draft.pad(random, forms);
        draft
    }

    /// Makes every length field a true one, in these forms.
    pub fn pad(&mut self, random: &mut Random, forms: Forms) {
        self.forms = forms;
        for length in self.lengths() {
            *length = Length::True(random.pick(forms));
        }
    }

    /// The length fields from left to right.
    pub fn lengths(&mut self) -> Vec<&mut Length> {
        let head = self.id.iter_mut().chain(&mut self.code);
        let head = head.map(|one| &mut one.length);
        let parameters = self.parameters.iter_mut().map(|one| &mut one.length);
        let body = head.chain([&mut self.set_length]).chain(parameters);
        [&mut self.outer].into_iter().chain(body).collect()
    }

    /// For an element that is put in later.
    pub fn draw_length(&self, random: &mut Random) -> Length {
        Length::True(random.pick(self.forms))
    }

    pub fn set_contents(&self) -> Vec<u8> {
        let mut octets = Vec::new();
        for parameter in &self.parameters {
            parameter.put(&mut octets);
        }
        if let Some(kept) = self.set_cut {
            octets.truncate(kept);
        }
        octets
    }

    pub fn id_octets(&self) -> Vec<u8> {
        let mut octets = Vec::new();
        self.id.iter().for_each(|id| id.put(&mut octets));
        octets
    }

    pub fn body(&self) -> Vec<u8> {
        let mut octets = self.id_octets();
        self.code.iter().for_each(|code| code.put(&mut octets));
        let set = self.set_contents();
        if let Some(identifier) = self.set_identifier {
            octets.push(identifier);
            octets.extend(self.set_length.octets(set.len()));
            octets.extend(set);
        }
        octets.extend(&self.behind_set);
        if let Some(kept) = self.body_cut {
            octets.truncate(kept);
        }
        octets
    }

    pub fn octets(&self) -> Vec<u8> {
        let body = self.body();
        let mut octets = vec![self.kind];
        octets.extend(self.outer.octets(body.len()));
        octets.extend(body);
        octets.extend(&self.behind);
        octets
    }

    /// Adds a filler whose contents bring the measured count to the target,
    /// or near it where a longer length field leaps over it.
    pub fn fit(&mut self, random: &mut Random, target: usize, measured: fn(&Draft) -> usize) {
        let mut filler = Element::new(identifier(FILLER, random.percent(50)), Vec::new());
        filler.length = self.draw_length(random);
        let at = random.below(self.parameters.len() + 1);
        self.parameters.insert(at, filler);
        for _ in 0..6 {
            let now = measured(self);
            let length = self.parameters[at].contents.len();
            let wanted = (length + target).saturating_sub(now);
            self.parameters[at].contents = random.octets(wanted);
        }
    }
}
