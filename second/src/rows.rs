//! The operation rows and the questions asked of them (11 to 14, and 26).

use crate::types::{INVOKE, RESULT};
use std::slice;

/// Digits is the only named parameter that may repeat.
pub const DIGITS: u16 = 4;

/// One place of the column "Must occur, in this order".
#[derive(Debug)]
pub enum Must {
    One(u16),
    /// A choice: one of the two, and not both.
    Either([u16; 2]),
}

#[derive(Debug)]
pub struct Row {
    pub kind: u8,
    pub specifier: u8,
    pub must: &'static [Must],
    /// At least one must occur and several may; empty where the row asks for
    /// no such thing.
    pub group: &'static [u16],
    pub also: &'static [u16],
}

use Must::{Either, One};

const fn row(kind: u8, specifier: u8, must: &'static [Must], also: &'static [u16]) -> Row {
    Row {
        kind,
        specifier,
        must,
        group: &[],
        also,
    }
}

/// In the order of the paper, HandoffBack INVOKE first.
pub static ROWS: [Row; 12] = [
    row(INVOKE, 4, &[One(5), One(6), One(8), One(2), One(3)], &[1]),
    row(RESULT, 4, &[One(5)], &[]),
    row(
        INVOKE,
        13,
        &[One(9), Either([8, 242]), One(21), One(17), One(22)],
        &[32, 123],
    ),
    row(RESULT, 13, &[One(22)], &[]),
    row(RESULT, 14, &[], &[]),
    row(INVOKE, 15, &[One(1), One(4), One(21), One(22)], &[32, 123]),
    row(RESULT, 26, &[], &[]),
    row(INVOKE, 32, &[One(1), One(9)], &[21, 22, 32]).and_any_of(&[8, 242, 233]),
    row(INVOKE, 37, &[One(1), One(6), One(2)], &[242]),
    row(RESULT, 64, &[], &[4]),
    row(INVOKE, 101, &[One(105), One(116)], &[9]).and_any_of(&[8, 242, 233]),
    row(RESULT, 101, &[], &[105, 153]),
];

/// The parameters of fixed size, in the paper's order, each with the counts of
/// octets that it may have. They are the same in every row that names it.
pub static SIZED: [(u16, &[usize]); 8] = [
    (9, &[4]),
    (8, &[5]),
    (21, &[3]),
    (6, &[2]),
    (2, &[2]),
    (3, &[2]),
    (22, &[1]),
    (5, &[0, 3]),
];

/// Nothing where any size is right.
pub fn sizes(number: u16) -> Option<&'static [usize]> {
    let sized = SIZED.iter().find(|(sized, _)| *sized == number);
    sized.map(|(_, sizes)| *sizes)
}

/// Whether a row that names the parameter takes so many octets of it.
pub fn is_right_size(number: u16, octets: usize) -> bool {
    sizes(number).is_none_or(|sizes| sizes.contains(&octets))
}

/// An identifier as the rows see it: all named parameters are primitive, so
/// the same number with the constructor bit is never named.
#[derive(Clone, Copy, Debug, PartialEq, Eq)]
pub struct Identifier {
    pub number: u16,
    pub constructor: bool,
}

impl Identifier {
    pub const fn primitive(number: u16) -> Identifier {
        Identifier {
            number,
            constructor: false,
        }
    }

    /// The same number in the other form.
    pub const fn twin(self) -> Identifier {
        Identifier {
            number: self.number,
            constructor: !self.constructor,
        }
    }
}

/// The refusals 12, 26, 13 and 14. Repeat, Size and Both hold the index of
/// the parameter in order of occurrence; the reader turns it into a place.
#[derive(Debug, PartialEq, Eq)]
pub enum RowFault {
    Repeat(usize),
    Size(usize),
    Missing(u16),
    Both(usize),
}

pub fn find(kind: u8, specifier: u8) -> Option<&'static Row> {
    ROWS.iter()
        .find(|row| row.kind == kind && row.specifier == specifier)
}

impl Must {
    /// The numbers of which one must occur, in the paper's order.
    pub fn members(&self) -> &[u16] {
        match self {
            One(only) => slice::from_ref(only),
            Either(both) => both,
        }
    }
}

impl Row {
    const fn and_any_of(self, group: &'static [u16]) -> Row {
        Row { group, ..self }
    }

    /// What is mandatory, each line the numbers of which one must occur, in
    /// the order in which 13 asks for them: a group behind all others.
    pub fn lines(&self) -> impl Iterator<Item = &[u16]> {
        let group = (!self.group.is_empty()).then_some(self.group);
        self.must.iter().map(Must::members).chain(group)
    }

    /// Named: it stands in any column, each member of a choice or of a group
    /// included.
    pub fn names(&self, identifier: Identifier) -> bool {
        let number = &identifier.number;
        let mandatory = || self.lines().any(|line| line.contains(number));
        !identifier.constructor && (mandatory() || self.also.contains(number))
    }

    pub fn count_named(&self, list: &[Identifier]) -> usize {
        list.iter().filter(|entry| self.names(**entry)).count()
    }

    /// Asks 12, then 26, then 13, then 14; each of the whole list before the
    /// next. The octets are those of each parameter's contents.
    pub fn check(&self, list: &[Identifier], octets: &[usize]) -> Result<(), RowFault> {
        self.check_repeats(list)?;
        self.check_sizes(list, octets)?;
        self.check_missing(list)?;
        self.check_choices(list)
    }

    fn check_repeats(&self, list: &[Identifier]) -> Result<(), RowFault> {
        for (index, entry) in list.iter().enumerate() {
            let counted = self.names(*entry) && entry.number != DIGITS;
            if counted && list[..index].contains(entry) {
                return Err(RowFault::Repeat(index));
            }
        }
        Ok(())
    }

    /// What the row does not name is of any size, also where another row
    /// names it.
    fn check_sizes(&self, list: &[Identifier], octets: &[usize]) -> Result<(), RowFault> {
        let wrong = |(one, octets): (&Identifier, &usize)| {
            self.names(*one) && !is_right_size(one.number, *octets)
        };
        let earliest = list.iter().zip(octets).position(wrong);
        earliest.map_or(Ok(()), |index| Err(RowFault::Size(index)))
    }

    /// A choice and a group give their first member's number.
    fn check_missing(&self, list: &[Identifier]) -> Result<(), RowFault> {
        let occurs = |number: &u16| position(list, *number).is_some();
        let missing = self.lines().find(|line| !line.iter().any(occurs));
        missing.map_or(Ok(()), |line| Err(RowFault::Missing(line[0])))
    }

    /// Of choices only: members of a group may stand together.
    fn check_choices(&self, list: &[Identifier]) -> Result<(), RowFault> {
        for must in self.must {
            if let Either(both) = must {
                if let [Some(one), Some(other)] = both.map(|member| position(list, member)) {
                    return Err(RowFault::Both(one.max(other)));
                }
            }
        }
        Ok(())
    }
}

/// Where the primitive parameter of this number first occurs.
fn position(list: &[Identifier], number: u16) -> Option<usize> {
    let wanted = Identifier::primitive(number);
    list.iter().position(|entry| *entry == wanted)
}
