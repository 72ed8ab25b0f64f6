//! Lists of identifiers, from which the cases of a row are made.

use crate::rows::{Identifier, Row};

pub type List = Vec<Identifier>;

pub fn primitives(numbers: &[u16]) -> List {
    let numbers = numbers.iter().copied();
    numbers.map(Identifier::primitive).collect()
}

/// What is mandatory, in the order of the questions: the members of each line.
pub fn lines(row: &Row) -> Vec<List> {
    row.lines().map(primitives).collect()
}

/// The members of the line that this one stands in, or else this one alone.
pub fn line_of(row: &Row, one: Identifier) -> List {
    let mut lines = lines(row).into_iter();
    let line = lines.find(|line| line.contains(&one));
    line.unwrap_or_else(|| vec![one])
}

/// The first member of each mandatory line.
pub fn mandatory(row: &Row) -> List {
    lines(row).iter().map(|line| line[0]).collect()
}

/// The mandatory ones, and behind them all that the row takes beside them:
/// the other members of a group too, but not that of a choice.
pub fn all(row: &Row) -> List {
    let more = [row.group, row.also].concat();
    let mandatory = mandatory(row);
    let more = leaving_out(&primitives(&more), &mandatory);
    with(&mandatory, &more)
}

pub fn without(list: &[Identifier], index: usize) -> List {
    let mut list = list.to_vec();
    list.remove(index);
    list
}

pub fn with(list: &[Identifier], more: &[Identifier]) -> List {
    [list, more].concat()
}

pub fn backwards(list: &[Identifier]) -> List {
    list.iter().rev().copied().collect()
}

/// The mandatory ones, and this one where it is not among them.
pub fn holding(row: &Row, one: Identifier) -> List {
    let mut list = mandatory(row);
    if !list.contains(&one) {
        list.push(one);
    }
    list
}

pub fn leaving_out(list: &[Identifier], some: &[Identifier]) -> List {
    let kept = list.iter().filter(|one| !some.contains(one));
    kept.copied().collect()
}

pub fn twins(list: &[Identifier]) -> List {
    list.iter().map(|one| one.twin()).collect()
}

/// The list in every order.
pub fn orders(list: &[Identifier]) -> Vec<List> {
    if list.is_empty() {
        return vec![Vec::new()];
    }
    let first = |index: usize| {
        let others = orders(&without(list, index)).into_iter();
        others.map(move |others| with(&[list[index]], &others))
    };
    (0..list.len()).flat_map(first).collect()
}
