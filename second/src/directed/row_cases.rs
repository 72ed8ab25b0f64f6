//! What a row is asked: 12, 13 and 14, for each line of each row.

use super::lists::{all, backwards, holding, leaving_out, lines, mandatory, orders, primitives};
use super::lists::{twins, with, without, List};
use crate::rows::Row;

pub fn lists(row: &Row) -> Vec<List> {
    let questions = [
        taken,
        missing,
        repeated,
        repeats,
        alternatives,
        groups,
        twins_of_group,
        repeated_and_missing,
        both_and_more,
    ];
    let lists = questions.iter().flat_map(|question| question(row));
    lists.collect()
}

fn taken(row: &Row) -> Vec<List> {
    let all = all(row);
    vec![mandatory(row), backwards(&all), all, Vec::new()]
}

/// Each line alone, and each with each later one; the latter also backwards
/// and with what else the row names.
fn missing(row: &Row) -> Vec<List> {
    let lines = lines(row);
    let mut lists = Vec::new();
    for (index, first) in lines.iter().enumerate() {
        lists.push(leaving_out(&mandatory(row), first));
        for later in &lines[index + 1..] {
            let both = with(first, later);
            lists.push(leaving_out(&mandatory(row), &both));
            lists.push(backwards(&leaving_out(&all(row), &both)));
        }
    }
    lists
}

/// Each named one twice and three times, the second last or among the others.
fn repeated(row: &Row) -> Vec<List> {
    let mut lists = Vec::new();
    for one in all(row) {
        let list = holding(row, one);
        lists.push(with(&list, &[one]));
        lists.push(with(&list, &[one, one]));
        lists.push(with(&[one], &list));
    }
    lists
}

/// Two that are repeated: the earliest second counts, whichever of the two
/// comes first in the row or in the message.
fn repeats(row: &Row) -> Vec<List> {
    let mut lists = Vec::new();
    for pair in all(row).windows(2) {
        let (one, other) = (pair[0], pair[1]);
        let rest = leaving_out(&mandatory(row), pair);
        lists.push([&[one, other], &rest[..], &[one, other]].concat());
        lists.push([&[one, other], &rest[..], &[other, one]].concat());
        lists.push([&[one, other, one], &rest[..], &[other]].concat());
    }
    lists
}

/// Each member alone and each two in both orders, with others behind, around
/// and before.
fn alternatives(row: &Row) -> Vec<List> {
    let mut lists = Vec::new();
    for (index, line) in lines(row).iter().enumerate() {
        let rest = without(&mandatory(row), index);
        for one in line.iter().copied() {
            lists.push(with(&rest, &[one]));
            lists.push(with(&[one], &rest));
            lists.push([&[one], &rest[..], &[one]].concat());
            for other in leaving_out(line, &[one]) {
                lists.push(with(&[one, other], &rest));
                lists.push([&[one], &rest[..], &[other]].concat());
                lists.push(with(&rest, &[one, other]));
                lists.push(with(&rest, &[one, other.twin()]));
                lists.push(with(&rest, &[one, other, other.twin()]));
            }
        }
    }
    lists
}

/// What is mandatory beside the group.
fn beside_group(row: &Row) -> List {
    leaving_out(&mandatory(row), &primitives(row.group))
}

/// All members of a group in every order, before the others, behind, and on
/// both sides.
fn groups(row: &Row) -> Vec<List> {
    let rest = beside_group(row);
    let mut lists = Vec::new();
    for order in orders(&primitives(row.group)) {
        lists.push(with(&order, &rest));
        lists.push(with(&rest, &order));
        let (before, behind) = order.split_at(order.len() / 2);
        lists.push([before, &rest, behind].concat());
    }
    lists
}

/// The twin of each member, and of all of them, where no member occurs: with
/// all that is mandatory beside it, and without one of them.
fn twins_of_group(row: &Row) -> Vec<List> {
    let rest = beside_group(row);
    let all = twins(&primitives(row.group));
    let mut lists = Vec::new();
    for twins in all.chunks(1).chain([&all[..]]) {
        lists.push(with(&rest, twins));
        lists.push(with(twins, &rest));
        lists.extend((0..rest.len()).map(|index| with(&without(&rest, index), twins)));
    }
    lists
}

/// 12 before 13: each line is missing once, each named one repeated.
fn repeated_and_missing(row: &Row) -> Vec<List> {
    let mut lists = Vec::new();
    for (index, one) in all(row).into_iter().enumerate() {
        for line in [0, index + 1] {
            let mut list = holding(row, one);
            if line < mandatory(row).len() && list[line] != one {
                list.remove(line);
                lists.push(with(&list, &[one]));
            }
        }
    }
    lists
}

/// 12 and 13 before 14, in a row with a choice; 12 and 13 with all members of
/// a group.
fn both_and_more(row: &Row) -> Vec<List> {
    let both = lines(row).concat();
    let mut lists = Vec::new();
    for one in &both {
        lists.push(leaving_out(&both, &[*one]));
        lists.push(with(&both, &[*one]));
        lists.push(with(&[*one], &both));
    }
    lists
}
