//! Parameters of fixed size (26): each in each row, of right and wrong sizes,
//! and beside what is asked before and behind it.

use super::lists::{all, backwards, holding, leaving_out, lines, mandatory, twins, with, List};
use super::{draft, draft_of, nameless, of_size, Case};
use crate::generate::draft::Draft;
use crate::generate::{Subject, SIZES};
use crate::reader::MOST_PARAMETERS;
use crate::rows::{self, sizes, Identifier, Row, SIZED};
use crate::types::{ERROR, INVOKE, REJECT};

/// What a row is asked, for each row.
pub fn of_row(row: &'static Row) -> Vec<Case> {
    let questions = [
        every_size,
        not_held,
        earliest,
        among_repeats,
        beside_missing,
        in_crowd,
    ];
    let drafts = questions.iter().flat_map(|question| question(row));
    let mut cases: Vec<Case> = drafts.map(|draft| Case::of(&draft)).collect();
    cases.extend(not_asked(row));
    cases
}

/// What only some rows show.
pub fn cases() -> Vec<Case> {
    let drafts = beside_both().into_iter().chain(large_ones());
    drafts.map(|draft| Case::of(&draft)).collect()
}

fn all_sized() -> List {
    let numbers = SIZED.iter().map(|(number, _)| *number);
    numbers.map(Identifier::primitive).collect()
}

/// Those that the row names.
fn held(row: &Row) -> List {
    let sized = all_sized().into_iter();
    sized.filter(|one| row.names(*one)).collect()
}

/// A size that this one may not have, near one that it may: one octet less,
/// where there is one, or one more.
fn wrong(one: Identifier) -> usize {
    let right = sizes(one.number).expect("a fixed size")[0];
    right.checked_sub(1).unwrap_or(right + 1)
}

/// Changes the contents of the parameter at this index.
fn resized(mut draft: Draft, list: &[Identifier], index: usize, count: usize) -> Draft {
    draft.parameters[index] = of_size(list[index], count);
    draft
}

/// All at these indices of wrong sizes.
fn wronged(row: &'static Row, list: &[Identifier], indices: &[usize]) -> Draft {
    let sound = draft(row, list);
    let each = indices.iter();
    each.fold(sound, |draft, index| {
        resized(draft, list, *index, wrong(list[*index]))
    })
}

fn index_of(list: &[Identifier], one: Identifier) -> usize {
    let index = list.iter().position(|other| *other == one);
    index.expect("it stands there")
}

/// Each that the row names, of each size, the others right.
fn every_size(row: &'static Row) -> Vec<Draft> {
    let mut drafts = Vec::new();
    for one in held(row) {
        let list = holding(row, one);
        let index = index_of(&list, one);
        drafts.extend(SIZES.map(|count| resized(draft(row, &list), &list, index, count)));
    }
    drafts
}

/// All that the row does not name, and the twins of all, of each size; a
/// large one stands in `large_ones`.
fn not_held(row: &'static Row) -> Vec<Draft> {
    let others = leaving_out(&all_sized(), &held(row));
    let mut drafts = Vec::new();
    for count in SIZES.into_iter().filter(|count| *count < 200) {
        for some in [&others, &twins(&all_sized())] {
            let mut draft = draft(row, &mandatory(row));
            let some = some.iter().map(|one| of_size(*one, count));
            draft.parameters.extend(some);
            drafts.push(draft);
        }
    }
    drafts
}

fn large_ones() -> Vec<Draft> {
    let lists = [all_sized(), twins(&all_sized())];
    let large = |list: List| {
        let mut draft = draft(nameless(), &[]);
        draft.parameters = list.iter().map(|one| of_size(*one, 200)).collect();
        draft
    };
    lists.map(large).into()
}

/// Two of wrong size, whichever comes first in the row or in the message, and
/// all of them.
fn earliest(row: &'static Row) -> Vec<Draft> {
    let mut drafts = Vec::new();
    for pair in held(row).windows(2) {
        let rest = leaving_out(&all(row), pair);
        let (one, other) = (pair[0], pair[1]);
        for (one, other) in [(one, other), (other, one)] {
            let list = [&[one], &rest[..], &[other]].concat();
            drafts.push(wronged(row, &list, &[0, list.len() - 1]));
            let list = with(&rest, &[one, other]);
            drafts.push(wronged(row, &list, &[list.len() - 2, list.len() - 1]));
        }
    }
    let list = all(row);
    let indices: Vec<usize> = held(row).iter().map(|one| index_of(&list, *one)).collect();
    drafts.push(wronged(row, &list, &indices));
    drafts
}

/// 12 before 26: the repeat behind the wrong size and before it, and of the
/// one that has it, at the first, at the second, or at both.
fn among_repeats(row: &'static Row) -> Vec<Draft> {
    let mut drafts = Vec::new();
    for one in held(row) {
        let list = holding(row, one);
        let rest = leaving_out(&list, &[one]);
        let twice = [&[one], &rest[..], &[one]].concat();
        let last = twice.len() - 1;
        for indices in [&[0][..], &[last], &[0, last]] {
            drafts.push(wronged(row, &twice, indices));
        }
        for other in leaving_out(&all(row), &[one]) {
            let rest = leaving_out(&rest, &[other]);
            let behind = [&[one, other], &rest[..], &[other]].concat();
            drafts.push(wronged(row, &behind, &[0]));
            let before = [&[other, other], &rest[..], &[one]].concat();
            drafts.push(wronged(row, &before, &[before.len() - 1]));
        }
    }
    drafts
}

/// 26 before 13: each other line is missing, and all of them.
fn beside_missing(row: &'static Row) -> Vec<Draft> {
    let mut drafts = Vec::new();
    for one in held(row) {
        for line in lines(row).iter().filter(|line| !line.contains(&one)) {
            let list = leaving_out(&holding(row, one), line);
            drafts.push(wronged(row, &list, &[index_of(&list, one)]));
        }
        drafts.push(wronged(row, &[one], &[0]));
    }
    drafts
}

/// 26 before 14, at each of the two members and at each of the others.
fn beside_both() -> Vec<Draft> {
    let row = rows::find(INVOKE, 13).expect("the row with a choice");
    let both = lines(row).concat();
    let mut drafts = Vec::new();
    for one in held(row) {
        drafts.push(wronged(row, &both, &[index_of(&both, one)]));
        let both = backwards(&both);
        drafts.push(wronged(row, &both, &[index_of(&both, one)]));
    }
    drafts
}

/// As the 64th, behind others of no octets.
fn in_crowd(row: &'static Row) -> Vec<Draft> {
    let last = |one: Identifier| {
        let mut list = leaving_out(&mandatory(row), &[one]);
        list.resize(MOST_PARAMETERS - 1, Identifier::primitive(28));
        let list = with(&list, &[one]);
        wronged(row, &list, &[MOST_PARAMETERS - 1])
    };
    held(row).into_iter().take(1).map(last).collect()
}

/// What the row names, all of wrong sizes, in an ERROR and in a REJECT that
/// have its specifier as their code and from the caller; and where the
/// specifier has no row, which is asked before.
fn not_asked(row: &'static Row) -> Vec<Case> {
    let list = held(row);
    if list.is_empty() {
        return Vec::new();
    }
    let of = |subject: Subject, specifier: u8| {
        let mut draft = draft_of(subject, &[]);
        let each = list.iter();
        draft.parameters = each.map(|one| of_size(*one, wrong(*one))).collect();
        draft.specifier = specifier;
        Case::of(&draft)
    };
    let rowless = [ERROR, REJECT].map(|kind| Subject::new(kind, [row.specifier, 9], row));
    let mut cases: Vec<Case> = rowless.map(|subject| of(subject, row.specifier)).into();
    cases.push(of(Subject::new(row.kind, [0, 0], row), 0));
    cases
}
