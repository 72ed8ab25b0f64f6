//! Return trips on generated cases, and how far the cases reach.

use second::cases::{answer_read, answer_write, read_random, write_random};
use second::generate::{read_case, write_case, ReadCase};
use second::padding::is_padded;
use second::reader::{self, read, Accepted, ENTRY_NUMBERS, TABLE_NUMBERS};
use second::refusal::Refusal;
use second::rows::{self, Row, ROWS};
use second::types::{self, ComponentType, INVOKE, REJECT, TYPES};
use second::writer::{self, write, Head};
use std::collections::{BTreeMap, BTreeSet};

const CASES: usize = 60_000;

/// Counts by component type.
type Trips = BTreeMap<u8, usize>;

fn check_trips(trips: Trips) {
    for kind in &TYPES {
        let count = trips.get(&kind.octet);
        assert!(count.is_some_and(|count| *count > CASES / 20), "{kind:?}");
    }
}

/// Every length of what is written is the shortest, and nothing else differs:
/// the octets are the same exactly when nothing was padded.
#[test]
fn writing_what_was_read_gives_the_shortest_form() {
    let mut random = read_random(11);
    let mut trips = Trips::new();
    let mut shortened = Trips::new();
    for _ in 0..CASES {
        let case = read_case(&mut random);
        let (Ok(accepted), table) = answer_read(&case) else {
            continue;
        };
        check_places(&case.component, &table);
        let written = written_again(&accepted, &table, &case.component);
        assert!(!is_padded(&written));
        let padded = is_padded(&case.component);
        assert_eq!(written == case.component, !padded);
        assert_eq!(written.len() < case.component.len(), padded);
        check_same(&case, (&accepted, &table), &written);
        *trips.entry(accepted.kind).or_insert(0) += 1;
        *shortened.entry(accepted.kind).or_insert(0) += usize::from(padded);
    }
    check_trips(trips);
    assert!(shortened.len() == 4 && shortened.values().all(|count| *count > CASES / 50));
}

/// As long an output as the component is enough, and so is one as long as
/// what is written; one octet less is not.
fn written_again(accepted: &Accepted, table: &[u16], component: &[u8]) -> Vec<u8> {
    let into = |octets: usize| {
        let mut output = vec![0; octets];
        let head = Head::of(accepted);
        let answer = write(head, accepted.all, table, component, &mut output);
        answer.map(|count| output[..count].to_vec())
    };
    let written = into(component.len()).expect("accepted");
    let needed = written.len();
    assert_eq!(into(needed).as_ref(), Ok(&written));
    assert_eq!(into(needed - 1), Err(Refusal::new(17, needed, "")));
    written
}

/// What was written reads as what was read: but for starts and places.
fn check_same(case: &ReadCase, (accepted, table): (&Accepted, &[u16]), written: &[u8]) {
    let mut again = [0; TABLE_NUMBERS];
    let answer = read(written, case.specifier, &mut again);
    assert_eq!(answer.as_ref(), Ok(accepted));
    let entries = table.chunks_exact(ENTRY_NUMBERS);
    for (first, second) in entries.zip(again.chunks_exact(ENTRY_NUMBERS)) {
        assert_eq!(first[..2], second[..2]);
        assert_eq!(part(&case.component, first), part(written, second));
    }
}

#[test]
fn reading_what_was_written_gives_the_same_entries() {
    let mut random = write_random(12);
    let mut trips = Trips::new();
    for _ in 0..CASES {
        let case = write_case(&mut random);
        let (Ok(_), octets) = answer_write(&case) else {
            continue;
        };
        let mut table = [0; TABLE_NUMBERS];
        let accepted = read(&octets, case.head.code[0], &mut table).expect("accepted");
        assert_eq!(accepted.kind, case.head.kind);
        assert_eq!(accepted.id_count, case.head.id_count);
        let given = [case.head.id_first, case.head.id_second];
        let count = usize::from(case.head.id_count);
        assert_eq!(accepted.id[..count], given[..count]);
        let [first, second] = case.head.code;
        let second = if accepted.kind == REJECT { second } else { 0 };
        assert_eq!(accepted.code, [first, second]);
        assert_eq!(accepted.all, case.entries);
        assert_eq!(accepted.named + accepted.other, accepted.all);
        let table = &table[..ENTRY_NUMBERS * accepted.all];
        check_places(&octets, table);
        // Number and form, then the contents and so their length; start and
        // place are of other octets.
        let wrote = case.table.chunks_exact(ENTRY_NUMBERS);
        for (wrote, got) in wrote.zip(table.chunks_exact(ENTRY_NUMBERS)) {
            assert_eq!(wrote[..2], got[..2]);
            assert_eq!(part(&case.source, wrote), part(&octets, got));
        }
        *trips.entry(accepted.kind).or_insert(0) += 1;
    }
    check_trips(trips);
}

fn part<'a>(octets: &'a [u8], entry: &[u16]) -> &'a [u8] {
    &octets[usize::from(entry[2])..][..usize::from(entry[3])]
}

/// At each place the identifier's octets begin, and the contents of the entry
/// before end there; those of the last end with the component.
fn check_places(component: &[u8], table: &[u16]) {
    let entries = table.chunks_exact(ENTRY_NUMBERS);
    let places = entries.clone().map(|entry| usize::from(entry[4]));
    let nexts = places.clone().skip(1).chain([component.len()]);
    for ((entry, place), next) in entries.zip(places).zip(nexts) {
        assert!(component[place..].starts_with(&identifier(entry[0], entry[1])));
        assert_eq!(usize::from(entry[2]) + usize::from(entry[3]), next);
    }
}

/// The octets that the paper gives an identifier of this number and form.
fn identifier(number: u16, form: u16) -> Vec<u8> {
    let first = if form == 1 { 0b1010_0000 } else { 0b1000_0000 };
    match number {
        0..=30 => vec![first + number as u8],
        31..=127 => vec![first + 31, number as u8],
        _ => vec![first + 31, (number / 128) as u8 + 128, (number % 128) as u8],
    }
}

/// How often each number is reached, by the octet that is the type.
type Reached = BTreeMap<(u8, u64), usize>;

fn check_reached(reached: &Reached, least: usize, wanted: impl Fn(&ComponentType) -> Vec<u64>) {
    for kind in &TYPES {
        for number in wanted(kind) {
            let count = reached.get(&(kind.octet, number)).copied().unwrap_or(0);
            assert!(count >= least, "{:X}, {number}: {count}", kind.octet);
        }
    }
}

/// 3 is given for other octets only.
fn check_no_type(reached: &Reached) {
    let counts = reached.iter().filter(|(key, _)| key.1 == 3);
    assert!(counts.clone().all(|(key, _)| types::find(key.0).is_none()));
    assert!(counts.map(|(_, count)| count).sum::<usize>() > 200);
}

/// 14 only where a row has a choice.
fn row_numbers(kind: &ComponentType) -> &'static [u64] {
    match kind.octet {
        INVOKE => &[11, 12, 13, 14, 26],
        _ if kind.has_row => &[11, 12, 13, 26],
        _ => &[],
    }
}

fn reader_numbers(kind: &ComponentType) -> Vec<u64> {
    let code = kind.code.iter().map(|code| u64::from(code.refused_by));
    let numbers = [0, 1, 2, 4, 5, 6, 8, 9, 10, 20, 25].into_iter().chain(code);
    numbers.chain(row_numbers(kind).iter().copied()).collect()
}

#[test]
fn every_reader_number_is_reached() {
    let mut random = read_random(13);
    let mut reached = Reached::new();
    let mut sizes: BTreeMap<(usize, bool), usize> = BTreeMap::new();
    let mut tables = BTreeSet::new();
    for _ in 0..CASES {
        let case = read_case(&mut random);
        tables.insert(case.numbers);
        let (answer, _) = answer_read(&case);
        let kind = case.component.first().copied().unwrap_or(0);
        let number = reader::packed(&answer) & 0xFF;
        *reached.entry((kind, number)).or_insert(0) += 1;
        let key = (case.component.len(), answer.is_ok());
        *sizes.entry(key).or_insert(0) += 1;
    }
    check_reached(&reached, 50, reader_numbers);
    check_no_type(&reached);
    for size in [127, 128, 255, 256, 4095, 4096] {
        assert!(sizes.contains_key(&(size, true)), "{size}");
    }
    assert!(sizes.contains_key(&(4097, false)) && !sizes.contains_key(&(4097, true)));
    for numbers in [0, 256, 319, 320, 321] {
        assert!(tables.contains(&numbers), "{numbers}");
    }
}

fn writer_numbers(kind: &ComponentType) -> Vec<u64> {
    [&[0, 1, 6, 10, 15, 16, 17], row_numbers(kind)].concat()
}

#[test]
fn every_writer_number_is_reached() {
    let mut random = write_random(14);
    let mut reached = Reached::new();
    let mut needs: BTreeMap<u64, usize> = BTreeMap::new();
    let mut tables = BTreeSet::new();
    let mut places = BTreeSet::new();
    for _ in 0..CASES {
        let case = write_case(&mut random);
        tables.insert((case.entries, case.table.len()));
        let entries = case.table.chunks_exact(ENTRY_NUMBERS);
        places.extend(entries.map(|entry| entry[4]));
        let answer = answer_write(&case).0;
        let packed = writer::packed(&answer);
        let key = (case.head.kind, packed & 0xFF);
        *reached.entry(key).or_insert(0) += 1;
        if [0, 15, 17].contains(&(packed & 0xFF)) {
            *needs.entry(packed >> 8).or_insert(0) += 1;
        }
    }
    check_reached(&reached, 200, writer_numbers);
    check_no_type(&reached);
    assert!(reached.keys().all(|key| ![7, 21].contains(&key.1)));
    for need in [127, 128, 255, 256, 4095, 4096, 4097, 65539, 65541] {
        assert!(needs.contains_key(&need), "{need}");
    }
    for entries in [1, 2, 5, 64] {
        for numbers in [4 * entries, 5 * entries - 1, 5 * entries, 5 * entries + 1] {
            assert!(tables.contains(&(entries, numbers)), "{entries}, {numbers}");
        }
    }
    for place in [0, 1, 4095, 4096, 4097, 65535] {
        assert!(places.contains(&place), "{place}");
    }
}

/// Each question at the operation code, the error or the problem: the parent
/// has ended, the identifier, the length field, nesting, length and family.
#[test]
fn every_fault_at_the_code_is_reached() {
    let mut random = read_random(16);
    let mut reached: BTreeMap<(bool, u8, u8, &str), usize> = BTreeMap::new();
    for _ in 0..CASES {
        let case = read_case(&mut random);
        let (Err(refusal), _) = answer_read(&case) else {
            continue;
        };
        let Some((padded, place)) = behind_id(&case.component) else {
            continue;
        };
        let field = refusal.number == 4 && refusal.detail == place + 1;
        let element = refusal.number != 4 && refusal.detail == place;
        if field || element {
            let key = (padded, case.component[0], refusal.number, refusal.why);
            *reached.entry(key).or_insert(0) += 1;
        }
    }
    for kind in &TYPES {
        for (number, why) in faults_at_code(kind) {
            for (padded, least) in [(false, 20), (true, 3)] {
                let count = reached.get(&(padded, kind.octet, number, why));
                let count = count.copied().unwrap_or(0);
                let met = count >= least;
                assert!(met, "{:X}, {number}, {why}, {padded}: {count}", kind.octet);
            }
        }
    }
}

/// Where the code stands behind lengths of one octet, and behind lengths that
/// are both padded with 82.
fn behind_id(component: &[u8]) -> Option<(bool, u32)> {
    match *component {
        [_, 0..0x80, 0xCF, count @ 0..=2, ..] => Some((false, 4 + u32::from(count))),
        [_, 0x82, 0, _, 0xCF, 0x82, 0, count @ 0..=2, ..] => Some((true, 8 + u32::from(count))),
        _ => None,
    }
}

fn faults_at_code(kind: &ComponentType) -> Vec<(u8, &'static str)> {
    let Some(code) = &kind.code else {
        return Vec::new();
    };
    let own = ["identifier", "length", "family"].map(|why| (code.refused_by, why));
    let own = &own[..2 + code.family.len()];
    let shared = [(4, "cut"), (4, "form"), (5, "overrun"), (25, "ended")];
    [&shared, own].concat()
}

/// What the rows leave to errors and rejects: none of their parameters is
/// named, though they are those of a row, and often one occurs again.
#[test]
fn errors_and_rejects_hold_what_a_row_would_refuse() {
    let mut random = read_random(17);
    let mut repeats = Trips::new();
    let mut callers = Trips::new();
    for _ in 0..CASES {
        let case = read_case(&mut random);
        let (Ok(accepted), table) = answer_read(&case) else {
            continue;
        };
        if types::of(accepted.kind).has_row {
            continue;
        }
        assert_eq!(accepted.named, 0);
        let entries: Vec<&[u16]> = table.chunks_exact(ENTRY_NUMBERS).collect();
        let met: BTreeSet<&[u16]> = entries.iter().map(|entry| &entry[..2]).collect();
        if met.len() < entries.len() {
            *repeats.entry(accepted.kind).or_insert(0) += 1;
        }
        if ROWS.iter().any(|row| row.specifier == case.specifier) {
            *callers.entry(accepted.kind).or_insert(0) += 1;
        }
    }
    for counts in [repeats, callers] {
        assert!(counts.len() == 2 && counts.values().all(|count| *count > 500));
    }
}

/// For the rows with a group, by specifier: how often so many members are
/// taken together (0), a member occurs again (12), and the line with this
/// first number is missing (13).
type Groups = BTreeMap<(u8, u8, u32), usize>;

fn check_groups(met: &Groups, least: usize) {
    for row in ROWS.iter().filter(|row| !row.group.is_empty()) {
        let taken = (1..=row.group.len()).map(|count| (0, count as u32));
        let again = row.group.iter().map(|member| (12, u32::from(*member)));
        let missing = row.lines().map(|line| (13, u32::from(line[0])));
        for (number, detail) in taken.chain(again).chain(missing) {
            let count = met.get(&(row.specifier, number, detail));
            let count = count.copied().unwrap_or(0);
            let specifier = row.specifier;
            assert!(count >= least, "{specifier}, {number}, {detail}: {count}");
        }
    }
    assert!(met.keys().all(|(_, number, _)| *number != 14));
}

fn count_members(row: &Row, table: &[u16]) -> u32 {
    let entries = table.chunks_exact(ENTRY_NUMBERS);
    let members = entries.filter(|entry| row.group.contains(&entry[0]) && entry[1] == 0);
    members.count() as u32
}

/// The row of an INVOKE whose lengths are of one octet.
fn row_of(component: &[u8]) -> Option<&'static Row> {
    let (_, place) = behind_id(component)?;
    match component.get(place as usize..)? {
        [0xD1, 0x02, 0x09, specifier, ..] => rows::find(INVOKE, *specifier),
        _ => None,
    }
}

#[test]
fn groups_are_read() {
    let mut random = read_random(20);
    let mut met = Groups::new();
    for _ in 0..CASES {
        let case = read_case(&mut random);
        let Some(row) = row_of(&case.component).filter(|row| !row.group.is_empty()) else {
            continue;
        };
        let (answer, table) = answer_read(&case);
        let (number, detail) = match answer {
            Ok(_) => (0, count_members(row, &table)),
            Err(Refusal {
                number: 12, detail, ..
            }) => (12, member_at(row, &case.component, detail)),
            Err(refusal) => (refusal.number, refusal.detail),
        };
        *met.entry((row.specifier, number, detail)).or_insert(0) += 1;
    }
    check_groups(&met, 5);
}

/// 0 where no member of the group stands.
fn member_at(row: &Row, component: &[u8], place: u32) -> u32 {
    let octets = &component[place as usize..];
    let stands = |member: &&u16| octets.starts_with(&identifier(**member, 0));
    u32::from(row.group.iter().find(stands).copied().unwrap_or(0))
}

#[test]
fn groups_are_written() {
    let mut random = write_random(21);
    let mut met = Groups::new();
    for _ in 0..CASES {
        let case = write_case(&mut random);
        let row = rows::find(case.head.kind, case.head.code[0]);
        let Some(row) = row.filter(|row| !row.group.is_empty()) else {
            continue;
        };
        let (number, detail) = match answer_write(&case).0 {
            Ok(_) => (
                0,
                count_members(row, &case.table[..ENTRY_NUMBERS * case.entries]),
            ),
            Err(Refusal {
                number: 12, detail, ..
            }) => (12, u32::from(case.table[ENTRY_NUMBERS * detail as usize])),
            Err(refusal) => (refusal.number, refusal.detail),
        };
        *met.entry((row.specifier, number, detail)).or_insert(0) += 1;
    }
    check_groups(&met, 10);
}
