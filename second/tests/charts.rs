//! Every chart of the paper, starred or not, those of errors and rejects, of
//! the rows with a group, and the order of the numbers.

use second::listing::list;
use second::reader::{packed, read, Accepted, ENTRY_NUMBERS, TABLE_NUMBERS};
use second::refusal::Refusal;
use second::rows::{Identifier, ROWS};

fn octets(text: &str) -> Vec<u8> {
    text.split_whitespace()
        .map(|pair| u8::from_str_radix(pair, 16).expect("a hexadecimal octet"))
        .collect()
}

const FILL: u16 = 0xAAAA;

/// Reads with a table just long enough and checks that what is not filled
/// stays; answers what is filled.
fn read_chart(component: &[u8], specifier: u8) -> (Result<Accepted, Refusal>, Vec<u16>) {
    let mut table = vec![FILL; TABLE_NUMBERS];
    let answer = read(component, specifier, &mut table);
    let filled = answer
        .as_ref()
        .map_or(0, |accepted| ENTRY_NUMBERS * accepted.all);
    assert!(table[filled..].iter().all(|number| *number == FILL));
    table.truncate(filled);
    (answer, table)
}

fn refused(text: &str, specifier: u8) -> (u8, u32) {
    let (answer, _) = read_chart(&octets(text), specifier);
    let refusal = answer.expect_err("refused");
    (refusal.number, refusal.detail)
}

fn accepted(text: &str, specifier: u8) -> (Accepted, Vec<u16>) {
    let (answer, table) = read_chart(&octets(text), specifier);
    (answer.expect("accepted"), table)
}

const A: &str = "E9 1E CF 01 05 D1 02 09 04 F2 15 85 00 86 02 01 07 88 05 21 43 65 87 09 \
                 82 02 00 11 83 02 00 12";

#[test]
fn chart_a() {
    let (answer, table) = accepted(A, 0);
    let expected = Accepted {
        kind: 0xE9,
        id_count: 1,
        id: [0x05, 0],
        code: [4, 0],
        all: 5,
        named: 5,
        other: 0,
    };
    assert_eq!(answer, expected);
    let entries = [
        [5, 0, 13, 0, 11],
        [6, 0, 15, 2, 13],
        [8, 0, 19, 5, 17],
        [2, 0, 26, 2, 24],
        [3, 0, 30, 2, 28],
    ];
    assert_eq!(table, entries.concat());
}

#[test]
fn chart_a_ignores_the_caller_s_specifier() {
    for specifier in 0..=255 {
        assert_eq!(accepted(A, specifier), accepted(A, 4));
    }
}

#[test]
fn chart_a_without_channel_data() {
    let text = A.replace("E9 1E", "E9 1C").replace("F2 15 85 00", "F2 13");
    assert_eq!(refused(&text, 0), (13, 5));
}

#[test]
fn chart_a_with_channel_data_again() {
    let text = A.replace("E9 1E", "E9 20").replace("F2 15", "F2 17") + " 85 00";
    assert_eq!(refused(&text, 0), (12, 32));
}

#[test]
fn result_with_channel_data() {
    let text = "EA 07 CF 01 05 F2 02 85 00";
    let (answer, table) = accepted(text, 4);
    assert_eq!((answer.kind, answer.code), (0xEA, [4, 0]));
    assert_eq!((answer.id_count, answer.id), (1, [0x05, 0]));
    assert_eq!((answer.all, answer.named, answer.other), (1, 1, 0));
    assert_eq!(table, [5, 0, 9, 0, 7]);
    let (answer, _) = accepted(text, 26);
    assert_eq!((answer.all, answer.named, answer.other), (1, 0, 1));
    assert_eq!(refused(text, 0), (11, 0));
}

#[test]
fn result_with_an_empty_set() {
    let text = "EA 05 CF 01 05 F2 00";
    assert_eq!(refused(text, 4), (13, 5));
    let (answer, table) = accepted(text, 26);
    assert_eq!((answer.all, answer.named, answer.other), (0, 0, 0));
    assert!(table.is_empty());
}

const ERROR: &str = "EB 08 CF 01 05 D4 01 81 F2 00";
const REJECT: &str = "EC 08 CF 00 D5 02 01 01 F2 00";

#[test]
fn error() {
    let expected = Accepted {
        kind: 0xEB,
        id_count: 1,
        id: [0x05, 0],
        code: [0x81, 0],
        all: 0,
        named: 0,
        other: 0,
    };
    assert_eq!(accepted(ERROR, 0), (expected, Vec::new()));
    assert_eq!(
        refused(&ERROR.replace("EB 08 CF 01 05", "EB 07 CF 00"), 0),
        (6, 2)
    );
    assert_eq!(
        refused(&ERROR.replace("EB 08 CF 01 05", "EB 09 CF 02 05 06"), 0),
        (6, 2)
    );
    for element in [
        "D1 01 81", "D3 01 81", "D5 01 81", "F2 01 81", "CF 01 81", "94 01 81",
    ] {
        assert_eq!(
            refused(&ERROR.replace("D4 01 81", element), 0),
            (21, 5),
            "{element}"
        );
    }
    assert_eq!(
        refused(
            &ERROR.replace("EB 08", "EB 07").replace("D4 01 81", "D4 00"),
            0
        ),
        (21, 5)
    );
    assert_eq!(
        refused(
            &ERROR.replace("EB 08", "EB 09").replace("01 81", "02 81 81"),
            0
        ),
        (21, 5)
    );
    assert_eq!(refused("EB 05 CF 01 05 F2 00", 0), (21, 5));
}

#[test]
fn reject() {
    let expected = Accepted {
        kind: 0xEC,
        id_count: 0,
        id: [0, 0],
        code: [0x01, 0x01],
        all: 0,
        named: 0,
        other: 0,
    };
    assert_eq!(accepted(REJECT, 0), (expected, Vec::new()));
    let with_id = accepted(&REJECT.replace("EC 08 CF 00", "EC 09 CF 01 00"), 0).0;
    assert_eq!(
        with_id,
        Accepted {
            id_count: 1,
            ..expected
        }
    );
    let swapped = accepted(&REJECT.replace("01 01", "02 03"), 0).0;
    assert_eq!(swapped.code, [0x02, 0x03]);
    assert_eq!(
        refused(&REJECT.replace("EC 08 CF 00", "EC 0A CF 02 05 06"), 0),
        (6, 2)
    );
    for element in ["D1 02 09", "D4 02 01", "D3 02 01", "F2 02 01", "95 02 01"] {
        assert_eq!(
            refused(&REJECT.replace("D5 02 01", element), 0),
            (21, 4),
            "{element}"
        );
    }
    assert_eq!(
        refused(
            &REJECT
                .replace("EC 08", "EC 07")
                .replace("02 01 01", "01 01"),
            0
        ),
        (21, 4)
    );
    let long = REJECT
        .replace("EC 08", "EC 09")
        .replace("02 01 01", "03 01 01 01");
    assert_eq!(refused(&long, 0), (21, 4));
    assert_eq!(refused("EC 04 CF 00 F2 00", 0), (21, 4));
}

/// Nor is any octet of the code refused.
#[test]
fn errors_and_rejects_ignore_the_caller_s_specifier() {
    for octet in 0..=255 {
        assert_eq!(accepted(ERROR, octet), accepted(ERROR, 4));
        assert_eq!(accepted(REJECT, octet), accepted(REJECT, 4));
        let hexadecimal = format!("{octet:02X}");
        let error = ERROR.replace("81", &hexadecimal);
        assert_eq!(accepted(&error, 4).0.code, [octet, 0]);
        let reject = REJECT.replace("02 01 01", &format!("02 {hexadecimal} 26"));
        assert_eq!(accepted(&reject, 4).0.code, [octet, 0x26]);
    }
}

/// 12 to 14 are not asked, whatever row the code and the specifier name.
#[test]
fn parameters_of_errors_and_rejects_are_other() {
    let set = "F2 0C 85 00 85 00 88 00 9F 81 72 00 84 00";
    let error = format!("EB 14 CF 01 05 D4 01 0D {set}");
    let reject = format!("EC 14 CF 00 D5 02 09 0D {set}");
    for text in [error, reject] {
        for specifier in [0, 4, 13, 26, 64] {
            let (answer, table) = accepted(&text, specifier);
            assert_eq!((answer.all, answer.named, answer.other), (5, 0, 5));
            let places = table.chunks_exact(ENTRY_NUMBERS).map(|entry| entry[4]);
            assert!(places.eq([10, 12, 14, 16, 20]));
        }
    }
}

/// Octet 0 the answer, then type, ID octets and code, and the counts as one
/// number.
#[test]
fn packed_answers() {
    let octets_of =
        |text: &str, specifier| packed(&read_chart(&octets(text), specifier).0).to_le_bytes();
    // 16,384 + 5 * 128 + 5 is 42 85 in hexadecimal.
    assert_eq!(octets_of(A, 0), [0, 0xE9, 0x05, 0, 4, 0, 0x85, 0x42]);
    let result = "EA 07 CF 01 05 F2 02 85 00";
    assert_eq!(octets_of(result, 4), [0, 0xEA, 0x05, 0, 4, 0, 0x81, 0x40]);
    assert_eq!(octets_of(result, 26), [0, 0xEA, 0x05, 0, 26, 0, 0x80, 0x40]);
    assert_eq!(octets_of(ERROR, 4), [0, 0xEB, 0x05, 0, 0x81, 0, 0, 0x40]);
    assert_eq!(octets_of(REJECT, 4), [0, 0xEC, 0, 0, 1, 1, 0, 0]);
    let two = "E9 14 CF 02 05 06 D1 02 09 25 F2 0A 81 00 86 02 01 07 82 02 00 11";
    assert_eq!(
        octets_of(two, 4),
        [0, 0xE9, 0x05, 0x06, 0x25, 0, 0x83, 0x81]
    );
    assert_eq!(
        octets_of("EB 05 CF 01 05 F2 00", 4),
        [21, 5, 0, 0, 0, 0, 0, 0]
    );
    assert_eq!(octets_of("30 00", 4), [3, 0, 0, 0, 0, 0, 0, 0]);
    let most = packed(&read_chart(&result_with(64), 26).0).to_le_bytes();
    assert_eq!(most[6..], [0, 0x60]);
}

#[test]
fn short_inputs() {
    assert_eq!(refused("", 0), (2, 0));
    assert_eq!(refused("E9", 0), (4, 1));
    assert_eq!(refused("E9 00", 0), (25, 2));
    assert_eq!(refused("30 00", 0), (3, 0));
    assert_eq!(refused("E9 80", 0), (4, 1));
    assert_eq!(refused("E9 81 05", 0), (5, 0));
    assert_eq!(refused("E9 82 00 05", 0), (5, 0));
    for field in ["81", "82", "82 00", "83", "83 00 00 05", "FF"] {
        assert_eq!(refused(&format!("E9 {field}"), 0), (4, 1), "{field}");
    }
    for kind in ["EA", "EB", "EC"] {
        assert_eq!(refused(kind, 0), (4, 1));
        assert_eq!(refused(&format!("{kind} 00"), 0), (25, 2));
    }
    for kind in ["E8", "ED", "CB", "6C"] {
        assert_eq!(refused(kind, 0), (3, 0));
        assert_eq!(refused(&ERROR.replace("EB", kind), 0), (3, 0));
    }
}

/// A result of this many octets, of one parameter that no row names. From
/// 266 octets on all three lengths take fields of 3 octets.
fn result_of(count: usize) -> Vec<u8> {
    let two = |length: usize| [(length >> 8) as u8, length as u8];
    let mut component = vec![0xEA, 0x82];
    component.extend(two(count - 4));
    component.extend([0xCF, 0x01, 0x05, 0xF2, 0x82]);
    component.extend(two(count - 11));
    component.extend([0x80, 0x82]);
    component.extend(two(count - 15));
    component.resize(count, 0x77);
    component
}

#[test]
fn longest_component() {
    let (answer, table) = read_chart(&result_of(4096), 26);
    assert_eq!(answer.expect("accepted").other, 1);
    assert_eq!(table, [0, 0, 15, 4081, 11]);
    let (answer, _) = read_chart(&result_of(4097), 26);
    assert_eq!(answer, Err(Refusal::new(2, 0, "")));
}

/// A result with this many parameters of no octets.
fn result_with(count: usize) -> Vec<u8> {
    let mut component = vec![0xEA, 0x81, (2 * count + 6) as u8, 0xCF, 0x01, 0x05];
    component.extend([0xF2, 0x81, (2 * count) as u8]);
    for _ in 0..count {
        component.extend([0x87, 0x00]);
    }
    component
}

#[test]
fn most_parameters() {
    let (answer, table) = read_chart(&result_with(64), 26);
    assert_eq!(answer.expect("accepted").all, 64);
    let last = [7, 0, 9 + 128, 0, 9 + 126];
    assert_eq!(table[63 * ENTRY_NUMBERS..], last);
    let mut component = result_with(65);
    let (answer, _) = read_chart(&component, 26);
    assert_eq!(answer, Err(Refusal::new(10, 9 + 128, "")));
    // 10 comes before 9.
    component[9 + 128] = 0x07;
    let (answer, _) = read_chart(&component, 26);
    assert_eq!(answer, Err(Refusal::new(10, 9 + 128, "")));
    // But an ill formed 64th comes before the 65th.
    component[9 + 126] = 0x07;
    let (answer, _) = read_chart(&component, 26);
    assert_eq!(answer, Err(Refusal::new(9, 9 + 126, "")));
}

#[test]
fn table_too_short_comes_first() {
    for numbers in [0, 1, 255, 256, 319] {
        let mut table = vec![FILL; numbers];
        assert_eq!(read(&[], 0, &mut table), Err(Refusal::new(1, 0, "")));
        let answer = read(&octets(A), 0, &mut table);
        assert_eq!(answer, Err(Refusal::new(1, 0, "")));
        assert!(table.iter().all(|number| *number == FILL));
    }
    for numbers in [320, 321, 2560] {
        let mut table = vec![FILL; numbers];
        assert_eq!(read(&[], 0, &mut table), Err(Refusal::new(2, 0, "")));
        assert!(read(&octets(A), 0, &mut table).is_ok());
    }
}

/// The first octet of the identifier, however many octets it and the length
/// field take, and whatever octets the contents are.
#[test]
fn places() {
    let text = "EA 13 CF 01 05 F2 0E 9F 81 72 01 9F BF 20 00 85 02 85 00 80 00";
    let entries = [
        [242, 0, 11, 1, 7],
        [32, 1, 15, 0, 12],
        [5, 0, 17, 2, 15],
        [0, 0, 21, 0, 19],
    ];
    assert_eq!(accepted(text, 26).1, entries.concat());
    // Both longer forms of a length before the set, and one in it.
    let mut component = octets("EA 82 01 05 CF 01 05 F2 81 FF 84 81 80");
    component.extend([0x84; 128]);
    component.extend(octets("84 7A"));
    component.extend([0x84; 122]);
    let entries = [[4, 0, 13, 128, 10], [4, 0, 143, 122, 141]];
    let (answer, table) = read_chart(&component, 64);
    assert_eq!(answer.expect("accepted").named, 2);
    assert_eq!(table, entries.concat());
}

#[test]
fn order_at_an_element() {
    // Component ID: octet, identifier, length field, nesting, fixed length.
    assert_eq!(refused("EA 01 CE", 4), (6, 2));
    assert_eq!(refused("EA 01 CF", 4), (4, 3));
    assert_eq!(refused("EA 03 CF 03 05", 4), (5, 2));
    assert_eq!(refused("EA 04 CF 02 05 06", 4), (6, 2));
    assert_eq!(refused("E9 05 CF 03 05 06 07", 4), (6, 2));
    assert_eq!(refused("E9 04 CF 02 05 06", 4), (25, 6));
    // Operation code.
    assert_eq!(refused("E9 03 CF 00 F2", 4), (7, 4));
    assert_eq!(refused("E9 05 CF 00 D1 02 09", 4), (5, 4));
    assert_eq!(refused("E9 05 CF 00 D1 01 09", 4), (7, 4));
    assert_eq!(refused("E9 06 CF 00 D1 02 08 04", 4), (7, 4));
    assert_eq!(refused("E9 06 CF 00 D1 02 09 04", 4), (25, 8));
    // Set.
    assert_eq!(refused("EA 05 CF 01 05 F3 00", 4), (8, 5));
    assert_eq!(refused("EA 05 CF 01 05 F2 01", 4), (5, 5));
    assert_eq!(refused("EA 06 CF 01 05 F2 00 00", 4), (20, 7));
    assert_eq!(refused("EA 05 CF 01 05 F2 00 00", 4), (20, 7));
    assert_eq!(refused("EA 06 CF 01 05 F2 00", 4), (5, 0));
    // Parameters.
    assert_eq!(refused("EA 06 CF 01 05 F2 01 85", 4), (4, 8));
    assert_eq!(refused("EA 07 CF 01 05 F2 02 85 01", 4), (5, 7));
    assert_eq!(refused("EA 08 CF 01 05 F2 03 85 81 01", 4), (5, 7));
    assert_eq!(refused("EA 08 CF 01 05 F2 03 85 82 00", 4), (4, 8));
    assert_eq!(refused("EA 09 CF 01 05 F2 04 85 83 00 00", 4), (4, 8));
}

/// Where an INVOKE has its operation code.
#[test]
fn order_at_the_error_and_the_problem() {
    for (start, element, size) in [("EB", "D4", 1), ("EC", "D5", 2)] {
        let at = |body: &str| {
            let count = 3 + body.split_whitespace().count();
            refused(&format!("{start} {count:02X} CF 01 05 {body}"), 4)
        };
        let code = "01 ".repeat(size);
        assert_eq!(at(""), (25, 5));
        for other in ["D1", "D1 80", "D1 7F"] {
            assert_eq!(at(other), (21, 5));
        }
        assert_eq!(at(element), (4, 6));
        for field in ["80", "81", "82", "82 00", "83 00 00 01 01"] {
            assert_eq!(at(&format!("{element} {field}")), (4, 6));
        }
        for padding in ["", "81 ", "82 00 "] {
            let field = format!("{padding}{size:02X}");
            assert_eq!(at(&format!("{element} {field}")), (5, 5));
            let end = 6 + field.split_whitespace().count() + size;
            assert_eq!(at(&format!("{element} {field} {code}")), (25, end as u32));
        }
        assert_eq!(at(&format!("{element} 04 {code}")), (5, 5));
        assert_eq!(at(&format!("{element} 00")), (21, 5));
        // Another length, alone and before a set that is wrong.
        let long = format!("{element} {:02X} {code} 01", size + 1);
        assert_eq!(at(&long), (21, 5));
        assert_eq!(at(&format!("{long} F3")), (21, 5));
        let sound = format!("{element} {size:02X} {code}");
        let set = 7 + size as u32;
        assert_eq!(at(&sound), (25, set));
        assert_eq!(at(&format!("{sound} F3")), (8, set));
        assert_eq!(at(&format!("{sound} F2")), (4, set + 1));
        // The ID comes before.
        assert_eq!(refused(&format!("{start} 03 CE 80 D1"), 4), (6, 2));
        assert_eq!(refused(&format!("{start} 05 CF 02 05 06 D1"), 4), (6, 2));
    }
}

#[test]
fn a_result_has_no_code() {
    for element in ["D1 02 09 04", "D4 01 81", "D5 02 01 01"] {
        let count = 5 + element.split_whitespace().count();
        let text = format!("EA {count:02X} CF 01 05 {element} F2 00");
        assert_eq!(refused(&text, 26), (8, 5));
    }
}

#[test]
fn identifiers() {
    let set = |text: &str| {
        let count = text.split_whitespace().count();
        format!("EA {:02X} CF 01 05 F2 {count:02X} {text}", count + 5)
    };
    let number = |text: &str| accepted(&set(text), 26).1[0..2].to_vec();
    assert_eq!(number("80 00"), [0, 0]);
    assert_eq!(number("BE 00"), [30, 1]);
    assert_eq!(number("9F 1F 00"), [31, 0]);
    assert_eq!(number("BF 7F 00"), [127, 1]);
    assert_eq!(number("9F 81 00 00"), [128, 0]);
    assert_eq!(number("BF FF 7F 00"), [16383, 1]);
    let ill_formed = [
        "00 00",
        "45 00",
        "C5 00",
        "9F",
        "9F 81",
        "9F 81 80",
        "9F 80 1F 00",
        "9F 1E 00",
        "9F 00 00",
        "9F 80 81 00 00",
    ];
    for text in ill_formed {
        assert_eq!(refused(&set(text), 26), (9, 7), "{text}");
    }
    // A longer run that ends is 9 as well.
    assert_eq!(refused(&set("9F 81 80 00 00"), 26), (9, 7));
    assert_eq!(refused(&set("BF FF FF FF 7F 00"), 26), (9, 7));
}

/// All that three octets can say: 128 to 16,383, each once and in order, and
/// the rest is 9. So no number is over 16,383, and there is no 18.
#[test]
fn three_octets_say_128_to_16383() {
    for (lead, form) in [(0x9F, 0), (0xBF, 1)] {
        let mut numbers = Vec::new();
        for [high, low] in (0x8000..=0xFFFF_u16).map(u16::to_be_bytes) {
            let component = [0xEA, 9, 0xCF, 1, 5, 0xF2, 4, lead, high, low, 0];
            let (answer, table) = read_chart(&component, 26);
            match answer {
                Ok(_) => numbers.push([table[0], table[1]]),
                Err(refusal) => assert_eq!((refusal.number, refusal.detail), (9, 7)),
            }
        }
        let all = (128..=16383).map(|number| [number, form]);
        assert!(numbers.into_iter().eq(all));
    }
}

/// An INVOKE without ID octets, whose parameters begin at 10.
fn invoke(specifier: &str, parameters: &str) -> String {
    let count = parameters.split_whitespace().count();
    format!(
        "E9 {:02X} CF 00 D1 02 09 {specifier} F2 {count:02X} {parameters}",
        count + 8
    )
}

fn registration(parameters: &str) -> String {
    invoke("0D", parameters)
}

#[test]
fn choice() {
    let rest = format!("{ESN} {MSCID} 91 00 {TYPE_CODE}");
    let with = |more: &str| registration(&format!("{rest} {more}"));
    assert_eq!(accepted(&with(MIN), 0).0.named, 5);
    assert_eq!(accepted(&with(IMSI), 0).0.named, 5);
    assert_eq!(refused(&with(""), 0), (13, 8));
    assert_eq!(refused(&with(&format!("{MIN} {IMSI}")), 0), (14, 33));
    assert_eq!(refused(&with(&format!("{IMSI} {MIN}")), 0), (14, 30));
    // The constructor twin is another identifier.
    let twin = format!("{MIN} BF 81 72 00");
    assert_eq!(accepted(&with(&twin), 0).0.other, 1);
    // 12 before 13, and 13 in row order before 14.
    let twice = format!("{TYPE_CODE} {TYPE_CODE}");
    assert_eq!(refused(&registration(&twice), 0), (12, 13));
    let both = format!("{ESN} {MSCID} 91 00 {MIN} {IMSI}");
    assert_eq!(refused(&registration(&both), 0), (13, 22));
}

const PAGE: &str = "E9 19 CF 01 05 D1 02 09 20 F2 10 81 00 89 04 82 1A 2B 3C \
                    9F 81 69 04 12 34 56 78";
const SMS_PAGE: &str = "E9 19 CF 00 D1 02 09 65 F2 11 88 05 21 43 65 87 09 9F 69 00 \
                        9F 81 69 00 9F 74 00";

#[test]
fn network_tmsi_is_named() {
    let (answer, table) = accepted(PAGE, 0);
    assert_eq!((answer.all, answer.named, answer.other), (3, 3, 0));
    let entries = [[1, 0, 13, 0, 11], [9, 0, 15, 4, 13], [233, 0, 23, 4, 19]];
    assert_eq!(table, entries.concat());
    let (answer, table) = accepted(SMS_PAGE, 0);
    assert_eq!((answer.all, answer.named, answer.other), (4, 4, 0));
    assert_eq!(table[2 * ENTRY_NUMBERS..][..2], [233, 0]);
    // HandoffBack2 does not name it, so that it may occur again.
    let back = "81 00 86 02 01 07 82 02 00 11 9F 81 69 00 9F 81 69 00";
    let back = invoke("25", back);
    let (answer, _) = accepted(&back, 0);
    assert_eq!((answer.all, answer.named, answer.other), (5, 3, 2));
    let named = ROWS
        .iter()
        .filter(|row| row.names(Identifier::primitive(233)));
    assert!(named
        .map(|row| (row.kind, row.specifier))
        .eq([(0xE9, 0x20), (0xE9, 0x65)]));
}

const MIN: &str = "88 05 21 43 65 87 09";
const ESN: &str = "89 04 82 1A 2B 3C";
const MSCID: &str = "95 03 00 0C 01";
const TYPE_CODE: &str = "96 01 02";
const IMSI: &str = "9F 81 72 00";
const NETWORK_TMSI: &str = "9F 81 69 00";

/// The group is that of InterSystemPage and of InterSystemSMSPage; with the
/// specifier what must occur beside it, by number too.
type Page = (&'static str, [(&'static str, u32); 2]);

const PAGES: [Page; 2] = [
    ("20", [("81 00", 1), (ESN, 9)]),
    ("65", [("9F 69 00", 105), ("9F 74 00", 116)]),
];

/// With both of what must occur beside the group.
fn page((specifier, [(first, _), (second, _)]): Page, before: &str, behind: &str) -> String {
    invoke(specifier, &format!("{before} {first} {second} {behind}"))
}

#[test]
fn any_of_a_group() {
    let several = [
        (MIN.into(), 1),
        (IMSI.into(), 1),
        (NETWORK_TMSI.into(), 1),
        (format!("{MIN} {IMSI}"), 2),
        (format!("{IMSI} {MIN}"), 2),
        (format!("{MIN} {NETWORK_TMSI}"), 2),
        (format!("{NETWORK_TMSI} {IMSI}"), 2),
        (format!("{MIN} {IMSI} {NETWORK_TMSI}"), 3),
        (format!("{NETWORK_TMSI} {MIN} {IMSI}"), 3),
    ];
    for of in PAGES {
        for (members, count) in &several {
            for text in [page(of, "", members), page(of, members, "")] {
                let answer = accepted(&text, 0).0;
                assert_eq!((answer.named, answer.other), (2 + count, 0), "{text}");
            }
        }
        let apart = accepted(&page(of, IMSI, NETWORK_TMSI), 0).0;
        assert_eq!((apart.named, apart.other), (4, 0));
    }
}

#[test]
fn none_of_a_group() {
    for of in PAGES {
        let (specifier, [(first, first_number), (second, second_number)]) = of;
        assert_eq!(refused(&page(of, "", ""), 0), (13, 8));
        // The others are asked before, also where the group is missing.
        for members in ["", MIN, IMSI, NETWORK_TMSI, "BF 81 69 00"] {
            let without = |kept: &str| refused(&invoke(specifier, &format!("{members} {kept}")), 0);
            assert_eq!(without(second), (13, first_number));
            assert_eq!(without(first), (13, second_number));
            assert_eq!(without(""), (13, first_number));
        }
    }
    // What else a row names is not of the group, nor are near numbers.
    let page_of = |more: &str| refused(&invoke("20", &format!("81 00 {ESN} {more}")), 0);
    assert_eq!(page_of(&format!("{MSCID} {TYPE_CODE} 9F 20 00")), (13, 8));
    assert_eq!(
        page_of("9F 69 00 9F 72 00 9F 81 68 00 9F 81 6A 00"),
        (13, 8)
    );
    let sms = format!("9F 69 00 9F 74 00 {ESN} 9F 82 69 00");
    assert_eq!(refused(&invoke("65", &sms), 0), (13, 8));
}

/// The constructor twin is another identifier: it is not named, it stands for
/// no member, and it does not repeat one.
#[test]
fn twins_of_a_group() {
    for of in PAGES {
        for (member, twin) in [
            (MIN, "A8 00"),
            (IMSI, "BF 81 72 00"),
            (NETWORK_TMSI, "BF 81 69 00"),
        ] {
            assert_eq!(refused(&page(of, "", twin), 0), (13, 8));
            assert_eq!(refused(&page(of, twin, twin), 0), (13, 8));
            let answer = accepted(&page(of, twin, &format!("{member} {twin}")), 0).0;
            assert_eq!((answer.named, answer.other), (3, 2));
        }
        let all = "A8 00 BF 81 72 00 BF 81 69 00";
        assert_eq!(refused(&page(of, "", all), 0), (13, 8));
    }
}

/// 12 points to the second, whatever other members there are, and comes before
/// 13.
#[test]
fn a_member_of_a_group_again() {
    for of in PAGES {
        let (specifier, [(first, _), (second, _)]) = of;
        let others = format!("{first} {second}").split_whitespace().count() as u32;
        for (member, count) in [(MIN, 7), (IMSI, 4), (NETWORK_TMSI, 4)] {
            assert_eq!(
                refused(&page(of, member, member), 0),
                (12, 10 + count + others)
            );
            let twice = format!("{member} {member}");
            assert_eq!(refused(&page(of, &twice, ""), 0), (12, 10 + count));
            assert_eq!(refused(&invoke(specifier, &twice), 0), (12, 10 + count));
            let all = format!("{MIN} {IMSI} {NETWORK_TMSI}");
            assert_eq!(refused(&page(of, &all, member), 0), (12, 25 + others));
        }
        let again = format!("{first} {first} {second}");
        let place = 10 + first.split_whitespace().count() as u32;
        assert_eq!(refused(&invoke(specifier, &again), 0), (12, place));
    }
}

#[test]
fn digits_may_repeat() {
    let text = format!("84 00 81 00 84 00 {MSCID} {TYPE_CODE} 84 00");
    assert_eq!(accepted(&invoke("0F", &text), 0).0.named, 6);
    // As another of a row that does not name it, too.
    let text = "EA 09 CF 01 05 F2 04 84 00 84 00";
    assert_eq!(accepted(text, 26).0.other, 2);
    assert_eq!(accepted(text, 64).0.named, 2);
}

#[test]
fn no_row_of_an_invoke_gives_the_specifier_s_place() {
    assert_eq!(refused("E9 08 CF 00 D1 02 09 1A F2 00", 4), (11, 7));
    assert_eq!(refused("E9 0A CF 02 01 02 D1 02 09 40 F2 00", 4), (11, 9));
}

#[test]
fn listing_example() {
    let input = octets("02 00 01 04 01 00 09 EA 07 CF 01 05 F2 02 85 00 01 00 02 E9 00");
    let expected = "item answer detail named other\n1 0 0 1 0\n2 25 2 0 0\n";
    assert_eq!(list(&input), expected);
}

#[test]
fn listing_fields() {
    let header = "item answer detail named other\n";
    let result = "01 00 09 EA 07 CF 01 05 F2 02 85 00";
    let run = |text: &str| list(&octets(text));
    assert_eq!(run(""), header);
    // The specifier is 0 at the start; tag 2 of other lengths changes nothing.
    assert_eq!(run(result), format!("{header}1 11 0 0 0\n"));
    let fields = format!("02 00 01 1A 02 00 00 02 00 02 04 04 07 00 01 04 {result}");
    assert_eq!(run(&fields), format!("{header}1 0 0 0 1\n"));
    assert_eq!(run("01 00 00"), format!("{header}1 2 0 0 0\n"));
    // Errors and rejects are items, and their codes set no specifier.
    let error = "01 00 0C EB 0A CF 01 05 D4 01 1A F2 02 85 00";
    let reject = "01 00 0A EC 08 CF 00 D5 02 09 1A F2 00";
    let fields = format!("{error} {result} {reject} {result} 01 00 04 EB 02 CF 00");
    let lines = "1 0 0 0 1\n2 11 0 0 0\n3 0 0 0 0\n4 11 0 0 0\n5 6 2 0 0\n";
    assert_eq!(run(&fields), format!("{header}{lines}"));
    for cut in ["01", "02 00", "07 00 01", "01 00 02 E9"] {
        assert_eq!(run(cut), format!("{header}cut\n"));
        let fields = format!("{result} {cut}");
        assert_eq!(run(&fields), format!("{header}1 11 0 0 0\ncut\n"));
    }
    let mut long = vec![0x01, 0x10, 0x01];
    long.extend(result_of(4097));
    assert_eq!(list(&long), format!("{header}1 2 0 0 0\n"));
}
