"""Single packages: their octets, and what they are called on the page."""

import charts
from charts import EMPTY, MIN, REST_OF_A, THREE
from tcap import ERROR, REJECT, element, package_of, padded, wide_field

A = charts.back(EMPTY + REST_OF_A)
B = charts.back(THREE + REST_OF_A)
NO_CHANNEL = charts.back(REST_OF_A)
RESULT_EMPTY = bytes.fromhex("EA 07 CF 01 05 F2 02") + EMPTY
RESULT_THREE = bytes.fromhex("EA 0A CF 01 05 F2 05") + THREE
SHORTAGE = charts.failure(ERROR, "CF0105", "D40185", "F200")
PROBLEM = charts.failure(REJECT, "CF0105", "D5020101", "F200")
DIALOGUE = bytes.fromhex("F9 03 DB 01 01")


def query(ids, *components):
    return package_of(0xE2, ids, components)


def with_length(octets, at, more):
    """The length octet at this place changed by so much."""
    return octets[:at] + bytes([octets[at] + more]) + octets[at + 1:]


def types(ids):
    """B in each package type; an ERROR and a REJECT of ChangeFacilities (58) where they belong."""
    both = ids + ids
    return [
        ("P: QUERY WITH PERMISSION, E2, of chart A", 0, None, [A], query(ids, A)),
        ("Q: the same of chart B", 0, None, [B], query(ids, B)),
        ("E1 and C7 00 around A", 0, None, [A], package_of(0xE1, b"", [A])),
        ("E1 and C7 00 around B", 0, None, [B], package_of(0xE1, b"", [B])),
        ("E3 for E2", 0, None, [B], package_of(0xE3, ids, [B])),
        ("E4 for E2", 0, None, [B], package_of(0xE4, ids, [B])),
        ("E5 for E2, eight ID octets", 0, None, [B], package_of(0xE5, both, [B])),
        ("E6 for E2, eight ID octets", 0, None, [B], package_of(0xE6, both, [B])),
        ("E7 for E2", 0, None, [B], package_of(0xE7, ids, [B])),
        ("F6, an abort, for E2", 0, None, [B], package_of(0xF6, ids, [B])),
        ("E4 of a HandoffBack RESULT, 85 00, specifier 4", 4, 4, [RESULT_EMPTY], package_of(0xE4, ids, [RESULT_EMPTY])),
        ("the same, 85 03 ..", 4, 4, [RESULT_THREE], package_of(0xE4, ids, [RESULT_THREE])),
        ("the same in an E2", 4, 4, [RESULT_THREE], query(ids, RESULT_THREE)),
        ("C: E5 of an ERROR, specifier 58", 58, 58, [SHORTAGE], package_of(0xE5, both, [SHORTAGE])),
        ("the same, specifier 13", 13, 13, [SHORTAGE], package_of(0xE5, both, [SHORTAGE])),
        ("C with a REJECT for the ERROR", 58, 58, [PROBLEM], package_of(0xE5, both, [PROBLEM])),
    ]


def sequences(ids):
    """One to nine components, and what stands before and behind the sequence."""
    nine = query(ids, *[B] * 9)
    return [
        ("E2 of eight B", 0, None, [B] * 8, query(ids, *[B] * 8)),
        ("E2 of nine B", 0, None, [B] * 9, nine),
        ("the same, the ninth one's length 1 more", 0, None, [B] * 9,
         with_length(nine, len(nine) - len(B) + 1, 1)),
        ("E2 of no component, E8 00", 0, None, [], query(ids)),
        ("the same, F9 00 before E8 00", 0, None, [], package_of(0xE2, ids, [], dialogue=b"\xF9\x00")),
        ("Q, a dialogue portion F9 03 DB 01 01", 0, None, [B], package_of(0xE2, ids, [B], dialogue=DIALOGUE)),
        ("E2 of B and of A without ChannelData", 0, None, [B, NO_CHANNEL], query(ids, B, NO_CHANNEL)),
        ("E2 of B and of B with ED for E9", 0, None, [B, B], query(ids, B, b"\xED" + B[1:])),
        ("E2 of B and of MIN", 0, None, [B], query(ids, B, MIN)),
        ("E2 of B and of a HandoffBack RESULT, specifier 4", 4, None, [B, RESULT_THREE], query(ids, B, RESULT_THREE)),
    ]


def layouts(ids):
    """Transaction IDs and lengths."""
    whole = query(ids, B)
    two = query(ids, B, B)
    number, sequence = element(b"\xC7", ids), element(b"\xE8", B)
    return [
        ("Q, C7 00", 0, None, [B], package_of(0xE2, b"", [B])),
        ("Q, C7 of three octets", 0, None, [B], package_of(0xE2, ids[1:], [B])),
        ("Q, C7 of eight octets", 0, None, [B], package_of(0xE2, ids + ids, [B])),
        ("E1 around B, C7 of four octets", 0, None, [B], package_of(0xE1, ids, [B])),
        ("C, C7 of four octets", 58, 58, [SHORTAGE], package_of(0xE5, ids, [SHORTAGE])),
        ("Q without C7", 0, None, [B], element(b"\xE2", sequence)),
        ("Q without E8 and B", 0, None, [], element(b"\xE2", number)),
        ("Q, E8 before C7", 0, None, [B], element(b"\xE2", sequence + number)),
        ("Q, every length as 82 00 nn", 0, None, [B],
         package_of(0xE2, ids, [padded(B, wide_field(2))], wide_field(2))),
        ("Q, its length as 83 00 00 nn", 0, None, [B], element(b"\xE2", number + sequence, wide_field(3))),
        ("Q, its length as 80", 0, None, [B], b"\xE2\x80" + number + sequence),
        ("Q, its length 1 more", 0, None, [B], with_length(whole, 1, 1)),
        ("Q, its length 1 less", 0, None, [B], with_length(whole, 1, -1)),
        ("Q, length of C7 as 40", 0, None, [B], with_length(whole, 3, 0x3C)),
        ("Q, length of E8 1 more", 0, None, [B], with_length(whole, 9, 1)),
        ("Q, length of E8 1 less", 0, None, [B], with_length(whole, 9, -1)),
        ("Q, length of B 1 more", 0, None, [B], with_length(whole, 11, 1)),
        ("Q, length of B 1 less", 0, None, [B], with_length(whole, 11, -1)),
        ("E2 of two B, length of the first 1 more", 0, None, [B, B], with_length(two, 11, 1)),
        ("the same, length of the first 1 less", 0, None, [B, B], with_length(two, 11, -1)),
        ("the same, length of the first one's TargetCellID 2 more", 0, None, [B, B], reaching(two)),
        ("Q, 85 00 behind it", 0, None, [B], whole + EMPTY),
        ("Q, 85 00 behind the sequence", 0, None, [B], element(b"\xE2", number + sequence + EMPTY)),
    ]


def reaching(two):
    """The first component's last parameter takes the two octets that begin the second; no other length is changed."""
    return with_length(two, 10 + len(B) - 3, 2)


def all_charts(transaction):
    ids = transaction.to_bytes(4, "big")
    return types(ids) + sequences(ids) + layouts(ids)


# What it is, specifier handed to the reader, specifier of the INVOKE seen before, its components as drafted, octets.
# Each is of a transaction of its own: tshark keeps an operation for each.
CHARTS = [all_charts(at)[at] for at in range(len(all_charts(0)))]


def octets_of(name):
    """The octets of a chart in transaction 1."""
    return next(octets for called, _, _, _, octets in all_charts(1) if called == name)


# Packages worked out by hand.
assert octets_of("P: QUERY WITH PERMISSION, E2, of chart A") == bytes.fromhex("E2 28 C7 04 00 00 00 01 E8 20") + A
assert octets_of("E1 and C7 00 around A") == bytes.fromhex("E1 24 C7 00 E8 20") + A
assert octets_of("E4 of a HandoffBack RESULT, 85 00, specifier 4") == bytes.fromhex(
    "E4 11 C7 04 00 00 00 01 E8 09 EA 07 CF 01 05 F2 02 85 00")
assert octets_of("C: E5 of an ERROR, specifier 58") == bytes.fromhex(
    "E5 16 C7 08 00 00 00 01 00 00 00 01 E8 0A EB 08 CF 01 05 D4 01 85 F2 00")
assert octets_of("E2 of no component, E8 00") == bytes.fromhex("E2 08 C7 04 00 00 00 01 E8 00")
assert octets_of("the same, F9 00 before E8 00") == bytes.fromhex("E2 0A C7 04 00 00 00 01 F9 00 E8 00")
