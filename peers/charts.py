"""Single components: their octets, and what they are called on the page."""

import tcap
from tcap import ERROR, INVOKE, REJECT, identifier, element, padded, wide_field

HEAD = bytes.fromhex("CF 01 05 D1 02 09 04")
EMPTY = bytes.fromhex("85 00")
THREE = bytes.fromhex("85 03 01 02 03")
CIRCUIT = bytes.fromhex("86 02 01 07")
MIN = bytes.fromhex("88 05 21 43 65 87 09")
CELLS = bytes.fromhex("82 02 00 11 83 02 00 12")
ESN = bytes.fromhex("89 04 01 02 03 04")
SHORT_ESN = bytes.fromhex("89 03 01 02 03")
BILLING = bytes.fromhex("81 07 00 11 05 00 00 2A 01")
TMSI = bytes.fromhex("9F 81 69 04 01 02 03 04")
IMSI = bytes.fromhex("9F 81 72 08 21 43 65 87 09 21 43 F5")
REST = bytes.fromhex("95 03 01 02 03 91 01 01 96 01 01")
REST_OF_A = CIRCUIT + MIN + CELLS


def back(parameters, head=HEAD, behind=b""):
    """An INVOKE of HandoffBack."""
    return element(bytes([INVOKE]), head + element(b"\xF2", parameters) + behind)


def page(members):
    """An INVOKE of InterSystemPage with these members of its group."""
    return tcap.component(INVOKE, b"\x05", 32, BILLING + ESN + members)


def with_min_as(field, channel):
    """A or B, the length field of MIN made by `field`."""
    return back(channel + CIRCUIT + element(MIN[:1], MIN[2:], field) + CELLS)


def failure(kind, *parts):
    """An ERROR or REJECT of these octets."""
    return element(bytes([kind]), bytes.fromhex("".join(parts)))


# What it is, component, specifier of the INVOKE seen before (None: no such INVOKE seen), specifier handed to the
# reader, count of parameters in it.
CHARTS = [
    ("A: HandoffBack INVOKE, ChannelData of no octets", back(EMPTY + REST_OF_A), None, 0, 5),
    ("B: the same, ChannelData of three octets", back(THREE + REST_OF_A), None, 0, 5),
    ("A without ChannelData", back(REST_OF_A), None, 0, 4),
    ("A, 85 00 again at the end", back(EMPTY + REST_OF_A + EMPTY), None, 0, 6),
    ("B, 85 03 .. again at the end", back(THREE + REST_OF_A + THREE), None, 0, 6),
    ("RegistrationNotification INVOKE with MIN and IMSI",
     tcap.component(INVOKE, b"\x05", 13, ESN + MIN + IMSI + REST), None, 0, 6),
    ("InterSystemPage INVOKE with NetworkTMSI, no MIN, no IMSI", page(TMSI), None, 0, 3),
    ("InterSystemPage INVOKE with MIN, IMSI and NetworkTMSI", page(MIN + IMSI + TMSI), None, 0, 5),
    ("InterSystemPage INVOKE with none of the three", page(b""), None, 0, 2),
    ("the same, and BF 81 69 08 around a NetworkTMSI", page(element(identifier(233, 1), TMSI)), None, 0, 3),
    ("A, length of MIN as 82 00 05", with_min_as(wide_field(2), EMPTY), None, 0, 5),
    ("A, every length as 81 nn", padded(back(EMPTY + REST_OF_A), wide_field(1)), None, 0, 5),
    ("A, every length as 82 00 nn", padded(back(EMPTY + REST_OF_A), wide_field(2)), None, 0, 5),
    ("B, length of MIN as 82 00 05", with_min_as(wide_field(2), THREE), None, 0, 5),
    ("B, every length as 81 nn", padded(back(THREE + REST_OF_A), wide_field(1)), None, 0, 5),
    ("B, every length as 82 00 nn", padded(back(THREE + REST_OF_A), wide_field(2)), None, 0, 5),
    ("B, length of MIN as 83 00 00 05", with_min_as(wide_field(3), THREE), None, 0, 5),
    ("B, length of MIN as 80", with_min_as(lambda _: b"\x80", THREE), None, 0, 5),
    ("B, ChannelData's number as 9F 05", back(b"\x9F\x05" + THREE[1:] + REST_OF_A), None, 0, 5),
    ("B, A5 05 around its ChannelData", back(element(identifier(5, 1), THREE) + REST_OF_A), None, 0, 5),
    ("B and an ESN, which the row does not name", back(ESN + THREE + REST_OF_A), None, 0, 6),
    ("the same, the ESN of three octets", back(SHORT_ESN + THREE + REST_OF_A), None, 0, 6),
    ("RegistrationNotification INVOKE with an ESN of three octets",
     tcap.component(INVOKE, b"\x05", 13, SHORT_ESN + MIN + REST), None, 0, 5),
    ("the same, the ESN again at the end",
     tcap.component(INVOKE, b"\x05", 13, SHORT_ESN + MIN + REST + ESN), None, 0, 6),
    ("B, ChannelData of two octets", back(THREE[:1] + b"\x02\x01\x02" + REST_OF_A), None, 0, 5),
    ("B, MIN of four octets", back(THREE + CIRCUIT + MIN[:1] + b"\x04" + MIN[2:6] + CELLS), None, 0, 5),
    ("B, ServingCellID of one octet", back(THREE + CIRCUIT + MIN + b"\x82\x01\x11" + CELLS[4:]), None, 0, 5),
    ("B, component ID of three octets",
     back(THREE + REST_OF_A, bytes.fromhex("CF 03 05 06 07") + HEAD[3:]), None, 0, 5),
    ("B, length of TargetCellID as 04", back(THREE + REST_OF_A[:-3] + b"\x04" + REST_OF_A[-2:]), None, 0, 5),
    ("B, 85 00 behind the set", back(THREE + REST_OF_A, behind=EMPTY), None, 0, 5),
    ("B, length of F2 4 less", back(THREE + REST_OF_A[:-4], behind=REST_OF_A[-4:]), None, 0, 5),
    ("B without its set", element(bytes([INVOKE]), HEAD), None, 0, 0),
    ("B without its set and its operation code", element(bytes([INVOKE]), HEAD[:3]), None, 0, 0),
    ("HandoffBack RESULT, 85 03 .., its INVOKE seen", bytes.fromhex("EA 0A CF 01 05 F2 05") + THREE, 4, 4, 1),
    ("the same, its INVOKE not seen", bytes.fromhex("EA 0A CF 01 05 F2 05") + THREE, None, 4, 1),
    ("HandoffBack RESULT, 85 00, its INVOKE seen", bytes.fromhex("EA 07 CF 01 05 F2 02") + EMPTY, 4, 4, 1),
    ("the same as a FlashRequest RESULT", bytes.fromhex("EA 07 CF 01 05 F2 02") + EMPTY, 26, 26, 1),
]

TWO = "F2 08 89 04 01 02 03 04 85 00"

# Errors and rejects: what it is, component, whether its INVOKE is seen before.
FAILURES = [
    ("E: EB 08 CF 01 05 D4 01 81 F2 00", failure(ERROR, "CF0105", "D40181", "F200"), True),
    ("E, its INVOKE not seen", failure(ERROR, "CF0105", "D40181", "F200"), False),
    ("E with an ESN and a ChannelData of no octets", failure(ERROR, "CF0105", "D40181", TWO), True),
    ("the same, its INVOKE not seen", failure(ERROR, "CF0105", "D40181", TWO), False),
    ("E, error octet 8D", failure(ERROR, "CF0105", "D4018D", "F200"), True),
    ("E, error octet 00", failure(ERROR, "CF0105", "D40100", "F200"), True),
    ("E, component ID of no octets", failure(ERROR, "CF00", "D40181", "F200"), True),
    ("E, component ID of two octets", failure(ERROR, "CF020506", "D40181", "F200"), True),
    ("E, D3 for D4", failure(ERROR, "CF0105", "D30181", "F200"), True),
    ("E, D5 02 01 01 for D4 01 81", failure(ERROR, "CF0105", "D5020101", "F200"), True),
    ("E without D4 01 81", failure(ERROR, "CF0105", "F200"), True),
    ("E, D4 00", failure(ERROR, "CF0105", "D400", "F200"), True),
    ("E, D4 02 81 82", failure(ERROR, "CF0105", "D4028182", "F200"), True),
    ("E, length of D4 as 81 01", failure(ERROR, "CF0105", "D4810181", "F200"), True),
    ("E, every length as 82 00 nn", padded(failure(ERROR, "CF0105", "D40181", "F200"), wide_field(2)), True),
    ("E, length of D4 as 83 00 00 01", failure(ERROR, "CF0105", "D48300000181", "F200"), True),
    ("E, length of D4 as 05", failure(ERROR, "CF0105", "D40581", "F200"), True),
    ("E, F0 for F2", failure(ERROR, "CF0105", "D40181", "F000"), True),
    ("E without F2 00", failure(ERROR, "CF0105", "D40181"), True),
    ("E, set F2 04 89 04 01 02", failure(ERROR, "CF0105", "D40181", "F20489040102"), True),
    ("E, 85 00 behind the set", failure(ERROR, "CF0105", "D40181", "F200", "8500"), True),
    ("R: EC 08 CF 00 D5 02 01 01 F2 00", failure(REJECT, "CF00", "D5020101", "F200"), True),
    ("S: R with component ID CF 01 05", failure(REJECT, "CF0105", "D5020101", "F200"), True),
    ("S with an ESN and a ChannelData of no octets", failure(REJECT, "CF0105", "D5020101", TWO), True),
    ("S, problem octets 06 01", failure(REJECT, "CF0105", "D5020601", "F200"), True),
    ("S, problem octets FF 01", failure(REJECT, "CF0105", "D502FF01", "F200"), True),
    ("S, component ID of two octets", failure(REJECT, "CF020506", "D5020101", "F200"), True),
    ("S, D4 01 81 for D5 02 01 01", failure(REJECT, "CF0105", "D40181", "F200"), True),
    ("S without D5 02 01 01", failure(REJECT, "CF0105", "F200"), True),
    ("S, D5 00", failure(REJECT, "CF0105", "D500", "F200"), True),
    ("S, D5 01 01", failure(REJECT, "CF0105", "D50101", "F200"), True),
    ("S, D5 03 00 01 01", failure(REJECT, "CF0105", "D503000101", "F200"), True),
    ("S, length of D5 as 81 02", failure(REJECT, "CF0105", "D581020101", "F200"), True),
    ("S, every length as 82 00 nn", padded(failure(REJECT, "CF0105", "D5020101", "F200"), wide_field(2)), True),
    ("S, length of D5 as 83 00 00 02", failure(REJECT, "CF0105", "D5830000020101", "F200"), True),
    ("S, length of D5 as 06", failure(REJECT, "CF0105", "D5060101", "F200"), True),
    ("S, F0 for F2", failure(REJECT, "CF0105", "D5020101", "F000"), True),
    ("S without F2 00", failure(REJECT, "CF0105", "D5020101"), True),
    ("S, set F2 04 89 04 01 02", failure(REJECT, "CF0105", "D5020101", "F20489040102"), True),
    ("S, 85 00 behind the set", failure(REJECT, "CF0105", "D5020101", "F200", "8500"), True),
]

# Table 6 of 000, from error octet 129 on.
ERROR_NAMES = [
    "UnrecognizedMIN", "UnrecognizedESN", "MSID/HLRMismatch", "OperationSequenceProblem", "ResourceShortage",
    "OperationNotSupported", "TrunkUnavailable", "ParameterError", "SystemFailure", "UnrecognizedParameterValue",
    "FeatureInactive", "MissingParameter", "UnrecognizedTMSI", "TMSI/VLRMismatch",
]

# The octets as 01 prints them: chart A, and A with a second 85 00 (lengths 20 and 17).
A = "E9 1E CF 01 05 D1 02 09 04 F2 15 85 00 86 02 01 07 88 05 21 43 65 87 09 82 02 00 11 83 02 00 12"
assert CHARTS[0][1] == bytes.fromhex(A)
assert CHARTS[3][1] == bytes.fromhex(A.replace("E9 1E", "E9 20").replace("F2 15", "F2 17") + "85 00")
# And those of order 2.
assert FAILURES[0][1] == bytes.fromhex("EB 08 CF 01 05 D4 01 81 F2 00")
assert FAILURES[21][1] == bytes.fromhex("EC 08 CF 00 D5 02 01 01 F2 00")
# And chart A with padded lengths, as order 3's switch writes them.
assert CHARTS[12][1] == bytes.fromhex(
    "E9 82 00 2E CF 82 00 01 05 D1 82 00 02 09 04 F2 82 00 1F 85 82 00 00 86 82 00 02 01 07"
    "88 82 00 05 21 43 65 87 09 82 82 00 02 00 11 83 82 00 02 00 12")
