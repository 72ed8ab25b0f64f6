"""Measures what the page says of errors and rejects."""

import charts
import dissect
import drafts
import second
import tcap
from page import print_table, said
from tcap import ERROR, REJECT

EACH = 500
SEED = 43
# The INVOKE that goes before: RegistrationNotification.
BEFORE = 13


def print_charts(folder, program):
    components = [octets for _, octets, _ in charts.FAILURES]
    answers = second.listing(program, [(octets, 0) for octets in components])
    seen = dissect.dissect(folder, [(octets, BEFORE if before else None) for _, octets, before in charts.FAILURES])
    assert not any(one.shown for one in seen) and not any(named for _, _, named, _ in answers)
    print_table(["Component", "Roadquill", "Code shown", "What tshark says"], [
        (name, ours(*answer), f"`{one.code}`" if one.code else "none", said(one))
        for (name, _, _), answer, one in zip(charts.FAILURES, answers, seen)])
    refused = [one for (answer, *_), one in zip(answers, seen) if answer]
    passed = [one for one in refused if not one.complaints]
    print_table(["Errors and rejects above", "Count"], [
        ("accepted by Roadquill", len(seen) - len(refused)),
        ("refused by Roadquill", len(refused)),
        ("refused, and tshark does not complain", len(passed)),
        ("refused, tshark does not complain, and shows a code", sum(one.code != "" for one in passed)),
    ])


def ours(answer, detail, _, other):
    return f"{answer}, detail {detail}" if answer else "accepted" + f", {other} other" * (other > 0)


def names(folder, kind, codes):
    """tshark's name of each code, "Unknown" where it has none."""
    cases = [(tcap.component(kind, b"\x05", code, b""), BEFORE) for code in codes]
    return {code: one.code.rsplit(" (", 1)[0] for code, one in zip(codes, dissect.dissect(folder, cases))}


def listed(codes, size):
    """Codes in octets, runs of them as first and last."""
    runs = []
    for code in codes:
        if runs and runs[-1][1] == code - 1:
            runs[-1][1] = code
        else:
            runs.append([code, code])
    written = [[code.to_bytes(size, "big").hex(" ").upper() for code in run] for run in runs]
    return ", ".join(first if first == last else f"{first} to {last}" for first, last in written)


def print_names(folder):
    """All error octets; and the pairs of problem octets 00 00 to 0F 0F."""
    table = dict(enumerate(charts.ERROR_NAMES, 129))
    groups = {}
    for code, name in names(folder, ERROR, range(256)).items():
        groups.setdefault(name_outcome(table.get(code), name), []).append(code)
    rows = [(outcome, len(codes), listed(codes, 1)) for outcome, codes in groups.items()]
    problems = names(folder, REJECT, [256 * first + last for first in range(16) for last in range(16)])
    named = [code for code, name in problems.items() if name != "Unknown"]
    rows.append(("problem octets, of the pairs 00 00 to 0F 0F: a name", len(named), listed(named, 2)))
    print_table(["tshark, given a code", "Codes", "Which"], rows)


def name_outcome(ours, theirs):
    if theirs == "Unknown":
        return "error octet: `Unknown`, and Table 6 " + ("has a name" if ours else "reserves it")
    assert ours is not None
    plain = theirs.replace("-", "")
    if plain.lower() == ours.lower():
        return "error octet: Table 6's name, but for hyphens and capitals"
    return f"error octet: `{theirs}`, where Table 6 has {ours}"


def shown_code(seen):
    return int(seen.code.rsplit("(", 1)[1].rstrip(")"))


def code_of(octets):
    """The code as tshark counts it: a REJECT's two octets are a number with a sign."""
    _, at = tcap.read_length(octets, 1)
    length, at = tcap.read_length(octets, at + 1)
    length, at = tcap.read_length(octets, at + length + 1)
    return int.from_bytes(octets[at:at + length], "big", signed=octets[0] == REJECT)


def quiet(seen):
    """No complaint, but for the unknown field that tshark makes of each parameter of a REJECT."""
    return all("Unknown field in SET" in text for text in seen.complaints)


def print_drawn(folder, program, compare):
    """Accepted ones with contents of the right sizes."""
    dice, rows = drafts.Dice(SEED), []
    for kind, name in ((ERROR, "ERROR"), (REJECT, "REJECT")):
        cases = [(drafts.failure(dice, kind), BEFORE) for _ in range(EACH)]
        for (octets, _), answer in zip(cases, second.listing(program, cases)):
            assert answer == (0, 0, 0, len(tcap.walk(octets)))
        seen = dissect.dissect(folder, cases)
        counts = [compare(octets, one) for (octets, _), one in zip(cases, seen)]
        codes = sum(shown_code(one) == code_of(octets) for (octets, _), one in zip(cases, seen))
        rows.append([name, EACH, codes, *(sum(one[at] for one in counts) for at in range(4)), sum(map(quiet, seen))])
    print_table(["Type", "Components", "Our code", "Parameters", "Equal", "Place", "None", "Quiet"], rows)


def print_stream(folder, found):
    """Errors and rejects of the second program's stream by its answer. 1 and 2 are not about the octets."""
    wanted = [(octets, packed & 0xFF) for octets, packed, _, _ in found
              if octets[:1] in (b"\xEB", b"\xEC") and packed & 0xFF not in (1, 2)]
    groups = {}
    for (octets, answer), one in zip(wanted, dissect.dissect(folder, [(octets, BEFORE) for octets, _ in wanted])):
        counts = groups.setdefault(answer, [0, 0, 0, 0])
        at = 2 * (octets[0] == REJECT)
        counts[at] += 1
        counts[at + 1] += quiet(one)
    rows = [(str(answer) if answer else "accepted", *groups[answer]) for answer in sorted(groups)]
    refused = [sum(counts[at] for answer, counts in groups.items() if answer) for at in range(4)]
    print_table(["Roadquill", "ERRORs", "Quiet", "REJECTs", "Quiet"], [*rows, ("refused in all", *refused)])
