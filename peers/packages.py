"""Measures what the page says of packages."""

from collections import Counter

import dissect
import drafts
import package_charts
import second
import tcap
from failures import quiet
from page import print_table, said
from tcap import ERROR, INVOKE, REJECT, RESULT

EACH = 300
EACH_DAMAGE = 100
SEED = 47
# Operations whose errors and rejects a CONVERSATION WITH PERMISSION carries.
CONVERSED = [50, 58, 65, 66, 67, 71]
# Operations whose INVOKEs tshark reads without a complaint, and which are short.
QUIET = [4, 13, 15, 32]


def ours(answer, detail, _, components):
    if answer:
        return f"{answer}, detail {detail}"
    return f"accepted, {len(components)} component" + "s" * (len(components) > 1)


def print_charts(folder, program):
    charts = package_charts.CHARTS
    answers = second.packages(program, [(octets, specifier) for _, specifier, _, _, octets in charts])
    seen = dissect.dissect_packages(folder, [(octets, before) for _, _, before, _, octets in charts])
    rows = []
    for (name, _, _, components, _), answer, one in zip(charts, answers, seen):
        parameters = sum(len(tcap.walk(component)) for component in components)
        visible = sum(bool(shown.name) for shown in one.shown)
        rows.append((name, ours(*answer), f"`{one.package}`" if one.package else "none",
                     f"{len(one.components)} of {len(components)}", f"{visible} of {parameters}", said(one)))
    print_table(["Package", "Roadquill", "Type", "Components", "Parameters", "What tshark says"], rows)
    refused = [(chart[3], one) for chart, answer, one in zip(charts, answers, seen) if answer[0]]
    passed = [(components, one) for components, one in refused if not one.complaints]
    print_table(["Packages above", "Count"], [
        ("accepted by Roadquill", len(charts) - len(refused)),
        ("refused by Roadquill", len(refused)),
        ("refused, and tshark does not complain", len(passed)),
        ("refused, tshark does not complain, and shows all", sum(all_shown(*one) for one in passed)),
    ])


def rows_of(kind, specifiers=None):
    return [row for row in drafts.ROWS if row[0] == kind and (specifiers is None or row[1] in specifiers)]


def fitting(draft, count):
    """So many components, fewer where they would not fit into a package."""
    components = [draft() for _ in range(count)]
    while sum(map(len, components)) > 4000:
        components.pop()
    return components


def draw_query(dice, transaction):
    rows = rows_of(INVOKE)
    return 0xE2, transaction, None, 0, lambda: drafts.named_only(dice, rows[dice.below(len(rows))])


def draw_results(dice, transaction):
    rows = rows_of(RESULT)
    row = rows[dice.below(len(rows))]
    return 0xE4, transaction, row[1], row[1], lambda: drafts.named_only(dice, row)


def draw_failures(kind):
    def draw(dice, transaction):
        specifier = CONVERSED[dice.below(len(CONVERSED))] if kind == 0xE5 else 13
        ids = transaction * (tcap.ID_OCTETS[kind] // 4)
        return kind, ids, specifier, specifier, lambda: drafts.failure(dice, (ERROR, REJECT)[dice.below(2)])
    return draw


DRAWS = [
    ("QUERY WITH PERMISSION of INVOKEs", draw_query),
    ("RESPONSE of RESULTs", draw_results),
    ("RESPONSE of ERRORs and REJECTs", draw_failures(0xE4)),
    ("CONVERSATION WITH PERMISSION of ERRORs and REJECTs", draw_failures(0xE5)),
]


def draw(dice, drawing, number):
    """The package, the specifier handed in, that of the INVOKE before, and its components."""
    kind, ids, before, specifier, draft = drawing(dice, number.to_bytes(4, "big"))
    components = fitting(draft, 1 + dice.below(8))
    return tcap.package_of(kind, ids, components), specifier, before, components


def print_drawn(folder, program):
    """Accepted packages of one to eight components with contents of the right sizes."""
    dice, rows, number = drafts.Dice(SEED), [], 0
    for name, drawing in DRAWS:
        drawn = [draw(dice, drawing, number + at) for at in range(EACH)]
        number += EACH
        answers = second.packages(program, [(octets, specifier) for octets, specifier, _, _ in drawn])
        seen = dissect.dissect_packages(folder, [(octets, before) for octets, _, before, _ in drawn])
        sums = [0] * 7
        for (octets, _, _, components), answer, one in zip(drawn, answers, seen):
            parts, entries = tcap.walk_package(components, octets)
            assert answer[:3] == (0, 0, octets[0])
            assert [place for place, _, _ in answer[3]] == [place for _, place, _ in parts]
            assert sum(named + other for _, named, other in answer[3]) == len(entries)
            counts = dissect.compared(entries, one)
            assert not counts[4]
            sums = [a + b for a, b in zip(sums, (
                len(parts), sum(part in one.components for part in parts), *counts[:4], quiet(one)))]
        rows.append((name, EACH, *sums))
    print_table(["Package", "Packages", "Components", "Shown", "Parameters", "Equal", "Place", "None", "Quiet"], rows)


# ---- damage: each makes a package of the drawn components and the transaction ID octets, with one thing wrong

def as_drawn(_, ids, components):
    return tcap.package_of(0xE2, ids, components)


def any_lengths(dice, ids, components):
    field = drafts.any_field(dice)
    return tcap.package_of(0xE2, ids, [tcap.padded(one, field) for one in components], field)


def other_type(dice, ids, components):
    kind = (0xE1, 0xE3, 0xE4, 0xE5, 0xE6)[dice.below(5)]
    return tcap.package_of(kind, (ids * 2)[:tcap.ID_OCTETS[kind]], components)


def other_ids(dice, ids, components):
    count = (0, 1, 2, 3, 5, 6, 7, 8, 9, 12)[dice.below(10)]
    return tcap.package_of(0xE2, (ids * 3)[:count], components)


def dialogue(dice, ids, components):
    portion = tcap.element(b"\xF9", bytes([0xDB, 1, dice.below(128)]))
    return tcap.package_of(0xE2, ids, components, dialogue=portion)


def element_as(at, change):
    """The type's, C7's or E8's element (0, 1, 2) with its length field made by `change`."""
    def damage(dice, ids, components):
        fields = [tcap.length_field] * 3
        fields[at] = lambda count: change(dice, count)
        sequence = tcap.element(b"\xE8", b"".join(components), fields[2])
        return tcap.element(b"\xE2", tcap.element(b"\xC7", ids, fields[1]) + sequence, fields[0])
    return damage


def more(dice, count):
    return tcap.length_field(count + 1 + dice.below(5))


def less(dice, count):
    return tcap.length_field(count - 1 - dice.below(4))


def component_as(change, last):
    """The last component, or one before it, with its length field made by `change`."""
    def damage(dice, ids, components):
        which = len(components) - 1 if last else dice.below(len(components) - 1)
        length, at = tcap.read_length(components[which], 1)
        changed = components[which][:1] + change(dice, length) + components[which][at:]
        return tcap.package_of(0xE2, ids, components[:which] + [changed] + components[which + 1:])
    return damage


def identifier_as(sequence):
    """Another identifier octet for C7 or E8."""
    def damage(dice, ids, components):
        octets = bytearray(tcap.package_of(0xE2, ids, components))
        _, at = tcap.read_length(octets, 1)
        at += 2 + len(ids) if sequence else 0
        octets[at] ^= 1 + dice.below(255)
        return bytes(octets)
    return damage


def octets_behind(dice, ids, components):
    return tcap.package_of(0xE2, ids, components) + dice.octets(1 + dice.below(5))


DAMAGES = [
    ("nothing", as_drawn),
    ("nothing; lengths in any form that can say them", any_lengths),
    ("another package type, with as many ID octets as it has", other_type),
    ("count of transaction ID octets", other_ids),
    ("a dialogue portion, F9 03 DB 01 nn", dialogue),
    ("no component", as_drawn),
    ("nine to twelve components", as_drawn),
    ("another identifier for C7", identifier_as(False)),
    ("another identifier for E8", identifier_as(True)),
    ("the type's length as 83 00 nn nn", element_as(0, lambda _, count: tcap.wide_field(3)(count))),
    ("length of E8 as 83 00 nn nn", element_as(2, lambda _, count: tcap.wide_field(3)(count))),
    ("the type's length 1 to 5 more", element_as(0, more)),
    ("the type's length 1 to 4 less", element_as(0, less)),
    ("length of E8 1 to 5 more", element_as(2, more)),
    ("length of E8 1 to 4 less", element_as(2, less)),
    ("the last component's length 1 to 5 more", component_as(more, True)),
    ("the last component's length 1 to 4 less", component_as(less, True)),
    ("another component's length 1 to 5 more", component_as(more, False)),
    ("another component's length 1 to 4 less", component_as(less, False)),
    ("1 to 5 octets behind the package", octets_behind),
]


def answers_said(answers):
    """The numbers, and how often each where there are several."""
    counts = Counter(answer for answer, *_ in answers)
    words = {number: str(number) if number else "accepted" for number in counts}
    if len(counts) == 1:
        return words[answers[0][0]]
    return ", ".join(f"{words[number]}: {counts[number]}" for number in sorted(counts))


# How many components there are at the least and at the most, where that is what is wrong.
COUNTS = {"no component": (0, 0), "nine to twelve components": (9, 12)}


def draw_quiet(dice, least, most):
    rows = rows_of(INVOKE, QUIET)
    count = least + dice.below(most - least + 1)
    return [drafts.named_only(dice, rows[dice.below(len(rows))]) for _ in range(count)]


def all_shown(components, seen):
    """As many components as were drafted, with all of their parameters."""
    return (len(seen.components) == len(components)
            and len(seen.shown) == sum(len(tcap.walk(one)) for one in components))


def print_damaged(folder, program):
    """QUERYs of two to four INVOKEs that tshark reads without a complaint, with one thing wrong with the package."""
    dice, rows, number = drafts.Dice(SEED + 1), [], 0
    for name, damage in DAMAGES:
        drawn = [draw_quiet(dice, *COUNTS.get(name, (2, 4))) for _ in range(EACH_DAMAGE)]
        octets = [damage(dice, (number + at).to_bytes(4, "big"), one) for at, one in enumerate(drawn)]
        number += EACH_DAMAGE
        answers = second.packages(program, [(one, 0) for one in octets])
        seen = dissect.dissect_packages(folder, [(one, None) for one in octets])
        passed = [not one.complaints for one in seen]
        whole = sum(all_shown(components, one) for components, one in zip(drawn, seen))
        rows.append((name, answers_said(answers), len(octets), sum(passed), whole))
    print_table(["What is wrong", "Roadquill", "Packages", "Quiet", "All shown"], rows)
