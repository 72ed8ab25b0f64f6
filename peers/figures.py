"""Measures the figures of docs/PEERS.md and prints its tables."""

import sys

import charts
import dissect
import drafts
import failures
import packages
import second
import tcap
from page import print_table, said

EACH_ROW = 500
EACH_PADDED = 100
SEED = 41
READS = 20000
READ_SEED = 7


def print_charts(folder, program):
    answers = second.listing(program, [(octets, handed) for _, octets, _, handed, _ in charts.CHARTS])
    seen = dissect.dissect(folder, [(octets, before) for _, octets, before, _, _ in charts.CHARTS])
    rows = []
    for (name, _, _, _, count), (answer, detail, named, other), one in zip(charts.CHARTS, answers, seen):
        ours = f"{answer}, detail {detail}" if answer else f"accepted, {named} named" + f", {other} other" * (other > 0)
        visible = sum(bool(shown.name) for shown in one.shown)
        rows.append((name, ours, f"{visible} of {count}", said(one)))
    print_table(["Component", "Roadquill", f"Shown by tshark {dissect.version()}", "What tshark says"], rows)


def zero_draft(dice, number, row):
    """The row's mandatory parameters, of a choice or group the first, with `number` first and of no octets."""
    kind, specifier, _, must, group, _ = row
    wanted = [drafts.members(one) for one in must] + [group] * bool(group)
    numbers = [one[0] for one in wanted if number not in one]
    parts = [tcap.element(tcap.identifier(one), drafts.contents(dice, one)) for one in numbers]
    return tcap.component(kind, b"\x05", specifier, tcap.element(tcap.identifier(number), b"") + b"".join(parts))


def zero_outcome(octets, seen):
    if not seen.operation:
        return "nothing of the set is dissected"
    if len(seen.shown) < len(tcap.walk(octets)):
        return "it stops there, `Malformed Packet`, and the parameters behind are lost"
    if seen.complaints:
        return "the parameters behind are shown, its length is called not valid"
    return "the parameters behind are shown, no complaint"


def print_zero(folder, program):
    """Each registered parameter with no octets, in the first row that names it."""
    dice, groups = drafts.Dice(SEED), {}
    numbers = sorted(drafts.NAMES)
    rows = [next(row for row in drafts.ROWS if number in drafts.named(row)) for number in numbers]
    cases = [(zero_draft(dice, number, row), row[1]) for number, row in zip(numbers, rows)]
    answers = [answer[0] for answer in second.listing(program, cases)]
    assert set(answers) == {0, 26}
    for number, answer, (octets, _), seen in zip(numbers, answers, cases, dissect.dissect(folder, cases)):
        groups.setdefault((zero_outcome(octets, seen), answer or "accepted"), []).append(str(number))
    by_outcome = sorted(groups.items(), key=lambda one: one[0][0])
    lines = [(*outcome, len(group), " ".join(group)) for outcome, group in by_outcome]
    print_table(["tshark, given a parameter of no octets", "Roadquill", "Parameters", "Their numbers"], lines)


def compare(octets, seen):
    return dissect.compared(tcap.walk(octets), seen)


def in_its_field(one):
    """The visible field has the register's name and our start and length."""
    return one.name == drafts.NAMES[one.number] and one.span == (one.start, one.length)


def measure_row(folder, program, cases):
    """Sums of all, equal, placed and not shown; and what tshark made of each component."""
    for (octets, _), answer in zip(cases, second.listing(program, cases)):
        assert answer[0] == 0 and answer[2] + answer[3] == len(tcap.walk(octets))
    seen = dissect.dissect(folder, cases)
    counts = [compare(octets, one) for (octets, _), one in zip(cases, seen)]
    assert not any(one[4] for one in counts)
    return [sum(one[at] for one in counts) for at in range(4)], seen


def print_rows(folder, program):
    """A line for each operation row: named parameters only, then with others among them; and the sums."""
    dice, lines = drafts.Dice(SEED), []
    for row in drafts.ROWS:
        named, seen = measure_row(folder, program, [(drafts.named_only(dice, row), row[1]) for _ in range(EACH_ROW)])
        assert all(in_its_field(shown) for one in seen for shown in one.shown)
        quiet = sum(not one.complaints for one in seen)
        others, _ = measure_row(folder, program, [(drafts.with_others(dice, row), row[1]) for _ in range(EACH_ROW)])
        kind = "INVOKE" if row[0] == tcap.INVOKE else "RESULT"
        lines.append([f"{row[2]} {kind}, {row[1]}", *named, quiet, *others])
    total = [sum(one[at] for one in lines) for at in range(1, len(lines[0]))]
    heads = ["Row", "Named", "Equal", "Place", "None", "Quiet", "With others", "Equal", "Place", "None"]
    print_table(heads, lines + [[f"all, {2 * EACH_ROW * len(drafts.ROWS):,} components", *total]])


def print_padded(folder, program):
    """Named parameters only, the same components with length fields of several kinds."""
    dice, lines = drafts.Dice(SEED), []
    drawn = [(drafts.named_only(dice, row), row[1]) for row in drafts.ROWS for _ in range(EACH_PADDED)]
    for name, field in (("shortest", tcap.length_field), ("82 and two octets", tcap.wide_field(2)),
                        ("any form that can say it, drawn for each", drafts.any_field(dice))):
        cases = [(tcap.padded(octets, field), specifier) for octets, specifier in drawn]
        counts, seen = measure_row(folder, program, cases)
        assert all(in_its_field(shown) for one in seen for shown in one.shown)
        lines.append((name, len(cases), *counts, sum(not one.complaints for one in seen)))
    print_table(["Lengths", "Components", "Named", "Equal", "Place", "None", "Quiet"], lines)


def entry(one):
    """The numbers of a table: the place comes last."""
    return (*one[1:], one[0])


def print_any_contents(folder, readings):
    found = [(octets, specifier, table) for octets, packed, specifier, table in readings
             if packed & 0xFF == 0 and octets[0] in (tcap.INVOKE, tcap.RESULT)]
    walked = sum([number for one in tcap.walk(octets) for number in entry(one)] == table for octets, _, table in found)
    seen = dissect.dissect(folder, [(octets, specifier) for octets, specifier, _ in found])
    counts = [compare(octets, one) for (octets, _, _), one in zip(found, seen)]
    placed = sum(one[2] > 0 and one[3] == 0 for one in counts)
    undissected = sum(count[3] for (octets, specifier, _), count in zip(found, counts)
                      if octets[0] == tcap.RESULT and specifier in (26, 101))
    print_table(["The second program's own components", "Count"], [
        ("accepted", len(found)),
        ("accepted, and a length in it is padded",
         sum(tcap.padded(octets, tcap.length_field) != octets for octets, _, _ in found)),
        ("accepted, and the script's walk gives the second program's table", walked),
        ("tshark shows every parameter with our number, form, start and length",
         sum(one[0] == one[1] for one in counts)),
        ("it shows some by number, form and place only, and loses none", placed),
        ("it loses some", sum(one[3] > 0 for one in counts)),
        ("it shows as a parameter what stands inside a constructor form", sum(one[4] > 0 for one in counts)),
        ("parameters in the accepted components", sum(one[0] for one in counts)),
        ("parameters that tshark loses", sum(one[3] for one in counts)),
        ("of these in FlashRequest and InterSystemSMSPage RESULTs", undissected),
    ])


def main(folder, program):
    print_charts(folder, program)
    print_zero(folder, program)
    print_rows(folder, program)
    print_padded(folder, program)
    readings = second.readings(program, READS, READ_SEED)
    print_any_contents(folder, readings)
    failures.print_charts(folder, program)
    failures.print_names(folder)
    failures.print_drawn(folder, program, compare)
    failures.print_stream(folder, readings)
    packages.print_charts(folder, program)
    packages.print_drawn(folder, program)
    packages.print_damaged(folder, program)


main(*sys.argv[1:])
