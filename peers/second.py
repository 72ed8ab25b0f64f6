"""The independent second program: its listings of components and of packages, and its stream of read cases."""

import struct
import subprocess


def listing(program, cases):
    """Answer, detail, named and other count of each (component, specifier)."""
    fields = []
    for octets, specifier in cases:
        fields.append(struct.pack(">BHB", 2, 1, specifier or 0))
        fields.append(struct.pack(">BH", 1, len(octets)) + octets)
    run = subprocess.run([program, "list"], input=b"".join(fields), capture_output=True, check=True)
    lines = run.stdout.decode().splitlines()[1:]
    assert len(lines) == len(cases)
    return [tuple(int(word) for word in line.split()[1:]) for line in lines]


def packages(program, cases):
    """Answer, detail, type, and place, named and other count of each component, of each (package, specifier of all)."""
    fields = []
    for octets, specifier in cases:
        fields.append(struct.pack(">BHB", 2, 1, specifier))
        fields.append(struct.pack(">BH", 5, len(octets)) + octets)
    run = subprocess.run([program, "list-packages"], input=b"".join(fields), capture_output=True, check=True)
    found = []
    for line in run.stdout.decode().splitlines()[1:]:
        numbers = [int(word) for word in line.split()]
        if line[0] == " ":
            found[-1][3].append((numbers[0], *numbers[3:]))
        else:
            found.append((*numbers[1:4], []))
    assert len(found) == len(cases)
    return found


def readings(program, reads, seed):
    """Component, packed result, specifier handed in and the table's numbers of each of `reads` cases."""
    run = subprocess.run([program, "cases", str(reads), "0", str(seed)], capture_output=True, check=True)
    stream, at, found = run.stdout, 0, []
    for _ in range(reads):
        kind, specifier, count = struct.unpack_from("<BBI", stream, at)
        assert kind == ord("R")
        octets = stream[at + 6:at + 6 + count]
        at += 6 + count
        _, packed, count = struct.unpack_from("<IQI", stream, at)
        numbers = struct.unpack_from(f"<{count}H", stream, at + 16)
        at += 16 + 2 * count
        found.append((octets, packed, specifier, list(numbers)))
    assert stream[at:at + 1] == b"N"  # names of errors follow
    return found
