"""Octets: identifiers, lengths, components, packages, pcap files; an accepted component walked over, or padded."""

import struct

INVOKE = 0xE9
RESULT = 0xEA
ERROR = 0xEB
REJECT = 0xEC
LINK_TYPE = 147


def length_field(count):
    if count < 128:
        return bytes([count])
    if count < 256:
        return bytes([0x81, count])
    return bytes([0x82]) + count.to_bytes(2, "big")


def identifier(number, form=0):
    first = 0x80 | form << 5
    if number < 31:
        return bytes([first | number])
    if number < 128:
        return bytes([first | 31, number])
    return bytes([first | 31, 0x80 | number >> 7, number & 0x7F])


def wide_field(size):
    """Makes length fields of so many octets behind the first, also where fewer would do."""
    return lambda count: bytes([0x80 | size]) + count.to_bytes(size, "big")


def element(octets, contents, field=length_field):
    return octets + field(len(contents)) + contents


def code_element(kind, code):
    """What stands between ID and set. A REJECT's code is a number of two octets, the first one high."""
    if kind == RESULT:
        return b""
    if kind == INVOKE:
        return element(b"\xD1", bytes([9, code]))
    if kind == ERROR:
        return element(b"\xD4", bytes([code]))
    return element(b"\xD5", code.to_bytes(2, "big"))


def component(kind, id_octets, code, parameters):
    """`parameters` is the finished contents of the set F2."""
    body = element(b"\xCF", id_octets) + code_element(kind, code) + element(b"\xF2", parameters)
    return element(bytes([kind]), body)


def package(octets, transaction):
    """QUERY WITH PERMISSION for an INVOKE, else RESPONSE. The component ends where the package ends."""
    kind = b"\xE2" if octets[0] == INVOKE else b"\xE4"
    number = element(b"\xC7", transaction.to_bytes(4, "big"))
    return element(kind, number + element(b"\xE8", octets))


# How many transaction ID octets each package type has.
ID_OCTETS = {0xE1: 0, 0xE2: 4, 0xE3: 4, 0xE4: 4, 0xE5: 8, 0xE6: 8}


def package_of(kind, ids, components, field=length_field, dialogue=b""):
    """A package of any type with these transaction ID octets and components; `dialogue` stands before the sequence."""
    sequence = element(b"\xE8", b"".join(components), field)
    return element(bytes([kind]), element(b"\xC7", ids, field) + dialogue + sequence, field)


def transaction(octets):
    """The number of a package's transaction: the first four of its ID octets."""
    _, at = read_length(octets, 1)
    _, at = read_length(octets, at + 1)
    return int.from_bytes(octets[at:at + 4], "big")


def write_pcap(path, frames):
    with open(path, "wb") as out:
        out.write(struct.pack("<IHHiIII", 0xA1B2C3D4, 2, 4, 0, 0, 65535, LINK_TYPE))
        for second, frame in enumerate(frames):
            out.write(struct.pack("<IIII", second, 0, len(frame), len(frame)) + frame)


def read_length(octets, at):
    first = octets[at]
    if first < 0x80:
        return first, at + 1
    behind = at + 1 + (first & 0x7F)
    return int.from_bytes(octets[at + 1:behind], "big"), behind


def read_identifier(octets, at):
    first = octets[at]
    number, form, at = first & 31, first >> 5 & 1, at + 1
    if number == 31:
        number = 0
        while True:
            number = number << 7 | octets[at] & 0x7F
            at += 1
            if octets[at - 1] < 0x80:
                break
    return number, form, at


def head(octets):
    """Identifier and contents of each element before the set, and the set's place."""
    _, at = read_length(octets, 1)
    elements = []
    for _ in range(1 if octets[0] == RESULT else 2):
        length, start = read_length(octets, at + 1)
        elements.append((octets[at:at + 1], octets[start:start + length]))
        at = start + length
    return elements, at


def first_id(octets):
    """The first ID octet; of a damaged component what stands in its place, if anything does."""
    try:
        _, at = read_length(octets, 1)
        length, at = read_length(octets, at + 1)
    except IndexError:
        return b""
    return octets[at:at + min(length, 1)]


def walk(octets):
    """Place, number, form, start and length of each parameter. It checks nothing: the component is accepted."""
    _, at = head(octets)
    _, at = read_length(octets, at + 1)
    entries = []
    while at < len(octets):
        number, form, field = read_identifier(octets, at)
        length, start = read_length(octets, field)
        entries.append((at, number, form, start, length))
        at = start + length
    return entries


def walk_package(components, octets):
    """Type, place and end of each of these components in the package; and its parameters, as `walk` gives them."""
    at, parts, entries = len(octets) - sum(map(len, components)), [], []
    for one in components:
        parts.append((one[0], at, at + len(one)))
        entries += [(place + at, number, form, start + at, length) for place, number, form, start, length in walk(one)]
        at += len(one)
    return parts, entries


def padded(octets, field):
    """An accepted component again, each of its length fields made by `field`."""
    parts = [element(identifier(number, form), octets[start:start + length], field)
             for _, number, form, start, length in walk(octets)]
    body = [element(*one, field) for one in head(octets)[0]] + [element(b"\xF2", b"".join(parts), field)]
    return element(octets[:1], b"".join(body), field)
