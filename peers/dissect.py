"""What tshark makes of frames, taken from its PDML output with the BER tokens shown."""

import os
import subprocess
import xml.etree.ElementTree as tree
from dataclasses import dataclass, field

import tcap

OPTIONS = [
    "-o", 'uat:user_dlts:"User 0 (DLT=147)","ansi_tcap","0","","0",""',
    "-o", "ber.show_internals:TRUE",
]

# The element of each package type.
PACKAGES = {f"ansi_tcap.{name}_element": name for name in (
    "unidirectional", "queryWithPerm", "queryWithoutPerm", "response", "conversationWithPerm",
    "conversationWithoutPerm", "abort")}


@dataclass
class Shown:
    """A parameter whose identifier and length tshark reports. Places count from the component's start."""
    number: int
    form: int
    start: int
    length: int
    name: str = ""
    span: tuple = ()


@dataclass
class Seen:
    package: str = ""
    ids: str = ""
    components: list = field(default_factory=list)
    operation: str = ""
    code: str = ""
    missing: list = field(default_factory=list)
    shown: list = field(default_factory=list)
    unknown: list = field(default_factory=list)
    complaints: list = field(default_factory=list)


def version():
    words = subprocess.run(["tshark", "--version"], capture_output=True, text=True, check=True).stdout.split()
    return words[2].rstrip(".")


def dissect(folder, cases):
    """One Seen for each (component, specifier). But for an INVOKE it follows an empty one of its transaction."""
    frames, wanted = [], []
    for transaction, (octets, specifier) in enumerate(cases):
        if octets[0] != tcap.INVOKE and specifier is not None:
            frames.append(tcap.package(tcap.component(tcap.INVOKE, tcap.first_id(octets), specifier, b""), transaction))
        frames.append(tcap.package(octets, transaction))
        wanted.append((len(frames), len(frames[-1]) - len(octets)))
    return look(folder, frames, wanted)


def dissect_packages(folder, cases):
    """One Seen for each (package, specifier); where the latter is not None, an INVOKE of it goes before in a QUERY of
    the same transaction. Places count from the package's start."""
    frames, wanted = [], []
    for octets, specifier in cases:
        if specifier is not None:
            frames.append(tcap.package(tcap.component(tcap.INVOKE, b"\x05", specifier, b""), tcap.transaction(octets)))
        frames.append(octets)
        wanted.append((len(frames), 0))
    return look(folder, frames, wanted)


def look(folder, frames, wanted):
    """What tshark makes of the frames that are wanted: the number of each, and where it is counted from."""
    path = os.path.join(folder, "frames.pcap")
    tcap.write_pcap(path, frames)
    offsets = dict(wanted)
    seen = {}
    command = ["tshark", "-n", "-r", path, *OPTIONS, "-T", "pdml"]
    with subprocess.Popen(command, stdout=subprocess.PIPE, stderr=subprocess.DEVNULL) as run:
        number = 0
        for _, node in tree.iterparse(run.stdout):
            if node.tag == "packet":
                number += 1
                if number in offsets:
                    seen[number] = read_packet(node, offsets[number])
                node.clear()
    assert run.returncode == 0 and number == len(frames)
    return [seen[number] for number, _ in wanted]


def read_packet(packet, offset):
    seen = Seen()
    for node in packet.iter("field"):
        name, shown = node.get("name"), node.get("showname", "")
        if name == "_ws.expert.message":
            seen.complaints.append(node.get("show"))
        elif name in ("ansi_tcap.ec_private", "ansi_tcap.rejectProblem"):
            seen.code = shown.split(": ", 1)[1]
        elif name == "ansi_tcap.paramSet_element":
            read_set(node, offset, seen)
        elif name == "ansi_tcap.componentPortion":
            read_sequence(node, seen)
        elif name == "ansi_tcap.identifier":
            seen.ids = node.get("value", "")
        elif name in PACKAGES:
            seen.package = PACKAGES[name]
        if "<MISSING>" in shown:
            seen.missing.append(shown)
    for node in packet.iterfind("proto[@name='ansi_map']/field"):
        if node.get("name").startswith("ansi_map."):
            seen.operation = node.get("name")[9:].removesuffix("_element")
            read_set(node, offset, seen)
    return seen


def read_sequence(node, seen):
    """Type, place and end of each component that is opened."""
    place = kind = end = None
    for child in node:
        name, pos, size = child.get("name"), int(child.get("pos")), int(child.get("size"))
        if name == "ber.id.tag":
            place, kind = pos, 0xE0 | int(child.get("show"))
        elif name == "ber.length":
            end = pos + size + int(child.get("show"))
        elif name == "ansi_tcap.ComponentPDU":
            seen.components.append((kind, place, end))


def read_set(node, offset, seen):
    form = number = None
    for child in node:
        name, pos, size = child.get("name"), int(child.get("pos")), int(child.get("size"))
        if name == "ber.id.pc":
            form = int(child.get("show"))
        elif name == "ber.id.tag":
            number = int(child.get("show"))
        elif name == "ber.length":
            seen.shown.append(Shown(number, form, pos + size - offset, int(child.get("show"))))
        elif name.startswith("ansi_map.") and seen.shown and not seen.shown[-1].name:
            last = seen.shown[-1]
            inner = child[0] if name == "ansi_map.msid" and len(child) else child
            last.name = inner.get("name")[9:].removesuffix("_element")
            last.span = (pos - offset, size)
        elif name == "" and "Unknown field" in child.get("show", ""):
            first = int(child.get("value")[:2], 16)
            seen.unknown.append((pos - offset, int(child.get("show").rsplit(":", 1)[1]), first >> 5 & 1))


def compared(ours, seen):
    """Counts: all; equal but for the place; equal in number, form and place; not shown; and shown but not ours."""
    theirs = [(one.number, one.form, one.start, one.length) for one in seen.shown]
    equal = [one[1:] for one in ours if one[1:] in theirs]
    placed = [one for one in ours if one[1:] not in theirs and one[:3] in seen.unknown]
    extra = [at for at, one in enumerate(theirs) if one not in equal]
    # What is not ours stands behind a constructor form that tshark has opened.
    assert all(at > 0 and (theirs[at - 1][1] == 1 or at - 1 in extra) for at in extra)
    assert extra or theirs == equal
    return len(ours), len(equal), len(placed), len(ours) - len(equal) - len(placed), len(extra)
