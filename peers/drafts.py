"""Components for the comparison, drawn from the operation rows, with contents of sizes that the dissector expects."""

import tcap
from tcap import ERROR, INVOKE, REJECT, RESULT

# Type, specifier, operation, must occur (a tuple is a choice), group, also named.
ROWS = [
    (INVOKE, 4, "HandoffBack", [5, 6, 8, 2, 3], [], [1]),
    (RESULT, 4, "HandoffBack", [5], [], []),
    (INVOKE, 13, "RegistrationNotification", [9, (8, 242), 21, 17, 22], [], [32, 123]),
    (RESULT, 13, "RegistrationNotification", [22], [], []),
    (RESULT, 14, "RegistrationCancellation", [], [], []),
    (INVOKE, 15, "LocationRequest", [1, 4, 21, 22], [], [32, 123]),
    (RESULT, 26, "FlashRequest", [], [], []),
    (INVOKE, 32, "InterSystemPage", [1, 9], [8, 242, 233], [21, 22, 32]),
    (INVOKE, 37, "HandoffBack2", [1, 6, 2], [], [242]),
    (RESULT, 64, "AnalyzedInformation", [], [], [4]),
    (INVOKE, 101, "InterSystemSMSPage", [105, 116], [8, 242, 233], [9]),
    (RESULT, 101, "InterSystemSMSPage", [], [], [105, 153]),
]

# The dissector's name of each registered number.
NAMES = {
    1: "billingID", 2: "servingCellID", 3: "targetCellID", 4: "digits", 5: "channelData", 6: "interMSCCircuitID",
    8: "mobileIdentificationNumber", 9: "electronicSerialNumber", 17: "qualificationInformationCode", 21: "mscid",
    22: "systemMyTypeCode", 32: "pc_ssn", 105: "sms_BearerData", 116: "sms_TeleserviceIdentifier",
    123: "transactionCapability", 153: "sms_CauseCode", 233: "networkTMSI", 242: "imsi",
}

SIZES = {1: 7, 2: 2, 3: 2, 5: 3, 6: 2, 9: 4, 21: 3, 123: 2}
CODES = {17: 5, 22: 20, 153: 3}


class Dice:
    """A fixed run of numbers (SplitMix64), the same on every machine."""

    def __init__(self, seed):
        self.state = seed

    def below(self, bound):
        self.state = self.state + 0x9E3779B97F4A7C15 & 2**64 - 1
        mixed = (self.state ^ self.state >> 30) * 0xBF58476D1CE4E5B9 & 2**64 - 1
        mixed = (mixed ^ mixed >> 27) * 0x94D049BB133111EB & 2**64 - 1
        return (mixed ^ mixed >> 31) % bound

    def octets(self, count):
        return bytes(self.below(256) for _ in range(count))

    def digits(self, count):
        """Two digits an octet, low half first, an odd last one filled with F."""
        halves = [self.below(10) for _ in range(count)] + [15] * (count % 2)
        return bytes(low | high << 4 for low, high in zip(halves[::2], halves[1::2]))

    def shuffle(self, items):
        for last in range(len(items) - 1, 0, -1):
            other = self.below(last + 1)
            items[last], items[other] = items[other], items[last]


def contents(dice, number):
    if number == 4:
        count = 1 + dice.below(24)
        return bytes([1 + dice.below(8), 0, 0x21, count]) + dice.digits(count)
    if number == 8:
        return dice.digits(10)
    if number == 32:
        return bytes([1 + dice.below(5)]) + dice.octets(4)
    if number == 105:
        return dice.octets(1 + dice.below([20, 127, 600][dice.below(3)]))
    if number == 116:
        # No teleservice that the dissector knows: it would look into SMS_BearerData.
        return bytes([0, 2 + dice.below(254)])
    if number == 233:
        # The code, then digits of the zone.
        return dice.octets(4 + dice.below(5))
    if number == 242:
        return dice.digits(15)
    if number in CODES:
        return bytes([1 + dice.below(CODES[number])])
    return dice.octets(SIZES[number])


def members(one):
    return one if isinstance(one, tuple) else (one,)


def named(row):
    """All numbers that the row names."""
    _, _, _, must, group, also = row
    return [number for one in must for number in members(one)] + group + also


def some(dice, group):
    """One or several of a group, each such set as likely."""
    drawn = 1 + dice.below(2 ** len(group) - 1) if group else 0
    return [one for at, one in enumerate(group) if drawn >> at & 1]


def named_numbers(dice, row):
    """Numbers of a component that the row accepts, in any order; Digits may repeat."""
    _, _, _, must, group, also = row
    numbers = [one if isinstance(one, int) else one[dice.below(2)] for one in must]
    numbers += some(dice, group)
    numbers += [one for one in also if dice.below(2)]
    if 4 in numbers:
        numbers += [4] * dice.below(3)
    dice.shuffle(numbers)
    return numbers


def id_octets(dice, kind):
    most = {INVOKE: 2, REJECT: 1}.get(kind, 0)
    return dice.octets(dice.below(most + 1) if most else 1)


def named_only(dice, row):
    kind, specifier, *_ = row
    parts = [tcap.element(tcap.identifier(one), contents(dice, one)) for one in named_numbers(dice, row)]
    return tcap.component(kind, id_octets(dice, kind), specifier, b"".join(parts))


def stranger(dice, registered):
    """A parameter of one of these numbers, or of a number from 1,000 up in either form."""
    if dice.below(2):
        number = registered[dice.below(len(registered))]
        return tcap.element(tcap.identifier(number), contents(dice, number))
    number, form = 1000 + dice.below(15384), dice.below(2)
    return tcap.element(tcap.identifier(number, form), dice.octets(dice.below(300)))


def with_others(dice, row):
    """One to three parameters more that the row does not name: registered ones, or numbers from 1,000 up."""
    kind, specifier, *_ = row
    parts = [tcap.element(tcap.identifier(one), contents(dice, one)) for one in named_numbers(dice, row)]
    parts += [stranger(dice, sorted(set(NAMES) - set(named(row)))) for _ in range(1 + dice.below(3))]
    dice.shuffle(parts)
    return tcap.component(kind, id_octets(dice, kind), specifier, b"".join(parts))


def any_field(dice):
    """Length fields of any form that can say the length."""
    def field(count):
        forms = [tcap.length_field, tcap.wide_field(2), tcap.wide_field(1)]
        return forms[dice.below(3 if count < 256 else 2)](count)
    return field


def failure(dice, kind):
    """An ERROR or a REJECT of any code with none to six parameters: no row names any."""
    code = dice.below(256 if kind == ERROR else 65536)
    parts = [stranger(dice, sorted(NAMES)) for _ in range(dice.below(7))]
    return tcap.component(kind, id_octets(dice, kind), code, b"".join(parts))
