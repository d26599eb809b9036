#!/usr/bin/env python3
"""Turns words into the hex of client frames, and back, so that nobody writes frames by hand.

The frames are those of docs/PROTOCOL.md, "Client frames". Each argument is one request; the hex of all of them is printed on
one line, as a `bytes` line of a schedule wants it:

    python3 examples/frames.py begin "counter.add 1:61 100" "set.add 2:63 78" commit
    python3 examples/frames.py --kinds 1=counter,2=set begin "add 1:61 100" "add 2:63 78" commit
    python3 examples/frames.py --read 00000002010100000006010201016103
    python3 examples/frames.py --replies 0000000b0182000000000000000200
    printf 'begin\\ncommit\\n' | python3 examples/frames.py -

requests:
    begin   commit   strong   abandon   barrier   token   attach SITE.COORDINATOR.SESSION COUNT STRONG,SITE1,..
operations, within a transaction:
    register.read ITEM    register.write ITEM VALUE
    counter.read ITEM     counter.add ITEM AMOUNT
    set.members ITEM      set.contains ITEM VALUE    set.add ITEM VALUE    set.remove ITEM VALUE
    flag.read ITEM        flag.enable ITEM           flag.disable ITEM
    multi.read ITEM       multi.write ITEM VALUE
short forms: members, contains, remove, enable and disable; with --kinds also read, write and add.

ITEM is SPACE:HEX, a space from 1 to 255 and an id of 1 to 64 bytes. VALUE is hex of at most 1,024 bytes, or - for the empty
value. AMOUNT is decimal, from -2^63 to 2^63 - 1. The vector that `attach` ends with has a number for strong transactions and one
for each site, so 2, 4, 6 or 8 of them.

The exit status is 0; 1 where words or hex are faulty, with a line that says what and where; 2 where the options are.
"""
import argparse
import re
import sys

VERSION = 1
PERFORM, ATTACH = 2, 8
PLAIN = {"begin": 1, "commit": 3, "strong": 4, "abandon": 5, "barrier": 6, "token": 7}
KINDS = ("register", "counter", "set", "flag", "multi")
# the operations: their code, and what stands behind the item
OPERATIONS = {
    "register.read": (1, None),
    "register.write": (2, "VALUE"),
    "counter.read": (3, None),
    "counter.add": (4, "AMOUNT"),
    "set.members": (5, None),
    "set.contains": (6, "VALUE"),
    "set.add": (7, "VALUE"),
    "set.remove": (8, "VALUE"),
    "flag.read": (9, None),
    "flag.enable": (10, None),
    "flag.disable": (11, None),
    "multi.read": (12, None),
    "multi.write": (13, "VALUE"),
}
REASONS = {
    1: "the frame is no request, or has a bad length",
    2: "no transaction runs",
    3: "a transaction runs",
    4: "the space isn't configured",
    5: "the operation isn't of the space's kind",
    6: "the transaction has 64 operations",
    7: "the transaction's writes would pass 65,536 bytes",
    8: "the answer would pass 65,000 bytes",
    9: "64 requests of the session are unanswered",
    11: "the site has 4,096 open sessions",
}
LONGEST_FRAME = 65_536
LONGEST_PIECE = 65_536
LONGEST_ID = 64
LONGEST_VALUE = 1_024
LARGEST_NUMBER = 2**62
LARGEST_COUNT = 2**64 - 1
VECTORS = (2, 4, 6, 8)
COORDINATORS = 16
# how much hex or how many words are looked at
LONGEST_INPUT = 1 << 24


class Fault(Exception):
    """What is wrong with the words or the hex."""


# ---- words into hex


def to_frame(tag, fields=b""):
    body = bytes([VERSION, tag]) + fields
    return len(body).to_bytes(4, "big") + body


def number_of(text, what, least, most):
    if not re.fullmatch(r"0|-?[1-9][0-9]{0,19}", text, re.ASCII) or not least <= int(text) <= most:
        raise Fault(f"{what} is a decimal number from {least} to {most}, not {text[:40]!r}")
    return int(text)


def bytes_of(text, what, least, most):
    if not re.fullmatch(r"([0-9A-Fa-f]{2})*", text, re.ASCII):
        raise Fault(f"{what} is hex, two digits a byte, not {text[:40]!r}")
    if not least <= len(text) // 2 <= most:
        raise Fault(f"{what} has {least} to {most} bytes, not {len(text) // 2}")
    return bytes.fromhex(text)


def item_of(text):
    """The space and the bytes of an item."""
    space, colon, name = text.partition(":")
    if not colon:
        raise Fault(f"an item is SPACE:HEX, as in 1:61, not {text[:40]!r}")
    number = number_of(space, "an item's space", 1, 255)
    name = bytes_of(name, "an item's id", 1, LONGEST_ID)
    return number, bytes([number, len(name)]) + name


def value_of(text):
    value = b"" if text == "-" else bytes_of(text, "a value", 1, LONGEST_VALUE)
    return len(value).to_bytes(2, "big") + value


def amount_of(text):
    return number_of(text, "an amount", -(2**63), 2**63 - 1).to_bytes(8, "big", signed=True)


def operation_named(word, space, kinds):
    """The whole name of an operation, whose kind a short form leaves out."""
    if word in OPERATIONS:
        return word
    meant = [name for name in OPERATIONS if name.split(".")[1] == word]
    if space in kinds and f"{kinds[space]}.{word}" in meant:
        return f"{kinds[space]}.{word}"
    if not meant:
        raise Fault(f"no request is called {word[:40]!r}; --help lists them")
    if len(meant) > 1:
        raise Fault(f"{word} is an operation of several kinds: say {' or '.join(meant)}, or give --kinds")
    return meant[0]


def perform(word, arguments, kinds):
    if not arguments:
        operation_named(word, None, kinds)
        raise Fault(f'{word} wants an item, in one argument, as in "{word} 1:61"')
    space, item = item_of(arguments[0])
    name = operation_named(word, space, kinds)
    code, field = OPERATIONS[name]
    if len(arguments) != (1 if field is None else 2):
        raise Fault(f"the form is: {name} ITEM{'' if field is None else ' ' + field}, in one argument")
    fields = item + bytes([code])
    if field is not None:
        fields += (value_of if field == "VALUE" else amount_of)(arguments[1])
    return to_frame(PERFORM, fields)


def attach(arguments):
    if len(arguments) != 3:
        raise Fault("the form is: attach SITE.COORDINATOR.SESSION COUNT STRONG,SITE1,.., in one argument")
    session, vector = arguments[0].split("."), arguments[2].split(",")
    if len(session) != 3:
        raise Fault(f"a session is SITE.COORDINATOR.SESSION, as in 1.1.1, not {arguments[0][:40]!r}")
    if len(vector) not in VECTORS:
        raise Fault(f"a vector has 2, 4, 6 or 8 numbers, with commas between, not {len(vector)}")
    fields = bytes([number_of(session[0], "a token's site", 1, len(vector) - 1)])
    fields += bytes([number_of(session[1], "a token's coordinator", 1, COORDINATORS)])
    fields += number_of(session[2], "a token's session", 1, LARGEST_NUMBER).to_bytes(8, "big")
    fields += number_of(arguments[1], "a token's count", 0, LARGEST_NUMBER).to_bytes(8, "big")
    for number in vector:
        fields += number_of(number, "a number of a vector", 0, LARGEST_NUMBER).to_bytes(8, "big")
    return to_frame(ATTACH, fields)


def frame_of(words, kinds):
    """The frame of one request."""
    word, *arguments = words.split() or [""]
    if word == "attach":
        return attach(arguments)
    if word not in PLAIN:
        return perform(word, arguments, kinds)
    if arguments:
        raise Fault(f"{word} takes nothing, each request is an argument of its own")
    return to_frame(PLAIN[word])


def stream_of(requests, kinds):
    """The frames of all requests, one behind the other."""
    stream = b""
    for place, words in enumerate(requests, 1):
        try:
            stream += frame_of(words, kinds)
        except Fault as fault:
            raise Fault(f"request {place}: {fault}") from None
        if len(stream) > LONGEST_PIECE:
            raise Fault(f"request {place}: the frames pass the {LONGEST_PIECE} bytes of one line, so use several lines")
    return stream


# ---- hex into words


class Fields:
    """The fields of one frame, read from the left."""

    def __init__(self, frame):
        self.frame, self.at = frame, 0

    def left(self):
        return len(self.frame) - self.at

    def take(self, count):
        if count > self.left():
            raise Fault("the frame ends within a field")
        self.at += count
        return self.frame[self.at - count : self.at]

    def number(self, width, what, least, most):
        number = int.from_bytes(self.take(width), "big")
        if not least <= number <= most:
            raise Fault(f"{what} is from {least} to {most}, not {number}")
        return number

    def item(self):
        space = self.number(1, "an item's space", 1, 255)
        return f"{space}:{self.take(self.number(1, 'the length of an id', 1, LONGEST_ID)).hex()}"

    def value(self):
        return self.take(self.number(2, "the length of a value", 0, LONGEST_VALUE))

    def transaction(self):
        site = self.number(1, "a transaction's site", 1, VECTORS[-1] - 1)
        coordinator = self.number(1, "a transaction's coordinator", 1, COORDINATORS)
        return f"{site}.{coordinator}.{self.number(8, 'the number of a transaction', 1, LARGEST_NUMBER)}"

    def token(self):
        """A token, whose vector reaches to the frame's end."""
        site = self.number(1, "a token's site", 1, VECTORS[-1] - 1)
        coordinator = self.number(1, "a token's coordinator", 1, COORDINATORS)
        session = self.number(8, "a token's session", 1, LARGEST_NUMBER)
        count = self.number(8, "a token's count", 0, LARGEST_NUMBER)
        if self.left() not in [8 * length for length in VECTORS]:
            raise Fault("a vector has 2, 4, 6 or 8 numbers of eight bytes")
        vector = [self.number(8, "a number of a vector", 0, LARGEST_NUMBER) for _ in range(self.left() // 8)]
        if site >= len(vector):
            raise Fault(f"a token's site is from 1 to {len(vector) - 1}, not {site}")
        return f"{site}.{coordinator}.{session} {count} {','.join(map(str, vector))}"

    def operation(self):
        item, code = self.item(), self.number(1, "the code of an operation", 1, len(OPERATIONS))
        name, field = next((name, field) for name, (known, field) in OPERATIONS.items() if known == code)
        if field == "VALUE":
            return f"{name} {item} {self.value().hex() or '-'}"
        if field == "AMOUNT":
            return f"{name} {item} {int.from_bytes(self.take(8), 'big', signed=True)}"
        return f"{name} {item}"

    def values(self):
        count = self.number(4, "a count of values", 0, LONGEST_FRAME)
        values = [self.value() for _ in range(count)]
        if any(one >= two for one, two in zip(values, values[1:])):
            raise Fault("values ascend, each once")
        return f"values:{count}:{','.join(value.hex() for value in values)}"

    def answer(self):
        """An answer as the report prints it."""
        code = self.number(1, "the code of an answer", 0, 5)
        if code == 2:
            return f"value:{self.value().hex()}"
        if code == 3:
            return f"number:{int.from_bytes(self.take(16), 'big', signed=True)}"
        if code == 4:
            return self.values()
        if code == 5:
            return ("no", "yes")[self.number(1, "an answer of yes or no", 0, 1)]
        return ("done", "none")[code]


def request_in(tag, fields):
    for word, known in PLAIN.items():
        if known == tag:
            return word
    if tag == PERFORM:
        return fields.operation()
    if tag == ATTACH:
        return f"attach {fields.token()}"
    raise Fault(f"no request has the tag {tag}")


def refused(fields):
    number = fields.number(1, "the number of a refusal", 1, 11)
    return f"refused {number}" + (f" ({REASONS[number]})" if number in REASONS else "")


REPLIES = {
    129: lambda fields: f"started {fields.transaction()}",
    130: lambda fields: f"answered {fields.answer()}",
    131: lambda fields: f"committed {fields.number(8, 'a count', 0, LARGEST_COUNT)}",
    132: lambda fields: f"aborted {fields.transaction()} {fields.item()}",
    133: lambda fields: "dropped",
    134: lambda fields: "passed",
    135: lambda fields: f"token {fields.token()}",
    136: lambda fields: "attached",
    137: refused,
}


def reply_in(tag, fields):
    """A reply behind the count of the session's frames up to the one that it answers."""
    if tag not in REPLIES:
        raise Fault(f"no reply has the tag {tag}")
    count = fields.number(8, "the count of frames", 0, LARGEST_COUNT)
    return f"{count} {REPLIES[tag](fields)}"


def words_in(frame, read):
    """The words of one frame."""
    fields = Fields(frame)
    fields.take(4)
    version = fields.number(1, "the version", 0, 255)
    if version != VERSION:
        raise Fault(f"the version is {VERSION}, not {version}")
    words = read(fields.number(1, "the tag", 0, 255), fields)
    if fields.left():
        raise Fault(f"{fields.left()} bytes stand behind the last field")
    return words


def frames_in(stream, read):
    """The words of each frame of a stream, in order."""
    at, place = 0, 1
    while at < len(stream):
        try:
            length = 4 + int.from_bytes(stream[at : at + 4], "big")
            if len(stream) - at >= 4 and not 6 <= length <= LONGEST_FRAME:
                raise Fault(f"a frame has 6 to {LONGEST_FRAME} bytes, not {length}")
            if len(stream) - at < max(4, length):
                raise Fault(f"the frame is cut off, {len(stream) - at} bytes of it are here")
            yield words_in(stream[at : at + length], read)
        except Fault as fault:
            raise Fault(f"frame {place}, from byte {at} on: {fault}") from None
        at, place = at + length, place + 1


# ---- the command


def kinds_of(text):
    """The kind of each space that `--kinds` tells."""
    kinds = {}
    for pair in filter(None, text.split(",")):
        space, _, kind = pair.partition("=")
        if kind not in KINDS:
            raise Fault(f"--kinds is SPACE=KIND,.. with kinds {', '.join(KINDS)}, not {pair[:40]!r}")
        kinds[number_of(space, "a space of --kinds", 1, 255)] = kind
    return kinds


def from_input():
    text = sys.stdin.read(LONGEST_INPUT + 1)
    if len(text) > LONGEST_INPUT:
        raise Fault(f"standard input has more than {LONGEST_INPUT} characters")
    return text


def print_frames(text, read):
    hexed = "".join((from_input() if text == "-" else text).split())
    for words in frames_in(bytes_of(hexed, "a stream", 1, LONGEST_INPUT // 2), read):
        print(words)


def print_hex(requests, kinds):
    if requests == ["-"]:
        requests = [line for line in from_input().splitlines() if line.strip()]
    print(stream_of(requests, kinds).hex())


# ---- the test of itself

# each request, with its bytes worked by hand; the second spelling, where there is one, is read back as the first
REQUESTS = (
    ("begin", "00000002 01 01"),
    ("commit", "00000002 01 03"),
    ("strong", "00000002 01 04"),
    ("abandon", "00000002 01 05"),
    ("barrier", "00000002 01 06"),
    ("token", "00000002 01 07"),
    ("attach 1.1.1 1 0,65", "00000024 01 08 01 01 0000000000000001 0000000000000001 0000000000000000 0000000000000041"),
    (
        "attach 3.16.2 0 0,1,0,4611686018427387904",
        "00000034 01 08 03 10 0000000000000002 0000000000000000"
        " 0000000000000000 0000000000000001 0000000000000000 4000000000000000",
    ),
    ("register.read 1:61", "00000006 01 02 01 01 61 01"),
    ("register.write 1:61 78", "00000009 01 02 01 01 61 02 0001 78"),
    ("register.write 255:6162 -", "00000009 01 02 ff 02 6162 02 0000"),
    ("counter.read 1:61", "00000006 01 02 01 01 61 03"),
    ("counter.add 1:61 100", "0000000e 01 02 01 01 61 04 0000000000000064"),
    ("counter.add 1:61 -60", "0000000e 01 02 01 01 61 04 ffffffffffffffc4"),
    ("counter.add 1:61 -9223372036854775808", "0000000e 01 02 01 01 61 04 8000000000000000"),
    ("set.members 2:63", "00000006 01 02 02 01 63 05", "members 2:63"),
    ("set.contains 2:63 0078", "0000000a 01 02 02 01 63 06 0002 0078", "contains 2:63 0078"),
    ("set.add 2:63 78", "00000009 01 02 02 01 63 07 0001 78", "set.add  2:63  78"),
    ("set.remove 2:63 ff", "00000009 01 02 02 01 63 08 0001 ff", "remove 2:63 FF"),
    ("flag.read 4:61", "00000006 01 02 04 01 61 09"),
    ("flag.enable 4:61", "00000006 01 02 04 01 61 0a", "enable 4:61"),
    ("flag.disable 4:61", "00000006 01 02 04 01 61 0b", "disable 4:61"),
    ("multi.read 5:61", "00000006 01 02 05 01 61 0c"),
    ("multi.write 5:61 78", "00000009 01 02 05 01 61 0d 0001 78"),
)
REPLY_ROWS = (
    ("1 started 1.1.2", "00000014 01 81 0000000000000001 01 01 0000000000000002"),
    ("2 answered done", "0000000b 01 82 0000000000000002 00"),
    ("2 answered none", "0000000b 01 82 0000000000000002 01"),
    ("2 answered value:78", "0000000e 01 82 0000000000000002 02 0001 78"),
    ("2 answered number:-1", "0000001b 01 82 0000000000000002 03 ffffffffffffffffffffffffffffffff"),
    ("2 answered values:0:", "0000000f 01 82 0000000000000002 04 00000000"),
    ("2 answered values:2:61,7800", "00000016 01 82 0000000000000002 04 00000002 0001 61 0002 7800"),
    ("2 answered no", "0000000c 01 82 0000000000000002 05 00"),
    ("2 answered yes", "0000000c 01 82 0000000000000002 05 01"),
    ("3 committed 1", "00000012 01 83 0000000000000003 0000000000000001"),
    ("3 aborted 2.1.7 1:61", "00000017 01 84 0000000000000003 02 01 0000000000000007 01 01 61"),
    ("4 dropped", "0000000a 01 85 0000000000000004"),
    ("4 passed", "0000000a 01 86 0000000000000004"),
    (
        "4 token 1.1.3 2 0,65",
        "0000002c 01 87 0000000000000004 01 01 0000000000000003 0000000000000002 0000000000000000 0000000000000041",
    ),
    ("4 attached", "0000000a 01 88 0000000000000004"),
    ("0 refused 11 (the site has 4,096 open sessions)", "0000000b 01 89 0000000000000000 0b"),
)
# with the kinds 1=counter,2=set,3=register
SHORT = (
    ("read 1:61", "counter.read 1:61"),
    ("add 1:61 7", "counter.add 1:61 7"),
    ("add 2:61 07", "set.add 2:61 07"),
    ("write 3:61 07", "register.write 3:61 07"),
    ("read 3:61", "register.read 3:61"),
)
NO_REQUESTS = (
    "", "beg", "commit now", "read", "read 1:61", "write 1:61 00", "add 1:61 00", "members", "members 2:63 00",
    "members 2", "members 0:61", "members 256:61", "members 1:", "members 1:6", "members 1:6g",
    "members 1:" + 65 * "61", "contains 2:63", "contains 2:63 7", "contains 2:63 " + 1025 * "61", "counter.add 1:61",
    "counter.add 1:61 01", "counter.add 1:61 9223372036854775808", "counter.add 1:61 +1", "counter.add 1:61 -0",
    "attach", "attach 1.1 0 0,0", "attach 1.1.0 0 0,0", "attach 2.1.1 0 0,0", "attach 1.17.1 0 0,0",
    "attach 1.1.1 0 0,0,0", "attach 1.1.1 0 0,4611686018427387905", "set.read 1:61", "counter.write 1:61 00",
)  # fmt: skip
NO_FRAMES = (
    "000000", "00000002 01", "00000001 01", "0000fffd 01 01", "00000002 02 01", "00000002 01 09", "00000003 01 01 00",
    "00000006 01 02 00 01 61 01", "00000005 01 02 01 00 01", "00000006 01 02 01 01 61 00",
    "00000006 01 02 01 01 61 0e", "00000005 01 02 01 01 61", "00000008 01 02 01 01 61 02 0001",
    "0000000a 01 02 01 01 61 02 0001 78 00", "00000002 01 81",
)  # fmt: skip
NO_REPLIES = (
    "00000002 01 01", "0000000b 01 82 0000000000000002 06", "0000000c 01 82 0000000000000002 05 02",
    "0000000b 01 89 0000000000000002 00", "0000000b 01 89 0000000000000002 0c",
    "00000015 01 82 0000000000000002 04 00000002 0001 61 0001 61", "0000000b 01 85 0000000000000004 00",
)  # fmt: skip


def expect(found, wanted, words):
    if found != wanted:
        sys.exit(f"selftest: {words!r} gives {found!r}, not {wanted!r}")


def expect_fault(call, *arguments):
    try:
        found = call(*arguments)
    except Fault:
        return
    sys.exit(f"selftest: {arguments[0]!r} gives {found!r}, not a fault")


def selftest():
    """Compares each word with bytes worked by hand, either way, and sees that faulty words and bytes are refused."""
    expect({words.split()[0] for words, *_ in REQUESTS}, {*PLAIN, *OPERATIONS, "attach"}, "the words tested")
    for words, spaced, *others in REQUESTS:
        for spelling in (words, *others):
            expect(frame_of(spelling, {}).hex(), spaced.replace(" ", ""), spelling)
        expect(list(frames_in(bytes.fromhex(spaced), request_in)), [words], spaced)
    for words, spaced in REPLY_ROWS:
        expect(list(frames_in(bytes.fromhex(spaced), reply_in)), [words], spaced)
    kinds = kinds_of("1=counter,2=set,3=register")
    for short, whole in SHORT:
        expect(frame_of(short, kinds), frame_of(whole, {}), short)
    for words in NO_REQUESTS:
        expect_fault(frame_of, words, {})
    expect_fault(stream_of, ["set.add 2:63 " + 1024 * "61"] * 64, {})
    for rows, read in ((NO_FRAMES, request_in), (NO_REPLIES, reply_in)):
        for spaced in rows:
            expect_fault(lambda stream, way: list(frames_in(stream, way)), bytes.fromhex(spaced), read)
    everything = "".join(spaced for _, spaced, *_ in REQUESTS)
    words = [words for words, *_ in REQUESTS]
    expect(stream_of(words, {}).hex(), everything.replace(" ", ""), "all requests")
    expect(list(frames_in(bytes.fromhex(everything), request_in)), words, "all requests")
    rows = len(REQUESTS) + len(REPLY_ROWS) + len(SHORT)
    print(f"selftest: {rows} rows right, {len(NO_REQUESTS) + 1 + len(NO_FRAMES) + len(NO_REPLIES)} faults refused")


def options():
    parser = argparse.ArgumentParser(
        description=__doc__,
        formatter_class=argparse.RawDescriptionHelpFormatter,
        usage="frames.py [--kinds SPACE=KIND,..] REQUEST .. | --read HEX | --replies HEX | --selftest",
    )
    parser.add_argument("requests", nargs="*", metavar="REQUEST", help="a request in one argument; - alone: from standard input, one a line")
    parser.add_argument("--kinds", default="", metavar="SPACE=KIND,..", help="the kinds of spaces, for the short forms read, write and add")
    other = parser.add_mutually_exclusive_group()
    other.add_argument("--read", metavar="HEX", help="print the requests in HEX, one a line (-: from standard input)")
    other.add_argument("--replies", metavar="HEX", help="print the replies in HEX, one a line, each behind the count of the session's frames")
    other.add_argument("--selftest", action="store_true", help="compare every word with bytes worked by hand")
    chosen = parser.parse_args()
    wanted = [bool(chosen.requests), chosen.read is not None, chosen.replies is not None, chosen.selftest]
    if sum(wanted) != 1:
        parser.error("give requests, or --read, --replies or --selftest")
    return chosen


def main():
    chosen = options()
    try:
        if chosen.selftest:
            selftest()
        elif chosen.read is not None:
            print_frames(chosen.read, request_in)
        elif chosen.replies is not None:
            print_frames(chosen.replies, reply_in)
        else:
            print_hex(chosen.requests, kinds_of(chosen.kinds))
    except Fault as fault:
        sys.stdout.flush()
        sys.exit(f"frames.py: {fault}")


if __name__ == "__main__":
    main()
