"""Schedules at a bound: of answers, effects and writes, of operations and requests, of sessions and transactions, of frames."""
import json
from collections import Counter

import reference
from spelling import ABANDON, BEGIN, COMMIT, bytes_line, perform

FLUSH = "flush 1 1"
READ = {"register": 1, "counter": 3, "set": 5, "flag": 9, "multi": 12}


def at_a_bound(chance):
    """A configuration and the lines of a schedule."""
    item = (1, bytes([chance.choice(b"ab")]) * chance.choice([1, 1, 1, 64]))
    draw = chance.choice(
        [written_bytes] * 4
        + [session_count, operation_count, long_frames, repeated_version, many_writers]
        + [long_members] * 3
        + [many_writers] * 2
        + [many_tags, transaction_count, session_count]
        + [operation_count] * 3
        + [long_frames] * 2
        + [repeated_version] * 3
    )
    mixed = ["deliver %d" % chance.randint(1, 400) for _ in range(chance.choice([0, 0, 3, 30]))]
    return draw(chance, item, mixed)


def space_of(kind):
    return ("[[space]]\nnumber = 1\nkind = %s\n" % json.dumps(kind)).encode()


def long_values(count, last):
    """Different values of 1,024 bytes, and one of `last`."""
    return [number.to_bytes(2, "big") + b"z" * 1022 for number in range(count)] + ([b"y" * last] if last else [])


def written_bytes(chance, item, _):
    """The bytes that a transaction may write, by a register, a set or a multi-value register."""
    kind = chance.choice(["register", "set", "multi"])
    code = {"register": 2, "set": chance.choice([7, 8]), "multi": 13}[kind]
    read = perform(item, (READ[kind],))
    lines = ["open 1 1", bytes_line(1, BEGIN), FLUSH]
    for number in range(chance.choice([62, 63, 63, 64, 66])):
        lines += [bytes_line(1, perform(item, (code, b"q" * chance.choice([1024] * 30 + [1000])))), FLUSH]
        if chance.random() < 0.1:
            lines.append("deliver %d" % chance.randint(1, 2 * number + 2))
    for _ in range(chance.randint(1, 6)):
        length = chance.choice([0, 1, 5, 565, 567, 570, 574, 575, 576, 577, 580, 600])
        lines.append(bytes_line(1, perform(item, (code, b"q" * length))))
        lines.append(chance.choice([FLUSH, FLUSH, "deliver %d" % chance.randint(100, 150)]))
    if chance.random() < 0.5:
        lines += [bytes_line(1, read), FLUSH]
    return space_of(kind), lines + [bytes_line(1, COMMIT), FLUSH, bytes_line(1, BEGIN, read, COMMIT), FLUSH]


def long_members(chance, item, mixed):
    """Members near 65,000 bytes."""
    members = perform(item, (5,))
    lines = ["open 1 1", "open 1 1"]
    values = long_values(63, chance.choice([354, 355, 355, 356, 356, 0, 1024]))
    chance.shuffle(values)
    while values:
        count = chance.randint(1, 60)
        lines += [bytes_line(1, BEGIN, *[perform(item, (7, value)) for value in values[:count]], COMMIT), FLUSH]
        values = values[count:]
    add = perform(item, (7, chance.choice([b"", b"1", b"y" * 300])))
    remove = perform(item, (8, chance.choice([b"", b"1", b"y" * 355, b"\0\0" + b"z" * 1022])))
    lines += [bytes_line(2, BEGIN, members, add, members, remove, members, COMMIT), FLUSH] + mixed
    return space_of("set"), lines + [bytes_line(1, BEGIN, members, ABANDON), FLUSH]


def many_writers(chance, item, mixed):
    """Many writers of a multi-value register at once."""
    count = chance.choice([63, 64, 65])
    values = long_values(count - 1, chance.choice([354, 355, 356, 1024]))
    if count > 64:
        values[5] = values[6]
    lines = ["open 1 1"] * count
    lines += [bytes_line(session, BEGIN) for session in range(1, count + 1)]
    lines += [bytes_line(session, perform(item, (13, values[session - 1])), COMMIT) for session in range(1, count + 1)]
    if chance.random() < 0.5:
        lines.append(FLUSH)
    else:
        lines += ["deliver %d" % number for number in range(1, 4 * count)] + mixed + [FLUSH]
    read = perform(item, (12,))
    lines += [bytes_line(1, BEGIN, read, perform(item, (13, b"new")), read, COMMIT), FLUSH]
    return space_of("multi"), lines + [bytes_line(2, BEGIN, read, COMMIT), FLUSH]


def many_tags(chance, _, __):
    """A disable or remove that takes thousands of tags away."""
    kind, add, remove = chance.choice([("flag", (10,), (11,)), ("set", (7, b"e"), (8, b"e"))])
    lines = ["open 1 1", "open 1 1"]
    items = [(1, bytes([97 + number])) for number in range(chance.choice([1, 2, 6]))]
    total = chance.choice([5956, 5957, 5958, 5959, 6010])
    left = [total // len(items) + chance.choice([0, 0, 1])] * len(items)
    for item, adds in zip(items, left):
        while adds:
            count = min(adds, 62)
            adds -= count
            lines += [bytes_line(1, BEGIN, *[perform(item, add)] * count, COMMIT), FLUSH]
    lines.append(bytes_line(2, BEGIN))
    for item in items:
        lines += [bytes_line(2, perform(item, remove)), FLUSH]
    removes = [perform(item, remove) for item in items]
    lines += [bytes_line(2, *removes, perform(items[0], add), perform(items[0], remove), COMMIT), FLUSH]
    reads = [perform(item, (READ[kind],)) for item in items]
    return space_of(kind), lines + [bytes_line(1, BEGIN, *reads, COMMIT), FLUSH]


def transaction_count(chance, _, __):
    """Transactions near the most that one run has."""
    lines = ["open 1 1"] * chance.choice([1, 3])
    left = chance.choice([19_990, 20_000, 20_001, 20_001])
    while left > 0:
        count = min(left, chance.choice([2700, 2000, 999]))
        lines.append(bytes_line(1, *[BEGIN + chance.choice([COMMIT, ABANDON])] * count))
        left -= count
    last = ["sleep 1", "# x", "open 1 1", bytes_line(1, BEGIN), bytes_line(1, BEGIN, COMMIT), bytes_line(2, BEGIN, BEGIN, COMMIT)]
    return b"", lines + [chance.choice(last) for _ in range(2)]


def session_count(chance, _, __):
    """Sessions near the most that one run has."""
    count = chance.choice([511, 512, 513, 520])
    lines = ["open 1 1"] * count
    for _ in range(chance.randint(0, 30)):
        session = chance.randint(1, count)
        work = bytes_line(session, BEGIN, perform((1, b"a"), (2, b"x")), COMMIT)
        place = chance.randint(0, len(lines))
        lines.insert(place, chance.choice([bytes_line(session, BEGIN), work, "close 1 1 %d" % session, FLUSH]))
    return b"", lines


def operation_count(chance, _, __):
    """Transactions of about 64 operations, sessions with about 64 unanswered requests."""
    lines = ["open 1 1", "open 1 1"]
    for session in (1, 2):
        for _ in range(chance.randint(1, 3)):
            count = chance.choice([61, 62, 63, 64, 65, 66, 70, 130])
            frames = [BEGIN] + [perform((1, b"a"), chance.choice([(2, b"v"), (1,)])) for _ in range(count)] + [COMMIT]
            while frames:
                together = chance.choice([1, 5, 63, 64, 65, 66, 200])
                lines.append(bytes_line(session, *frames[:together]))
                frames = frames[together:]
                if chance.random() < 0.4:
                    lines.append(FLUSH)
                else:
                    lines += ["deliver %d" % chance.randint(1, 300) for _ in range(chance.randint(0, 9))]
    return b"", lines + [FLUSH]


def repeated_version(chance, item, _):
    """The answer to a refused operation comes again while the next one waits."""
    kind, write, read = chance.choice([("register", 2, 1), ("set", 7, 5), ("multi", 13, 12)])
    world = reference.World({1: kind}, Counter())
    lines = []

    def add(text):
        lines.append(text)
        world.perform(reference.read_line(text.encode()))

    for text in ("open 1 1", bytes_line(1, BEGIN), FLUSH):
        add(text)
    done = 0
    while done < 63:
        count = min(63 - done, chance.randint(1, 55))
        numbers = range(done, done + count)
        add(bytes_line(1, *[perform(item, (write, number.to_bytes(2, "big") + b"q" * 1022)) for number in numbers]))
        add(FLUSH)
        done += count
    for _ in range(chance.randint(2, 12)):
        length = chance.choice([0, 1, 300, 564, 565, 566, 567, 575, 576, 577, 1024])
        add(bytes_line(1, perform(item, chance.choice([(write, b"w" * length), (write, b"w" * length), (read,)]))))
        answers = [place + 1 for place, packet in enumerate(world.packets) if packet[0] == "VERSION"][-chance.randint(1, 6) :]
        for number in chance.sample(answers, min(len(answers), chance.randint(0, 4))):
            add("deliver %d" % number)
        if chance.one(0.8):
            add(FLUSH)
    add(bytes_line(1, COMMIT))
    add(FLUSH)
    return space_of(kind), lines


def long_frames(chance, _, __):
    """The longest frames and the longest lines."""
    lines = ["open 1 1", "open 1 1"]
    length = chance.choice([65531, 65532, 65533, 65534])
    frame = length.to_bytes(4, "big") + b"\1\2" + bytes(65540)
    lines.append(bytes_line(1, frame[: chance.choice([3, 4, 5])]))
    if chance.random() < 0.8:
        lines.append(bytes_line(1, frame[4 : 4 + chance.choice([10, 60000, 65531])]))
    lines.append(bytes_line(1, BEGIN, COMMIT))
    stream = b"".join([BEGIN, perform((1, b"a"), (2, b"v" * 1000)), COMMIT] * 64)
    longest = chance.choice([65535, 65536, 65537])
    return b"", lines + [bytes_line(2, stream[:65536]), FLUSH, bytes_line(2, stream[:longest]), FLUSH, bytes_line(2, BEGIN), FLUSH]
