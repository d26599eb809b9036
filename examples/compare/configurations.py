"""Random configurations, good ones and faulty ones."""
import json

import reference

GOOD_ALONE = (
    "",
    "",
    "sites = 1\n",
    "# hello\n\n",
    "partitions = 1\nsites = 1\n",
    "space = []\n",
    "[node]\n",
    "[node]\ntick = 1\nsuspect = 1000000000\n",
)
ANY_VALUE = (
    "1", "0", "-1", "2", "3", "1.0", "1.5", "true", "false", '"1"', '"register"', "[]", "[1]", "{}", "{ a = 1 }", "1979-05-27",
    "07:32:00", "1979-05-27T07:32:00Z", "inf", "nan", "0x1", "0o1", "0b1", "1_0", "+1", "16", "17", "255", "256", "1000000000",
    "1000000001", "9223372036854775807", "-9223372036854775808", "[[]]", '"""counter"""', "'''set'''", '["a:1"]', '["a:1", "b:2", "c:3"]',
)  # fmt: skip
STRANGE_KEYS = (
    "colour = 1", "site = 1", "Sites = 1", '"" = 1', "spaces = []", "sites.a = 1", "guarded = true", '"sites " = 1', "'a b' = 2",
)  # fmt: skip
STRANGE_SPACE_KEYS = ("colour = 1", 'guarded = [["take","take"]]', "escrow = true", "escrow = false", "numbers = 1", "Kind = 1")
STRANGE_CONFLICTS = ('["take", "take"]', '[["take", 1]]', '[[["read"], "read"]]', '"read"', "{}", "[{}]")
BAD_ADDRESSES = (
    "a:0", "a:65536", "a:01", "a:", ":1", "a", "a:1:2", "a b:1", "a:+1", "a:1 ", "é:1", "x" * 256 + ":1", "", ":",
    "a:99999999999999999999", " a:1", "a:1e3", "a:0x1",
)  # fmt: skip
NO_TOML = (
    "sites = = 3", "x", "= 1", "[", "[[space]", "sites = 1\nsites = 1", "a = 'x", 'a = "\\q"', "[node]\n[node]", "sites = 01",
    "\tsites == 1", "a = [1", "a = {b = 1", "1 2", "sites 1", "\x01", "a = nope", "a = 1 b = 2", 'a = "\x02"',
)  # fmt: skip


def good(chance):
    """A configuration that is taken, with the kind of each of its spaces."""
    if chance.one(0.12):
        return chance.choice(GOOD_ALONE).encode(), {1: "register"}
    top = []
    if chance.one(0.3):
        top.append("sites = 1")
    if chance.one(0.3):
        top.append("partitions = 1")
    spaces = [good_space(chance, number) for number in chance.sample([1, 2, 3, 4, 5, 6, 7, 255, 128, 99], chance.randint(1, 6))]
    node = good_node(chance) if chance.one(0.15) else []
    if chance.one(0.2):
        top.append("space = [" + ", ".join(inline_space(*space) for space in spaces) + "]")
        tables = []
    else:
        tables = [line for space in spaces for line in space_table(chance, *space)]
    lines = top + (tables + node if node and chance.one(0.5) else node + tables)
    end = "\r\n" if chance.one(0.15) else "\n"
    return "".join(line + end for line in lines).encode(), {number: kind for number, kind, _ in spaces}


def good_space(chance, number):
    kind = chance.choice(reference.KINDS)
    classes = reference.KIND_CLASSES[kind]
    pairs = None
    if chance.one(0.5):
        pairs = [[chance.choice(classes), chance.choice(classes)] for _ in range(chance.randint(0, 4))]
    return number, kind, pairs


def inline_space(number, kind, pairs):
    conflicts = "" if pairs is None else ", conflicts = " + json.dumps(pairs)
    return "{ number = %d, kind = %s%s }" % (number, json.dumps(kind), conflicts)


def space_table(chance, number, kind, pairs):
    lines = ["number = %d" % number, "kind = %s" % (json.dumps(kind) if chance.one(0.8) else "'%s'" % kind)]
    if pairs is not None:
        lines.append("conflicts = " + json.dumps(pairs))
    chance.shuffle(lines)
    more = [chance.choice(["", "# note", "   "])] if chance.one(0.2) else []
    return ["[[space]]"] + lines + more


def node_table(chance, share_of_numbers, addresses, number):
    """The table `node`, whose values these two functions draw."""
    lines = ["[node]"]
    for key in ("peers", "clients"):
        if chance.one(0.6):
            lines.append("%s = %s" % (key, addresses(chance)))
    for key in ("tick", "suspect"):
        if chance.one(share_of_numbers):
            lines.append("%s = %s" % (key, number(chance)))
    return lines


def good_node(chance):
    return node_table(chance, 0.6, good_addresses, lambda chance: chance.choice([1, 50, 10**9]))


def good_addresses(chance):
    return '["%s"]' % address(chance)


def address(chance):
    hosts = ["a", "127.0.0.1", "x" * 255, "host-1.example", "!@#$%", "[", "a/b", "~", "\\u0041"]
    return "%s:%d" % (chance.choice(hosts), chance.choice([1, 80, 65535, chance.randint(1, 65535)]))


def faulty(chance):
    """A configuration that looks good, with some faults put in."""
    top, tables, node = faulty_numbers(chance), [], []
    if chance.one(0.1):
        top.append(strange_table(chance))
    else:
        for _ in range(chance.choice([0, 1, 1, 2, 2, 3])):
            tables += faulty_space(chance)
        if chance.one(0.08):
            top.append("node = " + chance.choice([any_value(chance), "{ tick = 0 }", "{ colour = 1 }", "{ suspect = 5 }"]))
        elif chance.one(0.4):
            node = faulty_node(chance)
    chance.shuffle(top)
    lines = top + (tables + node if node and chance.one(0.5) else node + tables)
    if chance.one(0.1):
        place = chance.randint(0, len(lines))
        lines.insert(place, chance.choice(NO_TOML))
    text = "".join(line + "\n" for line in lines).encode()
    if chance.one(0.03):
        front = text[: chance.randint(0, len(text))]
        text = front + chance.choice([b"\xff", b"\xc3", b"\x80", b"\x00", b"\r", b"\xed\xa0\x80"]) + text[chance.randint(0, len(text)) :]
    return text


def any_value(chance):
    return chance.choice(ANY_VALUE)


def faulty_numbers(chance):
    lines = []
    if chance.one(0.5):
        few = chance.one(0.7)
        lines.append("sites = " + (chance.choice(["1", "1", "3", "5", "7", "2", "4", "9", "0", "-1"]) if few else any_value(chance)))
    if chance.one(0.5):
        few = chance.one(0.7)
        lines.append("partitions = " + (chance.choice(["1", "1", "2", "16", "17", "0", "-3"]) if few else any_value(chance)))
    if chance.one(0.15):
        lines.append(chance.choice(STRANGE_KEYS))
    return lines


def strange_table(chance):
    return chance.choice(
        [
            "space = " + any_value(chance),
            "node = " + any_value(chance),
            "space = [1]",
            'space = [{number = 1, kind = "set"}, 3]',
            "space = {}",
            "space = [3, {colour = 1}]",
            "node = []",
            "node = {}",
            "node = { tick = 0 }",
            'node = { peers = ["a:0"] }',
            'space = [{ number = 1, kind = "set", conflicts = [["add", "remove", "add"]] }]',
        ]
    )


def faulty_space(chance):
    kind = chance.choice(reference.KINDS)
    lines = []
    if chance.one(0.95):
        small = chance.one(0.9)
        lines.append("number = " + (str(chance.choice([1, 2, 3, 4, 255, 256, 0, -1])) if small else any_value(chance)))
    if chance.one(0.95):
        if chance.one(0.85):
            lines.append("kind = " + json.dumps(kind))
        else:
            lines.append("kind = " + chance.choice([any_value(chance), '"Register"', '"reg"', '""', '"escrow"', '"counter "']))
    if chance.one(0.5):
        lines.append("conflicts = " + faulty_conflicts(chance, kind))
    if chance.one(0.08):
        lines.append(chance.choice(STRANGE_SPACE_KEYS))
    chance.shuffle(lines)
    return ["[[space]]"] + lines


def faulty_conflicts(chance, kind):
    classes = reference.KIND_CLASSES[kind] if chance.one(0.8) else reference.CLASSES + ("", "Take", "all")
    lengths = [2, 2, 2, 2, 2, 2, 1, 3, 0]
    pairs = [[chance.choice(classes) for _ in range(chance.choice(lengths))] for _ in range(chance.randint(0, 3))]
    return json.dumps(pairs) if chance.one(0.85) else chance.choice([any_value(chance), *STRANGE_CONFLICTS])


def faulty_node(chance):
    lines = node_table(chance, 0.5, faulty_addresses, faulty_time)
    if chance.one(0.1):
        lines.append(chance.choice(["colour = 1", "peer = []", "tock = 1"]))
    return lines


def faulty_time(chance):
    known = chance.one(0.75)
    return chance.choice(["1", "50", "1000000000", "0", "1000000001", "-5"]) if known else any_value(chance)


def faulty_addresses(chance):
    addresses = []
    for _ in range(chance.choice([1, 1, 1, 3, 0, 2])):
        addresses.append(address(chance).replace("\\u0041", "A") if chance.one(0.75) else chance.choice(BAD_ADDRESSES))
    return json.dumps(addresses) if chance.one(0.9) else any_value(chance)
