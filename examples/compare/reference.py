#!/usr/bin/env python3
"""A plain implementation of `unistore replay` for one site with one partition and all kinds of items.

    python3 examples/compare/reference.py replay < crates/unistore/stdin

It is written from docs/PROTOCOL.md, sharing no code with the store, and keeps everything in plain lists. `run(words, text)` gives
what is written, the exit status, and counts of what was met on the way. Of runs of at most 150 transactions it also tests that
pasts are those by steps and that each answer is its operation's value over its past.

Of docs/PROTOCOL.md it leaves out: the refusal of an open at a site with 4,096 open sessions, since the limit of 512 sessions of a
run comes first; replies and packets as bytes, since a report shows neither; the rules of several partitions and sites and the
ballot log; an input or output that fails, and want of memory. What TOML is, it takes from Python's `tomllib`.
"""
import sys
import tomllib
from bisect import bisect_right
from collections import Counter

TEXT_LIMIT = 1 << 28
EVENTS, SESSIONS, TRANSACTIONS = 1_000_000, 512, 20_000
U64 = (1 << 64) - 1
KINDS = ("register", "counter", "set", "flag", "multi")
CLASSES = ("read", "write", "give", "take", "add", "remove", "enable", "disable")
KIND_CLASSES = {
    "register": ("read", "write"),
    "counter": ("read", "give", "take"),
    "set": ("read", "add", "remove"),
    "flag": ("read", "enable", "disable"),
    "multi": ("read", "write"),
}
OP_KIND = {1: "register", 2: "register", 3: "counter", 4: "counter", 5: "set", 6: "set",
           7: "set", 8: "set", 9: "flag", 10: "flag", 11: "flag", 12: "multi", 13: "multi"}
OP_NAME = {1: "reg read", 2: "reg write", 3: "ctr read", 4: "ctr add", 5: "set members",
           6: "set contains", 7: "set add", 8: "set remove", 9: "flag read", 10: "flag enable",
           11: "flag disable", 12: "multi read", 13: "multi write"}


class Refused(Exception):
    """status 3: text after 'refused '"""
    def __init__(self, text):
        self.text = text


class Limit(Exception):
    def __init__(self, kind):
        self.kind = kind


# ---------------------------------------------------------------- text

def split_input(data):
    """Lines (one CR before an LF dropped), and the byte offset of each."""
    lines, starts, at = [], [], 0
    n = len(data)
    while at < n:
        e = data.find(b"\n", at)
        if e < 0:
            lines.append(data[at:])
            starts.append(at)
            break
        text = data[at:e]
        if text.endswith(b"\r"):
            text = text[:-1]
        lines.append(text)
        starts.append(at)
        at = e + 1
    return lines, starts


# ---------------------------------------------------------------- configuration

def is_int(v):
    return isinstance(v, int) and not isinstance(v, bool)


def good_address(t):
    if not isinstance(t, str):
        return False
    if t.count(":") != 1:
        return False
    host, port = t.split(":")
    if not 1 <= len(host) <= 255:
        return False
    if any(ord(c) > 127 or c == " " for c in host):
        return False
    if not port or any(c not in "0123456789" for c in port) or port[0] == "0":
        return False
    return len(port) <= 5 and 1 <= int(port) <= 65535


def read_config(text):
    def no(key, fault):
        raise Refused("config %s %s" % (key, fault))
    try:
        t = tomllib.loads(text.decode("utf-8"))
    except (UnicodeDecodeError, tomllib.TOMLDecodeError, ValueError, RecursionError):
        no("top", "NotToml")
    if any(k not in ("sites", "partitions", "space", "node") for k in t):
        no("top", "WrongKey")
    sites = t.get("sites", 1)
    if not is_int(sites):
        no("sites", "WrongValue")
    if sites not in (1, 3, 5, 7):
        no("sites", "OutOfLimit")
    parts = t.get("partitions", 1)
    if not is_int(parts):
        no("partitions", "WrongValue")
    if not 1 <= parts <= 16:
        no("partitions", "OutOfLimit")
    catalog = {}
    spaces = t.get("space", [])
    if not isinstance(spaces, list):
        no("space", "WrongValue")
    for sp in spaces:
        if not isinstance(sp, dict):
            no("space", "WrongValue")
        if any(k not in ("number", "kind", "conflicts") for k in sp):
            no("space", "WrongKey")
        if "number" not in sp or not is_int(sp["number"]):
            no("space.number", "WrongValue")
        num = sp["number"]
        if not 1 <= num <= 255:
            no("space.number", "OutOfLimit")
        if num in catalog:
            no("space.number", "WrongValue")
        kind = sp.get("kind")
        if not isinstance(kind, str) or kind not in KINDS:
            no("space.kind", "WrongValue")
        conf = sp.get("conflicts", [])
        if not isinstance(conf, list):
            no("space.conflicts", "WrongValue")
        for pair in conf:
            if not isinstance(pair, list) or len(pair) != 2:
                no("space.conflicts", "WrongValue")
            for c in pair:
                if not isinstance(c, str) or c not in KIND_CLASSES[kind]:
                    no("space.conflicts", "WrongValue")
        catalog[num] = kind
    if not spaces:
        catalog = {1: "register"}
    if "node" in t:
        node = t["node"]
        if not isinstance(node, dict):
            no("node", "WrongValue")
        if any(k not in ("peers", "clients", "tick", "suspect") for k in node):
            no("node", "WrongKey")
        for k in ("peers", "clients"):
            if k in node:
                v = node[k]
                if not isinstance(v, list) or len(v) != sites or not all(map(good_address, v)):
                    no("node." + k, "WrongValue")
        for k in ("tick", "suspect"):
            if k in node:
                v = node[k]
                if not is_int(v):
                    no("node." + k, "WrongValue")
                if not 1 <= v <= 1_000_000_000:
                    no("node." + k, "OutOfLimit")
    if sites != 1 or parts != 1:
        raise Refused("line 0 NotBuilt")
    return catalog


# ---------------------------------------------------------------- schedule lines

LINE_WORDS = {b"open": 2, b"bytes": 4, b"close": 3, b"tick": 3, b"deliver": 1, b"flush": 2,
              b"lead": 1, b"forward": 2, b"crash": 1, b"settle": 2}
DIGITS = b"0123456789"
HEXD = b"0123456789abcdefABCDEF"


def number(w):
    if not w or any(c not in DIGITS for c in w):
        return None
    if len(w) > 1 and w[0:1] == b"0":
        return None
    if len(w) > 20:
        return None
    n = int(w)
    return n if n <= U64 else None


def read_line(text, d=1, n=1):
    """None for a blank or comment line, else a tuple; raises Refused(reason)."""
    if text == b"" or text.startswith(b"#"):
        return None
    w = text.split(b" ")
    if w[0] not in LINE_WORDS or len(w) - 1 != LINE_WORDS[w[0]]:
        raise Refused("BadWord")
    name = w[0].decode()
    words = w[1:]
    hexword = None
    if name == "bytes":
        hexword = words.pop()
    nums = [number(x) for x in words]
    if any(x is None for x in nums):
        raise Refused("BadNumber")
    piece = None
    if hexword is not None:
        if len(hexword) % 2 or any(c not in HEXD for c in hexword):
            raise Refused("BadHex")
        piece = bytes.fromhex(hexword.decode())

    def site(x): return 1 <= x <= d
    def part(x): return 1 <= x <= n
    if name == "open":
        ok = site(nums[0]) and part(nums[1])
    elif name == "bytes":
        ok = site(nums[0]) and part(nums[1]) and nums[2] >= 1 and 1 <= len(piece) <= 65536
    elif name == "close":
        ok = site(nums[0]) and part(nums[1]) and nums[2] >= 1
    elif name == "tick":
        ok = site(nums[0]) and 0 <= nums[1] <= n and nums[2] <= 1 << 59
    elif name == "deliver":
        ok = nums[0] >= 1
    elif name == "flush":
        ok = site(nums[0]) and site(nums[1])
    elif name in ("lead", "crash"):
        ok = site(nums[0])
    elif name == "forward":
        ok = site(nums[0]) and site(nums[1]) and nums[0] != nums[1]
    else:  # settle
        ok = nums[0] <= 1 << 59 and nums[1] <= 100_000
    if not ok:
        raise Refused("OutOfRange")
    if name in ("tick", "crash", "forward", "lead", "settle"):
        raise Refused("NotBuilt")
    if name == "bytes":
        return (name, *nums, piece)
    return (name, *nums)


# ---------------------------------------------------------------- client frames

class Bad(Exception):
    pass


class Cursor:
    def __init__(self, b):
        self.b, self.at = b, 0

    def take(self, n):
        if self.at + n > len(self.b):
            raise Bad
        r = self.b[self.at:self.at + n]
        self.at += n
        return r

    def num(self, n):
        return int.from_bytes(self.take(n), "big")

    def value(self):
        n = self.num(2)
        if n > 1024:
            raise Bad
        return self.take(n)


def decode_request(frame):
    """frame: the whole frame with its length field. Only what this stage builds."""
    c = Cursor(frame)
    c.num(4)
    if c.num(1) != 1:
        raise Bad
    tag = c.num(1)
    if tag == 1:
        r = ("begin",)
    elif tag == 2:
        space = c.num(1)
        if space == 0:
            raise Bad
        ln = c.num(1)
        if not 1 <= ln <= 64:
            raise Bad
        item = (space, c.take(ln))
        code = c.num(1)
        if code in (1, 3, 5, 9, 10, 11, 12):
            op = (code,)
        elif code in (2, 6, 7, 8, 13):
            op = (code, c.value())
        elif code == 4:
            op = (code, int.from_bytes(c.take(8), "big", signed=True))
        else:
            raise Bad
        r = ("perform", item, op)
    elif tag == 3:
        r = ("commit",)
    elif tag == 5:
        r = ("abandon",)
    else:           # 4, 6, 7, 8 aren't built: as a frame that is no request
        raise Bad
    if c.at != len(frame):
        raise Bad
    return r


# ---------------------------------------------------------------- kinds

def answer_and_effect(kind, updates, op):
    """updates: list of (stamp, tag, effect), any order.  Folded by stamps; answer, effect or None."""
    code = op[0]
    if code in (2, 4, 7, 10):          # these effects read nothing of the state
        return ("done",), {2: ("regwrite", *op[1:]), 4: ("ctradd", *op[1:]), 7: ("setadd", *op[1:]), 10: ("enable",)}[code]
    ups = sorted(updates, key=lambda u: u[0])
    if kind == "register":
        last = None
        for _, _, e in ups:
            last = e[1]
        if code == 1:
            return (("none",) if last is None else ("value", last)), None
        return ("done",), ("regwrite", op[1])
    if kind == "counter":
        if code == 3:
            return ("number", sum(e[1] for _, _, e in ups)), None
        return ("done",), ("ctradd", op[1])
    dead = set()
    for _, _, e in ups:
        if e[0] == "setremove":
            dead.update((e[1], t) for t in e[2])
        elif e[0] == "disable":
            dead.update(e[1])
        elif e[0] == "multiwrite":
            dead.update(e[2])
    if kind == "set":
        live = {}
        for _, tag, e in ups:
            if e[0] == "setadd" and (e[1], tag) not in dead:
                live.setdefault(e[1], set()).add(tag)
        if code == 5:
            return ("values", sorted(live)), None
        if code == 6:
            return ("bit", op[1] in live), None
        if code == 7:
            return ("done",), ("setadd", op[1])
        return ("done",), ("setremove", op[1], tuple(sorted(live.get(op[1], ()))))
    if kind == "flag":
        live = sorted({tag for _, tag, e in ups if e[0] == "enable" and tag not in dead})
        if code == 9:
            return ("bit", bool(live)), None
        if code == 10:
            return ("done",), ("enable",)
        return ("done",), ("disable", tuple(live))
    # multi
    live = [(tag, e[1]) for _, tag, e in ups if tag not in dead]
    if code == 12:
        return ("values", sorted({v for _, v in live})), None
    return ("done",), ("multiwrite", op[1], tuple(sorted({t for t, _ in live})))


def answer_len(a):
    if a[0] in ("done", "none"):
        return 1
    if a[0] == "value":
        return 1 + 2 + len(a[1])
    if a[0] == "number":
        return 17
    if a[0] == "values":
        return 1 + 4 + sum(2 + len(v) for v in a[1])
    return 2


def effect_len(e):
    k = e[0]
    if k in ("regwrite", "setadd"):
        return 1 + 2 + len(e[1])
    if k == "ctradd":
        return 9
    if k in ("setremove", "multiwrite"):
        return 1 + 2 + len(e[1]) + 2 + 11 * len(e[2])
    if k == "enable":
        return 1
    return 1 + 2 + 11 * len(e[1])


def write_len(w):
    item, place, e = w
    return 2 + len(item[1]) + 1 + effect_len(e)


# ---------------------------------------------------------------- machine

def at_most(v, w):
    return v[0] <= w[0] and v[1] <= w[1]


def join(v, w):
    return (max(v[0], w[0]), max(v[1], w[1]))


class Tx:
    def __init__(self, tid, session, snapshot, order):
        self.tid, self.session, self.snapshot, self.order = tid, session, snapshot, order
        self.ops = []          # (item, op, answer)
        self.writes = []       # (item, place, effect)
        self.end = "open"      # open, left, committed
        self.vector = None
        self.number = None
        self.decided = None


class Session:
    def __init__(self, number):
        self.number = number
        self.past = (0, 0)
        self.asked = 0
        self.stream = b""
        self.count = 0
        self.tx = None
        self.queue = []        # (at, request)
        self.wait = None       # None, ("version", place), ("prepared",)
        self.open = True
        self.prepares_out = False


class World:
    def __init__(self, catalog, counts=None):
        self.catalog = catalog
        self.c = counts if counts is not None else Counter()
        # partition
        self.clock = 0
        self.log = {}          # item -> list of (vector, tid, place, effect)
        self.prepared = []     # (tid, ts, snapshot, writes)
        self.done = set()
        self.parked = []
        # coordinator
        self.seq = 0
        self.sessions = []     # by number
        # world
        self.packets = []
        self.delivered = []
        self.low = 0
        self.begun = []
        self.decisions = 0
        self.refusals = []
        self.events = self.opened = 0

    # -- numbers
    def known(self):
        if self.prepared:
            return (0, min(p[1] for p in self.prepared) - 1)
        return (0, self.clock)

    def send(self, *p):
        self.packets.append(p)
        self.delivered.append(False)

    # -- events
    def event(self, f, *args):
        self.events += 1
        if self.events > EVENTS:
            raise Limit("events")
        f(*args)
        if self.opened > SESSIONS:
            raise Limit("sessions")
        if len(self.begun) > TRANSACTIONS:
            raise Limit("transactions")
        self.wake()
        if len(self.begun) > TRANSACTIONS:
            raise Limit("transactions")

    def perform(self, line):
        name = line[0]
        self.c["line " + name] += 1
        if name == "open":
            self.event(self.open_session)
        elif name == "bytes":
            self.event(self.bytes, line[3], line[4])
        elif name == "close":
            self.event(self.close_event, line[3])
        elif name == "deliver":
            k = line[1]
            if k > len(self.packets):
                self.c["deliver unsent"] += 1
                return
            if self.delivered[k - 1]:
                self.c["deliver repeat"] += 1
            self.delivered[k - 1] = True
            self.event(self.take, self.packets[k - 1])
        elif name == "flush":
            while True:
                while self.low < len(self.packets) and self.delivered[self.low]:
                    self.low += 1
                if self.low == len(self.packets):
                    return
                self.delivered[self.low] = True
                self.event(self.take, self.packets[self.low])

    def wake(self):
        known = self.known()
        still = []
        for g in self.parked:
            if at_most(g[3], known):
                self.answer_get(g)
            else:
                if not g[7]:
                    g[7] = True
                    self.c["GET that had to wait"] += 1
                still.append(g)
        self.parked = still
        for s in self.sessions:
            if s.queue:
                self.run(s)

    def open_session(self):
        self.sessions.append(Session(len(self.sessions) + 1))
        self.opened += 1

    def find(self, number):
        if 1 <= number <= len(self.sessions):
            s = self.sessions[number - 1]
            if s.open:
                return s
        return None

    def refuse(self, s, at, n):
        self.refusals.append((s.number, at, n))
        self.c["refusal %d" % n] += 1

    def bytes(self, number, piece):
        s = self.find(number)
        if s is None:
            self.c["bytes for no open session"] += 1
            return
        buf = s.stream + piece
        at = 0
        while True:
            if len(buf) - at < 4:
                break
            ln = int.from_bytes(buf[at:at + 4], "big")
            bad = ln < 2 or 4 + ln > 65536
            if not bad and len(buf) - at < 4 + ln:
                break
            s.asked += 1
            req = None
            if bad:
                self.c["bad length"] += 1
            else:
                frame = buf[at:at + 4 + ln]
                at += 4 + ln
                try:
                    req = decode_request(frame)
                except Bad:
                    self.c["frame that is no request, tag %d" % frame[5] if frame[4] == 1 and frame[5] in (4, 6, 7, 8)
                           else "frame that is no request, other"] += 1
            if req is None:
                self.refuse(s, s.asked, 1)
                self.close(s)
                return
            if len(s.queue) >= 64:
                self.refuse(s, s.asked, 9)
                continue
            s.queue.append((s.asked, req))
            self.run(s)
        s.stream = buf[at:]

    def close_event(self, number):
        s = self.find(number)
        if s is None:
            self.c["close of no open session"] += 1
            return
        self.c["close of an open session"] += 1
        self.close(s)

    def close(self, s):
        s.open = False
        if s.queue:
            self.c["close with requests"] += 1
        s.queue = []
        s.wait = None
        if s.tx is not None:
            if s.prepares_out:
                self.c["close with PREPAREs out"] += 1
            else:
                s.tx.end = "left"
                s.tx = None
                self.c["left by close"] += 1

    def run(self, s):
        while s.open and s.queue and s.wait is None:
            at, req = s.queue[0]
            getattr(self, "do_" + req[0])(s, at, *req[1:])

    def answered(self, s):
        s.queue.pop(0)
        s.wait = None

    def do_begin(self, s, at):
        if s.tx is not None:
            self.refuse(s, at, 3)
            return self.answered(s)
        self.seq += 1
        snap = join(s.past, self.known())
        s.tx = Tx((1, 1, self.seq), s.number, snap, len(self.begun))
        self.begun.append(s.tx)
        self.c["begun"] += 1
        self.answered(s)
        # a limit within an event is told after it; no need to run far past it
        if len(self.begun) > TRANSACTIONS:
            raise Limit("transactions")

    def do_perform(self, s, at, item, op):
        t = s.tx
        n = 0
        if t is None:
            n = 2
        elif item[0] not in self.catalog:
            n = 4
        elif self.catalog[item[0]] != OP_KIND[op[0]]:
            n = 5
        elif len(t.ops) >= 64:
            n = 6
        if n:
            self.refuse(s, at, n)
            return self.answered(s)
        place = len(t.ops) + 1
        own = [(p, e) for i, p, e in t.writes if i == item]
        s.wait = ("version", t.tid, place, at)
        self.send("GET", t.tid, place, t.snapshot, at, item, op, own)

    def do_commit(self, s, at):
        t = s.tx
        if t is None:
            self.refuse(s, at, 2)
            return self.answered(s)
        if not t.writes:
            self.c["commit without writes"] += 1
            self.commit(s, t.snapshot)
            return self.answered(s)
        s.prepares_out = True
        s.wait = ("prepared", t.tid)
        self.send("PREPARE", t.tid, t.snapshot, list(t.writes))

    def commit(self, s, vector):
        t = s.tx
        s.tx = None
        s.prepares_out = False
        s.past = join(s.past, vector)
        s.count += 1
        t.end, t.vector, t.number = "committed", vector, s.count
        self.decisions += 1
        t.decided = self.decisions
        self.c["committed"] += 1

    def do_abandon(self, s, at):
        if s.tx is None:
            self.refuse(s, at, 2)
            return self.answered(s)
        s.tx.end = "left"
        s.tx = None
        self.c["abandoned"] += 1
        self.answered(s)

    # -- packets
    def take(self, p):
        getattr(self, "on_" + p[0])(*p[1:])

    def on_GET(self, tid, place, snapshot, at, item, op, own):
        self.clock = max(self.clock, snapshot[1])
        self.parked.append(["GET", tid, place, snapshot, at, (item, op), own, False])

    def answer_get(self, g):
        _, tid, place, snapshot, at, (item, op), own, _ = g
        kind = self.catalog[item[0]]
        reads_state = op[0] not in (2, 4, 7, 10)
        ups = [((v[0] + v[1], t, pl), (t, pl), e) for v, t, pl, e in (self.log.get(item, ()) if reads_state else ())
               if at_most(v, snapshot)]
        top = (1 << 128) - 1
        ups += [((top, tid, pl), (tid, pl), e) for pl, e in own]
        answer, effect = answer_and_effect(kind, ups, op)
        if answer_len(answer) > 65000:
            form = 8
        elif effect is not None and effect_len(effect) > 65536:
            form = 7
        else:
            form = 0
        self.c["form %d" % form] += 1
        self.send("VERSION", tid, place, at, form, item, op, answer, effect)

    def on_VERSION(self, tid, place, at, form, item, op, answer, effect):
        for s in self.sessions:
            if s.open and s.wait == ("version", tid, place, at):
                break
        else:
            self.c["dropped VERSION"] += 1
            return
        t = s.tx
        if form == 8:
            self.refuse(s, at, 8)
            return self.answered(s)
        w = None if effect is None else (item, place, effect)
        if form == 7 or (w and sum(map(write_len, t.writes)) + write_len(w) > 65536):
            self.refuse(s, at, 7)
            return self.answered(s)
        t.ops.append((item, op, answer))
        if w:
            t.writes.append(w)
        self.c["op %02d %s" % (op[0], OP_NAME[op[0]])] += 1
        if answer[0] == "values" and len(answer[1]) > 1:
            self.c["answer of several values, op %d" % op[0]] += 1
        if effect and effect[0] in ("setremove", "disable", "multiwrite") and len(effect[-1]) > 1:
            self.c["effect with several tags, op %d" % op[0]] += 1
        self.answered(s)

    def on_PREPARE(self, tid, snapshot, writes):
        if tid in self.done:
            self.c["dropped PREPARE"] += 1
            return
        low = max(self.clock, snapshot[1]) + 1
        ts = low + (1 - low) % 64
        if ts > 1 << 62:
            return
        self.clock = ts
        self.prepared.append((tid, ts, snapshot, writes))
        self.done.add(tid)
        self.send("PREPARED", tid, ts)

    def on_PREPARED(self, tid, ts):
        for s in self.sessions:
            if s.tx is not None and s.prepares_out and s.tx.tid == tid:
                break
        else:
            self.c["dropped PREPARED"] += 1
            return
        vector = (s.tx.snapshot[0], ts)
        if not s.open:
            self.c["committed after close"] += 1
        self.commit(s, vector)
        self.send("COMMIT", tid, vector)
        if s.open:
            self.answered(s)

    def on_COMMIT(self, tid, vector):
        for k, (t, ts, _, writes) in enumerate(self.prepared):
            if t == tid and vector[1] >= ts:
                break
        else:
            self.c["dropped COMMIT"] += 1
            return
        del self.prepared[k]
        self.clock = max(self.clock, vector[1])
        for item, place, e in writes:
            self.log.setdefault(item, []).append((vector, tid, place, e))


# ---------------------------------------------------------------- report

def op_text(op):
    c = op[0]
    if c in (1, 3, 9, 12):
        return "read"
    if c in (2, 13):
        return "write:" + op[1].hex()
    if c == 4:
        return "add:%d" % op[1]
    if c == 5:
        return "members"
    return {6: "contains:", 7: "add:", 8: "remove:"}[c] + op[1].hex() if c in (6, 7, 8) \
        else {10: "enable", 11: "disable"}[c]


def answer_text(a):
    k = a[0]
    if k in ("done", "none"):
        return k
    if k == "value":
        return "value:" + a[1].hex()
    if k == "number":
        return "number:%d" % a[1]
    if k == "values":
        return "values:%d:%s" % (len(a[1]), ",".join(v.hex() for v in a[1]))
    return "yes" if a[1] else "no"


def execution(w):
    """entries (committed in arbitration order) with pasts, loose with pasts."""
    com = [t for t in w.begun if t.end == "committed"]
    stamped = lambda t: bool(t.writes)
    com.sort(key=lambda t: (t.vector[0] + t.vector[1], 0, t.tid, 0) if stamped(t)
             else (t.vector[0] + t.vector[1], 1, (0, 0, 0), t.decided))
    past = {}
    by_session = {}
    for t in com:
        by_session.setdefault(t.session, []).append(t)
    for l in by_session.values():
        l.sort(key=lambda t: t.number)
    tids = {s: [t.tid for t in l] for s, l in by_session.items()}
    assert all(l == sorted(l) for l in tids.values())
    st = sorted((t for t in com if stamped(t)), key=lambda t: t.vector)
    keys = [t.vector[1] for t in st]
    prefix = [{}]           # closure of the first k stamped, filled as they come

    def joined(a, b):
        if len(a) < len(b):
            a, b = b, a
        r = dict(a)
        for k, n in b.items():
            if n > r.get(k, 0):
                r[k] = n
        return r

    def past_of(t):
        p = prefix[bisect_right(keys, t.snapshot[1])]
        if t.end == "committed":
            prev = by_session[t.session][t.number - 2] if t.number > 1 else None
        else:
            l = by_session.get(t.session, [])
            k = bisect_right(tids.get(t.session, []), t.tid)     # none is equal
            prev = l[k - 1] if k else None
        if prev is not None:
            p = dict(joined(p, past[prev.tid]))
            p[prev.session] = max(p.get(prev.session, 0), prev.number)
        return p
    for t in com:
        past[t.tid] = past_of(t)
        if stamped(t):
            q = joined(prefix[-1], past[t.tid])
            q[t.session] = max(q.get(t.session, 0), t.number)
            prefix.append(q)
    loose = [t for t in w.begun if t.end != "committed"]
    for t in loose:
        past[t.tid] = past_of(t)
    if len(w.begun) <= 150:
        naive(com, loose, past, stamped)
    return com, loose, past


def naive(com, loose, past, stamped):
    """The definition word for word: everything that reaches T by steps."""
    direct = {}
    for t in com + loose:
        direct[t.tid] = [x for x in com if x is not t and
                         ((x.session == t.session and
                           (x.number < t.number if t.end == "committed" else x.tid < t.tid))
                          or (stamped(x) and at_most(x.vector, t.snapshot)))]
    for t in com + loose:
        seen, todo = {}, list(direct[t.tid])
        while todo:
            x = todo.pop()
            if x.tid not in seen:
                seen[x.tid] = x
                todo += direct[x.tid]
        cnt = Counter(x.session for x in seen.values())
        assert cnt == Counter(past[t.tid]), (t.tid, cnt, past[t.tid])
        valued(t, [x for x in com if x.tid in seen], {x.tid: {y.tid for y in com if past[x.tid].get(y.session, 0) >= y.number} for x in seen.values()})


def valued(t, before, befores):
    """Each answer is its operation's value, by the relation "after" alone (no stamps, no tags)."""
    own = {}
    vis = {}
    for x in before:
        for k, (item, op, _) in enumerate(x.ops):
            if op[0] in (2, 4, 7, 8, 10, 11, 13):
                vis.setdefault(item, []).append((x.tid, k, op))

    def after(b, a):
        """b is after a"""
        if b[0] == a[0]:
            return b[1] > a[1]
        if b[0] == t.tid:
            return True
        if a[0] == t.tid:
            return False
        return a[0] in befores[b[0]]
    for k, (item, op, ans) in enumerate(t.ops):
        ups = vis.get(item, []) + own.get(item, [])
        c = op[0]
        live = lambda adds, rems: [a for a in adds if not any(after(r, a) for r in rems)]
        if c == 1:
            want = ("value", ups[-1][2][1]) if ups else ("none",)
        elif c == 3:
            want = ("number", sum(u[2][1] for u in ups))
        elif c in (5, 6):
            el = sorted({u[2][1] for u in ups if u[2][0] == 7})
            inn = [e for e in el if live([u for u in ups if u[2] == (7, e)], [u for u in ups if u[2] == (8, e)])]
            want = ("values", inn) if c == 5 else ("bit", op[1] in inn)
        elif c == 9:
            want = ("bit", bool(live([u for u in ups if u[2][0] == 10], [u for u in ups if u[2][0] == 11])))
        elif c == 12:
            want = ("values", sorted({u[2][1] for u in live(ups, ups)}))
        else:
            want = ("done",)
            own.setdefault(item, []).append((t.tid, k, op))
        assert want == ans, (t.tid, item, op, ans, want)


def report(w, short):
    com, loose, past = execution(w)
    out = []

    def past_text(t):
        p = past[t.tid]
        return " ".join("1.1.%d=%d" % (s, p[s]) for s in sorted(p)) or "-"

    def ops(t):
        for item, op, a in t.ops:
            out.append("o %d:%s %s %s" % (item[0], item[1].hex(), op_text(op), answer_text(a)))
    for t in com:
        out.append("t %d.%d.%d 1.1.%d %d causal %s" % (*t.tid, t.session, t.number, past_text(t)))
        ops(t)
    for t in loose:
        out.append("l %d.%d.%d 1.1.%d %s %s" % (*t.tid, t.session, t.end, past_text(t)))
        ops(t)
    for s, at, n in w.refusals:
        out.append("x 1.1.%d %d %d" % (s, at, n))
    waiting = [(s.number, s.queue[0][0]) for s in w.sessions if s.open and s.queue]
    for s, at in waiting:
        out.append("w 1.1.%d %d" % (s, at))
    w.c["loose open at the end"] += sum(t.end == "open" for t in loose)
    w.c["loose left"] += sum(t.end == "left" for t in loose)
    w.c["waiting sessions"] += len(waiting)
    w.c["transactions with a past"] += sum(bool(past[t.tid]) for t in w.begun)
    last = "committed %d strong 0 aborted 0 loose %d links 0 refused %d waiting %d" % (
        len(com), len(loose), len(w.refusals), len(waiting))
    return "\n".join([last] if short else out + [last]) + "\n"


# ---------------------------------------------------------------- top

def run(words, data):
    c = Counter()
    c["words " + " ".join(words)[:20]] += 1
    if words not in (["replay"], ["replay", "short"]):
        c["status Words"] += 1
        return b"refused words\n", 2, c
    if len(data) > TEXT_LIMIT:
        c["limit text"] += 1
        return b"refused limit text line 0\n", 8, c
    lines, starts = split_input(data)
    w = None
    k = 0
    try:
        try:
            sep = lines.index(b"---")
        except ValueError:
            raise Refused("line %d NoSeparator" % (len(lines) + 1)) from None
        w = World(read_config(data[:starts[sep]]), c)
        for k in range(sep + 1, len(lines)):
            try:
                line = read_line(lines[k])
            except Refused as r:
                raise Refused("line %d %s" % (k + 1, r.text)) from None
            if line is not None:
                w.perform(line)
    except Refused as r:
        p = r.text.split()
        c["refused input: " + (r.text if p[0] == "config" else p[2] + (" (line 0)" if p[1] == "0" else ""))] += 1
        return ("refused %s\n" % r.text).encode(), 3, c
    except Limit as l:
        c["limit " + l.kind] += 1
        return ("refused limit %s line %d\n" % (l.kind, k + 1)).encode(), 8, c
    c["events"] += w.events
    c["status Done"] += 1
    return report(w, words == ["replay", "short"]).encode(), 0, c


if __name__ == "__main__":
    out, status, _ = run(sys.argv[1:], sys.stdin.buffer.read())
    sys.stdout.buffer.write(out)
    sys.stdout.flush()
    sys.exit(status)
