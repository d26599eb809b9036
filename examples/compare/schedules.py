"""Random schedules. A run of the reference beside them tells which sessions and packets there are."""
from collections import Counter

import reference
from client import Client

COMMENTS = ("", "# comment", "#", "#bytes 1 1 1 0g", "# \u00e9", "#\udcff\udc80", "#\0", "#\r")


class Schedule:
    """The lines of one schedule, as they are drawn."""

    def __init__(self, chance, mood, catalog, items):
        self.chance, self.mood = chance, mood
        self.client = Client(chance, mood, catalog, items)
        self.world = reference.World(dict(catalog), Counter())
        self.lines = []
        self.pending = {}  # what each session's client still has to send

    def drawn(self, wanted):
        for _ in range(self.chance.randint(1, self.chance.choice([1, 2, 2, 3, 3, 4, 5, 8]))):
            self.add("open 1 1")
        while len(self.lines) < wanted:
            self.add_one()
        if self.chance.one(0.5):
            self.add("flush 1 1")
        return self.lines

    def add(self, text):
        self.lines.append(text)
        line = reference.read_line(text.encode("utf-8", "surrogateescape"))
        if line is not None:
            self.world.perform(line)

    def add_one(self):
        """The next line, or none."""
        chance, mood = self.chance, self.mood
        share = chance.random()
        live = [session.number for session in self.world.sessions if session.open]
        if share < 0.02 or (not live and share < 0.5):
            if len(self.world.sessions) < 40:
                self.add("open 1 1")
        elif share < 0.40:
            self.add_bytes(live)
        elif share < 0.40 + mood.flushy:
            self.add("flush 1 1")
        elif share < 0.90:
            self.add_delivery()
        elif share < 0.92:
            if mood.flushy > 0.05 or chance.one(0.05):
                self.add("flush 1 1")
        elif share < 0.935:
            self.add(chance.choice(COMMENTS))
        elif share < 0.935 + mood.closing:
            session = chance.choice(live) if live and chance.one(0.9) else chance.randint(1, len(self.world.sessions) + 2)
            self.add("close 1 1 %d" % session)

    def add_bytes(self, live):
        chance, sessions = self.chance, self.world.sessions
        session = chance.choice(live) if live and chance.one(0.97) else chance.randint(1, len(sessions) + 3)
        # few sessions have a long queue
        if live and session in live and len(sessions[session - 1].queue) > 12 and not chance.one(self.mood.burst):
            return
        if not self.pending.get(session) or chance.one(0.2):
            self.pending[session] = self.pending.get(session, b"") + b"".join(self.client.script())
        stream = self.pending[session]
        count = min(self.piece(len(stream)), 65536)
        digits = stream[:count].hex()
        if chance.one(0.1):
            digits = digits.upper()
        if chance.one(0.02):
            digits = "".join(chance.choice((digit, digit.upper())) for digit in digits)
        self.add("bytes 1 1 %d %s" % (session, digits))
        self.pending[session] = stream[count:]

    def piece(self, whole):
        """How many bytes of a stream come together."""
        share = self.chance.random()
        if share < self.mood.whole:
            return whole
        return self.chance.randint(1, whole) if share < 0.95 else 1

    def add_delivery(self):
        chance, packets = self.chance, self.world.packets
        if not packets:
            if chance.one(0.1):
                self.add("deliver %d" % chance.choice([1, 2, 7]))
            return
        place = self.packet()
        if place is None:
            return
        if place >= len(packets) and chance.one(0.2):
            self.add("deliver %d" % reference.U64)
        else:
            self.add("deliver %d" % (place + 1))

    def packet(self):
        """The place of a packet that comes, or none."""
        chance, packets = self.chance, self.world.packets
        undelivered = [place for place, delivered in enumerate(self.world.delivered) if not delivered]
        share = chance.random()
        if share < 0.80 and undelivered:
            return self.undelivered(undelivered)
        if share < 0.80 + self.mood.replay:
            return chance.randrange(len(packets))
        if share < 0.96:
            return None
        return len(packets) + chance.choice([0, 1, 5, 1000, 1 << 40])

    def undelivered(self, places):
        chance, hold = self.chance, self.mood.hold
        if hold and chance.one(0.9):
            free = [place for place in places if self.world.packets[place][0] not in hold]
            places = free or (places if chance.one(0.2) else [])
            if not places:
                return None
        return places[0] if chance.one(0.5) else chance.choice(places)
