"""What the client of a session sends: pieces of work, and now and then frames that are refused."""
import reference
from spelling import ABANDON, BARRIER, BEGIN, CODES, COMMIT, STRONG, TOKEN, WITH_VALUE, item_bytes, of_version, perform, request


class Client:
    """Random frames over some items of some spaces."""

    def __init__(self, chance, mood, catalog, items):
        self.chance, self.mood, self.catalog, self.items = chance, mood, catalog, items

    def value(self):
        chance = self.chance
        share = chance.random()
        if share < self.mood.long:
            return bytes([chance.choice(b"ab\0\xff")]) * chance.choice([1024, 1024, 1023, 1000, 600, 512])
        if share < 0.06:
            return b""
        if share < 0.8:
            return bytes([chance.choice(b"abcd")])
        return bytes(chance.choice([0, 0x61, 0xFF, 0x62]) for _ in range(chance.randint(1, 4)))

    def operation(self, kind):
        code = self.chance.choice(CODES[kind])
        if code in WITH_VALUE:
            return code, self.value()
        if code == 4:
            return code, self.chance.choice([0, 1, -1, 5, -7, (1 << 63) - 1, -(1 << 63), self.chance.randint(-1000, 1000)])
        return (code,)

    def item(self):
        chance = self.chance
        if chance.one(0.03):
            space = chance.choice(list(self.catalog))
            return space, bytes(chance.randrange(256) for _ in range(chance.choice([1, 2, 63, 64])))
        return chance.choice(self.items)

    def good_perform(self):
        item = self.item()
        return perform(item, self.operation(self.catalog[item[0]]))

    def odd_perform(self):
        """A frame that is well formed, and often refused with 4 or 5."""
        chance = self.chance
        if chance.one(0.5):
            space = chance.choice([number for number in range(1, 256) if number not in self.catalog] or [1])
            return perform((space, b"a"), self.operation(chance.choice(reference.KINDS)))
        item = self.item()
        return perform(item, self.operation(chance.choice(reference.KINDS)))

    def longest_perform(self):
        """An operation with the longest item and value."""
        item = (self.chance.choice(list(self.catalog)), bytes([self.chance.choice(b"xy")]) * 64)
        operation = self.operation(self.catalog[item[0]])
        if operation[0] in WITH_VALUE:
            operation = (operation[0], b"v" * 1024)
        return perform(item, operation)

    def attach(self, whole=True):
        chance = self.chance
        numbers = [chance.choice([1, 2]), chance.choice([0, 1, 1 << 62]), 0, chance.choice([0, 1, 65])]
        fields = bytes([1, 1]) + b"".join(number.to_bytes(8, "big") for number in numbers)
        return request(8, fields if whole else fields[: chance.randint(0, len(fields))])

    def bad_frame(self):
        """A frame that is no request, or one whose rule isn't built."""
        forms = (
            self.not_built, self.bad_length, self.bad_version, self.bad_tag, self.fields_behind,
            lambda: request(2, item_bytes((0, b"a")) + b"\1"),
            lambda: request(2, bytes([1, 0, 1])),
            lambda: request(2, bytes([1, 65]) + b"a" * 65 + b"\1"),
            lambda: request(2, item_bytes((1, b"a")) + bytes([self.chance.choice([0, 14, 15, 255])])),
            self.long_value, self.cut_perform,
            lambda: request(2, self.good_perform()[6:] + bytes([self.chance.randrange(256)])),
            lambda: request(2, item_bytes((1, b"a")) + b"\4" + bytes(self.chance.choice([0, 7, 9, 16]))),
            self.any_fields, self.long_frame, self.turned_bit,
        )  # fmt: skip
        return forms[self.chance.randrange(len(forms))]()

    def not_built(self):
        return self.chance.choice([STRONG, BARRIER, TOKEN, self.attach(), self.attach(False)])

    def bad_length(self):
        length = self.chance.choice([0, 1, 65533, 65536, 1 << 20, 0xFFFFFFFF])
        return length.to_bytes(4, "big") + bytes(self.chance.randint(0, 3))

    def bad_version(self):
        version = self.chance.choice([0, 2, 255])
        return of_version(version, self.chance.choice([b"\1", b"\3", b"\2"]))

    def bad_tag(self):
        tag = self.chance.choice([0, 9, 10, 99, 128, 129, 130, 131, 137, 255])
        return request(tag, self.chance.choice([b"", b"\0" * 8]))

    def fields_behind(self):
        tag = self.chance.choice([1, 3, 5])
        return request(tag, bytes(self.chance.randint(1, 3)))

    def long_value(self):
        item = self.chance.choice(self.items)
        return request(2, item_bytes(item) + bytes([self.chance.choice(WITH_VALUE)]) + (1025).to_bytes(2, "big") + b"a" * 1025)

    def cut_perform(self):
        fields = self.good_perform()[6:]
        return request(2, fields[: self.chance.randint(0, len(fields) - 1)])

    def any_fields(self):
        tag = self.chance.choice([1, 2, 3])
        return request(tag, bytes(self.chance.randrange(256) for _ in range(self.chance.choice([0, 1, 20, 300]))))

    def long_frame(self):
        """The longest frame that has no bad length, or a shorter one."""
        return request(2, bytes(65530)) if self.chance.one(0.3) else request(99, bytes(200))

    def turned_bit(self):
        frame = bytearray(self.good_perform())
        place = self.chance.randrange(4, len(frame))
        frame[place] ^= 1 << self.chance.randrange(8)
        return bytes(frame)

    def script(self):
        """The frames of one session's next piece of work."""
        chance, burst = self.chance, self.mood.burst
        share = chance.random()
        if share < 0.80:
            return self.transaction()
        if share < 0.93:
            return [self.any_request() for _ in range(chance.randint(1, 6))]
        if share < 0.93 + burst:
            frames = [BEGIN] + [self.good_perform() for _ in range(chance.randint(60, 130))]
            frames += [COMMIT] if chance.one(0.5) else []
            return frames + ([self.bad_frame()] if chance.one(0.3) else [])
        if share < 0.97 + burst / 2:
            return [self.good_perform()]
        return [self.bad_frame()] if chance.one(self.mood.badness) else [BEGIN, COMMIT]

    def transaction(self):
        chance = self.chance
        count = chance.choice([0, 1, 1, 2, 2, 3, 4, 6])
        if chance.one(0.02):
            count = chance.randint(60, 68)
        frames = [BEGIN]
        for _ in range(count):
            if chance.one(0.96):
                frames.append(self.good_perform())
            else:
                frames.append(self.odd_perform() if chance.one(0.8) else self.longest_perform())
        return frames + [COMMIT if chance.one(0.88) else ABANDON]

    def any_request(self):
        performs = [self.good_perform(), self.good_perform(), self.odd_perform(), self.longest_perform()]
        return self.chance.choice([BEGIN, COMMIT, ABANDON, *performs])
