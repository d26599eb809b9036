"""Random inputs of `unistore replay`: words of the command line and a text."""
import bounds
import configurations
import reference
from chance import Mood
from client import BEGIN, COMMIT
from lines import bad_line
from schedules import Schedule
from spelling import perform

LENGTHS = (5, 20, 40, 80, 150, 300)
NO_FORMS = (
    [], ["replay", "long"], ["short"], ["Replay"], ["replay", "short", "x"], ["replay", ""], [""], ["load", "7", "10"],
    ["load", "x", "1"], ["node", "1", "3"], ["weave"], ["votes", "2"], ["restart", "1", "3"], ["replay short"], ["replay "], ["help"],
    ["--help"], ["replay", "replay"],
)  # fmt: skip
SHORT_LINES = ("open 1 1", "sleep 1", "flush 1 1", "tick 1 1 5", "", "bytes 1 1 1 0g")
NO_SEPARATORS = ("", "--", "----", "--- ", " ---", "---\r", "# ---")
SHORT_TEXTS = (
    b"", b"\n", b"---", b"---\r", b"---\r\n", b"---\n", b"\n\n---\n\n", b"#\n", b"\r\n---", b"a", b"---\n\r",
)  # fmt: skip


def drawn(chance, mode=None, lengths=LENGTHS, bounds_share=0.01):
    """The words and the text of one case. `mode` asks for more refused configurations or lines."""
    mood = Mood.drawn(chance)
    words = ["replay"] if chance.one(0.85) else ["replay", "short"]
    if chance.one(0.01):
        words = chance.choice(NO_FORMS)
    configuration, lines = parts(chance, mood, mode, lengths, bounds_share)
    return words, spoiled(chance, joined(chance, configuration, lines))


def parts(chance, mood, mode, lengths, bounds_share):
    """A configuration and the lines of a schedule."""
    share = chance.random()
    if chance.one(bounds_share):
        return bounds.at_a_bound(chance)
    if mode == "lines":
        return refused_lines(chance, mood)
    if mode == "config" or share < 0.14:
        return configurations.faulty(chance), few_lines(chance)
    configuration, catalog = configurations.good(chance)
    lines = Schedule(chance, mood, catalog, items_of(chance, catalog)).drawn(chance.choice(lengths))
    if share < 0.24:
        put_in(chance, lines, chance.choice([1, 1, 2]))
    return configuration, lines


def items_of(chance, catalog):
    spaces = list(catalog)
    items = []
    for _ in range(chance.randint(1, 6)):
        items.append((chance.choice(spaces), bytes([chance.choice(b"abcdef")]) * chance.choice([1, 1, 1, 2, 64])))
    return items


def refused_lines(chance, mood):
    configuration, catalog = configurations.good(chance) if chance.one(0.1) else (b"", {1: "register"})
    if configuration == b"":
        catalog = {1: "register"}
    items = [(chance.choice(list(catalog)), b"a")]
    lines = Schedule(chance, mood, catalog, items).drawn(chance.choice([1, 3, 8]))
    put_in(chance, lines, chance.randint(1, 3))
    return configuration, lines


def put_in(chance, lines, count):
    """Puts refused lines anywhere."""
    for _ in range(count):
        place = chance.randint(0, len(lines))
        lines.insert(place, bad_line(chance))


def few_lines(chance):
    if chance.one(0.6):
        return [chance.choice(SHORT_LINES) for _ in range(chance.randint(0, 3))]
    read = perform((1, b"a"), (chance.choice([1, 3, 5, 9, 12]),))
    return ["open 1 1", "bytes 1 1 1 " + (BEGIN + read + COMMIT).hex(), "flush 1 1"]


def joined(chance, configuration, lines):
    """The text: the configuration, the separator and the lines, now and then with strange line ends."""
    separator = "---"
    ends = chance.random()
    if chance.one(0.015):
        separator = chance.choice(NO_SEPARATORS)
    body = [separator.encode()] + [line.encode("utf-8", "surrogateescape") for line in lines]
    text = [configuration]
    for place, line in enumerate(body):
        end = b"\r\n" if ends < 0.08 else b"\n"
        if 0.08 < ends < 0.12 and chance.one(0.3):
            end = b"\r\n"
        if ends > 0.995 and chance.one(0.05):
            end = b"\r\r\n"
        if place == len(body) - 1 and chance.one(0.15):
            end = chance.choice([b"", b"", b"\r", b"\n\n"])
        text += [line, end]
    return b"".join(text)


def spoiled(chance, text):
    """The text, or seldom another short one, or one with a byte changed."""
    if chance.one(0.004):
        text = chance.choice(SHORT_TEXTS)
    if chance.one(0.006) and len(text) > 3:
        place = chance.randrange(len(text))
        text = text[:place] + bytes([chance.randrange(256)]) + text[place + 1 :]
    return text
