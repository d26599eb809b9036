"""Lines of a schedule that are refused, or may be."""
import reference
from spelling import BEGIN

NUMBERS = (
    "0", "2", "00", "01", "", "x", "-1", "18446744073709551615", "18446744073709551616", "576460752303423488", "576460752303423489",
    "100000", "100001", "4", "16", "1_0", "\u0661",
)  # fmt: skip
LARGE = (
    "18446744073709551616", "99999999999999999999", "18446744073709551615", "01", "00", "-1", "+1", "1.0", "", "x", "1 ", " 1", "0x1",
    "1\t", "٣",
)  # fmt: skip
OPENS = (
    "sleep 1", "open", "open 1", "open 1 1 1", "OPEN 1 1", " open 1 1", "open 1 1 ", "open  1 1", "open 1  1", "open\t1 1",
    "\ufeffopen 1 1", "open 0 1", "open 1 0", "open 2 1", "open 1 2", "open 1 LARGE", "open LARGE 1",
)  # fmt: skip
PIECES = (
    "bytes 1 1 1", "bytes 1 1 1 ", "bytes 1 1 1 0", "bytes 1 1 1 0g", "bytes 1 1 0 00", "bytes 1 1 LARGE 00", "bytes 1 2 1 00",
    "bytes 2 1 1 00", "bytes 9 9 0 0g", "bytes x 1 1 0g", "bytes 1 1 1 00 00", "bytes 1 1 1 " + "00" * 65537,
    "bytes 1 1 1 " + "0" * 131073, "bytes 9 1 1 ", "bytes 1 1 1 0x00", "bytes 1 1 1 é0", "bytes 1 1 1 00 ", "bytes 1 1 01 zz",
    "bytes 1 1 0 zz",
)  # fmt: skip
CLOSES = (
    "close 1 1 0", "close 1 1", "close 1 1 x", "close 2 1 1", "close 1 2 1", "close 1 1 1 1", "close 1 1 LARGE",
)  # fmt: skip
PACKETS = (
    "deliver 0", "deliver", "deliver 01", "deliver 18446744073709551616", "deliver -1", "deliver x", "deliver 1 2", "deliver LARGE",
    "flush 1", "flush 1 2", "flush 2 1", "flush 0 1", "flush 1 0", "flush x 1", "flush", "flush 1 1 1", "flush 1 01", "flush LARGE 1",
)  # fmt: skip
NOT_BUILT = (
    "tick 1 1 5", "tick 1 0 5", "tick 1 2 5", "tick 1 1 576460752303423488", "tick 1 1 576460752303423489", "tick 1 1", "tick 1 1 x",
    "tick 1 1 0", "tick 2 1 1", "tick 1 1 18446744073709551616", "tick 1 LARGE 1", "lead 1", "lead 2", "lead 0", "lead", "lead x",
    "forward 1 1", "forward 1 2", "forward 2 1", "forward 1", "forward x 1", "forward 0 0", "crash 1", "crash 0", "crash 2", "crash",
    "crash x", "settle 1 1", "settle 0 0", "settle 576460752303423488 100000", "settle 576460752303423489 1", "settle 1 100001",
    "settle 1", "settle x 1", "settle 1 x", "settle 1 1 1",
)  # fmt: skip
NO_WORDS = (
    "---", "- --", "--- ", "----", "=", " ", "  ", "\t", "\r", "open 1 1\r", "flush 1 1\r", "\x00", "open 1 1\x00", "node 1", "take 00",
    "end 3", "nopoll", "lost 1", "weave", "attach 1 1", "bytes", "1", "é", "\udcff", "open 1 1\udcff", "open 1 \udcff",
    "bytes 1 1 1 \udcff\udcff", "deliver \udcc3\udca9",
)  # fmt: skip
BAD_LINES = OPENS + PIECES + CLOSES + PACKETS + NOT_BUILT + NO_WORDS


def bad_line(chance):
    if chance.one(0.5):
        return drawn_line(chance)
    return chance.choice([line.replace("LARGE", chance.choice(LARGE)) if "LARGE" in line else line for line in BAD_LINES])


def drawn_line(chance):
    """A line with a known word, each of whose arguments is good or bad on its own."""
    word = chance.choice(list(reference.LINE_WORDS)).decode()
    share = chance.choice([0.02, 0.2, 0.5])
    arguments = []
    for _ in range(reference.LINE_WORDS[word.encode()] - (word == "bytes")):
        arguments.append(chance.choice(NUMBERS) if chance.one(share) else "1")
    if word == "bytes":
        arguments.append(drawn_hex(chance) if chance.one(share) else BEGIN.hex())
    if chance.one(0.03):
        arguments.append(chance.choice(["", "1"]))
    return " ".join([word if chance.one(0.98) else chance.choice(["", "opens", "Bytes", "take"])] + arguments)


def drawn_hex(chance):
    long = ["00" * 65536, "00" * 65537, "00" * 65536 + "0"]
    return chance.choice(["", "0", "0g", "zz", "G0", "000", *long, "0 ", "\u0660"])
