#!/usr/bin/env python3
"""Writes a schedule for `unistore replay`: N transactions of four operations over 40 items, in one session.

    python3 examples/speed/schedule.py N > schedule
    time crates/unistore/out/unistore replay short < schedule

Each transaction adds to a counter, adds to a set, writes a register and reads a register, is committed causally, and is
followed by a flush: 12 events, of which 11 are deliveries of packets. With --repeats K come then K of the packets that came so
far once more. With --open K the transactions are done in turn in K sessions that stay open. A run takes at most 20,000
transactions, 512 sessions and 1,000,000 events.
"""

import argparse
from collections.abc import Iterator

# the kind, number and items of each space
SPACES = (("counter", 1, 10), ("set", 2, 10), ("register", 3, 20))


def frame(*fields: bytes) -> str:
    """A request of version 1: its length, its version, its tag and its fields."""
    body = b"\x01" + b"".join(fields)
    return (len(body).to_bytes(4, "big") + body).hex()


def value(text: bytes) -> bytes:
    return len(text).to_bytes(2, "big") + text


def perform(space: int, number: int, operation: bytes) -> str:
    items = SPACES[space - 1][2]
    item = bytes([97 + number % items])
    return frame(b"\x02", bytes([space, len(item)]), item, operation)


def transaction(number: int) -> str:
    return "".join(
        (
            frame(b"\x01"),
            perform(1, number, b"\x04" + (number % 7).to_bytes(8, "big")),
            perform(2, number * 3, b"\x07" + value(bytes([65 + number % 20]))),
            perform(3, number, b"\x02" + value(str(number).encode())),
            perform(3, number * 7 + 1, b"\x01"),
            frame(b"\x03"),
        )
    )


# the packets of a transaction: a question and a version for each operation, and three that commit it
PACKETS = 11
# a prime: repeats go over all earlier packets
STRIDE = 7919


def lines(count: int, sessions: bool, stay: int, repeats: int) -> Iterator[str]:
    """The schedule's lines behind the configuration."""
    if not sessions:
        for _ in range(stay):
            yield "open 1 1"
    for number in range(count):
        session = number + 1 if sessions else 1 + number % stay
        if sessions:
            yield "open 1 1"
        yield f"bytes 1 1 {session} {transaction(number)}"
        yield "flush 1 1"
        for again in range(repeats):
            yield f"deliver {1 + (number * repeats + again) * STRIDE % (PACKETS * (number + 1))}"
        if sessions:
            yield f"close 1 1 {session}"


def main() -> None:
    parser = argparse.ArgumentParser(description=__doc__, formatter_class=argparse.RawDescriptionHelpFormatter)
    parser.add_argument("count", metavar="N", type=int, help="how many transactions there are, at least 1")
    parser.add_argument("--sessions", action="store_true", help="each transaction in a session of its own, closed after it")
    parser.add_argument("--open", metavar="K", type=int, default=1, help="how many sessions stay open and take the transactions in turn")
    parser.add_argument("--repeats", metavar="K", type=int, default=0, help="how many earlier packets come again after each transaction")
    options = parser.parse_args()
    if options.count < 1 or options.open < 1 or options.repeats < 0:
        parser.error("N and the sessions that stay open are at least 1, the repeats at least 0")
    for kind, number, _ in SPACES:
        print(f'[[space]]\nnumber = {number}\nkind = "{kind}"')
    print("---")
    for line in lines(options.count, options.sessions, options.open, options.repeats):
        print(line)


if __name__ == "__main__":
    main()
