#!/usr/bin/env python3
"""Compares `unistore replay` with reference.py, written from docs/PROTOCOL.md, sharing no code, on random inputs.

What is written and the exit status are compared byte for byte. At the top of the checkout:

    python3 examples/compare/compare.py crates/unistore/out/unistore 101 20000
    python3 examples/compare/compare.py crates/unistore/out/unistore --seed 101 --count 20000 --seconds 3600

The two calls do the same. Each input on which the two differ is left in the folder `differences` beside this file, as it came
(SEED-PLACE.input) and, of the first eight, with fewer lines (SEED-PLACE.small); its words are printed. The last lines say how many
inputs there were, how many differed, and what was met.

The exit status is 0 where all inputs were compared and none differed; 1 where some differed, the reference failed, or the
comparison stopped early, for time or after 40 differences; 2 where the program can't be run or the options are faulty.
"""
import argparse
import subprocess
import sys
import time
from collections import Counter
from dataclasses import dataclass, field
from pathlib import Path

import inputs
import reference
from chance import Chance
from shrinker import shrunk

SECONDS_OF_A_RUN = 10
MOST_DIFFERENCES = 40
MOST_SHRUNK = 8


class CannotRun(Exception):
    """The program can't be started."""


@dataclass
class Outcome:
    """What a run wrote, its exit status, and what it wrote to standard error."""

    output: bytes
    status: int
    errors: bytes = b""

    def told(self, other):
        """The status, and what was written from shortly before the place where the other wrote something else."""
        same = next((place for place, (one, two) in enumerate(zip(self.output, other.output)) if one != two), None)
        if same is None:
            same = min(len(self.output), len(other.output))
        front = max(0, same - 100)
        errors = f" errors {self.errors[-200:]!r}" if self.errors else ""
        return f"status {self.status} from byte {front} on {self.output[front : same + 200]!r}{errors}"


def of_reference(words, text):
    """The reference's outcome, and the counts of what it met."""
    output, status, met = reference.run(words, text)
    return Outcome(output, status), met


def of_program(program, words, text):
    path = str(Path(program).absolute()) if Path(program).exists() else program
    try:
        run = subprocess.run([path, *words], input=text, capture_output=True, timeout=SECONDS_OF_A_RUN, check=False)
    except subprocess.TimeoutExpired:
        return Outcome(b"", -1, b"no end within %d seconds" % SECONDS_OF_A_RUN)
    except OSError as error:
        raise CannotRun(f"{program}: {error.strerror}") from None
    return Outcome(run.stdout, run.returncode, run.stderr)


def differs(program, words, text):
    """Whether the two differ; where the reference fails they don't."""
    try:
        wanted, _ = of_reference(words, text)
    except Exception:
        return False
    return of_program(program, words, text) != wanted


def print_both(wanted, found):
    print(f"  reference {wanted.told(found)}\n  program   {found.told(wanted)}", flush=True)


@dataclass
class Comparison:
    """One comparison: what it is told, and what it found so far."""

    program: str
    seed: int
    count: int
    seconds: float
    mode: str | None
    lengths: tuple
    bounds_share: float
    folder: Path
    compared: int = 0
    different: int = 0
    size: int = 0
    met: Counter = field(default_factory=Counter)

    def run(self):
        """Compares all inputs. Gives why it stopped early, or nothing."""
        end = time.monotonic() + self.seconds
        for place in range(self.count):
            if time.monotonic() > end:
                return f"{self.seconds:g} seconds passed"
            if self.different >= MOST_DIFFERENCES:
                return f"{self.different} inputs differed"
            self.compare(place)
        return None

    def compare(self, place):
        words, text = inputs.drawn(Chance(self.seed * 1_000_003 + place), self.mode, self.lengths, self.bounds_share)
        self.size += len(text)
        self.compared += 1
        try:
            wanted, met = of_reference(words, text)
        except Exception as error:
            self.different += 1
            name = self.keep(place, "input", text)
            print(f"{name}: words {words}: the reference failed: {type(error).__name__} {str(error)[:300]}", flush=True)
            return
        self.met.update(met)
        found = of_program(self.program, words, text)
        if found != wanted:
            self.different += 1
            self.tell(place, words, text, wanted, found)

    def tell(self, place, words, text, wanted, found):
        """Keeps an input on which the two differ, and a smaller one."""
        name = self.keep(place, "input", text)
        print(f"{name}: words {words}")
        print_both(wanted, found)
        if self.different <= MOST_SHRUNK:
            small = shrunk(text, lambda shorter: differs(self.program, words, shorter))
            name = self.keep(place, "small", small)
            wanted, found = of_reference(words, small)[0], of_program(self.program, words, small)
            print(f"{name}: {small[:1500]!r}")
            print_both(wanted, found)

    def keep(self, place, ending, text):
        """Leaves an input behind, and gives its path."""
        self.folder.mkdir(parents=True, exist_ok=True)
        path = self.folder / f"{self.seed}-{place}.{ending}"
        path.write_bytes(text)
        return path


def options():
    parser = argparse.ArgumentParser(description=__doc__, formatter_class=argparse.RawDescriptionHelpFormatter)
    parser.add_argument("program", metavar="PROGRAM", help="the program that is compared, as crates/unistore/out/unistore")
    parser.add_argument("numbers", metavar="NUMBER", nargs="*", help="SEED COUNT [SECONDS], in place of the options")
    parser.add_argument("--seed", metavar="N", type=int, help="the seed of the inputs (1)")
    parser.add_argument("--count", metavar="N", type=int, help="how many inputs there are (1000)")
    parser.add_argument("--seconds", metavar="S", type=float, help="the time after which the comparison stops, and fails (3600)")
    parser.add_argument("--mode", choices=("config", "lines"), help="more inputs with a refused configuration, or with refused lines")
    parser.add_argument(
        "--lengths", metavar="N,..", default=",".join(map(str, inputs.LENGTHS)), help="the lengths of schedules, in lines (%(default)s)"
    )
    parser.add_argument("--bounds", metavar="SHARE", type=float, default=0.01, help="the share of inputs at a bound (%(default)s)")
    parser.add_argument(
        "--differences",
        metavar="FOLDER",
        type=Path,
        default=Path(__file__).resolve().parent / "differences",
        help="where inputs that differ are left (differences, beside this file)",
    )
    chosen = parser.parse_args()
    read_numbers(parser, chosen)
    try:
        chosen.lengths = tuple(map(int, chosen.lengths.split(",")))
    except ValueError:
        parser.error("--lengths is numbers with commas between")
    whole = chosen.count >= 1 and min(chosen.lengths) >= 1
    if not (whole and 0 < chosen.seconds < float("inf") and 0 <= chosen.bounds <= 1):
        parser.error("counts, times and lengths are above 0, a share is from 0 to 1")
    return chosen


def read_numbers(parser, chosen):
    """Takes SEED COUNT [SECONDS] over, and what isn't told otherwise."""
    if len(chosen.numbers) not in (0, 2, 3):
        parser.error("give PROGRAM alone, PROGRAM SEED COUNT or PROGRAM SEED COUNT SECONDS")
    kinds = {"seed": int, "count": int, "seconds": float}
    for (name, kind), number in zip(kinds.items(), chosen.numbers):
        if getattr(chosen, name) is not None:
            parser.error(f"give --{name} or its number, not both")
        try:
            setattr(chosen, name, kind(number))
        except ValueError:
            parser.error(f"the {name} is a number, not {number!r}")
    for name, usual in zip(kinds, (1, 1000, 3600.0)):
        if getattr(chosen, name) is None:
            setattr(chosen, name, usual)


def main():
    chosen = options()
    comparison = Comparison(
        chosen.program, chosen.seed, chosen.count, chosen.seconds, chosen.mode, chosen.lengths, chosen.bounds, chosen.differences
    )
    start = time.monotonic()
    try:
        early = comparison.run()
    except CannotRun as error:
        print(f"compare.py: the program can't be run: {error}", file=sys.stderr)
        return 2
    spent = time.monotonic() - start
    print(f"inputs {comparison.compared} differences {comparison.different} bytes {comparison.size} seconds {spent:.1f}")
    for name in sorted(comparison.met):
        print(f"  {name:60} {comparison.met[name]}")
    if early:
        print(f"compare.py: stopped early, after {comparison.compared} of {comparison.count} inputs: {early}", file=sys.stderr)
    return 1 if early or comparison.different else 0


if __name__ == "__main__":
    sys.exit(main())
