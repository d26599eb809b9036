#!/usr/bin/env python3
"""A plain twin of the ballot log's rules, run at random. It is written from docs/PROTOCOL.md, "The ballot log", sharing no code.

    python3 examples/ballots/ballots.py FIRST COUNT [WRONG]
    python3 examples/ballots/ballots.py 1 2000
    python3 examples/ballots/ballots.py 1 100 longest

Runs COUNT worlds with seeds from FIRST on, of 1, 3 or 5 sites and at most 400 steps each, where any message ever sent may come
at any time, any number of times. After each step it checks that of two chosen lists one is the front of the other, that chosen
lists only grew, that each chosen entry was appended and stands in its slot at f + 1 sites, and that no tail is longer than 8.

WRONG names a wrong rule. The checks find, with seeds 1 to 100: `longest` (a new leader takes the longest log whatever its ballot),
`forgets` (a promise isn't remembered), `twice` (an acknowledgement counts twice), `few` (f sites are enough). They find nothing of
`keeps` (a learner whose tail doesn't begin with the learnt entry keeps the rest of it): nothing that they look at breaks by it.

The exit status is 0 where nothing was found, 1 where something was, with its seed and step, and 2 where the arguments are faulty.
"""
import argparse
import random
import sys

WINDOW = 8
STEPS = 400
WRONGS = ("longest", "forgets", "twice", "few", "keeps")
WRONG = None


class Site:
    def __init__(self, f, number):
        self.f, self.number, self.ballot, self.accepted = f, number, 1, 1
        self.chosen, self.tail = [], []
        self.role = "leads" if number == 1 else "follows"
        self.vows, self.heard = {}, []
        self.acks = {j: 0 for j in self.others()} if number == 1 else {}

    def sites(self):
        return range(1, 2 * self.f + 2)

    def others(self):
        return [j for j in self.sites() if j != self.number]

    def owner(self, ballot):
        return 1 + (ballot - 1) % (2 * self.f + 1)

    def held(self):
        return len(self.chosen) + len(self.tail)

    # every rule returns the messages that it sends, as (to, message)

    def lead(self):
        ballot = next(b for b in range(self.ballot + 1, self.ballot + 2 * self.f + 2) if self.owner(b) == self.number)
        if ballot > 2 ** 62:
            return []
        self.ballot, self.role = ballot, "collects"
        self.vows = {self.number: (self.accepted, len(self.chosen), list(self.tail))}
        return [(j, ("new_ballot", ballot)) for j in self.others()] + self.start()

    def start(self):
        if self.role != "collects" or len(self.vows) <= self.f:
            return []

        def rank(j):
            accepted, base, tail = self.vows[j]
            length = base + len(tail)
            return (length, -j) if WRONG == "longest" else (accepted, length, -j)

        best = max(self.vows, key=rank)
        _, base, tail = self.vows[best]
        if base > len(self.chosen):
            return [(best, ("catch_up", len(self.chosen)))]
        self.tail = tail[len(self.chosen) - base:]
        self.accepted, self.role, self.acks, self.heard = self.ballot, "leads", {}, []
        state = ("new_state", self.ballot, len(self.chosen), list(self.tail))
        return [(j, state) for j in self.others()] + self.advance()

    def advance(self):
        if self.role != "leads":
            return []
        needed = self.f if WRONG == "few" else self.f + 1
        for count in range(len(self.tail), 0, -1):
            slot = len(self.chosen) + count
            have = 1 + sum(1 for n in self.acks.values() if n >= slot)
            if WRONG == "twice":
                have = 1 + sum(1 for n in self.heard if n >= slot)
            if have >= needed:
                first = len(self.chosen) + 1
                entries, self.tail = self.tail[:count], self.tail[count:]
                self.chosen = self.chosen + entries
                return [(j, ("learn", first, list(entries))) for j in self.others()]
        return []

    def append(self, entry):
        if self.role != "leads" or len(self.tail) >= WINDOW:
            return None
        self.tail = self.tail + [entry]
        return [(j, ("accept", self.ballot, self.held(), entry)) for j in self.others()] + self.advance()

    def take(self, sender, message):
        return getattr(self, message[0])(sender, *message[1:])

    def may_follow(self, sender, ballot):
        return ballot >= self.ballot and self.owner(ballot) == sender

    def new_ballot(self, sender, ballot):
        if not self.may_follow(sender, ballot):
            return []
        if WRONG != "forgets":
            self.ballot, self.role = ballot, "follows"
        return [(sender, ("promise", ballot, self.accepted, len(self.chosen), list(self.tail)))]

    def promise(self, sender, ballot, accepted, base, tail):
        if self.role != "collects" or ballot != self.ballot or len(self.vows) > self.f or sender in self.vows:
            return []
        self.vows[sender] = (accepted, base, tail)
        return self.start()

    def new_state(self, sender, ballot, base, tail):
        if not self.may_follow(sender, ballot):
            return []
        self.ballot, self.role = ballot, "follows"
        if len(self.chosen) < base:
            return [(sender, ("catch_up", len(self.chosen)))]
        if self.accepted < ballot:
            self.tail, self.accepted = tail[len(self.chosen) - base:], ballot
        return [(sender, ("accepted", ballot, self.held()))]

    def accept(self, sender, ballot, slot, entry):
        if self.role != "follows" or self.owner(ballot) != sender or not ballot == self.ballot == self.accepted:
            return []
        if slot == self.held() + 1 and len(self.tail) < WINDOW:
            self.tail = self.tail + [entry]
        return [(sender, ("accepted", ballot, self.held()))] if slot <= self.held() else []

    def accepted_(self, sender, ballot, length):
        if self.role != "leads" or ballot != self.ballot or length > self.held():
            return []
        self.acks[sender] = max(self.acks.get(sender, 0), length)
        self.heard.append(length)
        return self.advance()

    def catch_up(self, sender, length):
        if length >= len(self.chosen):
            return []
        return [(sender, ("learn", length + 1, self.chosen[length:length + WINDOW]))]

    def learn(self, sender, first, entries):
        if first > len(self.chosen) + 1 or first + len(entries) - 1 <= len(self.chosen):
            return []
        for entry in entries[len(self.chosen) + 1 - first:]:
            self.chosen = self.chosen + [entry]
            if self.tail and self.tail[0] == entry:
                self.tail = self.tail[1:]
            elif WRONG == "keeps":
                self.tail = self.tail[1:]
            else:
                self.tail = []
        return self.start()

    def tick(self):
        sends = [(j, ("catch_up", len(self.chosen))) for j in self.others()]
        if self.role == "collects" and len(self.vows) <= self.f:
            sends += [(j, ("new_ballot", self.ballot)) for j in self.others() if j not in self.vows]
        if self.role == "leads":
            for j in self.others():
                if j not in self.acks:
                    sends.append((j, ("new_state", self.ballot, len(self.chosen), list(self.tail))))
                    continue
                after = max(self.acks[j], len(self.chosen))
                for slot in range(after + 1, self.held() + 1):
                    sends.append((j, ("accept", self.ballot, slot, self.tail[slot - len(self.chosen) - 1])))
        return sends


def fault(sites, before, appended):
    """What the checks find after a step, or nothing."""
    logs = list(sites.values())
    for a in logs:
        if len(a.tail) > WINDOW:
            return "a long tail"
        if a.chosen[:len(before[a.number])] != before[a.number]:
            return "a chosen list changed"
        for b in logs:
            short = min(len(a.chosen), len(b.chosen))
            if a.chosen[:short] != b.chosen[:short]:
                return "chosen lists differ"
        for slot, entry in enumerate(a.chosen):
            if entry not in appended:
                return "an entry from nowhere"
            if sum(1 for b in logs if (b.chosen + b.tail)[slot:slot + 1] == [entry]) <= a.f:
                return "a chosen entry that few hold"
    return None


def run(seed):
    chance = random.Random(seed)
    f = chance.choice([0, 1, 1, 1, 2])
    sites = {j: Site(f, j) for j in range(1, 2 * f + 2)}
    live, sent, appended = set(sites), [], set()
    eager = chance.choice([3, 10, 40])
    for step in range(STEPS):
        before = {j: list(site.chosen) for j, site in sites.items()}
        at = chance.randrange(1, 2 * f + 2)
        what = chance.random() * 100
        if what < 4:
            sends = sites[at].lead() if at in live else []
        elif what < 16:
            entry = (seed, step)
            sends = sites[at].append(entry) if at in live else None
            if sends is not None:
                appended.add(entry)
        elif what < 20:
            sends = sites[at].tick() if at in live else []
        elif what < 20.2 and len(live) > f + 1:
            live.discard(at)
            sends = []
        elif sent:
            # mostly one of the newest messages, at times any
            low = max(0, len(sent) - eager) if chance.random() < 0.7 else 0
            sender, at, message = sent[chance.randrange(low, len(sent))]
            name = "accepted_" if message[0] == "accepted" else message[0]
            sends = sites[at].take(sender, (name,) + message[1:]) if at in live else []
        else:
            sends = []
        sent += [(at, to, message) for to, message in sends or []]
        found = fault(sites, before, appended)
        if found:
            return found, step, 0
    return None, STEPS, max(len(site.chosen) for site in sites.values())


def main():
    global WRONG
    parser = argparse.ArgumentParser(description=__doc__, formatter_class=argparse.RawDescriptionHelpFormatter)
    parser.add_argument("first", metavar="FIRST", type=int, help="the first seed")
    parser.add_argument("count", metavar="COUNT", type=int, help="how many worlds there are, at least 1")
    parser.add_argument("wrong", metavar="WRONG", nargs="?", choices=WRONGS, help="the name of a wrong rule")
    arguments = parser.parse_args()
    if arguments.count < 1:
        parser.error("COUNT is at least 1")
    first, count, WRONG = arguments.first, arguments.count, arguments.wrong
    chosen = 0
    for seed in range(first, first + count):
        found, step, most = run(seed)
        if found:
            print(f"seed {seed} step {step}: {found}")
            return 1
        chosen += most
    print(f"{count} worlds, {chosen} entries chosen, nothing found")
    return 0


if __name__ == "__main__":
    sys.exit(main())
