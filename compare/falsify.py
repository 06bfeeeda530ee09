#!/usr/bin/env python3
"""falsify.py SEEDS: tests the judge. It must object to falsified answers and to wrong stations.

Falsified answers: for each seed below SEEDS, right answers in which one line is changed. Octets are
changed only where the promise speaks of them: fetched from a window, in a buffered channel by any
reading, in a mailbox by a reading that completes. Wrong stations: the other implementation with one
thing done wrong; the judge must object to some script of the seeds.
"""

import collections
import io
import random
import re
import sys

sys.dont_write_bytecode = True

import generate     # noqa: E402
import judge        # noqa: E402
import station      # noqa: E402

READ, WRITE = station.READ, station.WRITE


# ---------------------------------------------------------------- which answers show messages

class Watched(station.Station):
    """A station that notes which of its answers show an octet of a message."""

    def __init__(self, memory, number):
        super().__init__(memory, number)
        self.fetches = []           # (answer, reading, is it a mailbox's)
        self.out = None

    def access(self, side, kind, address, octet=None, mapped_bits=None):
        """One access, as ever; a fetch from a window is noted."""
        channel = self.channel_of(address) if address >= 0x1000 else None
        octet_read = super().access(side, kind, address, octet, mapped_bits)
        if channel is not None and kind == READ:
            service = self.services[channel]
            self.fetches.append((self.out.getvalue().count("\n"), service.last_reading, service.mailbox))
        return octet_read


class WatchedService(station.Service):
    """A service that remembers its last reading and which readings completed."""

    def open(self, kind):
        """Opens, as ever."""
        super().open(kind)
        if kind == READ:
            self.last_reading = self.reading

    def complete(self, kind):
        """Completes, as ever."""
        if kind == READ:
            self.reading.completed = True
        super().complete(kind)


def watched_answers(text):
    """The right answers of a script, and the positions of those that show an octet of a message."""
    made = []

    def make(memory, number):
        made.append(Watched(memory, number))
        made[0].out = out
        return made[0]

    out = io.StringIO()
    with replaced(station, "Station", make), replaced(station, "Service", WatchedService):
        station.run(text.splitlines(), out)
    shows = {position for position, reading, mailbox in made[0].fetches
             if not mailbox or getattr(reading, "completed", False)}
    return out.getvalue(), shows


class replaced:
    """Replaces an attribute for a while."""

    def __init__(self, owner, name, value):
        self.owner, self.name, self.value = owner, name, value

    def __enter__(self):
        self.kept = getattr(self.owner, self.name)
        setattr(self.owner, self.name, self.value)

    def __exit__(self, *_):
        setattr(self.owner, self.name, self.kept)


# ---------------------------------------------------------------- falsified answers

FAULT = re.compile(r"(refused|dropped) (?:4 at place \d+|\d+ at 0x[0-9A-F]+ channel \d+)")


def other_octet(line):
    """Another octet fetched."""
    return re.sub(r"(read (?:0x[0-9A-F]{4}: )?)([0-9A-F]{2})(?=;|$)",
                  lambda found: found.group(1) + "%02X" % (int(found.group(2), 16) ^ 0x10), line)


def done_to_refused(line):
    """A refusal where something was done."""
    wrong = "refused 8 at 0x1001 channel 0"
    if line.startswith("read"):
        return re.sub(r": [0-9A-F]{2}$", ": " + wrong, line)
    changed = re.sub(r"(read) [0-9A-F]{2};", r"\1 %s;" % wrong, line) if line.startswith("octet") else line
    changed = re.sub(r"(write) done$", r"\1 " + wrong, changed)
    changed = re.sub(r": (done|running)$", ": " + wrong, changed)
    return re.sub(r": kept$", ": dropped 18 at 0x0000 channel 255", changed)


def refused_to_done(line):
    """Something done where it was refused."""
    if FAULT.search(line) is None:
        return line
    if line.startswith("begin"):
        return "begin: running"
    if line.startswith("end"):
        return FAULT.sub("kept", line.replace("kept; ", ""))
    if re.match("octet ..: refused", line):
        return "octet %s: forwards %s; read none; write none" % (line[6:8], line[6:8])
    if line.startswith("octet"):
        return re.sub("write refused.*", "write done", re.sub("read refused[^;]*", "read 00", line))
    return FAULT.sub("00" if line.startswith("read") else "done", line)


def other_number(line):
    """Another number in a refusal."""
    return re.sub(r"(?<=refused |dropped )\d+", lambda found: str(int(found.group()) % 22 + 1), line)


def other_channel(line):
    """Another channel in a refusal."""
    return re.sub(r"channel (\d+)", lambda found: "channel %d" % ((int(found.group(1)) + 1) % 8), line)


def no_answer(_):
    """The answer is left out."""
    return None


FALSIFIED = {"another octet fetched": other_octet, "done turned into a refusal": done_to_refused,
             "refusal turned into done": refused_to_done, "another number": other_number,
             "another channel": other_channel, "answer left out": no_answer}
TRIES = 4       # falsified answers of each kind in each script


def falsified(text, chosen):
    """Yields (kind, falsified answers) for a script."""
    answers, shows = watched_answers(text)
    lines = answers.splitlines()
    calls = next(i for i, line in enumerate(lines) if line.startswith("memory: "))
    for kind, change in FALSIFIED.items():
        places = [i for i in range(calls) if change(lines[i]) != lines[i]
                  and not lines[i].startswith("line ") and (change is not other_octet or i in shows)]
        for i in chosen.sample(places, min(TRIES, len(places))):
            changed = change(lines[i])
            yield kind, i, "\n".join(lines[:i] + ([] if changed is None else [changed]) + lines[i + 1:]) + "\n"


def try_falsified(seeds):
    """Counts falsified answers by kind; answers the counts and those without an objection."""
    count, missed = collections.Counter(), []
    for seed in seeds:
        text = generate.script(seed)
        for kind, place, answers in falsified(text, random.Random(seed)):
            count[kind] += 1
            if judge.judge(text, answers)[0] is None:
                missed.append("seed %d, answer %d: %s" % (seed, place + 1, kind))
    return count, missed


# ---------------------------------------------------------------- wrong stations

class OneBuffer(station.Service):
    """All roles share one buffer."""

    def physical(self, kind, offset):
        return self.start + offset


class NeverFresh(station.Service):
    """An opening reading never takes the fresh buffer."""

    def open(self, kind):
        fresh, self.fresh = self.fresh, False
        super().open(kind)
        self.fresh = fresh


class NewestAlways(station.Service):
    """A reading changes over to a newer message in its middle."""

    def physical(self, kind, offset):
        if kind == READ and self.fresh and not self.mailbox:
            self.ready, self.fetch, self.fresh = self.fetch, self.ready, False
        return super().physical(kind, offset)


class AlwaysThere(station.Service):
    """A message is there from the beginning."""

    def __init__(self, *setting):
        super().__init__(*setting)
        self.ever_written = self.full = True


class CompleteAtOnce(station.Service):
    """A writing counts as completed when it opens."""

    def open(self, kind):
        super().open(kind)
        if kind == WRITE:
            self.ever_written = self.full = True


class NeverCancelled(station.Service):
    """A dropped frame leaves an open transaction open."""

    def cancel(self, kind):
        if self.transaction(kind) is not None and self.transaction(kind).closed:
            super().cancel(kind)


class NeverEmptied(station.Service):
    """A completed reading leaves the mailbox full."""

    def complete(self, kind):
        super().complete(kind)
        self.full = self.full or kind == READ


class CancelledCompletes(station.Service):
    """A dropped frame completes what it closed."""

    def cancel(self, kind):
        if self.transaction(kind) is not None and self.transaction(kind).closed:
            self.complete(kind)
        else:
            super().cancel(kind)


class EveryFrameRefused(station.Station):
    """No frame begins."""

    def begin(self):
        raise station.Refusal(14)


class EveryEnablingRefused(station.Station):
    """No enabling is accepted."""

    def judge_enabling(self, channel):
        return 21


class ServiceRefuses(station.Station):
    """Every access to an area is refused."""

    def ask(self, side, kind, address, mapped_bits):
        super().ask(side, kind, address, mapped_bits)
        channel = self.channel_of(address) if address >= 0x1000 else None
        if channel is not None:
            raise station.Refusal(8, address, channel)


class ConstantOctet(station.Station):
    """Every octet fetched from an area is the same."""

    def access(self, side, kind, address, octet=None, mapped_bits=None):
        answer = super().access(side, kind, address, octet, mapped_bits)
        in_area = address >= 0x1000 and self.channel_of(address) is not None
        return 0x5A if kind == READ and in_area else answer


class SharesAreas(station.Station):
    """Areas that touch are accepted."""

    def judge_enabling(self, channel):
        others, self.services = self.services, [None] * 8
        number = super().judge_enabling(channel)
        others[channel], self.services = self.services[channel], others
        return number


class ForgetsWaiting(station.Station):
    """Registers written by a frame are not set at its end."""

    def end(self, number, good):
        if self.frame is not None:
            self.frame.waiting_registers = {}
        return super().end(number, good)


class Unasked(station.Station):
    """One question is not asked."""

    unasked = None

    def ask(self, side, kind, address, mapped_bits):
        try:
            super().ask(side, kind, address, mapped_bits)
        except station.Refusal as refusal:
            if refusal.number != self.unasked:
                raise


class PartsReach(Unasked):
    """A part of an octet reaches a window (13 is not asked)."""

    unasked = 13


class AnyOrder(Unasked):
    """An access may be ahead of the octets taken (8 is not asked)."""

    unasked = 8


class SecondMessage(Unasked):
    """A frame goes on in a window after its closing access (7 is not asked)."""

    unasked = 7


class HighestServes(station.Station):
    """The highest entity that covers a bit serves it."""

    def entity(self, index):
        return super().entity(7 - index)


WRONG = (OneBuffer, NeverFresh, NewestAlways, AlwaysThere, CompleteAtOnce, NeverCancelled, NeverEmptied,
         CancelledCompletes, EveryFrameRefused, EveryEnablingRefused, ServiceRefuses, ConstantOctet,
         SharesAreas, ForgetsWaiting, PartsReach, AnyOrder, SecondMessage, HighestServes)


def first_objection(wrong, seeds):
    """The first seed whose answers by a wrong station the judge objects to, and the objection."""
    name = "Service" if issubclass(wrong, station.Service) else "Station"
    for seed in seeds:
        text, out = generate.script(seed), io.StringIO()
        with replaced(station, name, wrong):
            station.run(text.splitlines(), out)
        objection, _ = judge.judge(text, out.getvalue())
        if objection:
            return seed, objection
    return None, None


def main():
    """Tries falsified answers and wrong stations."""
    if len(sys.argv) != 2 or not sys.argv[1].isdigit():
        sys.exit(__doc__)
    seeds = range(int(sys.argv[1]))
    count, missed = try_falsified(seeds)
    for kind in FALSIFIED:
        print("%d times %s" % (count[kind], kind))
    for found in missed:
        print("NO OBJECTION: " + found)
    print("%d falsified answers, %d without an objection" % (sum(count.values()), len(missed)))
    silent = 0
    for wrong in WRONG:
        seed, objection = first_objection(wrong, seeds)
        silent += objection is None
        print("%s\n    %s" % (wrong.__doc__, "NO OBJECTION" if objection is None else
                              "seed %d, %s" % (seed, judge.told(objection))))
    print("%d wrong stations, %d without an objection" % (len(WRONG), silent))
    return 1 if missed or silent else 0


if __name__ == "__main__":
    sys.exit(main())
