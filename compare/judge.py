#!/usr/bin/env python3
"""judge.py SCRIPT ANSWERS: checks the promise about messages on a script and its answers.

Written from docs/PROMISE.md and docs/RULES.md alone. The judge knows the calls of a script and
the answers printed for them, and nothing else: no buffer, no role, no octet of the memory (it
does not look at the rows printed at the end). From the calls and answers it follows registers,
running frame, datagrams and mapping, keeps for every service of every channel the story of its
writings and readings, and objects to the first answer that breaks a sentence of the promise.
"""

import collections
import functools
import re
import sys

MASTER, LOCAL = "master", "local"
READ, WRITE = "read", "write"
FIRST_PLACE = 0x1000
MEMORY_LIMIT = 61440
FRAME_LIMIT = 1500
NO_CHANNEL = 255
OWN = "own"         # a frame that carries the station's own number

AS_ASKED = "refusals, as asked: the answer is the one that the questions give"
IN_WORDS_WRITE = ("refusals, writes: a write in its turn is refused exactly when the running frame has"
                  " closed a writing there or the mailbox is full")
IN_WORDS_READ = ("refusals, reads: a read in its turn is refused exactly when the running frame has closed"
                 " a reading there or there is no message")
LATEST = "messages: every reading shows the latest writing completed before it opened, and there is one"
MAILBOX = "messages, mailbox: the nth completed reading shows the nth completed writing"
MAILBOX_COUNT = "messages, mailbox: completed writings are completed readings plus 0 or 1"
ONE_ANSWER = "every call has one answer, in the order of the script"


class Broken(Exception):
    """A sentence of the promise does not hold."""

    def __init__(self, sentence, found):
        super().__init__(sentence)
        self.sentence, self.found = sentence, found


# ---------------------------------------------------------------- script and answers

Call = collections.namedtuple("Call", "line kind octet address number good", defaults=(None,) * 4)
NUMBER = r"(0x[0-9A-Fa-f]+|[0-9]+)"
OCTET = r"([0-9A-Fa-f]{2})"
LINES = {kind: re.compile(shape) for kind, shape in {
    "memory": "memory (?:(octets|words) %s|joined %s %s)" % (NUMBER, NUMBER, NUMBER),
    "station": "station %s" % NUMBER,
    "begin": "begin",
    "octet": "octet %s(?: of %s)?" % (OCTET, NUMBER),
    "octets": "octets((?: %s)+)" % OCTET,
    "end": "end (good|bad)(?: of %s)?" % NUMBER,
    "read": "read %s" % NUMBER,
    "write": "write %s %s" % (NUMBER, OCTET),
}.items()}


def number_in(word, limit=0xFFFF):
    """The number that a word of a script means; None if it is larger than the limit."""
    value = int(word, 16) if word.startswith("0x") else int(word)
    return value if limit is None or value <= limit else None


class Script:
    """The set-up of a script and its calls, in order."""

    def __init__(self, text):
        self.size, self.number = None, None
        self.calls = []
        for line, content in enumerate(text.splitlines(), start=1):
            words = content.split()
            if words and not content.startswith("#"):
                if not self.take(line, words[0], " ".join(words)):
                    self.calls.append(Call(line, "unreadable"))
        self.size = 4096 if self.size is None else self.size
        self.number = 1 if self.number is None else self.number

    def take(self, line, kind, content):
        """Takes one line; answers whether it can be read."""
        found = LINES[kind].fullmatch(content) if kind in LINES else None
        return found is not None and getattr(self, "take_" + kind)(line, found)

    def called(self):
        """Has a call been read?"""
        return any(call.kind != "unreadable" for call in self.calls)

    def take_memory(self, _, found):
        """Sets the size of the memory."""
        if self.size is not None or self.called():
            return False
        kind, count, octets, words = found.groups()
        if kind is None:
            size = min(number_in(octets, None), MEMORY_LIMIT) + 2 * number_in(words, None)
        else:
            size = number_in(count, None) * (2 if kind == "words" else 1)
        self.size = min(size, MEMORY_LIMIT)
        return True

    def take_station(self, _, found):
        """Sets the station's number."""
        number = number_in(found.group(1))
        if number is None or self.number is not None or self.called():
            return False
        self.number = number
        return True

    def add(self, *call, **fields):
        """Adds a call."""
        self.calls.append(Call(*call, **fields))
        return True

    def take_begin(self, line, _):
        """begin"""
        return self.add(line, "begin")

    def carried(self, word):
        """The number that the frame handed in carries: OWN if no word says it, None if unfit."""
        return OWN if word is None else number_in(word)

    def take_octet(self, line, found):
        """octet HH, octet HH of S"""
        number = self.carried(found.group(2))
        return number is not None and self.add(line, "octet", octet=int(found.group(1), 16), number=number)

    def take_octets(self, line, found):
        """octets HH HH .."""
        return all([self.add(line, "octet", octet=int(word, 16), number=OWN) for word in found.group(1).split()])

    def take_end(self, line, found):
        """end good, end bad, both also of S"""
        number = self.carried(found.group(2))
        return number is not None and self.add(line, "end", number=number, good=found.group(1) == "good")

    def take_read(self, line, found):
        """read A"""
        address = number_in(found.group(1))
        return address is not None and self.add(line, "read", address=address)

    def take_write(self, line, found):
        """write A HH"""
        address = number_in(found.group(1))
        return address is not None and self.add(line, "write", address=address, octet=int(found.group(2), 16))


def fault(number, address=0, channel=NO_CHANNEL):
    """How a refusal is printed."""
    return "refused %d at 0x%04X channel %d" % (number, address, channel)


def memory_fault(place):
    """How the memory's own refusal is printed."""
    return "refused 4 at place %d" % place


@functools.lru_cache(maxsize=None)
def shape_of(expected):
    """An expected answer with '..' for each octet that is left out of the comparison."""
    return re.compile(re.escape(expected).replace(r"\.\.", "([0-9A-F]{2})"))


def compare(expected, answer):
    """Objects unless the answer is as expected; answers the octets at '..'."""
    found = shape_of(expected).fullmatch(answer)
    if found is None:
        raise Broken(AS_ASKED, "the questions give '%s', the answer is '%s'" % (expected, answer))
    return [int(octet, 16) for octet in found.groups()]


# ---------------------------------------------------------------- the story of a service

class Transaction:
    """A writing or a reading: every octet stored or fetched in it, with its offset."""

    def __init__(self, writings_before):
        self.octets = []
        self.state = "open"                     # open, waiting, completed or cancelled
        self.frames = set()                     # the master's frames that did an access in it
        self.mapped = False                     # did an entity serve one of its accesses?
        self.writings_before = writings_before  # writings completed when it opened

    def taken(self):
        """How many offsets have been accessed, from 0 on."""
        return 1 + max(offset for offset, _ in self.octets)

    def message(self):
        """At each offset the octet last stored there."""
        return dict(self.octets)

    def differs_from(self, writing):
        """The first fetched octet that is not the writing's, as (offset, octet); or None."""
        message = writing.message()
        return next(((k, octet) for k, octet in self.octets if message.get(k) != octet), None)


class Story:
    """What is told of one service of a channel."""

    def __init__(self, channel, start, length, control):
        self.channel, self.start, self.length = channel, start, length
        self.mailbox = control & 3 == 2
        self.side = {WRITE: MASTER, READ: LOCAL} if control >> 2 & 3 == 1 else {WRITE: LOCAL, READ: MASTER}
        self.all = {WRITE: [], READ: []}        # every transaction that ever opened
        self.completed = {WRITE: [], READ: []}
        self.closing_frame = None               # the last frame that closed a transaction here

    def area(self):
        """The addresses that the channel takes of the memory."""
        return range(self.start, self.start + (self.length if self.mailbox else 3 * self.length))

    def master_goes(self):
        """The direction in which the master goes."""
        return WRITE if self.side[WRITE] == MASTER else READ

    def open(self, direction):
        """The open transaction, or None."""
        last = self.all[direction][-1:]
        return last[0] if last and last[0].state == "open" else None

    def taken(self, direction):
        """How many octets the open transaction has taken, 0 if none is open."""
        transaction = self.open(direction)
        return transaction.taken() if transaction else 0

    def full(self):
        """Is it a mailbox, and full?"""
        return self.mailbox and len(self.completed[WRITE]) > len(self.completed[READ])

    def has_message(self):
        """Is there a message to read: is the mailbox full, has a writing been completed?"""
        return self.full() if self.mailbox else bool(self.completed[WRITE])

    def tell(self, direction, offset, octet, frame, mapped):
        """A done store or fetch; frame is None for the local side."""
        transaction = self.open(direction)
        if transaction is None:
            transaction = Transaction(len(self.completed[WRITE]))
            self.all[direction].append(transaction)
        transaction.octets.append((offset, octet))
        transaction.mapped |= mapped
        if frame is not None:
            transaction.frames.add(frame)
        if direction == READ:
            self.judge_reading(transaction, offset, octet)
        if offset + 1 == self.length:
            self.close(direction, transaction, frame)

    def close(self, direction, transaction, frame):
        """The access at the last offset: a local transaction completes, a master's waits."""
        if frame is None:
            self.complete(direction, transaction)
        else:
            transaction.state = "waiting"
            self.closing_frame = frame

    def complete(self, direction, transaction):
        """A transaction completes."""
        transaction.state = "completed"
        self.completed[direction].append(transaction)
        if self.mailbox:
            self.judge_mailbox(direction)

    def frame_kept(self):
        """A kept end: a waiting transaction completes."""
        direction = self.master_goes()
        for transaction in self.all[direction][-1:]:
            if transaction.state == "waiting":
                self.complete(direction, transaction)

    def frame_dropped(self, frame):
        """A dropped end: the master's transaction is cancelled if the frame did an access in it."""
        for transaction in self.all[self.master_goes()][-1:]:
            if transaction.state in ("open", "waiting") and frame in transaction.frames:
                transaction.state = "cancelled"

    def judge_reading(self, reading, offset, octet):
        """The octet just fetched is that of the latest writing completed before the reading opened."""
        if reading.writings_before == 0:
            raise Broken(LATEST, "channel %d: a reading opened before a writing completed" % self.channel)
        wanted = self.completed[WRITE][reading.writings_before - 1].message().get(offset)
        if wanted != octet:
            raise Broken(LATEST, "channel %d, reading %d: offset %d fetched %02X, writing %d has %s there" % (
                self.channel, len(self.all[READ]), offset, octet, reading.writings_before, shown(wanted)))

    def judge_mailbox(self, direction):
        """Completed readings and writings of a mailbox pair off, one by one."""
        writings, readings = self.completed[WRITE], self.completed[READ]
        if len(writings) - len(readings) not in (0, 1):
            raise Broken(MAILBOX_COUNT, "channel %d: %d writings, %d readings" % (
                self.channel, len(writings), len(readings)))
        if direction == READ:
            writing = writings[len(readings) - 1]
            difference = readings[-1].differs_from(writing)
            if difference is not None:
                offset, octet = difference
                raise Broken(MAILBOX, "channel %d, n = %d: fetched %02X at offset %d, the writing has %s there" % (
                    self.channel, len(readings), octet, offset, shown(writing.message().get(offset))))


def shown(octet):
    """An octet of a message, or that it has none."""
    return "nothing" if octet is None else "%02X" % octet


# ---------------------------------------------------------------- the running frame

# command: (whom it addresses, what it asks for)
COMMANDS = {
    1: ("position", "read"), 2: ("position", "write"), 3: ("position", "both"),
    4: ("configured", "read"), 5: ("configured", "write"), 6: ("configured", "both"),
    7: ("all", "read"), 8: ("all", "write"), 9: ("all", "both"),
    10: ("logical", "read"), 11: ("logical", "write"), 12: ("logical", "both"),
    13: ("position", "either"), 14: ("configured", "either"),
}
HEAD = 10       # octets of a datagram before its data


class RunningFrame:
    """A running frame as its octets tell it."""

    def __init__(self, serial):
        self.serial = serial
        self.count = 0
        self.overrun = False
        self.part = "header"        # header, datagram, padding or passing
        self.octets = []            # of the header or of the datagram that runs
        self.addressed = False
        self.waiting = {}           # register octets that wait for the end

    def field(self, first, count):
        """A field of the datagram, low octet first."""
        return sum(octet << 8 * i for i, octet in enumerate(self.octets[first:first + count]))

    def length(self):
        """LEN of the datagram."""
        return self.field(6, 2) & 0x7FF

    def data_index(self):
        """Which data octet of its datagram the next octet is; None if it is none."""
        index = len(self.octets) - HEAD
        return index if self.part == "datagram" and 0 <= index < self.length() else None

    def wants(self, direction):
        """Does the datagram ask for this direction here?"""
        action = COMMANDS.get(self.octets[0], (None, None))[1]
        if action == "either":
            return self.addressed == (direction == READ)
        return self.addressed and action in (direction, "both")

    def take(self, octet, address, alias):
        """Moves on by one octet."""
        self.count += 1
        self.octets.append(octet)
        if self.part == "header" and len(self.octets) == 2:
            self.turn_to("datagram" if octet >> 4 == 1 else "passing")
        elif self.part == "datagram" and len(self.octets) == 4:
            self.addressed = self.is_addressed(address, alias)
        elif self.part == "datagram" and len(self.octets) > HEAD and len(self.octets) == HEAD + self.length() + 2:
            self.turn_to("datagram" if self.octets[7] & 0x80 else "padding")

    def turn_to(self, part):
        """Begins another part of the frame."""
        self.part, self.octets, self.addressed = part, [], False

    def is_addressed(self, address, alias):
        """Is the station addressed by the datagram, judged by its ADP?"""
        adp = self.field(2, 2)
        by = COMMANDS.get(self.octets[0], ("nobody", None))[0]
        return {"position": adp == 0, "configured": adp in (address, alias),
                "all": True, "logical": True, "nobody": False}[by]


# ---------------------------------------------------------------- the account

ENTITIES, CHANNELS = range(0x0600, 0x0680), range(0x0800, 0x0840)
FIXED, ADDRESS, ALIAS = range(0x0000, 0x000A), range(0x0010, 0x0012), range(0x0012, 0x0014)

# an access: its address and its share of the octet ("unmapped", "whole" or "part")
Access = collections.namedtuple("Access", "address share")


class Account:
    """What the calls and answers so far tell: registers, running frame, stories."""

    def __init__(self, size, number):
        self.size, self.number = size, number
        self.registers = bytearray(0x1000)
        self.frame = None
        self.frames = 0
        self.stories = [None] * 8
        self.past = []

    def field(self, first, count):
        """A field of the registers, low octet first."""
        return int.from_bytes(self.registers[first:first + count], "little")

    # ---- questions

    def area_of(self, address):
        """The story of the service in whose area the address lies, or None."""
        return next((story for story in self.stories if story and address in story.area()), None)

    def asked(self, side, direction, access):
        """The refusal that the questions give to an access, or None."""
        address, share = access
        if share != "unmapped" and not 0x1000 <= address <= 0xFFFF:
            return fault(12, address)
        if address < 0x1000:
            return self.register_asked(side, direction, address)
        if address - FIRST_PLACE >= self.size:
            return memory_fault(address - FIRST_PLACE)
        story = self.area_of(address)
        if story is None:
            return None
        number = 13 if share == "part" else self.window_asked(story, side, direction, address - story.start)
        return None if number is None else fault(number, address, story.channel)

    def register_asked(self, side, direction, address):
        """The refusal of an access to a register, or None."""
        if not any(address in listed for listed in (FIXED, ADDRESS, ALIAS, ENTITIES, CHANNELS)):
            return fault(1, address)
        if direction == READ:
            return None
        if address in FIXED or (address in ALIAS) != (side == LOCAL):
            return fault(2, address)
        channel, octet = divmod(address - CHANNELS.start, 8)
        if address in CHANNELS and octet <= 4 and self.stories[channel]:
            return fault(3, address, channel)
        return None

    def window_asked(self, story, side, direction, offset):
        """The number of the refusal of an access to an area, or None."""
        if offset >= story.length:
            return 5
        if story.side[direction] != side:
            return 6
        if side == MASTER and story.closing_frame == self.frame.serial:
            return 7
        if offset > story.taken(direction):
            return 8
        if story.open(direction):
            return None
        if story.mailbox:
            if direction == WRITE:
                return 9 if story.full() else None
            return None if story.full() else 10
        return 11 if direction == READ and not story.completed[WRITE] else None

    # ---- mapping

    def mapped(self, direction, logical):
        """The accesses of a logical octet in a direction: by entity, then by address."""
        accesses, free = [], 0xFF
        for base in range(ENTITIES.start, ENTITIES.stop, 16):
            bits, landing = self.entity_bits(base, direction, logical)
            bits &= free
            free &= ~bits
            accesses += landed(bits, landing)
        return accesses

    def entity_bits(self, base, direction, logical):
        """The bits of a logical octet that an entity covers, as a mask, and where its bit 0 lands
        (a physical bit; of use for covered bits only)."""
        length, kind, active = self.field(base + 4, 2), self.registers[base + 11], self.registers[base + 12] & 1
        if not active or not kind & (1 if direction == READ else 2) or length == 0 or logical >= 2 ** 32:
            return 0, 0
        start = self.field(base, 4)
        first = 8 * start + (self.registers[base + 6] & 7)
        last = 8 * (start + length - 1) + (self.registers[base + 7] & 7)
        bits = sum(1 << i for i in range(8) if first <= 8 * logical + i <= last)
        return bits, 8 * self.field(base + 8, 2) + (self.registers[base + 10] & 7) + 8 * logical - first

    # ---- what was done

    def tell(self, side, direction, access, octet):
        """A done access with the octet stored or fetched."""
        story = self.area_of(access.address)
        if story is not None:
            frame = self.frame.serial if side == MASTER else None
            story.tell(direction, access.address - story.start, octet, frame, access.share == "whole")
        elif access.address < 0x1000 and direction == WRITE:
            if side == MASTER:
                self.frame.waiting[access.address] = octet
            else:
                self.registers[access.address] = octet

    def judge_words(self, side, direction, access, refused):
        """The refusals in words."""
        story = self.area_of(access.address)
        if story is None or not self.in_turn(story, side, direction, access):
            return
        closed = side == MASTER and story.closing_frame == self.frame.serial
        if direction == WRITE and refused != (closed or story.full()):
            raise Broken(IN_WORDS_WRITE, "channel %d: refused %s, closed %s, full %s" % (
                story.channel, refused, closed, story.full()))
        if direction == READ and refused != (closed or not story.has_message()):
            raise Broken(IN_WORDS_READ, "channel %d: refused %s, closed %s, a message %s" % (
                story.channel, refused, closed, story.has_message()))

    def in_turn(self, story, side, direction, access):
        """Would none of the questions for split octet, window, side and order refuse it?"""
        offset = access.address - story.start
        return (access.share != "part" and offset < story.length and story.side[direction] == side
                and offset <= story.taken(direction))

    # ---- the five calls, each with its answer

    def judge(self, call, answer):
        """Follows one call and objects if its answer breaks the promise."""
        if call.kind == "unreadable":
            compare("line %d: cannot be read" % call.line, answer)
        else:
            getattr(self, call.kind)(call, answer)

    def begin(self, _, answer):
        """Begin: refused exactly if a frame runs."""
        if self.frame:
            compare("begin: " + fault(14), answer)
            return
        compare("begin: running", answer)
        self.frames += 1
        self.frame = RunningFrame(self.frames)

    def strange(self, call):
        """Runs no frame, or does the frame that is handed in carry another number?"""
        return self.frame is None or call.number not in (OWN, self.number)

    def octet(self, call, answer):
        """Octet: its reads are asked and told, then its writes."""
        said = "octet %02X: " % call.octet
        if self.strange(call):
            compare(said + fault(15), answer)
        elif self.frame.count >= FRAME_LIMIT:
            self.frame.overrun = True
            compare(said + fault(16), answer)
        else:
            parts = answer.split("; ")
            if len(parts) != 3:
                raise Broken(AS_ASKED, "the questions refuse nothing of the octet itself, the answer is '%s'" % answer)
            compare(said + "forwards ..", parts[0])
            accesses = {direction: self.accesses(direction) for direction in (READ, WRITE)}
            self.outcome(READ, accesses[READ], parts[1], None)
            self.outcome(WRITE, accesses[WRITE], parts[2], call.octet)
            self.frame.take(call.octet, self.field(ADDRESS.start, 2), self.field(ALIAS.start, 2))

    def accesses(self, direction):
        """The accesses that the next octet of the running frame makes in a direction."""
        index = self.frame.data_index()
        if index is None or not self.frame.wants(direction):
            return []
        if COMMANDS[self.frame.octets[0]][0] == "logical":
            return self.mapped(direction, self.frame.field(2, 4) + index)
        return [Access(self.frame.field(4, 2) + index, "unmapped")]

    def outcome(self, direction, accesses, answer, octet):
        """One direction of an octet call: compares its outcome, and tells what was done."""
        refusals = [self.asked(MASTER, direction, access) for access in accesses]
        for access in accesses:
            self.judge_words(MASTER, direction, access, "refused" in answer)
        first = next((refusal for refusal in refusals if refusal), None)
        done = ".." if direction == READ else "done"
        octets = compare("%s %s" % (direction, (first or done) if accesses else "none"), answer)
        if accesses and first is None:
            for access in accesses:
                self.tell(MASTER, direction, access, octets[0] if octets else octet)

    def end(self, call, answer):
        """End: refused, dropped or kept."""
        said = "end %s: " % ("good" if call.good else "bad")
        if self.strange(call):
            compare(said + fault(15), answer)
            return
        number = self.end_asked(call.good)
        if number is None:
            refusal = self.keep()
            compare(said + "kept" + ("; " + refusal if refusal else ""), answer)
        else:
            compare(said + fault(number).replace("refused", "dropped"), answer)
            for story in filter(None, self.stories):
                story.frame_dropped(self.frame.serial)
        self.frame = None

    def end_asked(self, good):
        """The number with which the running frame is dropped, or None."""
        if self.frame.overrun:
            return 16
        if self.frame.part not in ("padding", "passing"):
            return 17
        return None if good else 18

    def keep(self):
        """A kept end; answers the refusal of the lowest channel refused, or None."""
        for story in filter(None, self.stories):
            story.frame_kept()
        for address, octet in self.frame.waiting.items():
            self.registers[address] = octet
        for channel, story in enumerate(self.stories):
            if story and not self.enable(channel):
                self.past.append(story)
                self.stories[channel] = None
        refusals = [self.enabled(channel) for channel in range(8)
                    if self.stories[channel] is None and self.enable(channel)]
        return next(filter(None, refusals), None)

    def enable(self, channel):
        """The enable bit of a channel."""
        return self.registers[CHANNELS.start + 8 * channel + 6] & 1

    def enabled(self, channel):
        """Judges an enabling: begins a service, or answers the refusal and clears the bit."""
        base = CHANNELS.start + 8 * channel
        control = self.registers[base + 4]
        story = Story(channel, self.field(base, 2), self.field(base + 2, 2), control)
        number = self.enabling_asked(story, control)
        if number is None:
            self.stories[channel] = story
            return None
        self.registers[base + 6] = 0
        return fault(number, 0, channel)

    def enabling_asked(self, story, control):
        """The number with which an enabling is refused, or None."""
        if control & 3 not in (0, 2) or control >> 2 & 3 not in (0, 1):
            return 19
        if story.length < 2:
            return 20
        area = story.area()
        if area.start < FIRST_PLACE or area.stop > FIRST_PLACE + self.size:
            return 21
        touching = any(area.start < other.area().stop and other.area().start < area.stop
                       for other in filter(None, self.stories))
        return 22 if touching else None

    def read(self, call, answer):
        """Local read."""
        self.local(READ, call, "read 0x%04X: " % call.address, "..", answer)

    def write(self, call, answer):
        """Local write."""
        self.local(WRITE, call, "write 0x%04X %02X: " % (call.address, call.octet), "done", answer)

    def local(self, direction, call, said, done, answer):
        """One access of the local side."""
        access = Access(call.address, "unmapped")
        self.judge_words(LOCAL, direction, access, "refused" in answer)
        refusal = self.asked(LOCAL, direction, access)
        octets = compare(said + (refusal or done), answer)
        if refusal is None:
            self.tell(LOCAL, direction, access, octets[0] if octets else call.octet)


def landed(bits, landing):
    """The accesses that an entity's bits of one logical octet make, bit i landing on landing + i."""
    addresses = sorted({(landing + i) // 8 for i in range(8) if bits >> i & 1})
    whole = bits == 0xFF and len(addresses) == 1
    return [Access(address, "whole" if whole else "part") for address in addresses]


# ---------------------------------------------------------------- judging

Objection = collections.namedtuple("Objection", "line answer sentence found")


def judge(text, printed):
    """Judges a script and what was printed for it; answers (the first objection or None, account)."""
    script = Script(text)
    account = Account(script.size, script.number)
    answers = printed.splitlines()
    for position, call in enumerate(script.calls):
        answer = answers[position] if position < len(answers) else ""
        try:
            if not answer or answer.startswith("memory: "):
                raise Broken(ONE_ANSWER, "no answer to this call")
            account.judge(call, answer)
        except Broken as broken:
            return Objection(call.line, position + 1, broken.sentence, broken.found), account
    rest = answers[len(script.calls):]
    if rest and not rest[0].startswith("memory: "):
        return Objection(None, len(script.calls) + 1, ONE_ANSWER, "an answer without a call: '%s'" % rest[0]), account
    return None, account


def told(objection):
    """An objection in words."""
    where = "after the last call" if objection.line is None else "line %d of the script" % objection.line
    return "%s, answer %d: broken is '%s': %s" % (where, objection.answer, objection.sentence, objection.found)


def main():
    """Judges the two files named."""
    if len(sys.argv) != 3:
        sys.exit(__doc__)
    with open(sys.argv[1]) as script, open(sys.argv[2]) as answers:
        objection, account = judge(script.read(), answers.read())
    if objection:
        print(told(objection))
        return 1
    stories = account.past + [story for story in account.stories if story]
    print("the promise holds: %d services, %d completed writings, %d completed readings" % (
        len(stories), sum(len(s.completed[WRITE]) for s in stories), sum(len(s.completed[READ]) for s in stories)))
    return 0


if __name__ == "__main__":
    sys.exit(main())
