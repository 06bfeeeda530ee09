#!/usr/bin/env python3
"""Another implementation of the station's rules, to compare the proved one with.

It was written from the rules by somebody who never saw the proved station, and shares nothing
with it. It follows the wording of the rules step by step and favours plainness over speed.
Reads a script (docs/RULES.md, 'The console's script') on standard input and prints its answers.
"""

import re
import sys

MEMORY_LIMIT = 61440          # the most octets that a memory can have
MASTER, LOCAL = "master", "local"
READ, WRITE = "read", "write"
NOT_WANTED = "not wanted"


# ---------------------------------------------------------------- refusals

class Refusal(Exception):
    """A refusal: its number, the physical address of the access (0 for refusals of frames) and
    the channel concerned (of the area; with 3 and 19 to 22 the channel itself), 255 for none."""

    def __init__(self, number, address=0, channel=255):
        super().__init__(number)
        self.number, self.address, self.channel = number, address, channel

    def text(self):
        return "%d at 0x%04X channel %d" % (self.number, self.address, self.channel)


class MemoryRefusal(Refusal):
    """The memory's own refusal, number 4: it names the place, not an address."""

    def __init__(self, place):
        super().__init__(4)
        self.place = place

    def text(self):
        return "4 at place %d" % self.place


# ---------------------------------------------------------------- the three memories

class Row:
    """Octets in a row."""

    def __init__(self, count):
        self.octets = [0] * min(count, MEMORY_LIMIT)

    def size(self):
        return len(self.octets)

    def read(self, i):
        if not i < self.size():
            raise MemoryRefusal(i)
        return self.octets[i]

    def write(self, i, octet):
        if not i < self.size():
            raise MemoryRefusal(i)
        self.octets[i] = octet


class Words:
    """16-bit words, the even place in the low half."""

    def __init__(self, count):
        self.words = [0] * min(count, MEMORY_LIMIT // 2)

    def size(self):
        return 2 * len(self.words)

    def read(self, i):
        if not i < self.size():
            raise MemoryRefusal(i)
        word = self.words[i // 2]
        return word & 0xFF if i % 2 == 0 else word >> 8

    def write(self, i, octet):
        if not i < self.size():
            raise MemoryRefusal(i)
        word = self.words[i // 2]
        if i % 2 == 0:
            self.words[i // 2] = (word & 0xFF00) | octet
        else:
            self.words[i // 2] = (word & 0x00FF) | (octet << 8)


class Joined:
    """Two memories of any kind joined, the second following the first."""

    def __init__(self, first, second):
        self.first, self.second = first, second

    def size(self):
        return min(self.first.size() + self.second.size(), MEMORY_LIMIT)

    def read(self, i):
        if not i < self.size():
            raise MemoryRefusal(i)
        if i < self.first.size():
            return self.first.read(i)
        return self.second.read(i - self.first.size())

    def write(self, i, octet):
        if not i < self.size():
            raise MemoryRefusal(i)
        if i < self.first.size():
            self.first.write(i, octet)
        else:
            self.second.write(i - self.first.size(), octet)


# ---------------------------------------------------------------- the search

def lowest_covering(entries, place):
    """Index of the lowest entry (first, last) that covers the place; None is an entry
    that covers nothing. Channels use it with addresses, entities with logical bits."""
    for index, entry in enumerate(entries):
        if entry is not None and entry[0] <= place <= entry[1]:
            return index
    return None


# ---------------------------------------------------------------- a channel in service

class Transaction:
    """A writing or a reading that has been opened."""

    def __init__(self):
        self.taken = 0          # offsets 0 to taken-1 have each been accessed
        self.closed = False     # a master's that has closed and waits for its frame's end


class Service:
    """A channel in service: from an accepted enabling to the kept end that clears its enable bit."""

    def __init__(self, start, length, control):
        self.start = start
        self.length = length
        self.mailbox = (control & 3) == 2
        self.storing_side = MASTER if (control >> 2) & 3 == 1 else LOCAL
        # the buffers that have the roles store, ready and fetch
        self.store, self.ready, self.fetch = 0, 1, 2
        self.fresh = False                  # is the ready one fresh?
        self.ever_written = False           # has a writing been completed?
        self.full = False                   # mailbox
        self.status_bit_0 = False
        self.status_bit_1 = False
        self.writing = None                 # the storing side's transaction
        self.reading = None                 # the fetching side's transaction

    def area_size(self):
        return self.length if self.mailbox else 3 * self.length

    def area(self):
        return (self.start, self.start + self.area_size() - 1)

    def side_of(self, kind):
        """The side that is allowed this direction."""
        fetching_side = LOCAL if self.storing_side == MASTER else MASTER
        return self.storing_side if kind == WRITE else fetching_side

    def transaction(self, kind):
        return self.writing if kind == WRITE else self.reading

    def set_transaction(self, kind, transaction):
        if kind == WRITE:
            self.writing = transaction
        else:
            self.reading = transaction

    def master_kind(self):
        return WRITE if self.storing_side == MASTER else READ

    def open(self, kind):
        self.set_transaction(kind, Transaction())
        if kind == WRITE:
            self.status_bit_1 = False
        else:
            self.status_bit_0 = False
            if not self.mailbox and self.fresh:
                # the reading takes the fresh buffer and stays with it
                self.ready, self.fetch = self.fetch, self.ready
                self.fresh = False

    def complete(self, kind):
        self.set_transaction(kind, None)
        if kind == WRITE:
            self.status_bit_0 = True
            self.ever_written = True
            if self.mailbox:
                self.full = True
            else:
                # the buffer just written becomes the ready one, and fresh
                self.store, self.ready = self.ready, self.store
                self.fresh = True
        else:
            self.status_bit_1 = True
            if self.mailbox:
                self.full = False

    def cancel(self, kind):
        self.set_transaction(kind, None)    # roles, freshness and status bits stay as they are

    def physical(self, kind, offset):
        """Where in the area this offset of the window is for this direction."""
        if self.mailbox:
            return self.start + offset
        buffer = self.store if kind == WRITE else self.fetch
        return self.start + buffer * self.length + offset

    def status(self):
        octet = 0
        if self.status_bit_0:
            octet |= 0x01
        if self.status_bit_1:
            octet |= 0x02
        if self.mailbox:
            if self.full:
                octet |= 0x08
        else:
            if not self.ever_written:
                number = 3
            elif self.fresh:
                number = self.ready
            else:
                number = self.fetch
            octet |= number << 4
        return octet


# ---------------------------------------------------------------- a running frame

class Datagram:
    """The datagram that is running through: its fields as far as they have come."""

    def __init__(self):
        self.position = 0           # octets of this datagram so far
        self.command = 0
        self.adp = 0                # incoming ADP
        self.address = 0            # ADO, or the logical address
        self.length = 0
        self.next = 0
        self.reads = False
        self.writes = False
        self.concerned = {READ: False, WRITE: False}
        self.refused = {READ: False, WRITE: False}
        self.counter = 0            # incoming counter


class Frame:
    """The running frame."""

    def __init__(self):
        self.taken = 0              # octets taken
        self.all_taken = True       # False once one was refused with 16
        self.where = "length"       # length, type, datagram, padding, passing
        self.datagram = None
        self.waiting_registers = {}
        self.accessed = set()       # channels with a transaction in which it did an access
        self.closed = set()         # channels where it closed a transaction


class OctetAnswer:
    """What an octet call answers."""

    def __init__(self, forwarded, read=NOT_WANTED, write=NOT_WANTED):
        self.forwarded = forwarded
        self.read = read            # NOT_WANTED, an octet, or a Refusal
        self.write = write          # NOT_WANTED, "done", or a Refusal


# ---------------------------------------------------------------- the station

AUTO_INCREMENT = (1, 2, 3)
CONFIGURED = (4, 5, 6)
BROADCAST = (7, 8, 9)
LOGICAL = (10, 11, 12)
READING_COMMANDS = (1, 3, 4, 6, 7, 9, 10, 12)
WRITING_COMMANDS = (2, 3, 5, 6, 8, 9, 11, 12)
INCREMENTING_ADP = (1, 2, 3, 7, 8, 9, 13)


class Station:
    """The station: registers, channels, running frame and memory, with the five calls."""

    def __init__(self, memory, number):
        self.memory = memory
        self.number = number
        self.registers = {}
        for first, last in ((0x0000, 0x0009), (0x0010, 0x0013), (0x0600, 0x067F), (0x0800, 0x083F)):
            for address in range(first, last + 1):
                self.registers[address] = 0
        self.registers[0x0004] = 8
        self.registers[0x0005] = 8
        self.registers[0x0006] = memory.size() // 1024
        self.services = [None] * 8
        self.frame = None

    # ---- registers

    def register_writer(self, address):
        if address <= 0x0009:
            return None
        if address in (0x0012, 0x0013):
            return LOCAL
        return MASTER

    def register_mask(self, address):
        """The bits of a register octet that a write sets; unnamed bits stay 0."""
        if 0x0600 <= address <= 0x067F:
            octet = (address - 0x0600) % 16
            return {6: 0x07, 7: 0x07, 10: 0x07, 11: 0x03, 12: 0x01,
                    13: 0x00, 14: 0x00, 15: 0x00}.get(octet, 0xFF)
        if 0x0800 <= address <= 0x083F:
            octet = (address - 0x0800) % 8
            return {4: 0x7F, 5: 0x00, 6: 0x01, 7: 0x00}.get(octet, 0xFF)
        return 0xFF

    def register_read(self, address):
        if 0x0800 <= address <= 0x083F and (address - 0x0800) % 8 == 5:
            service = self.services[(address - 0x0800) // 8]
            return 0 if service is None else service.status()
        return self.registers[address]

    def register16(self, address):
        return self.registers[address] | self.registers[address + 1] << 8

    # ---- one access

    def channel_of(self, address):
        areas = [None if s is None else s.area() for s in self.services]
        return lowest_covering(areas, address)

    def ask(self, side, kind, address, mapped_bits):
        """The questions before an access, in the order listed. mapped_bits: None when not
        mapped, else the set of the bits of this physical octet that the entity serves from
        this logical octet. Raises the first no."""
        # a mapped access goes to the memory only
        if mapped_bits is not None:
            if not 0x1000 <= address <= 0xFFFF:
                raise Refusal(12, address)
        # registers
        if address < 0x1000:
            if address not in self.registers:
                raise Refusal(1, address)
            if kind == WRITE and self.register_writer(address) != side:
                raise Refusal(2, address)
            if kind == WRITE and 0x0800 <= address <= 0x083F and (address - 0x0800) % 8 <= 4:
                channel = (address - 0x0800) // 8
                if self.services[channel] is not None:
                    raise Refusal(3, address, channel)
            return
        # the memory has the place
        if not address - 0x1000 < self.memory.size():
            raise MemoryRefusal(address - 0x1000)
        channel = self.channel_of(address)
        if channel is None:
            return
        service = self.services[channel]
        offset = address - service.start
        # a whole octet, in the area of a channel
        if mapped_bits is not None and len(mapped_bits) != 8:
            raise Refusal(13, address, channel)
        # in the window, and this side goes this way
        if not offset < service.length:
            raise Refusal(5, address, channel)
        if service.side_of(kind) != side:
            raise Refusal(6, address, channel)
        # no further access after a closing one in this frame
        if side == MASTER and channel in self.frame.closed:
            raise Refusal(7, address, channel)
        # in order
        transaction = service.transaction(kind)
        taken = 0 if transaction is None else transaction.taken
        if not offset <= taken:
            raise Refusal(8, address, channel)
        # an opening access finds the mailbox empty or full, the buffered channel written
        if transaction is None:
            if service.mailbox:
                if kind == WRITE and service.full:
                    raise Refusal(9, address, channel)
                if kind == READ and not service.full:
                    raise Refusal(10, address, channel)
            else:
                if kind == READ and not service.ever_written:
                    raise Refusal(11, address, channel)

    def access(self, side, kind, address, octet=None, mapped_bits=None):
        """One read or write at one address; answers the octet read, or None of a write.
        A mapped write brings in octet only the bits of mapped_bits."""
        self.ask(side, kind, address, mapped_bits)

        if address < 0x1000:
            if kind == READ:
                return self.register_read(address)
            value = octet & self.register_mask(address)
            if side == MASTER:
                self.frame.waiting_registers[address] = value
            else:
                self.registers[address] = value
            return None

        channel = self.channel_of(address)
        if channel is None:                     # free memory
            place = address - 0x1000
            if kind == READ:
                return self.memory.read(place)
            if mapped_bits is not None:         # the other bits of the octet stay
                mask = sum(1 << bit for bit in mapped_bits)
                octet = (self.memory.read(place) & ~mask & 0xFF) | (octet & mask)
            self.memory.write(place, octet)
            return None

        service = self.services[channel]
        offset = address - service.start
        if service.transaction(kind) is None:   # then the offset is 0
            service.open(kind)
        transaction = service.transaction(kind)
        if side == MASTER:
            self.frame.accessed.add(channel)
        place = service.physical(kind, offset) - 0x1000
        answer = None
        if kind == READ:
            answer = self.memory.read(place)
        else:
            self.memory.write(place, octet)
        if offset == transaction.taken:
            transaction.taken += 1
        if offset == service.length - 1:        # the window's last octet closes it
            if side == MASTER:
                transaction.closed = True
                self.frame.closed.add(channel)
            else:
                service.complete(kind)
        return answer

    # ---- local calls

    def local_read(self, address):
        return self.access(LOCAL, READ, address)

    def local_write(self, address, octet):
        self.access(LOCAL, WRITE, address, octet)

    # ---- mapping

    def entity(self, index):
        base = 0x0600 + 16 * index
        octets = [self.registers[base + i] for i in range(16)]
        return {
            "logical": octets[0] | octets[1] << 8 | octets[2] << 16 | octets[3] << 24,
            "length": octets[4] | octets[5] << 8,
            "start bit": octets[6] & 7,
            "stop bit": octets[7] & 7,
            "physical": octets[8] | octets[9] << 8,
            "physical bit": octets[10] & 7,
            READ: bool(octets[11] & 1),
            WRITE: bool(octets[11] & 2),
            "active": bool(octets[12] & 1),
        }

    def coverage(self, entity):
        """First and last logical bit covered, or None."""
        if entity["length"] == 0:
            return None
        first = 8 * entity["logical"] + entity["start bit"]
        last = 8 * (entity["logical"] + entity["length"] - 1) + entity["stop bit"]
        last = min(last, 8 * 2 ** 32 - 1)       # there are 2^32 logical octets
        if last < first:                        # the last stands before the first
            return None
        return (first, last)

    def mapped_accesses(self, kind, logical):
        """The accesses that one logical octet makes in this direction, by entity, then by
        address: a list of (address, {bit of the physical octet: bit of the logical octet})."""
        entities = [self.entity(i) for i in range(8)]
        entries = [self.coverage(e) if e["active"] and e[kind] else None for e in entities]
        found = {}
        for bit in range(8):
            logical_bit = 8 * logical + bit
            index = lowest_covering(entries, logical_bit)
            if index is None:
                continue
            e = entities[index]
            k = logical_bit - entries[index][0]
            physical_bit = 8 * e["physical"] + e["physical bit"] + k
            found.setdefault((index, physical_bit // 8), {})[physical_bit % 8] = bit
        return [(address, found[(index, address)]) for index, address in sorted(found)]

    # ---- frames

    def begin(self):
        if self.frame is not None:
            raise Refusal(14)
        self.frame = Frame()

    def octet(self, number, incoming):
        if number != self.number or self.frame is None:
            raise Refusal(15)
        frame = self.frame
        if not frame.taken < 1500:
            frame.all_taken = False             # the end will ask
            raise Refusal(16)
        frame.taken += 1
        if frame.where == "length":
            frame.where = "type"
            return OctetAnswer(incoming)
        if frame.where == "type":
            if incoming >> 4 == 1:              # bits 12-15
                frame.where = "datagram"
                frame.datagram = Datagram()
            else:
                frame.where = "passing"
            return OctetAnswer(incoming)
        if frame.where == "datagram":
            answer = self.datagram_octet(frame.datagram, incoming)
            d = frame.datagram
            d.position += 1
            if d.position > 8 and d.position == 10 + d.length + 2:
                if d.next:
                    frame.datagram = Datagram()
                else:
                    frame.where = "padding"
            return answer
        return OctetAnswer(incoming)            # padding or passing

    def datagram_octet(self, d, incoming):
        p = d.position
        if p == 0:
            d.command = incoming
            return OctetAnswer(incoming)
        if p == 1:
            return OctetAnswer(incoming)
        if p == 2:
            if d.command in LOGICAL:
                d.address = incoming
                return OctetAnswer(incoming)
            d.adp = incoming
            if d.command in INCREMENTING_ADP:
                return OctetAnswer((incoming + 1) & 0xFF)
            return OctetAnswer(incoming)
        if p == 3:
            if d.command in LOGICAL:
                d.address |= incoming << 8
                d.reads = d.command in READING_COMMANDS
                d.writes = d.command in WRITING_COMMANDS
                return OctetAnswer(incoming)
            d.adp |= incoming << 8
            self.judge_adp(d)                   # addressed or not, from here on
            if d.command in INCREMENTING_ADP:
                return OctetAnswer(((d.adp + 1) % 65536) >> 8)
            return OctetAnswer(incoming)
        if p == 4:
            d.address |= incoming << (16 if d.command in LOGICAL else 0)
            return OctetAnswer(incoming)
        if p == 5:
            d.address |= incoming << (24 if d.command in LOGICAL else 8)
            return OctetAnswer(incoming)
        if p == 6:
            d.length = incoming
            return OctetAnswer(incoming)
        if p == 7:
            d.length |= (incoming & 0x07) << 8
            d.next = incoming >> 7
            return OctetAnswer(incoming)
        if p in (8, 9):
            return OctetAnswer(incoming)
        if p < 10 + d.length:
            return self.data_octet(d, p - 10, incoming)
        if p == 10 + d.length:
            d.counter = incoming
            return OctetAnswer((incoming + self.counter_addition(d)) & 0xFF)
        d.counter |= incoming << 8
        return OctetAnswer(((d.counter + self.counter_addition(d)) % 65536) >> 8)

    def judge_adp(self, d):
        position_0 = d.adp == 0
        configured = d.adp == self.register16(0x0010) or d.adp == self.register16(0x0012)
        if d.command in AUTO_INCREMENT:
            addressed = position_0
        elif d.command in CONFIGURED:
            addressed = configured
        elif d.command in BROADCAST:
            addressed = True
        elif d.command == 13:
            d.reads, d.writes = position_0, not position_0
            return
        elif d.command == 14:
            d.reads, d.writes = configured, not configured
            return
        else:
            addressed = False
        d.reads = addressed and d.command in READING_COMMANDS
        d.writes = addressed and d.command in WRITING_COMMANDS

    def counter_addition(self, d):
        add = 0
        if d.concerned[READ] and not d.refused[READ]:
            add += 1
        if d.concerned[WRITE] and not d.refused[WRITE]:
            add += 2 if d.command in (3, 6, 9, 12) else 1
        return add

    def data_octet(self, d, j, incoming):
        answer = OctetAnswer(incoming)
        place = d.address + j
        # read before written
        if d.reads:
            if d.command in LOGICAL:
                self.mapped_read(place, incoming, answer)
            else:
                try:
                    answer.read = self.access(MASTER, READ, place)
                    answer.forwarded = answer.read
                    if d.command in (7, 9):
                        answer.forwarded = incoming | answer.read
                except Refusal as refusal:
                    answer.read = refusal
        if d.writes:
            if d.command in LOGICAL:
                self.mapped_write(place, incoming, answer)
            else:
                try:
                    self.access(MASTER, WRITE, place, incoming)
                    answer.write = "done"
                except Refusal as refusal:
                    answer.write = refusal
        for kind, outcome in ((READ, answer.read), (WRITE, answer.write)):
            if outcome is not NOT_WANTED:
                d.concerned[kind] = True
            if isinstance(outcome, Refusal):
                d.refused[kind] = True
        return answer

    def mapped_read(self, logical, incoming, answer):
        accesses = self.mapped_accesses(READ, logical)
        if not accesses:
            return
        fetched, forwarded, first_refusal = 0, incoming, None
        for address, bits in accesses:
            try:
                octet = self.access(MASTER, READ, address, mapped_bits=set(bits))
            except Refusal as refusal:
                if first_refusal is None:
                    first_refusal = refusal
                continue
            for physical_bit, logical_bit in bits.items():
                value = (octet >> physical_bit) & 1
                fetched |= value << logical_bit
                forwarded = (forwarded & ~(1 << logical_bit)) | (value << logical_bit)
        answer.forwarded = forwarded
        answer.read = fetched if first_refusal is None else first_refusal

    def mapped_write(self, logical, incoming, answer):
        accesses = self.mapped_accesses(WRITE, logical)
        if not accesses:
            return
        first_refusal = None
        for address, bits in accesses:
            octet = 0
            for physical_bit, logical_bit in bits.items():
                octet |= ((incoming >> logical_bit) & 1) << physical_bit
            try:
                self.access(MASTER, WRITE, address, octet, mapped_bits=set(bits))
            except Refusal as refusal:
                if first_refusal is None:
                    first_refusal = refusal
        answer.write = "done" if first_refusal is None else first_refusal

    def end(self, number, good):
        """Answers (kept, refusal or None); a refusal with 15 is raised."""
        if number != self.number or self.frame is None:
            raise Refusal(15)
        frame = self.frame
        if not frame.all_taken:
            refusal = Refusal(16)
        elif frame.where not in ("padding", "passing"):
            refusal = Refusal(17)
        elif not good:
            refusal = Refusal(18)
        else:
            refusal = None

        if refusal is not None:                 # dropped
            for channel in frame.accessed:
                service = self.services[channel]
                service.cancel(service.master_kind())
            self.frame = None                   # waiting registers are discarded with it
            return False, refusal

        # kept: first, waiting transactions complete
        for service in self.services:
            if service is not None:
                kind = service.master_kind()
                transaction = service.transaction(kind)
                if transaction is not None and transaction.closed:
                    service.complete(kind)
        # second, waiting registers are set
        for address, octet in frame.waiting_registers.items():
            self.registers[address] = octet
        # third, services end whose enable bit is now 0
        for channel in range(8):
            if self.services[channel] is not None and not self.enable_bit(channel):
                self.services[channel] = None
        # last, enablings are judged, from channel 0 to channel 7
        lowest = None
        for channel in range(8):
            if self.services[channel] is None and self.enable_bit(channel):
                number_of_no = self.judge_enabling(channel)
                if number_of_no is not None:
                    self.registers[0x0800 + 8 * channel + 6] = 0
                    if lowest is None:
                        lowest = Refusal(number_of_no, 0, channel)
        self.frame = None
        return True, lowest

    def enable_bit(self, channel):
        return self.registers[0x0800 + 8 * channel + 6] & 1 == 1

    def judge_enabling(self, channel):
        base = 0x0800 + 8 * channel
        control = self.registers[base + 4]
        if control & 3 not in (0, 2) or (control >> 2) & 3 not in (0, 1):
            return 19
        service = Service(self.register16(base), self.register16(base + 2), control)
        if not service.length >= 2:
            return 20
        first, last = service.area()
        if not (first >= 0x1000 and last - 0x1000 < self.memory.size()):
            return 21
        for other in self.services:
            if other is not None:
                other_first, other_last = other.area()
                if first <= other_last and other_first <= last:
                    return 22
        self.services[channel] = service
        return None


# ---------------------------------------------------------------- the script

class CannotBeRead(Exception):
    """The line is no item of a script."""


def number_of(word, limit=None):
    if re.fullmatch(r"0x[0-9A-Fa-f]+", word):
        value = int(word, 16)
    elif re.fullmatch(r"[0-9]+", word):
        value = int(word, 10)
    else:
        raise CannotBeRead
    if limit is not None and value > limit:
        raise CannotBeRead
    return value


def octet_of(word):
    if not re.fullmatch(r"[0-9A-Fa-f]{2}", word):
        raise CannotBeRead
    return int(word, 16)


class Script:
    """Plays a script on a station that is made at the first call, and prints the answers."""

    def __init__(self, out):
        self.out = out
        self.memory = None
        self.number = None
        self.made = None

    def say(self, text):
        self.out.write(text + "\n")

    def station(self):
        if self.made is None:
            if self.memory is None:
                self.memory = Row(4096)
            if self.number is None:
                self.number = 1
            self.made = Station(self.memory, self.number)
        return self.made

    def line(self, words):
        item, rest = words[0], words[1:]
        if item == "memory":
            if self.made is not None or self.memory is not None:
                raise CannotBeRead
            self.memory = self.memory_of(rest)
        elif item == "station":
            if self.made is not None or self.number is not None or len(rest) != 1:
                raise CannotBeRead
            self.number = number_of(rest[0], 0xFFFF)
        elif item == "begin":
            if rest:
                raise CannotBeRead
            self.begin()
        elif item == "octet":
            if len(rest) not in (1, 3):
                raise CannotBeRead
            octet = octet_of(rest[0])
            self.octet(octet, self.of(rest[1:]))
        elif item == "octets":
            if not rest:
                raise CannotBeRead
            octets = [octet_of(word) for word in rest]
            for octet in octets:
                self.octet(octet, None)
        elif item == "end":
            if len(rest) not in (1, 3) or rest[0] not in ("good", "bad"):
                raise CannotBeRead
            self.end(rest[0], self.of(rest[1:]))
        elif item == "read":
            if len(rest) != 1:
                raise CannotBeRead
            self.read(number_of(rest[0], 0xFFFF))
        elif item == "write":
            if len(rest) != 2:
                raise CannotBeRead
            self.write(number_of(rest[0], 0xFFFF), octet_of(rest[1]))
        else:
            raise CannotBeRead

    def memory_of(self, rest):
        if len(rest) == 2 and rest[0] == "octets":
            return Row(number_of(rest[1]))
        if len(rest) == 2 and rest[0] == "words":
            return Words(number_of(rest[1]))
        if len(rest) == 3 and rest[0] == "joined":
            return Joined(Row(number_of(rest[1])), Words(number_of(rest[2])))
        raise CannotBeRead

    def of(self, rest):
        if not rest:
            return None
        if rest[0] != "of":
            raise CannotBeRead
        return number_of(rest[1], 0xFFFF)

    def begin(self):
        try:
            self.station().begin()
            self.say("begin: running")
        except Refusal as refusal:
            self.say("begin: refused " + refusal.text())

    def octet(self, octet, number):
        station = self.station()
        try:
            answer = station.octet(station.number if number is None else number, octet)
        except Refusal as refusal:
            self.say("octet %02X: refused %s" % (octet, refusal.text()))
            return
        if answer.read is NOT_WANTED:
            read = "none"
        elif isinstance(answer.read, Refusal):
            read = "refused " + answer.read.text()
        else:
            read = "%02X" % answer.read
        if answer.write is NOT_WANTED:
            write = "none"
        elif isinstance(answer.write, Refusal):
            write = "refused " + answer.write.text()
        else:
            write = "done"
        self.say("octet %02X: forwards %02X; read %s; write %s" % (octet, answer.forwarded, read, write))

    def end(self, verdict, number):
        station = self.station()
        try:
            kept, refusal = station.end(station.number if number is None else number, verdict == "good")
        except Refusal as refusal:
            self.say("end %s: refused %s" % (verdict, refusal.text()))
            return
        if not kept:
            self.say("end %s: dropped %s" % (verdict, refusal.text()))
        elif refusal is not None:
            self.say("end %s: kept; refused %s" % (verdict, refusal.text()))
        else:
            self.say("end %s: kept" % verdict)

    def read(self, address):
        try:
            self.say("read 0x%04X: %02X" % (address, self.station().local_read(address)))
        except Refusal as refusal:
            self.say("read 0x%04X: refused %s" % (address, refusal.text()))

    def write(self, address, octet):
        try:
            self.station().local_write(address, octet)
            self.say("write 0x%04X %02X: done" % (address, octet))
        except Refusal as refusal:
            self.say("write 0x%04X %02X: refused %s" % (address, octet, refusal.text()))

    def dump(self):
        memory = self.station().memory
        size = memory.size()
        self.say("memory: %d octets" % size)
        for first in range(0, size, 16):
            row = [memory.read(i) for i in range(first, min(first + 16, size))]
            if any(row):
                self.say("%04X: %s" % (first, " ".join("%02X" % octet for octet in row)))


def run(lines, out):
    script = Script(out)
    for count, line in enumerate(lines, start=1):
        line = line.rstrip("\r\n")
        words = line.split()
        if not words or line.startswith("#"):
            continue
        try:
            script.line(words)
        except CannotBeRead:
            script.say("line %d: cannot be read" % count)
    script.dump()


if __name__ == "__main__":
    run(sys.stdin, sys.stdout)
