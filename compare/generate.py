#!/usr/bin/env python3
"""generate.py SEED: prints the script of a seed (format: docs/RULES.md, 'The console's script').

A script is a list of moves, each meant to take the station a step further: enable a channel, hand
a message over, drop a frame in the middle of one, map a window. To get deep, the generator keeps a
rough belief of the station (which channels are in service, how far their transactions are). The
belief only steers: nothing is checked against it, and moves that go wrong on purpose are frequent.
The same seed gives the same script everywhere.
"""

import collections
import random
import sys

READ, WRITE, BOTH = "read", "write", "both"
LOGICAL = {READ: 10, WRITE: 11, BOTH: 12}
FIRST = 0x1000                      # address of the memory's first place
CHANNELS, ENTITIES = 0x0800, 0x0600
LOGICAL_STARTS = (0x2000, 0x2000, 0x2004, 0x20FF, 0x12345678, 0xFFFFFFFC)
BORDERS = (0x0000, 0x0004, 0x0006, 0x0009, 0x000A, 0x000F, 0x0010, 0x0011, 0x0012, 0x0013, 0x0014, 0x05FF,
           0x0600, 0x060C, 0x067F, 0x0680, 0x07FF, 0x0800, 0x0804, 0x0805, 0x0806, 0x083F, 0x0840, 0x0FFF,
           0x1000, 0xFFFE, 0xFFFF)
UNREADABLE = ("octet 5", "octet 123", "octets", "octets 00 0G", "octet 00 of", "octet 00 of 65536", "read 0x10000",
              "read", "write 0x1000", "write 0x1000 1", "end", "end well", "begin now", "station 3",
              "memory octets 16", "stop", "read 12ab", "end good of -1")

# address: ADP and ADO, or the logical address. With channel: data octets go to its window from
# offset first on, in one direction or both.
Datagram = collections.namedtuple("Datagram", "command address data channel first direction", defaults=(None, 0, None))


def low_first(value, count):
    """The octets of a number, low octet first."""
    return [value >> 8 * i & 0xFF for i in range(count)]


class Channel:
    """A channel that is believed to be in service."""

    def __init__(self, number, start, length, mailbox, master_stores):
        self.number, self.start, self.length = number, start, length
        self.mailbox, self.master_stores = mailbox, master_stores
        self.message = False                    # is there one to fetch?
        self.next = {"master": 0, "local": 0}   # octets taken by the side's open transaction

    def area(self):
        """The addresses that it takes."""
        return range(self.start, self.start + self.length * (1 if self.mailbox else 3))

    def way(self, side):
        """The direction in which a side goes."""
        return WRITE if (side == "master") == self.master_stores else READ

    def blocked(self, side):
        """Would an opening access of this side be refused?"""
        if self.next[side]:
            return False
        return self.mailbox and self.message if self.way(side) == WRITE else not self.message

    def done(self, side, first, count):
        """The side took count octets from offset first on."""
        if self.blocked(side) or first > self.next[side]:
            return
        self.next[side] = max(self.next[side], first + count)
        if self.next[side] >= self.length:
            self.next[side] = 0
            self.message = self.way(side) == WRITE or not self.mailbox


class Generator:
    """Writes one script."""

    def __init__(self, seed):
        self.random = random.Random(seed)
        self.lines = []
        self.size, self.number = 4096, 1
        self.address, self.alias = 0, 0
        self.channels = {}                      # number: Channel
        self.mapped = []                        # (logical start, Channel)
        self.logical = list(LOGICAL_STARTS)

    # ---- small choices

    def chance(self, probability):
        """True with this probability."""
        return self.random.random() < probability

    def one_of(self, *choices):
        """One of the choices."""
        return self.random.choice(choices)

    def octet(self):
        """Any octet."""
        return self.random.randrange(256)

    def data(self, count):
        """That many octets."""
        return [self.octet() for _ in range(count)]

    def line(self, text, *values):
        """Adds a line to the script."""
        self.lines.append(text % values if values else text)

    def channel(self):
        """A channel believed in service, or None."""
        return self.random.choice(sorted(self.channels.items()))[1] if self.channels else None

    def place_near(self):
        """An address: in or around an area, in the memory, at a border, or anywhere."""
        channel = self.channel()
        if channel and self.chance(0.6):
            length = channel.length
            offset = self.one_of(-1, 0, 0, 1, length - 1, length, 2 * length, 3 * length - 1, 3 * length)
            return min(max(channel.start + offset, 0), 0xFFFF)
        if self.chance(0.5):
            return min(FIRST + self.random.randrange(self.size + 4), 0xFFFF)
        return self.one_of(*BORDERS, FIRST + max(self.size - 1, 0), min(FIRST + self.size, 0xFFFF))

    # ---- set-up

    def set_up(self):
        """Chooses the memory, the station's number and perhaps an alias."""
        rare = self.chance(0.03)
        kind = self.one_of("none", "octets", "octets", "words", "words", "joined", "joined")
        if kind == "octets":
            count = self.one_of(0, 61440, 70000) if rare else self.one_of(64, 100, 256, 1024, 4096)
            self.size = min(count, 61440)
            self.line("memory octets %d", count)
        elif kind == "words":
            count = self.one_of(0, 30720, 40000) if rare else self.one_of(32, 50, 100, 512, 2048)
            self.size = min(2 * count, 61440)
            self.line("memory words %d", count)
        elif kind == "joined":
            octets, words = self.one_of(0, 7, 41, 64, 333), self.one_of(32, 50, 200)
            if rare:
                octets, words = self.one_of((0, 0), (61439, 8))
            self.size = min(octets + 2 * words, 61440)
            self.line("memory joined %d 0x%X", octets, words)
        if self.chance(0.3):
            self.number = self.one_of(0, 2, 7, 0x1234, 65535)
            self.line("station %d", self.number)
        if self.chance(0.3):
            self.set_alias()

    def set_alias(self):
        """The local side sets the alias."""
        self.alias = self.one_of(0, 5, 0x1234)
        for i, octet in enumerate(low_first(self.alias, 2)):
            self.line("write 0x%04X %02X", 0x12 + i, octet)

    # ---- datagrams

    def command(self, direction):
        """A command and its ADP that reach this station in a direction."""
        configured = self.one_of(self.address, self.alias)
        other = (configured + 0x101) & 0xFFFF
        anywhere = self.one_of(0, 0, 1, 0xFF, 0xFFFF)
        return {READ: self.one_of((1, 0), (4, configured), (7, anywhere), (13, 0), (14, configured)),
                WRITE: self.one_of((2, 0), (2, 0), (5, configured), (8, anywhere), (13, 0xFFFF), (14, other)),
                BOTH: self.one_of((3, 0), (6, configured), (9, anywhere))}[direction]

    def physical(self, direction, ado, data):
        """A datagram that reaches a physical address."""
        command, adp = self.command(direction)
        return Datagram(command, adp | ado << 16, data)

    def window_datagram(self, channel, first, count, direction=None):
        """A datagram to a window, through a mapped entity if there is one."""
        direction = direction or (BOTH if self.chance(0.1) else channel.way("master"))
        starts = [logical for logical, mapped in self.mapped if mapped is channel]
        if starts and self.chance(0.7):
            datagram = Datagram(LOGICAL[direction], (self.one_of(*starts) + first) & 0xFFFFFFFF, self.data(count))
        else:
            datagram = self.physical(direction, channel.start + first, self.data(count))
        return datagram._replace(channel=channel, first=first, direction=direction)

    def any_datagram(self):
        """A datagram of any command, anywhere."""
        command = self.one_of(*range(1, 15), 0, 15, 200)
        data = self.data(self.one_of(0, 1, 1, 2, 3, 4, 6))
        if command in LOGICAL.values():
            return Datagram(command, (self.one_of(*self.logical) + self.one_of(-1, 0, 0, 0, 1)) & 0xFFFFFFFF, data)
        adp = self.one_of(0, 0, 0, self.address, self.alias, 1, 0xFFFF)
        return Datagram(command, adp | self.place_near() << 16, data)

    def frame_octets(self, datagrams):
        """The octets of a frame of these datagrams."""
        octets = [self.octet(), 0x10 | self.random.randrange(16)]
        for position, datagram in enumerate(datagrams):
            more = position + 1 < len(datagrams)
            ignored = self.one_of(0, 0, 0x0800, 0x7800)
            octets += [datagram.command, self.octet()] + low_first(datagram.address, 4)
            octets += low_first(len(datagram.data) | ignored | (0x8000 if more else 0), 2) + self.data(2)
            octets += datagram.data + low_first(self.one_of(0, 0, 254, 255, 0xFFFE, 0xFFFF), 2)
        return octets

    # ---- frames

    def send(self, datagrams, fate=None, chatter=None):
        """Sends a frame. Its fate: good, bad (the verdict), cut (within its datagrams), long (past
        1,500 octets) or open (not ended). chatter: how likely other calls stand between octets."""
        fate = fate or self.one_of(*["good"] * 12, "bad", "bad", "cut")
        chatter = self.one_of(0, 0, 0.05, 0.25) if chatter is None else chatter
        octets = self.frame_octets(datagrams)
        if fate == "cut":
            octets = octets[:self.random.randrange(len(octets))]
        elif self.chance(0.15):
            octets += self.data(self.random.randrange(5))
        self.line("begin")
        self.give(octets, chatter)
        if fate == "long":
            self.line("octets " + " ".join(["%02X" % self.octet()] * (1501 - len(octets) + self.one_of(0, 1))))
        if fate != "open":
            self.end("bad" if fate == "bad" or (fate != "good" and self.chance(0.2)) else "good")
        self.believe(datagrams, fate == "good")
        return fate == "good"

    def give(self, octets, chatter):
        """Gives octets to the running frame."""
        if chatter == 0 and self.chance(0.3) and octets:
            self.line("octets " + " ".join("%02X" % octet for octet in octets))
            return
        for octet in octets:
            if self.chance(chatter):
                self.between()
            own = " of %d" % self.number if self.chance(0.01) else ""
            self.line("octet %02X%s", octet, own)

    def end(self, verdict):
        """Ends the running frame."""
        if self.chance(0.03):
            self.line("end %s of %d", verdict, (self.number + 1) & 0xFFFF)
        self.line("end %s%s", verdict, " of 0x%X" % self.number if self.chance(0.05) else "")

    def believe(self, datagrams, kept):
        """What the frame did to the channels' transactions."""
        for datagram in datagrams:
            channel = datagram.channel
            if channel and datagram.direction in (channel.way("master"), BOTH):
                if kept:
                    channel.done("master", datagram.first, len(datagram.data))
                else:
                    channel.next["master"] = 0

    def between(self):
        """A call between two octets of a frame."""
        channel = self.channel()
        if channel and self.chance(0.75):
            self.local_step(channel)
        elif self.chance(0.1):
            self.line("begin")
        elif self.chance(0.2):
            self.line("octet %02X of %d", self.octet(), (self.number + 1) & 0xFFFF)
        elif self.chance(0.1):
            self.set_alias()
        else:
            self.stray_local()

    # ---- moves: channels and entities

    def setting(self, number, start, length, control, enable=1):
        """A datagram that writes a channel's registers."""
        control |= self.one_of(0, 0, 0x10, 0x70, 0xF0)
        enable |= self.one_of(0, 0, 0xFE)
        octets = low_first(start, 2) + low_first(length, 2) + [control, self.octet(), enable, self.octet()]
        return self.physical(self.one_of(WRITE, WRITE, WRITE, BOTH), CHANNELS + 8 * number, octets[:self.one_of(7, 8)])

    def is_free(self, area):
        """Does the area lie in the memory and touch none in service?"""
        return area.start >= FIRST and area.stop <= FIRST + self.size and not any(
            area.start < other.area().stop and other.area().start < area.stop for other in self.channels.values())

    def new_channel(self):
        """A channel that should be accepted, or None if there is no room."""
        idle = [number for number in range(8) if number not in self.channels]
        for _ in range(20 if idle else 0):
            candidate = Channel(self.one_of(*idle), FIRST + self.random.randrange(self.one_of(48, max(self.size, 1))),
                                self.one_of(2, 2, 3, 3, 4, 5, 8, 17), self.chance(0.5), self.chance(0.5))
            if self.is_free(candidate.area()):
                return candidate
        return None

    def enable(self):
        """Enables one to three channels in one frame."""
        chosen, datagrams = [], []
        for _ in range(self.one_of(1, 1, 2, 3)):
            channel = self.new_channel()
            if channel is not None:
                self.channels[channel.number] = channel
                chosen.append(channel)
                control = (2 if channel.mailbox else 0) | (4 if channel.master_stores else 0)
                datagrams.append(self.setting(channel.number, channel.start, channel.length, control))
        if not self.send(datagrams or [self.any_datagram()]):
            for channel in chosen:
                del self.channels[channel.number]

    def hand_over(self):
        """Disables a channel and gives its area to another one in the same frame."""
        old = self.channel()
        idle = [number for number in range(8) if number not in self.channels]
        if old is None or not idle:
            return self.disable()
        new = Channel(self.one_of(*idle), old.start, old.length, True, self.chance(0.5))
        datagrams = [self.physical(WRITE, CHANNELS + 8 * old.number + 6, [0]),
                     self.setting(new.number, new.start, new.length, 6 if new.master_stores else 2)]
        self.random.shuffle(datagrams)
        if self.send(datagrams):
            self.forget(old)
            self.channels[new.number] = new

    def enable_refused(self):
        """Asks for one to three enablings that shall be refused, perhaps with one that may be accepted."""
        datagrams = [self.refused_setting() for _ in range(self.one_of(1, 1, 2, 3))]
        self.send(datagrams, self.one_of("good", "good", "good", "bad"))

    def refused_setting(self):
        """A setting that shall be refused, for a reason from 19 to 22 (a channel in service refuses it with 3)."""
        idle = [number for number in range(8) if number not in self.channels]
        number = self.one_of(*idle) if idle and self.chance(0.8) else self.random.randrange(8)
        reason = self.one_of(19, 20, 21, 22)
        start, length = FIRST + self.random.randrange(64), self.one_of(2, 3, 4)
        control = self.one_of(0, 2, 4, 6)
        other = self.channel()
        if reason == 19:
            control = self.one_of(1, 3, 8, 12, 13, 5, 0x0A)
        elif reason == 20:
            length = self.one_of(0, 1)
        elif reason == 22 and other:
            start = other.area().stop - 1 if self.chance(0.5) else max(other.start - length + 1, 0)
            control = self.one_of(2, 6)
        else:
            start, length = self.one_of((0x0FFF, 2), (0, 4), (0xFFFF, 2), (FIRST, 0x5556), (FIRST, 0xFFFF),
                                     (FIRST + max(self.size - 5, 0), 6))
        return self.setting(number, start, length, control)

    def enable_bits(self, number):
        """A datagram or two that write the enable bit of a channel alone."""
        values = self.one_of([0], [0], [0], [1], [0, 1], [1, 0])
        return [self.physical(WRITE, CHANNELS + 8 * number + 6, [value]) for value in values], values[-1]

    def disable(self):
        """Writes enable bits, perhaps in the frame that closes a transaction there."""
        channel = self.channel()
        number = channel.number if channel else self.random.randrange(8)
        datagrams, last = self.enable_bits(number)
        if channel and self.chance(0.4):
            datagrams.insert(0, self.window_datagram(channel, 0, channel.length))
        if self.send(datagrams) and channel and last == 0:
            self.forget(channel)

    def forget(self, channel):
        """The channel is out of service."""
        del self.channels[channel.number]
        self.mapped = [(logical, mapped) for logical, mapped in self.mapped if mapped is not channel]

    def entity(self, number, logical, length, bits, physical, physical_bit, kind, active=1):
        """A datagram that writes an entity's registers."""
        octets = (low_first(logical, 4) + low_first(length, 2) + list(bits) + low_first(physical, 2)
                  + [physical_bit, kind, active, self.octet(), self.octet(), self.octet()])
        direction = self.one_of(WRITE, WRITE, WRITE, BOTH)
        return self.physical(direction, ENTITIES + 16 * number, octets[:self.one_of(13, 16)])

    def map_window(self):
        """Maps whole octets onto a window."""
        channel = self.channel()
        if channel is None:
            return self.map_bits()
        logical = self.one_of(self.one_of(*self.logical), self.random.randrange(2 ** 32))
        kind = self.one_of(3, 3, 1 if channel.way("master") == READ else 2)
        length = channel.length + self.one_of(0, 0, 0, -1, 1, 3)
        self.send([self.entity(self.random.randrange(8), logical, length, (0, 7), channel.start, 0, kind)], "good")
        self.mapped = [(start, mapped) for start, mapped in self.mapped if start != logical] + [(logical, channel)]
        self.logical.append(logical)
        self.send([self.whole_window(channel)])

    def map_bits(self):
        """Maps odd bits: across octets, into areas, out of the memory, backwards, past the last logical octet."""
        logical = (self.one_of(*self.logical) + self.one_of(-1, 0, 0, 1)) & 0xFFFFFFFF
        bits = (self.random.randrange(8), self.random.randrange(8))
        physical = self.one_of(self.place_near(), self.place_near(), FIRST + self.random.randrange(40), 0x0FFF, 0xFFFF)
        length = self.one_of(0, 1, 1, 2, 3, 5)
        if self.send([self.entity(self.random.randrange(8), logical, length, bits, physical, self.random.randrange(8),
                                  self.one_of(0, 1, 2, 3, 3, 3, 0xFF), self.one_of(0, 1, 1, 1, 1))]):
            self.logical.append(logical)
            self.logical_frame(logical, length)

    def logical_frame(self, logical, length):
        """A frame of one or two logical datagrams over the octets of an entity and around them."""
        first = (logical + self.one_of(-1, 0, 0, 0)) & 0xFFFFFFFF
        self.send([Datagram(LOGICAL[self.one_of(READ, WRITE, BOTH)], first, self.data(length + self.one_of(0, 1)))
                   for _ in range(self.one_of(1, 1, 2))])

    def unmap(self):
        """Switches an entity off."""
        self.send([self.physical(WRITE, ENTITIES + 16 * self.random.randrange(8) + 12, [0])])

    def set_address(self):
        """The master sets the station address."""
        address = self.one_of(0, 5, 7, 0x1234)
        if self.send([self.physical(WRITE, 0x0010, low_first(address, 2))]):
            self.address = address

    # ---- moves: messages

    def local_step(self, channel):
        """The local side's next access to a window; now and then one out of turn."""
        way, offset = channel.way("local"), channel.next["local"]
        if self.chance(0.15):
            length = channel.length
            offset = self.one_of(0, max(offset - 1, 0), offset + 1, length - 1, length, 3 * length - 1)
        if self.chance(0.04):
            way = READ if way == WRITE else WRITE
        elif offset < channel.length:
            channel.done("local", offset, 1)
        address = min(channel.start + offset, 0xFFFF)
        if way == READ:
            self.line("read 0x%04X", address)
        else:
            self.line("write 0x%04X %02X", address, self.octet())

    def local_message(self):
        """The local side goes on in a window, most often to the end."""
        channel = self.channel()
        if channel is None:
            return self.stray_local()
        for _ in range(self.one_of(channel.length, channel.length, 2 * channel.length, 1, 2)):
            self.local_step(channel)

    def master_message(self):
        """The master takes a whole window, or the rest of it, of one or two channels."""
        channel = self.channel()
        if channel is None:
            return self.any_frame()
        datagrams = [self.whole_window(channel)]
        if self.chance(0.3):
            datagrams.append(self.any_datagram())
        other = self.channel()
        if other is not channel and self.chance(0.5):
            datagrams.append(self.whole_window(other))
        self.send(datagrams)

    def whole_window(self, channel):
        """A datagram to the rest of a window, sometimes to one octet more."""
        first = channel.next["master"] if self.chance(0.8) else 0
        return self.window_datagram(channel, first, channel.length - first + self.one_of(0, 0, 0, 0, 0, 1))

    def master_part(self):
        """The master takes a part of a window, so that its transaction spans frames."""
        channel = self.channel()
        if channel is None:
            return self.any_frame()
        first = channel.next["master"] if self.chance(0.85) else self.random.randrange(channel.length)
        self.send([self.window_datagram(channel, first, self.random.randrange(channel.length - first) + 1)])

    def span(self):
        """A transaction of the master over several frames, some of which may be dropped."""
        channel = self.channel()
        if channel is None:
            return self.any_frame()
        for _ in range(self.one_of(2, 3, 4)):
            first = channel.next["master"]
            count = min(self.one_of(1, 1, 2, 3), channel.length - first)
            self.send([self.window_datagram(channel, first, count)], self.one_of(*["good"] * 6, "bad"))
            if channel.blocked("master"):
                self.local_message()

    def exchange(self):
        """A message from one side to the other: the storing side's whole, then the fetching side's."""
        channel = self.channel()
        if channel is None:
            return self.any_frame()
        for side in ("master", "local") if channel.master_stores else ("local", "master"):
            if side == "master":
                self.send([self.whole_window(channel)])
            else:
                for _ in range(channel.length - channel.next["local"]):
                    self.local_step(channel)

    def twice(self):
        """Two datagrams to one window in one frame: the second comes after the closing octet."""
        channel = self.channel()
        if channel is None:
            return self.any_frame()
        self.send([self.whole_window(channel), self.window_datagram(channel, 0, self.one_of(1, channel.length))])

    def dropped(self):
        """A frame that takes from a window and is dropped."""
        channel = self.channel()
        if channel is None:
            return self.any_frame()
        datagram = self.one_of(self.whole_window(channel), self.window_datagram(channel, 0, 1))
        self.send([datagram, self.any_datagram()], self.one_of("bad", "bad", "cut"))

    def watch(self):
        """Both sides read the status octets."""
        for number in sorted(self.channels):
            self.line("read 0x%04X", CHANNELS + 8 * number + 5)
        self.send([self.physical(READ, CHANNELS + 8 * self.random.randrange(8) + 5, self.data(1))])

    # ---- moves: odd things

    def any_frame(self):
        """A frame of any datagrams."""
        self.send([self.any_datagram() for _ in range(self.one_of(1, 2, 3, 4))])

    def passing_frame(self):
        """A frame of another type."""
        self.line("begin")
        self.give([self.octet(), self.one_of(0x00, 0x20, 0xF1)] + self.data(self.random.randrange(20)), 0)
        self.end(self.one_of("good", "good", "bad"))

    def long_frame(self):
        """A frame of more than 1,500 octets by its padding, or of about 1,500 by one long datagram
        (with 1,486 data octets it just fits)."""
        channel = self.channel()
        if channel and self.chance(0.5):
            self.send([self.whole_window(channel)], "long", 0)
        else:
            direction, address = self.one_of(READ, WRITE, BOTH), self.one_of(FIRST, self.place_near())
            self.send([self.physical(direction, address, self.data(1486 + self.one_of(-1, 0, 0, 1, 2, 12)))], "good", 0)

    def open_frame(self):
        """A frame that is left open; the next begin is refused, and the end is late."""
        self.send([self.any_datagram()], "open")
        self.line("begin")
        self.stray_local()
        self.end("good")

    def no_frame(self):
        """Octets and ends when no frame runs."""
        self.line("octet %02X", self.octet())
        self.line("end %s", self.one_of("good", "bad"))

    def stray_local(self):
        """A local access anywhere."""
        if self.chance(0.5):
            self.line("read 0x%04X", self.place_near())
        else:
            self.line("write 0x%04X %02X", self.place_near(), self.octet())

    def unreadable(self):
        """A line that cannot be read."""
        self.line(self.one_of(*UNREADABLE))


MOVES = {
    Generator.enable: 8, Generator.enable_refused: 4, Generator.disable: 3, Generator.hand_over: 1.5,
    Generator.map_window: 8, Generator.map_bits: 4, Generator.unmap: 1, Generator.set_address: 1,
    Generator.local_message: 8,
    Generator.master_message: 9, Generator.master_part: 4, Generator.span: 5, Generator.exchange: 14,
    Generator.twice: 3,
    Generator.dropped: 4, Generator.watch: 2, Generator.any_frame: 6, Generator.passing_frame: 1,
    Generator.long_frame: 0.15, Generator.open_frame: 0.7, Generator.no_frame: 0.5,
    Generator.stray_local: 4, Generator.unreadable: 0.3,
}


def script(seed):
    """The script of a seed."""
    generator = Generator(seed)
    generator.set_up()
    generator.enable()
    moves = generator.random.choices(list(MOVES), list(MOVES.values()), k=generator.one_of(5, 10, 20, 40))
    for move in moves:
        move(generator)
    return "\n".join(generator.lines) + "\n"


def main():
    """Prints the script of the seed named."""
    if len(sys.argv) != 2 or not sys.argv[1].isdigit():
        sys.exit(__doc__)
    print(script(int(sys.argv[1])), end="")
    return 0


if __name__ == "__main__":
    sys.exit(main())
