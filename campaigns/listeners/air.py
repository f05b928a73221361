"""What the packets of a station carried, and what the order of sending says of them."""
import bisect
import itertools

from order import BODY, DIRECTORY, PACKET_HEAD, Place, Turn, Waits, change_between, packets_of
from station import USUAL_EARLY, need
from tests import dab

# The bytes of a header beside its name and its MIME type, and those of the directory beside its headers.
HEADER, HEAD = 2 + 7 + 3 + 2, 13


class Air:
    """What the packets carried, and what the order of sending says of them."""

    def __init__(self, station, packets, told, starts):
        self.size, self.room, self.every = station.segment, station.packet - PACKET_HEAD, station.every
        self.told, self.turns = told, [self.turn(it.directory, it.objects) for it in told]
        self.groups = [(it.at, it.packets, dab.segment_of(it.bytes)) for it in dab.groups_of(packets) if it.is_whole]
        early = USUAL_EARLY if station.early is None else station.early
        self.place = Place(self.turns[0], early if self.every else None)
        self.now, self.until, self.is_settled, self.has_ended = 0, 0, True, True
        # In front of each packet: which carousel stands, how often the directory was asked for, how many turns have
        # ended, how many packets were added, and the longest pause behind it.
        self.stands, self.asks, self.ends, self.added, self.most = [], [0], [0], [0], [0]
        # Where receivers begin: what they are promised. And where commands came.
        self.starts, self.waits, self.commands = set(starts), {}, []
        self.begins_at = [it[0] for it in self.groups]
        self.directories = {it.tid: it.data for it in dab.entities_of(packets) if it.kind == DIRECTORY}
        for number in range(len(told)):
            self.check_directory(number)
        self.length = len(packets)
        self.follow(self.length)

    def turn(self, directory, objects):
        length = HEAD + sum(HEADER + len(it.name) + (0 if it.mime == "-" else 2 + len(it.mime)) for it in objects)
        return Turn(directory, length, [(it.tid, len(it.body)) for it in objects], self.size, self.room)

    def check_directory(self, carousel):
        """A directory that came whole is the carousel's."""
        tid, objects, _ = self.told[carousel]
        if tid in self.directories:
            entries = dab.directory_of(self.directories[tid]).entries
            came = [(it.tid, it.header.name.decode(), it.header.mime or b"-", it.header.body) for it in entries]
            need(came == [(it.tid, it.name, it.mime.encode(), len(it.body)) for it in objects], "another directory", tid)

    def groups_from(self, start):
        """The groups that begin at this packet or after it."""
        return itertools.islice(self.groups, bisect.bisect_left(self.begins_at, start), None)

    def follow(self, count):
        """Goes from group to group, and in each from packet to packet."""
        for at, length, segment in self.groups:
            need(at == len(self.stands), "packet", at, "is in no whole group")
            for packet in range(length):
                self.take_commands()
                self.packet(segment if packet == 0 else None)
        need(len(self.stands) == count and self.has_ended, "the last packet ends no turn")

    def take_commands(self):
        """The commands that come in front of this packet."""
        number = len(self.stands)
        while self.now + 1 < len(self.told) and self.told[self.now + 1].at <= number:
            gone, come = change_between(self.turns[self.now].bodies, self.turns[self.now + 1].bodies)
            self.now += 1
            turn = self.turns[self.now]
            self.place.change(turn)
            self.is_settled = False
            self.commands.append(number)
            self.starts.add(number)
            self.added[-1] += packets_of(turn.directory) + 2 * (packets_of(turn.of_body[come[0]]) if come else 0)

    def packet(self, segment):
        """A packet: the first of this segment's group, or one of the group under way."""
        number = len(self.stands)
        if number in self.starts:
            whole = [it for it, _ in self.place.turn.bodies if self.place.is_early(it)]
            self.waits[number] = (Waits(self.place, self.size, self.room), self.is_settled, whole)
        due = self.every > 0 and (self.has_ended or self.until == 0)
        self.added.append(self.added[-1] + (packets_of(self.place.turn.directory) if due else 0))
        self.asks.append(self.asks[-1] + due)
        if due:
            self.place.hear_directory()
        if segment:
            self.begins(segment)
        self.has_ended = self.place.send()
        pause = max(self.every, 10 * packets_of(self.place.turn.directory))
        self.until = pause if due else self.until - 1
        self.most.append(max(self.most[-1], pause))
        self.is_settled = self.is_settled or self.has_ended
        self.ends.append(self.ends[-1] + self.has_ended)
        self.stands.append(self.now)

    def begins(self, segment):
        wanted = self.place.begin()
        came = (segment.kind, segment.tid, segment.number, segment.is_last, len(segment.data))
        need(wanted[:5] == came, "packet", len(self.stands), "begins", came, "in the place of", wanted)

    def expected(self, carousel):
        """The segments of a carousel by type, id and number: of each its last flag and its bytes; None for those of a
        directory that never came whole."""
        directory, objects, _ = self.told[carousel]
        entities = [(DIRECTORY, directory, self.directories.get(directory)), *((BODY, it.tid, it.body) for it in objects)]
        found = {}
        for kind, tid, bytes_ in entities:
            turn = self.turns[carousel]
            for it in turn.directory if kind == DIRECTORY else turn.of_body[tid]:
                begin = it.number * self.size
                found[kind, tid, it.number] = (it.is_last, bytes_ and bytes_[begin:begin + self.size])
        return found
