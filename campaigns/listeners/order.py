"""The order of sending, and how long a receiver waits at most, written from docs/FORMATS.md (sections 5 and 13) alone: a
model of what `play` sends. Nothing here is the product's, and the product has nothing of it.
"""
import typing

BODY, DIRECTORY = 4, 6
# A group has so many bytes more than its segment, and a packet so many more than its useful data.
GROUP_HEAD, PACKET_HEAD = 11, 5


class Segment(typing.NamedTuple):
    """What is known of a segment before it is sent."""

    kind: int
    tid: int
    number: int
    is_last: bool
    length: int
    packets: int


def ceiling(count, by):
    return -(-count // by)


def segments_of(kind, tid, size, room, length):
    """The segments of an entity of so many bytes."""
    count = ceiling(length, size)
    lengths = [size] * (count - 1) + [length - size * (count - 1)]
    return [Segment(kind, tid, number, number == count - 1, it, ceiling(it + GROUP_HEAD, room))
            for number, it in enumerate(lengths)]


def packets_of(segments):
    return sum(it.packets for it in segments)


class Turn:
    """What a turn sends: a directory of this id and length, and bodies, of each the id and the length."""

    def __init__(self, tid, length, bodies, size, room):
        self.tid, self.bodies = tid, bodies
        self.directory = segments_of(DIRECTORY, tid, size, room, length)
        self.of_body = {it: segments_of(BODY, it, size, room, length) for it, length in bodies}
        self.segments = self.directory + [it for body, _ in bodies for it in self.of_body[body]]


def change_between(old, new):
    """Of two turns' bodies, of which one changed at most: what went and what came."""
    gone, come = [it for it in old if it not in new], [it for it in new if it not in old]
    assert len(gone) < 2 and len(come) < 2, "more than one change"
    return (gone or [None])[0], (come or [None])[0]


class Place:
    """What waits. Of the bodies' segments `early` stand before the rest of the turn. `most` bodies that are not begun
    come early at most; it is None where a change begins the turn again."""

    def __init__(self, turn, most):
        self.turn, self.most = turn, most
        self.group, self.sent, self.waiting, self.early = None, 0, [], 0

    def left(self):
        """The segments behind the group under way."""
        return self.waiting if self.waiting or self.group else self.turn.segments

    def to_send(self):
        return self.waiting or self.turn.segments

    def bodies(self):
        """The bodies' segments that come early, and the rest."""
        bodies = [it for it in self.left() if it.kind == BODY]
        return bodies[:self.early], bodies[self.early:]

    def is_early(self, body):
        """Whether all segments of a body come early."""
        early, _ = self.bodies()
        return [it for it in early if it.tid == body] == self.turn.of_body[body]

    def begin(self):
        """The next group, where none is under way."""
        self.group, *self.waiting = self.left()
        self.sent = 0
        if self.group.kind == BODY and self.early:
            self.early -= 1
        return self.group

    def send(self):
        """A packet of the group under way; whether it ends the turn."""
        self.sent += 1
        if self.sent < self.group.packets:
            return False
        self.group = None
        return not self.waiting

    def hear_directory(self):
        if self.waiting:
            self.waiting = self.turn.directory + [it for it in self.waiting if it.kind == BODY]

    def change(self, turn):
        """Another turn comes."""
        if self.most is None:
            self.turn, self.waiting, self.early = turn, turn.segments, 0
            return
        gone, come = change_between(self.turn.bodies, turn.bodies)
        early, rest = self.bodies()
        fresh = turn.of_body[come[0]] if come else []
        if gone:
            early = [it for it in early if it.tid != gone[0]]
        goes_early = sum(it.number == 0 for it in early) < self.most
        if gone:
            # (a body that came stands in the place of the one that went, if that was not begun)
            rest = [new for it in rest for new in ([it] if it.tid != gone[0] else fresh if it.number == 0 else [])]
        elif come and (rest or not goes_early):
            rest = rest + fresh
        if come and goes_early:
            early = early + fresh
        self.turn, self.waiting, self.early = turn, turn.directory + early + rest, len(early)


class Waits:
    """After how many packets, at most, a receiver has what it waits for: one that begins to listen at this place."""

    def __init__(self, place, size, room):
        early, _ = place.bodies()
        self.group = ceiling(size + GROUP_HEAD, room)
        self.directory, self.turn = packets_of(place.turn.directory), packets_of(place.turn.segments)
        self.early, self.left = packets_of(early), packets_of(place.to_send())
        self.longest, self.most = max(map(packets_of, place.turn.of_body.values()), default=0), place.most

    @staticmethod
    def with_directories(packets):
        return ceiling(10 * packets + 1, 9)

    def soon(self, pause):
        """The directory, where no pause is longer."""
        return self.with_directories(pause + self.group + 2 * self.directory)

    def round(self):
        """The carousel, where a turn has ended since the last command."""
        return self.with_directories(self.group + self.early + self.turn + 3 * self.directory)

    def all(self):
        """The carousel, wherever."""
        return self.with_directories(self.group + self.left + self.turn + 2 * self.directory)

    def change(self):
        """Behind a command: the directory, and what comes early."""
        return self.with_directories(self.group + self.early + 3 * self.directory)

    def change_within(self):
        """The same by the turn alone, whatever was changed before."""
        return self.with_directories(self.group + (self.most + 1) * self.longest + 3 * self.directory)
