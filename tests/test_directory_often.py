"""The order of what `play` sends: the directory after so many packets, and a change as soon as it is made.

Two readings of one stream are compared: the turns as `serve` gives them, and what `play` puts out.
"""
import subprocess

from . import dab
from .air import AirCase, Player, send, until, whole_packets
from .program import plain, refused


def take_out(directory, groups):
    """The numbers of the packets with which a whole directory begins, and the bytes of all other groups."""
    begins, others = [], []
    while groups:
        if [it.bytes for it in groups[:len(directory)]] == directory:
            begins.append(groups[0].at)
            groups = groups[len(directory):]
        else:
            others.append(groups[0].bytes)
            groups = groups[1:]
    return begins, others


class Often(AirCase):
    """The directory after so many packets, for a disk of which it takes few packets, and one of which it takes many."""

    def place(self, length):
        """A disk of twelve objects of 20,000 bytes, and packets of this length at most."""
        disk = self.new_disk("disk", "--objects", "40", "--data", "600000", "--packet", length)
        self.sync(disk, self.folder({f"{it}.txt": bytes([it]) * 20_000 for it in range(12)}))
        return disk

    def expect_often(self, row, before, packets, every, ended=True, turn=0):
        """Packets with the directory often: but for whole directories, each between two groups, they read as before."""
        old, new = dab.groups_of(before), dab.groups_of(packets)
        first_body = [it.bytes[0] & 15 for it in old].index(dab.BODY)
        directory, own = [it.bytes for it in old[:first_body]], old[first_body].at
        begins, others = take_out(directory, new)
        bodies = take_out(directory, old)[1]
        wanted, came = (bodies, others) if ended else (bodies[:len(others) - 1], others[:-1])
        self.expect(f"{row}: but for whole directories all groups are as before", wanted, came)
        self.expect(f"{row}: and all indexes count on", True, dab.counts_on(packets[:new[-1].at]))
        most = max(every, 10 * own) + max(it.packets for it in new)
        waits = [later - earlier for earlier, later in zip(begins, begins[1:] + [len(packets)])]
        self.expect(f"{row}: the directory begins after {most} packets at most", (0, []),
                    (begins[0], [it for it in waits if it > most]))
        if turn > every:
            self.expect(f"{row}: and a whole pause goes by", True, max(waits) > every)
        is_tenth = 10 * own * (len(begins) - 3) < len(packets)
        self.expect(f"{row}: and takes a tenth of the packets at most", True, is_tenth)
        self.expect(f"{row}: but comes often", True, len(begins) > 8)

    def of_two_turns(self, length):
        disk, file = self.place(length), self.room / "packets"
        before = self.turns(disk, 2)
        self.expect("turns as ever", (0, b"".join(before), b""), self.play(disk, "-", "--turns", "2"))
        ended = self.play(disk, "-", "--turns", "2", "--directory", "0")
        self.expect("and if none is asked for", (0, b"".join(before), b""), ended)
        status, stream, _ = self.play(disk, "-", "--turns", "2", "--directory", "40")
        self.expect("2 turns with it", 0, status)
        self.expect_often("2 turns", before, dab.packets_in(stream), 40)
        self.play(disk, file, "--turns", "2", "--directory", "40")
        self.expect("the same in a file", stream, file.read_bytes())
        self.play(disk, file, "--turns", "16", "--directory", "40")
        packets = dab.packets_in(file.read_bytes())
        self.expect("and 16 turns can go round", True, dab.counts_on(packets + packets[:len(packets) // 16]))

    def without_end(self, length, every, *more):
        """Packets without end, until nobody reads them."""
        disk = self.place(length)
        before = self.turns(disk, 2)
        words = [self.program, "play", disk, "-", "--early", "1", *more]
        with subprocess.Popen(words, stdout=subprocess.PIPE, stderr=subprocess.PIPE) as player:
            stream = player.stdout.read(int(length) * 9_000)
            player.stdout.close()
            said = player.stderr.read()
        self.expect("without end, until nobody reads", refused(23, "WriteFault", "standard output: Broken pipe"),
                    (player.returncode, b"", plain(said)))
        self.expect_often("without end", before * 8, whole_packets(stream), every, ended=False, turn=len(before) // 2)

    def test_two_turns_of_few(self):
        self.of_two_turns("96")

    def test_two_turns_of_many(self):
        self.of_two_turns("24")

    def test_without_end_of_few(self):
        self.without_end("96", 340)

    def test_without_end_of_many(self):
        self.without_end("24", 340)

    def test_each_340_frames_of_few(self):
        self.without_end("96", 680, "--rate", "64")

    def test_each_340_frames_of_many(self):
        self.without_end("24", 680, "--rate", "16")

    def test_as_often_as_asked_at_any_rate(self):
        self.without_end("96", 400, "--rate", "64", "--directory", "400")

    def test_another_number_of_few(self):
        self.without_end("96", 700, "--directory", "700")

    def test_another_number_of_many(self):
        self.without_end("24", 700, "--directory", "700")


for test in (Often.test_two_turns_of_few, Often.test_two_turns_of_many, Often.test_without_end_of_few,
             Often.test_without_end_of_many, Often.test_another_number_of_few, Often.test_another_number_of_many,
             Often.test_each_340_frames_of_few, Often.test_each_340_frames_of_many,
             Often.test_as_often_as_asked_at_any_rate):
    test.takes_long = True


class Heard(Player):
    """A program that plays into a pipe of one page, so that it is never far ahead of what was read."""

    def __init__(self, words, log, **more):
        super().__init__(words, log, of_page=True, **more)
        self.stream = b""

    def hear_packets(self, count):
        """As many bytes more as so many packets of 96 bytes have."""
        wanted, more = len(self.stream) + count * 96, []

        def is_heard():
            self.stream += self.read()
            more.append(len(self.stream))
            return more[-1] >= wanted

        until(is_heard)

    def groups(self):
        """The groups that came whole: of each the number of its first packet, its kind, its id and its segment."""
        self.kill()
        groups = dab.groups_of(whole_packets(self.stream))
        found = [(it.at, dab.segment_of(it.bytes)) for it in groups if it.is_whole]
        return [(at, it.kind, it.tid, it.number) for at, it in found]


def split_at_change(groups):
    """The bodies before the second directory, the number of its first packet, its segments, and all bodies after it."""
    ids = []
    for it in groups:
        if it[1] == dab.DIRECTORY and it[2] not in ids:
            ids.append(it[2])
    change = next(place for place, it in enumerate(groups) if it[1] == dab.DIRECTORY and it[2] == ids[1])
    bodies = [[it[2:] for it in part if it[1] == dab.BODY] for part in (groups[:change], groups[change:])]
    after = next(it for it in groups[change:] if it[1] == dab.BODY)
    whole = [it[3] for it in groups[change:] if it[1] == dab.DIRECTORY and it[0] < after[0]]
    return bodies[0], groups[change][0], whole, bodies[1]


class Changes(AirCase):
    """What a change made is sent next, and then the turn goes on with its next segment; or a change begins a turn."""

    def playing(self, *more):
        """A disk of six objects that is played, and 300 packets were heard; the pipe holds fewer than 50 more."""
        self.place = self.disk()
        self.objects_of = self.folder({f"{it}.txt": bytes([it]) * 20_000 for it in range(6)})
        self.sync(self.place, self.objects_of)
        self.ids = [it[0] for it in self.objects(self.place).values()]
        # (with --early 1 no body comes before the turn at the start)
        words = [self.program, "play", self.place, "-", "--early", "1", *more]
        heard = Heard(words, self.room / "log", cwd=self.room)
        self.addCleanup(heard.kill)
        heard.hear_packets(300)
        return heard

    def turn(self, new=None):
        """The segments of a turn, as ids and numbers."""
        segments = {it: 20 for it in self.ids} | ({new: 3} if new else {})
        return [(it, number) for it in segments for number in range(segments[it])]

    def asked(self, packets, *more):
        """What is heard of a disk to which a line puts a new object of three segments while it plays."""
        asked = self.folder(name="lines")
        heard = self.playing("--lines", asked, "--every", "1", *more)
        send(asked, "1.lines", b"put new 1 0 - " + b"61" * 3000 + b"\n")
        heard.hear_packets(packets)
        return split_at_change(heard.groups()), self.objects(self.place)["new"][0]

    def goes_on(self, *more):
        (before, _, whole, after), new = self.asked(2600, *more)
        turn, fresh = self.turn(), [(new, number) for number in range(3)]
        left = len(turn) - len(before) + 6
        self.expect("the turn up to the change", turn[:len(before)], before)
        self.expect("the new directory is whole", list(range(len(whole))), whole)
        self.expect("the new body comes next, and then the turn goes on with its next segment",
                    fresh + turn[len(before):] + fresh, after[:left])
        self.expect("and then comes the new turn", self.turn(new)[:len(after)], after[left:][:len(turn) + 3])

    def test_often(self):
        self.goes_on()

    def test_often_in_turns(self):
        self.goes_on("--turns", "3", "--directory", "340")

    def begins_a_turn(self, *more):
        (before, _, _, after), new = self.asked(1000, *more)
        self.expect("the turn up to the change", self.turn()[:len(before)], before)
        self.expect("then the new turn begins", self.turn(new)[:len(after)], after)

    def test_in_turns_it_begins_a_turn(self):
        self.begins_a_turn("--turns", "3")

    def test_without_the_directory_it_begins_a_turn(self):
        self.begins_a_turn("--directory", "0")

    def looked(self, *more):
        """What is heard of a disk whose folder gets a new file of three segments while it plays."""
        heard = self.playing("--at-once", "--folder", self.room / "objects", *more)
        send(self.objects_of, "new.txt", b"z" * 3000)
        heard.hear_packets(2400)
        parts = split_at_change(heard.groups())
        new = self.objects(self.place)["new.txt"][0]
        self.expect("the look is logged", True, "put new.txt done object" in heard.log.read_text())
        return *parts, new, [(new, number) for number in range(3)]

    def comes_within(self, first, *more):
        before, at, _, after, _, fresh = self.looked(*more)
        turn = self.turn()
        self.expect("the change is sent after the group under way", (True, turn[:len(before)]),
                    (first <= at < first + 13, before))
        self.expect("and the turn goes on", fresh + turn[len(before):][:50], after[:53])

    def test_looks_within_turns(self):
        self.comes_within(400)

    def test_looks_each_hundred_frames(self):
        self.comes_within(600, "--rate", "96")

    def test_looks_if_no_frame_holds_a_packet(self):
        self.comes_within(400, "--rate", "8")

    def test_looks_as_often_as_asked_at_any_rate(self):
        self.comes_within(500, "--rate", "96", "--look", "500")

    def test_looks_as_often_as_asked(self):
        self.comes_within(500, "--look", "500")

    def test_looks_between_turns(self):
        before, _, _, after, new, fresh = self.looked("--look", "0")
        wanted = self.turn(), fresh + self.turn(new)[:50]
        self.expect("the change waits for the turn's end", wanted, (before, after[:53]))
