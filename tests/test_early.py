"""How many changed bodies come before the rest of the turn, by `--early`: the order of the bodies behind commands that
were all answered in front of the first packet. And with which an endless `play` begins."""
import subprocess

from . import dab
from .air import AirCase, send, whole_packets

NAMES = "abcdef"
USUAL = ("--directory", "340")


def at_most(most):
    return *USUAL, "--early", most


def replace(name):
    return f"replace {name} 1 0 - {name.encode().hex() * 300}"


def put(name):
    return replace(name).replace("replace", "put")


class Early(AirCase):
    """Objects of 300 bytes, in segments of 100."""

    def order(self, lines, *more, names=NAMES):
        """The names of the bodies of one turn, in the order in which they come whole."""
        self.count = getattr(self, "count", 0) + 1
        disk = self.new_disk(f"disk{self.count}", "--segment", "100", "--objects", "40", "--data", "60000")
        self.serve(disk, [put(it).replace(" 1 0 ", " 2 3 ") for it in names])
        asked = self.folder(name=f"asked{self.count}")
        send(asked, "a.lines", "".join(f"{it}\n" for it in lines).encode())
        status, stream, log = self.play(disk, "-", "--lines", asked, "--every", "1", "--turns", "1", *(more or USUAL))
        self.expect("all lines were answered", (0, len(lines)), (status, log.count(b"done ")))
        packets = dab.packets_in(stream)
        directory, _ = dab.carousel_of(packets)
        found = {it.tid: it.header.name.decode() for it in directory.entries}
        return "".join(found[it.tid] for it in dab.entities_of(packets) if it.kind == dab.BODY)

    def test_replaced(self):
        lines = [replace(it) for it in NAMES]
        self.expect("three, if nothing is said", "abcabcdef", self.order(lines))
        for most in (0, 1, 2, 3, 5, 6, 7, 250, 4_294_967_295):
            self.expect(f"{most} at most, and each at its place", NAMES[:most] + NAMES,
                        self.order(lines, *at_most(most)))
        self.expect("the first by the commands, not by the carousel", "fedabcdef", self.order(lines[::-1]))

    def test_new(self):
        lines = [put(it) for it in NAMES]
        self.expect("new ones come at the end, too", "abcxyabc", self.order(
            [put("a"), put("b"), put("c")], names="xy"))
        self.expect("the others there alone", "axyabcdef", self.order(lines, *at_most(1), names="xy"))
        self.expect("also on a new disk", NAMES, self.order(lines, *at_most(1), names=""))
        self.expect("and if none come early", NAMES, self.order(lines, *at_most(0), names=""))
        self.expect("or all", NAMES, self.order(lines, *at_most(250), names=""))

    def test_freed(self):
        """A body that waits no longer makes room for another one."""
        first = at_most(1)
        self.expect("it is withdrawn", "bbcdef", self.order([replace("a"), "withdraw a", replace("b")], *first))
        self.expect("it is replaced again", "aabcdef", self.order([replace(it) for it in "aba"], *first))
        self.expect("another one is withdrawn", "aacdef",
                    self.order([replace("a"), replace("b"), "withdraw b"], *first))
        self.expect("nothing is changed", "aabcdef", self.order([replace("a"), "period 7", replace("b")], *first))

    def test_turns_anew(self):
        """If the directory comes once a turn, a change begins the turn again."""
        lines = [replace(it) for it in NAMES]
        self.expect("all in their places", NAMES, self.order(lines, "--directory", "0", "--early", "2"))


class Newest(AirCase):
    """The objects of Early. An endless `play` begins with those that changed last."""

    def place(self, *more):
        disk = self.new_disk("disk", "--segment", "100", "--objects", "40", "--data", "60000", *more)
        self.serve(disk, [put(it) for it in NAMES])
        return disk

    def order(self, disk, *more):
        """The names of the first eight bodies, in the order in which they begin."""
        words = [self.program, "play", disk, "-", *more]
        with subprocess.Popen(words, stdout=subprocess.PIPE, stderr=subprocess.DEVNULL) as player:
            stream = player.stdout.read(96 * 200)
            player.kill()
        segments = [dab.segment_of(it.bytes) for it in dab.groups_of(whole_packets(stream)) if it.is_whole]
        found = {it[0]: name for name, it in self.objects(disk).items()}
        return "".join(found[it.tid] for it in segments if it.kind == dab.BODY and it.number == 0)[:8]

    def test_first(self):
        disk = self.place()
        for row, wanted, more in (
                ("two, if nothing is said", "efabcdef", ()), ("and again at each start", "efabcdef", ()),
                ("one fewer than may come early", "defabcde", ("--early", "4")), ("none", "abcdefab", ("--early", "1")),
                ("nor with 0", "abcdefab", ("--early", "0")), ("all", "abcdefab", ("--early", "250")),
                ("none if the directory comes once a turn", "abcdefab", ("--directory", "0"))):
            self.expect(row, wanted, self.order(disk, *more))
        ended = self.play(disk, "-", "--turns", "1", *USUAL)[1]
        self.expect("nor in so many turns, which can go round", 6, len(dab.entities_of(dab.packets_in(ended))) - 1)

    def test_changed(self):
        disk = self.place()
        self.serve(disk, [replace("b")])
        self.expect("what was replaced", "bfabcdef", self.order(disk))
        self.serve(disk, ["period 7", "withdraw f", "period 8"])
        self.expect("whatever else was changed since", "beabcdea", self.order(disk))

    def test_round(self):
        self.expect("also where the ids have gone round", "efabcdef", self.order(self.place("--after", "65530")))

    def test_change_at_the_start(self):
        disk, asked = self.place(), self.folder(name="asked")
        send(asked, "a.lines", replace("a").encode() + b"\n")
        self.expect("a change before the first packet comes early, too", "efaabcde",
                    self.order(disk, "--lines", asked, "--every", "1"))
