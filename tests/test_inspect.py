"""`export` and `inspect`: lines that rebuild a carousel; what a disk holds, and how long a turn of it takes."""
from . import dab
from .air import AirCase
from .program import refused

PEOPLE = """\
         1  address of the packets
        96  bytes of a packet, at most
      1024  bytes of a segment, at most
         2  objects
        38  more objects, at most
      3020  bytes of bodies
    596980  more bytes of bodies, at most
    596280  bytes of the longest body that finds room
         5  slots of the log with a command
        37  more commands before the log is written anew
        37  packets of a turn
      3360  bytes of a turn
        12  packets of the longest data group
         1  packets of the directory
        58  packets until a receiver has the directory, at most
        58  packets until it has all objects, at most

Seconds of a turn (too long: a packet fits in no frame), in packets of at most
              24 bytes   48 bytes   72 bytes   96 bytes
  32 kbit/s        1.1        1.0        1.2        0.9
Recommended: --packet 96, the shortest turn at 1 of 1 rates.
"""
USUAL = (8, 16, 24, 32, 40, 48, 56, 64, 80, 96, 112, 128)


def turn_time(lengths, rate):
    """How many milliseconds packets take that a multiplexer puts whole into frames of 24 ms, in order; None, if one fits
    in no frame."""
    frames, left = 0, 0
    if max(lengths) > 3 * rate:
        return None
    for it in lengths:
        if it > left:
            frames, left = frames + 1, 3 * rate
        left -= it
    return 24 * frames


def lengths_told(groups, segment, rates):
    """What `inspect` tells of a turn of these groups, in packets of each length."""
    def filled(size):
        return size if 64 <= size <= 8189 else None

    def times(rate):
        cut = {it: [size for group in groups for size in dab.cut_lengths(group, it)] for it in dab.LENGTHS}
        return {"rate": rate, **{f"milliseconds_{it}": turn_time(cut[it], rate) for it in dab.LENGTHS}}

    sizes = [{"packets": it, "shorter": filled((segment + 11) // (it - 5) * (it - 5) - 11),
              "longer": filled(((segment + 11) // (it - 5) + 1) * (it - 5) - 11)} for it in dab.LENGTHS]
    return sizes + [times(it) for it in rates]


def waits_told(groups, segment, length, rate=None):
    """What `inspect` tells of how long a receiver has to listen: to a turn of these groups, in packets of this length, if
    `play` is told this rate or none."""
    def packets(size):
        return len(dab.cut_lengths(size, length))

    def with_directories(count):
        return -(-(10 * count + 1) // 9)

    longest = packets(segment + 11)
    directory = sum(packets(len(it)) for it in groups if it[0] & 15 == dab.DIRECTORY)
    turn = sum(packets(len(it)) for it in groups)
    carousel = with_directories(longest + turn + 3 * directory)
    pause = 340 * max(1, 3 * rate // length) if rate else 340
    soon = min(carousel, with_directories(max(pause, 10 * directory) + longest + 2 * directory))
    return {"group": longest, "directory": directory, "heard_directory": soon, "heard_carousel": carousel}


class Inspect(AirCase):
    """What is printed of a disk is what its lines show, and of a turn what its packets do."""

    def setUp(self):
        super().setUp()
        puts = [f"put {name} 2 3 - {'5a' * size}" for name, size in (("a", 700), ("b", 3000), ("c", 20))]
        self.place = self.disk("disk", *puts, "withdraw a")

    def turn(self, disk):
        """The packets of the first turn, and the sizes of its groups."""
        packets = self.turns(disk, 1)
        return packets, [len(it.bytes) for it in dab.groups_of(packets)]

    def waits(self, disk, segment, length, rate=None):
        return waits_told([it.bytes for it in dab.groups_of(self.turns(disk, 1))], segment, length, rate)

    def expect_cut(self, row, disk, length):
        packets, groups = self.turn(disk)
        cut = [size for group in groups for size in dab.cut_lengths(group, length)]
        self.expect(row, cut, list(map(len, packets)))

    def first(self):
        packets = self.turn(self.place)[0]
        return {"address": 1, "packet": 96, "segment": 1024, "objects_used": 2, "objects_free": 38, "data_used": 3020,
                "data_free": 600_000 - 3020, "gap": 600_000 - 3720, "slots_used": 5, "slots_free": 37,
                "turn_packets": len(packets), "turn_bytes": sum(map(len, packets))}

    def test_a_disk(self):
        before, groups = self.place.read_bytes(), self.turn(self.place)[1]
        self.expect_cut("packets are cut as they are counted", self.place, 96)
        wanted = [{**self.first(), **self.waits(self.place, 1024, 96)}, *lengths_told(groups, 1024, USUAL)]
        self.expect("a disk inspected", wanted, self.in_json("inspect", self.place))
        self.expect("stays as it was", before, self.place.read_bytes())
        self.expect("and has so many slots left", b"done", self.serve(self.place, "period 1\n")[1][:4])
        inspected = self.inspected(self.place)
        self.expect("and says so", (6, 36), (inspected["slots_used"], inspected["slots_free"]))

    def test_for_people(self):
        status, printed, said = self.motcar("inspect", self.place, "--rate", "32")
        self.expect("a disk inspected, for people", (0, PEOPLE, b""), (status, printed.decode(), said))
        lines = self.motcar("inspect", self.place)[1].decode().splitlines()
        self.expect("the line of the slowest rate", f"{'8 kbit/s':>11}{'4.0':>11}" + f"{'too long':>11}" * 3,
                    next(it for it in lines if " 8 kbit/s" in it))
        self.expect("and the best length", "Recommended: --packet 48, the shortest turn at 7 of 12 rates.",
                    next(it for it in lines if it.startswith("Recommended")))

    def test_rates(self):
        groups = self.turn(self.place)[1]
        for rate in (8, 72, 1824):
            wanted = [{**self.first(), **self.waits(self.place, 1024, 96, rate)}, *lengths_told(groups, 1024, [rate])]
            self.expect(f"at {rate} kbit/s", wanted, self.in_json("inspect", self.place, "--rate", str(rate)))
        for rate in ("0", "7", "12", "1832", "4294967295"):
            wanted = refused(8, "BadNumber", f"--rate {rate}: a multiple of 8, 8 to 1824")
            for words in (["inspect", self.place], ["play", self.place, "-"]):
                self.expect(f"no sub-channel has {rate} kbit/s", wanted, self.motcar(*words, "--rate", rate))

    def test_the_directory_comes_later_at_a_rate(self):
        """`play` multiplies its pause by the packets that a frame holds."""
        long = self.new_disk("long", "--objects", "1", "--data", "200000", "--packet", "24")
        self.serve(long, [f"put a 2 3 - {'5a' * 100_000}"])
        heard = {}
        for rate in (None, 8, 64, 80):
            wanted = self.waits(long, 1024, 24, rate)
            came = self.inspected(long, *(["--rate", str(rate)] if rate else []))
            self.expect(f"at {rate} kbit/s", wanted, {it: came[it] for it in wanted})
            heard[rate] = wanted["heard_directory"]
        self.expect("as without a rate, eight and ten times as late", [True, True, True],
                    [heard[None] == heard[8], heard[64] - heard[8] >= 340 * 7, heard[80] - heard[64] >= 340 * 2])

    def test_short_packets(self):
        small = self.new_disk("small", "--objects", "40", "--data", "600000", "--packet", "24", "--segment", "64")
        self.serve(small, [f"put o{it} 1 0 - {'5a' * 90}" for it in range(40)])
        self.expect_cut("short packets are cut as they are counted", small, 24)
        first, *others = self.in_json("inspect", small)
        wanted = self.waits(small, 64, 24)
        self.expect("small objects", (wanted, lengths_told(self.turn(small)[1], 64, USUAL)),
                    ({it: first[it] for it in wanted}, others))

    def test_a_full_output(self):
        wanted = 1, b"", b"motcar: 23 WriteFault\n"
        self.expect("a full standard output takes no inspection", wanted, self.to_full("inspect", self.place))

    def test_words_and_disks_that_are_none(self):
        for command in ("export", "inspect"):
            self.expect(f"wrong words: {command}", (2, b""), self.motcar(command)[:2])
            wanted = refused(15, "DeviceFault", "none: No such file or directory; check the path")
            self.expect(f"a disk that is none: {command}", wanted, self.motcar(command, "none"))


class Export(AirCase):
    def test_a_carousel_is_rebuilt(self):
        puts = ["put a 1 0 text/plain 61", "put b 2 3 - " + "62" * 5_000, "put c 1 2 text/html 63",
                "replace b 0 1 - 64"]
        disk = self.disk("disk", *puts, "withdraw a", "put a 7 511 - 65", "period 77")
        other = self.disk("other")
        status, lines, _ = self.motcar("export", disk)
        self.serve(other, lines)
        self.expect("export rebuilds", (0, lines), (status, self.motcar("export", other)[1]))
        self.expect("with its period", b"period 77", lines.splitlines()[-1])
        shown = [[(name, it[2:]) for name, it in self.objects(it).items()] for it in (disk, other)]
        self.expect("the same objects in the same order", shown[0], shown[1])
        self.expect("which are those of the lines", ["b", "c", "a"], [it for it, _ in shown[1]])
