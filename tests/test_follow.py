"""A folder that changes while `play` plays: each change is taken, and told once."""
import os
import pathlib
import re

from .air import PNG, AirCase, samples, until
from .program import refused

MEMORY = pathlib.Path("/dev/shm")


def is_of_memory(place):
    """Whether a folder is there whose names come in another order once one of them is another file."""
    return place.is_dir() and any(it.split()[1:3] == [str(place), "tmpfs"] for it in open("/proc/mounts"))


class Follow(AirCase):
    """A folder of four files that can't be taken, and of two that can."""

    def setUp(self):
        super().setUp()
        self.place, self.status = self.disk(), self.room / "status"
        self.objects_of = self.folder({"a.txt": b"", "c.HTM": b"x" * 262_145, "two words.txt": b"x",
                                       "two\nlines.txt": b"x", "notes.doc": b"x", "i.png": PNG + b"i", "j.png": PNG + b"j"})

    def playing(self, *more, to="/dev/null", **how):
        words = ["--at-once", "--folder", self.objects_of, "--status", self.status, *more]
        return self.player(self.place, to, *words, **how)

    def looks(self, count):
        """Waits for so many looks more."""
        before = samples(self.status).get("motcar_looks_total", 0)
        return until(lambda: samples(self.status).get("motcar_looks_total", 0) >= before + count)

    def test_changes(self):
        player = self.playing()
        until(lambda: player.log.read_text().count("refused") >= 4)
        hint = "if that plays it, its folder or its lines change it; else end it first"
        wanted = refused(15, "DeviceFault", f"{self.place}: in use by another program; {hint}")
        self.expect("a disk that is played is locked", wanted, self.sync(self.place, self.objects_of))
        (self.room / "new").write_bytes(PNG + b"z" * 3000)
        os.rename(self.room / "new", self.objects_of / "k.png")
        (self.objects_of / "i.png").unlink()
        until(lambda: {"put k.png", "withdraw i.png"} <= {it.split(" done")[0] for it in player.told()})
        self.expect("looks go on", True, self.looks(3))
        told = [re.sub(r"\d+", "N", it) for it in player.end()]
        done = [it for it in told if not it.startswith(("read ", "skip "))]
        wanted = [*[f"put {it}.png done object N directory N" for it in "ijk"], "withdraw i.png done directory N"]
        self.expect("changes are logged once", wanted, sorted(done))
        objects = self.objects(self.place)
        self.expect("and stored", (True, False), ("k.png" in objects, "i.png" in objects))
        self.expect("clean after a kill", True, b"\nclean\n" in self.motcar("check", self.place)[1])
        # (a look may come to i.png just after it has gone, and says so)
        names = sorted(it[5:].split(" refused")[0] for it in told if " refused " in it and not it.startswith("read i.png "))
        self.expect("a refusal is logged once", ["a.txt", "c.HTM", "two words.txt", "two?lines.txt"], names)
        self.expect("and a name that is skipped", 1, told.count("skip notes.doc suffix"))

    def test_a_refusal_that_comes_again(self):
        types = self.room / "types"
        suffixes = "".join(f"s{number} 2 {number} image/s{number}\n" for number in range(250))
        types.write_text("svg 2 0 image/svg+xml\n" + suffixes)
        self.objects_of = self.folder({"a.svg": b"x", "b.s249": b""}, "typed")

        def become(text):
            (self.room / "become").write_bytes(text)
            os.rename(self.room / "become", self.objects_of / "b.s249")

        again = "read b.s249 refused 6 EmptyBody"
        player = self.playing("--types", types)
        player.until(again)
        become(b"y")
        until(lambda: "put b.s249" in player.log.read_text())
        become(b"")
        player.until(again, 2)
        told = sorted(re.sub(r"\d+ directory \d+", "N", it) for it in player.end())
        wanted = ["note a.svg GIF by its suffix, unknown by its bytes", "put a.svg done object N",
                  "put b.s249 done object N", again, again]
        self.expect("what is refused again is logged again", wanted, told)
        wanted = {"a.svg": ("2 0", 1, "image/svg+xml"), "b.s249": ("2 249", 1, "image/s249")}
        came = {name: it[2:] for name, it in self.objects(self.place).items()}
        self.expect("by suffixes of one's own", wanted, came)

    def test_names_that_come_in_another_order(self):
        if not is_of_memory(MEMORY):
            self.skipTest("/dev/shm is no folder in memory")
        self.objects_of = MEMORY / self.room.name
        self.objects_of.mkdir()
        self.addCleanup(lambda: [it.unlink() for it in self.objects_of.iterdir()] and self.objects_of.rmdir())
        names = [f"{it}.doc" for it in "abcdef"]
        for name in (*names, "g.txt"):
            (self.objects_of / name).write_bytes(b"x")
        player = self.playing()
        self.expect("the first look", True, until(lambda: player.log.read_text().count("skip") >= 6))
        for name in ("a.doc", "c.doc", "a.doc", "b.doc"):
            order = os.listdir(self.objects_of)
            (self.room / "new").write_bytes(b"y")
            (self.objects_of / ".part").write_bytes(b"y")
            os.rename(self.objects_of / ".part", self.objects_of / name)
            self.expect(f"{name} comes at another place", True, order != os.listdir(self.objects_of))
            self.looks(2)
        told = [it for it in player.end() if it.startswith("skip ")]
        self.expect("names that are skipped are logged once", [f"skip {it} suffix" for it in names], sorted(told))

    def test_how_often_it_looks(self):
        """A file that may be taken soon brings the next look soon; one that is refused does not."""
        for name in os.listdir(self.objects_of):
            (self.objects_of / name).unlink()
        (self.objects_of / "z.txt").write_bytes(b"z" * 3_000)
        os.utime(self.objects_of / "z.txt", (0, 0))
        words = ["--folder", self.objects_of, "--status", self.status]
        self.play(self.place, "/dev/null", *words, "--turns", "1")
        turn = samples(self.status)["motcar_turn_packets"]
        kinds = {"a.txt": (b"", "6 EmptyBody"), "b.txt": (b"x" * 262_145, "7 BodyTooLong"),
                 "c c.txt": (b"x", "2 BadName"), "d.txt": (b"x" * 260_000, "12 NoRoom"), "e.doc": (b"x", "suffix")}
        small = self.new_disk("small", "--objects", "40", "--data", "9000")
        for name, (content, why) in kinds.items():
            (self.objects_of / name).write_bytes(content)
            os.utime(self.objects_of / name, (0, 0))
            ended = self.play(small, "/dev/null", *words, "--turns", str(3_500 // turn))
            self.expect(f"beside a file that is refused: {why}", (True, 4),
                        (why.encode() in ended[1], samples(self.status)["motcar_looks_total"]))
            (self.objects_of / name).unlink()

    def test_the_folder_is_open_in_a_look_alone(self):
        player = self.playing(to="-", of_page=True)
        until(lambda: player.log.read_text().count("refused") >= 4)
        # (it stands still, since nobody reads its packets)
        until(lambda: pathlib.Path(f"/proc/{player.ran.pid}/wchan").read_text() == "pipe_write", 2)
        files = [os.readlink(f"/proc/{player.ran.pid}/fd/{it}") for it in os.listdir(f"/proc/{player.ran.pid}/fd")]
        self.expect("between looks the disk is open, and not the folder", (True, False),
                    (str(self.place) in files, str(self.objects_of) in files))
