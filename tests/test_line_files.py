"""Files of lines that `play --lines` answers between packets: in which order, which are left, and what the log says."""
import os
import re
import shutil
import subprocess

from . import dab
from .air import AirCase, send, until

# The files of lines in a folder that has other files, too.
NAMES = ("2.lines", "10.lines", "3.lines")
LEFT = "lines {}.lines refused 1 BadLine: its first word is no command"
NO_COMMAND = "refused 1 BadLine: its first word is no command"
NOT_HERE = "refused 1 BadLine: not while a disk is played"


class LineFiles(AirCase):
    """A disk, and a folder of lines."""

    def setUp(self):
        super().setUp()
        self.place, self.asked = self.disk(), self.folder(name="asked")

    def answered(self, *more, to="/dev/null", disk=None):
        return self.play(disk or self.place, to, "--lines", self.asked, *(more or ("--every", "1", "--turns", "20")))

    def playing(self, *more, to="/dev/null", **how):
        return self.player(self.place, to, "--lines", self.asked, "--every", "1", *more, **how)

    def left(self):
        return sorted(os.listdir(self.asked))

    def passes(self, count=1):
        """Lets the program go through the folder so often: a file whose name comes last is answered last."""
        for _ in range(count):
            send(self.asked, "~.lines", b"list\n")
            until(lambda: not (self.asked / "~.lines").exists())


class Answered(LineFiles):
    """Lines come in files while packets go out."""

    def fill(self):
        """Three files of lines, and what is none."""
        send(self.asked, "2.lines", b"list\nnext 1\nturn\n\nwithdraw none")
        send(self.asked, "10.lines", b"put second 1 0 - 6262\n")
        send(self.asked, "3.lines", b"")
        for name in (".left.lines", "left", "headlines", "lines", "a.line", "a.linesx", "LINES", ".left.LINES", "a.LINE", "a,LINES"):
            (self.asked / name).write_bytes(b"withdraw first\n")
        (self.asked / "4.lines").mkdir()
        (self.asked / "5.lines").symlink_to(".left.lines")
        os.mkfifo(self.asked / "6.lines")
        stay = [it for it in self.left() if it not in NAMES]
        return stay, [f"lines {name}.lines refused 22 ReadFault: not a regular file" for name in "456"]

    def test_before_the_first_packet(self):
        self.serve(self.place, ["put first 1 0 - 61"])
        before, (stay, left) = self.turns(self.place, 1), self.fill()
        status, packets, told = self.answered("--every", "1", "--turns", "3", to="-")
        wanted = ["done object 4 directory 5", "carousel 0 5 5 2", "object 2 0 1 0 1 first -",
                  "object 4 0 1 0 2 second -", *[NOT_HERE] * 2, NO_COMMAND, "refused 10 NoSuchName", *left]
        self.expect("lines in files, by their names", (0, wanted), (status, told.decode().splitlines()))
        now = self.turns(self.place, 3)
        self.expect("the first before the first packet", b"".join(now), packets)
        self.expect("which are others than before", False, now[:len(before)] == before)
        self.expect("files are taken away, and no others", stay, self.left())
        self.expect("and none come again", left, self.answered("--every", "1", "--turns", "3")[1].decode().splitlines())

    def test_while_it_plays(self):
        """A long line, one that is too long, and then a kill in the middle."""
        self.serve(self.place, ["put first 1 0 - 61", "put second 1 0 - 6262"])
        stay, left = self.fill()[0], []
        player = self.playing()
        until(lambda: not any((self.asked / it).exists() for it in NAMES))
        left = player.told()
        send(self.asked, "a.lines", b"period 7\nreplace second 1 0 - " + b"5a" * 100_000 + b"\n")
        send(self.asked, "b.lines", b"put " + b"x" * 600_000 + b"\nlist\n")
        until(lambda: b"100000 second -\n" in player.log.read_bytes())
        until(lambda: not (self.asked / "b.lines").exists())
        wanted = ["done directory 6", "done object 7 directory 8", "refused 1 BadLine: 2 words, 6 asked for", "carousel 7 8 8 2",
                  "object 2 0 1 0 1 first -", "object 7 1 1 0 100000 second -"]
        told = [it for it in player.end()[len(left):] if "ReadFault" not in it]
        self.expect("lines while it plays", wanted, told)
        wanted = {"first": ("1 0", 1, "-"), "second": ("1 0", 100_000, "-")}
        self.expect("are stored", wanted, {name: it[2:] for name, it in self.objects(self.place).items()})
        self.expect("and their files are gone", stay, self.left())

    def test_endings_in_any_case(self):
        """A file of lines is one in whatever case its ending is, and its name comes in the order of its bytes."""
        endings = ["lines", "LINES", "Lines", "lINES", "linEs", "LiNeS"]
        names = [f"{number}.{it}" for number, it in enumerate(endings)] + ["a.LINES", "a.lines"]
        for number, name in enumerate(names):
            send(self.asked, name, f"period {number}\n".encode())
        status, told, said = self.motcar("play", self.place, "/dev/null", "--lines", self.asked, "--every", "1", "--turns", "20")
        wanted = [f"lines {name}:1 period {number} done directory {number + 2}" for number, name in enumerate(names)]
        self.expect("endings in any case", (0, wanted, b"", []), (status, told.decode().splitlines()[1:-1], said, self.left()))

    def test_each_first_word(self):
        """A file that begins with a word of lines is answered, and taken away."""
        lines = (b"put a 1 0 - 61", b"replace a 1 0 - 61", b"withdraw a", b"period 5", b"list", b"next 1", b"turn",
                 b"raw 4 2 00")
        for line in lines:
            for text in (line, line + b"\n"):
                send(self.asked, "1.lines", text + (b"period 9\n" if text != line else b""))
                status, told, said = self.motcar("play", self.place, "/dev/null", "--lines", self.asked, "--every", "1",
                                                 "--turns", "20")
                word = line.split()[0]
                self.expect(f"a file that begins with {word}: its first line is answered", (0, True, b"", []),
                            (status, told.splitlines()[1].startswith(b"lines 1.lines:1 " + word), said, self.left()))

    def test_a_file_that_was_not_answered_to_its_end(self):
        send(self.asked, "1.lines", b"put a 1 0 - " + b"61" * 4000 + b"\nperiod 3\n")
        self.expect("one read, and an end", (0, b"", b""), self.answered("--every", "4294967295", "--turns", "1"))
        self.expect("leave the file", ["1.lines"], self.left())
        wanted = 0, b"done object 2 directory 3\ndone directory 4\n", b""
        self.expect("and it comes again", wanted, self.answered("--every", "1", "--turns", "2"))
        self.expect("until it is answered", [], self.left())

    def test_a_file_that_was_answered_before_a_fault(self):
        """It stays where a fault ends the run, whose packets nobody has, and its lines come again."""
        send(self.asked, "1.lines", b"period 3\n")
        status, told, said = self.motcar("play", self.place, "/dev/full", "--lines", self.asked, "--every", "1", "--turns", "3")
        self.expect("a full device", (1, [b"lines 1.lines:1 period 3 done directory 2"], b"motcar: 23 WriteFault"),
                    (status, told.splitlines()[1:], said.splitlines()[0]))
        self.expect("leaves the file", ["1.lines"], self.left())
        self.expect("and it comes again", (0, b"done directory 3\n", b""), self.answered("--every", "1", "--turns", "2"))
        self.expect("until it is answered", [], self.left())

    def test_a_file_that_was_answered_as_playing_ends(self):
        """One read, and an end: a file that is at its end then is taken away, and its lines do not come again."""
        read = b"turn\n" * 818 + b"turn \n"
        rows = (("one line", b"period 2\n", True), ("a whole read", read, True),
                ("a read, and a line more", read + b"period 2\n", False),
                ("a read, and a line end more", read + b"\n", False),
                ("a last line without its end", b"period 2\nperiod 3", False), ("no line", b"", True))
        for row, text, is_gone in rows:
            send(self.asked, "1.lines", text)
            status, told, said = self.answered("--every", "4294967295", "--turns", "1")
            self.expect(f"{row}: what ends in one read is answered", (0, text[:4096].count(b"\n"), b""),
                        (status, told.count(b"\n"), said))
            self.expect(f"{row}: whether the file goes", is_gone, self.left() == [])
            count = self.answered("--every", "1", "--turns", "9")[1].count(b"\n")
            wanted = 0 if is_gone else len(text.splitlines())
            self.expect(f"{row}: how many lines come again, until all are answered", (wanted, []), (count, self.left()))

    def test_a_long_word_in_the_log(self):
        """It has 255 bytes of it at most, and no part of a letter."""
        for letter, count in (("x", 255), ("\u00e9", 127), ("\u20ac", 85), ("\U0001d11e", 63), ("x\u20ac", 63)):
            send(self.asked, "1.lines", f"withdraw {letter * 300}\n".encode())
            told = self.motcar("play", self.place, "/dev/null", "--lines", self.asked, "--every", "1", "--turns", "2")[1]
            cut = (letter * 300).encode()[:255].decode(errors="ignore")
            self.expect(f"a long word of {ascii(letter)}", f"lines 1.lines:1 withdraw {cut} refused 2 BadName",
                        told.decode().splitlines()[1])
            self.expect(f"so many of {ascii(letter)}", count, cut.count(letter))

    def test_lines_and_a_folder(self):
        """Both change the carousel: the folder owns it, and one log tells of both."""
        folder = self.folder({"a.txt": b"x"})
        send(self.asked, "1.lines", b"put beside 1 0 - 61\nlist\n")
        status, packets, told = self.answered("--at-once", "--folder", folder, "--turns", "600", to="-")
        wanted = ["put a.txt done object 2 directory 3", "done object 4 directory 5", "carousel 0 5 5 2",
                  "object 2 0 1 0 1 a.txt text/plain", "object 4 0 1 0 1 beside -", "withdraw beside done directory 6"]
        self.expect("a folder and lines", (0, wanted), (status, told.decode().splitlines()))
        self.expect("and packets go on", True, len(packets) > 1000 * 24)

    def test_a_link_to_the_folder(self):
        link = self.room / "link"
        link.symlink_to(self.asked)
        for path in (f"{self.asked}/", f"{link}", f"{link}/"):
            send(self.asked, "1.lines", b"list\n")
            ended = self.play(self.place, "/dev/null", "--lines", path, "--every", "1", "--turns", "2")
            self.expect(f"lines of a folder: {path[-6:]}", (0, b"carousel 0 1 1 0\n", b""), ended)
            self.expect("are taken away", [], self.left())


class Pace(LineFiles):
    """When lines are read: a file before the first packet, its end after so many, and the next file after as many."""

    def of_each(self, every, *more):
        other = self.room / "other"
        first, second = b"put a 1 0 - " + b"61" * 900 + b"\n", b"put b 1 0 - " + b"62" * 900 + b"\n"
        shutil.copy(self.place, other)
        send(self.asked, "1.lines", first)
        send(self.asked, "2.lines", second)
        status, packets, _ = self.answered("--turns", "9", *more, to="-")
        served = self.serve(other, first + f"next {2 * every}\n".encode() + second + b"next 40\n")[1]
        wanted = b"".join(dab.packets_told(served))
        self.expect(f"lines after each {every} packets", (0, wanted), (status, packets[:len(wanted)]))

    def test_each_eighth_packet(self):
        self.of_each(8)

    def test_each_fifth_packet(self):
        self.of_each(5, "--every", "5")

    def test_each_packet(self):
        self.of_each(1, "--every", "0")

    def test_the_order_of_many_names(self):
        """More names than one read of a folder gives, and more than are kept of them."""
        disk, names = self.new_disk("many", "--objects", "250"), [f"{number:03}" for number in range(200)]
        for name in [*names[100:], *reversed(names[:100])]:
            (self.asked / f"{name}{'x' * 110}.lines").write_bytes(f"put {name} 1 0 - 61\n".encode())
        status, told, _ = self.answered("--every", "1", "--turns", "6", disk=disk)
        self.expect("lines of many files", (0, 200), (status, told.count(b"done object")))
        self.expect("in the order of their names", names, list(self.objects(disk)))

    def test_the_order_of_names_of_many_reads(self):
        """Names that take more reads of a folder than one call makes: none is answered before all of them are known."""
        names = [f"{number:04}" for number in range(2_000)]
        for name in [*names[1_000:], *reversed(names[:1_000])]:
            (self.asked / f"{name}{'x' * 40}.lines").write_bytes(b"withdraw none\n")
        player = self.playing()
        until(lambda: not self.left())
        player.kill()
        answers = [re.match(r"lines (\d+)x+\.lines:1 ", it) for it in player.lines()]
        self.expect("in the order of their names", names, [it[1] for it in answers if it])

    def beside_many(self, text):
        count = len(self.turns(self.place, 1))
        for number in range(20_000):
            (self.asked / f"{number:05}.lines").write_bytes(text)
        words = [self.program, "play", self.place, "/dev/null", "--lines", self.asked, "--turns", str(6_000 // count)]
        player = subprocess.Popen(words, stdout=subprocess.DEVNULL, stderr=subprocess.DEVNULL)
        _, status, used = os.wait4(player.pid, 0)
        player.returncode = os.waitstatus_to_exitcode(status)
        self.expect("6,000 packets beside 20,000 files: status, less than 20 seconds of a processor", (0, True),
                    (player.returncode, used.ru_utime + used.ru_stime < 20))

    def test_many_files_that_wait(self):
        self.beside_many(b"turn\n")

    def test_many_files_that_are_left(self):
        self.beside_many(b"no line\n")

    def test_many_objects_within_one_group(self):
        """120 objects come while one long group is sent, and all of them are sent after it."""
        disk = self.new_disk("long", "--objects", "250", "--data", "600000", "--segment", "8189", "--packet", "24")
        self.serve(disk, ["put long 1 0 - " + "61" * 8_000])
        send(self.asked, "1.lines", "".join(f"put o{number} 1 0 - {number:02x}\n" for number in range(120)).encode())
        words = ["--lines", self.asked, "--every", "1", "--turns", "2", "--directory", "340"]
        status, packets, log = self.play(disk, "-", *words)
        counts = log.count(b"done object"), log.count(b"refused")
        self.expect("120 objects while a group is sent", (0, 120, 0), (status, *counts))
        bodies = dab.carousel_of(dab.packets_in(packets))[1]
        wanted = {b"long": b"a" * 8_000, **{b"o%d" % it: bytes([it]) for it in range(120)}}
        self.expect("are all sent", wanted, bodies)


for test in (Pace.test_many_files_that_wait, Pace.test_many_files_that_are_left, Pace.test_the_order_of_many_names,
             Pace.test_many_objects_within_one_group):
    test.takes_long = True


class Left(LineFiles):
    """Files of another kind stay, and each has one line in the log for as long as it is as it is."""

    def test_what_is_told_once(self):
        texts = {"1": b"MZ is no line\n", "2": b"putt a 1 0 - 61\n", "3": b"\nperiod 1\n"}
        for name, text in texts.items():
            (self.asked / f"{name}.lines").write_bytes(text)
        (self.asked / "a\nb.lines").write_bytes(b"period 1\n")
        with open(os.fsencode(self.asked) + b"/\xe9.lines", "wb") as it:
            it.write(b"period 1\n")
        send(self.asked, "9.lines", b"period 2\n")
        player, left = self.playing(), [LEFT.format(it) for it in "123"]
        player.until("done directory 2")
        self.passes(3)
        first = [it for it in player.told() if "carousel" not in it]
        names = ["lines ?.lines refused 2 BadName: not UTF-8", "lines a?b.lines refused 2 BadName: a control character"]
        wanted = sorted(["done directory 2", *names, *left])
        self.expect("files of another kind are logged once", wanted, sorted(first))
        told = [it for it in first if "BadName" not in it]
        self.expect("before what comes after it is taken", [*left, "done directory 2"], told)
        send(self.asked, "2.lines", b"period 3\n")
        player.until("done directory 3")
        send(self.asked, "1.lines", b"another\n")
        player.until(left[0], 2)
        self.passes(4)
        told = [it for it in player.end() if "carousel" not in it][len(first):]
        self.expect("and again once it is another, once", ["done directory 3", left[0]], told)
        self.expect("and stays", ["1.lines", "3.lines", "a\nb.lines", "\udce9.lines"], self.left())

    def test_first_words_that_are_none(self):
        words = ("withdrawn", "withdrawal", "replaced", "puts", "pu", "periods", "lists", "nextx", "turns", "rawx",
                 "ra", "PUT", "put\t", "put\r", " put", "\n", "list\r", "raw,")
        for number, word in enumerate(words):
            (self.asked / f"{number:02}.lines").write_bytes(f"{word} of the tender 1 0 - 61\n".encode())
        before = self.left()
        status, told, _ = self.answered()
        wanted = [LEFT.format(f"{it:02}") for it in range(len(words))]
        self.expect("texts whose first word is none of lines", (0, wanted), (status, told.decode().splitlines()))
        self.expect("are not taken away", before, self.left())

    def test_a_hundred_that_are_left(self):
        """A hundred files are logged, and no more; once they are gone, others are logged."""
        names = [f"{number:03}" for number in range(100)]
        for name in (*names, "over"):
            (self.asked / f"{name}.lines").write_bytes(b"no line\n")
        player = self.playing()
        self.passes(4)
        told = [it for it in player.told() if "carousel" not in it]
        self.expect("a hundred files are logged once", [LEFT.format(it) for it in names], told)
        for name in names:
            (self.asked / f"{name}.lines").unlink()
        self.passes(4)
        send(self.asked, "new.lines", b"no line\n")
        player.until(LEFT.format("new"))
        self.passes(2)
        # (one that is removed just as it is looked at has another time of change, and is logged once more)
        hundred = {LEFT.format(it) for it in names}
        told = [it for it in player.end() if "carousel" not in it and it not in hundred]
        self.expect("and others once there is room for them", [LEFT.format("over"), LEFT.format("new")], told)
