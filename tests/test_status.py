"""What monitoring sees of `play`: the file of `--status`, when it is written, how it takes its place, what it has."""
import os
import re
import resource
import shutil
import time

from . import dab, disk
from .air import AirCase, needs_strace, samples, send, traced, until
from .program import run

# name, type and help of each family, in the order of the text
FAMILIES = """\
motcar_packets_total counter Packets that were taken.
motcar_turns_total counter Turns that have ended.
motcar_looks_total counter Looks at the folder.
motcar_changes_total counter Commands that were done.
motcar_refusals_total counter Refusals that were logged.
motcar_line_refusals_total counter Refusals of lines of files, and of these files.
motcar_mass_withdrawals_total counter How often more than half of the objects went.
motcar_objects gauge Objects of the carousel.
motcar_directory_id gauge Transport id of the directory.
motcar_directory_checksum gauge Checksum of the bytes of the directory.
motcar_turn_packets gauge Packets of a turn.
motcar_turn_bytes gauge Bytes of the packets of a turn.
motcar_free_bytes gauge Bytes that are free for bodies.
motcar_gap_bytes gauge The longest body that has room.
motcar_objects_limit gauge Objects that the disk holds.
motcar_data_bytes gauge Bytes that the disk has for bodies.
motcar_last_change_seconds gauge Seconds from 1970 to the last change; 0 if there was none.
motcar_status_seconds gauge Seconds from 1970 to when this was written; 0 if that is not known.
motcar_folder_listed gauge Whether the folder was listed.
motcar_info gauge The version of the program.
motcar_refused_total counter Refusals that were logged, by their reasons.
motcar_file_refused gauge A file that the last look refused, and why.
motcar_object gauge An object on air, and how many bytes it has."""


class Status(AirCase):
    """A folder of which one file is taken and four are refused."""

    def setUp(self):
        super().setUp()
        self.place, self.path = self.disk(), self.room / "status"
        empty = {it: b"" for it in ("b.txt", 'c"\\.txt', "d\1.txt", "d\2.txt")}
        self.objects_of = self.folder({"a.txt": b"x" * 5_000, **empty})

    def shown(self, *more, turns="1", to=None, **how):
        """The status of the program, and its log with levels."""
        ended = self.motcar("play", self.place, "/dev/null", "--at-once", "--allow-empty", "--folder", self.objects_of,
                            "--turns", turns, "--levels", "--status", to or self.path, *more, **how)
        return ended[0], ended[1].decode().splitlines()

    def count(self, name):
        return samples(self.path).get(f"motcar_{name}")

    def checksum(self, disk):
        """The checksum of the directory that a turn of the disk has."""
        entity = dab.entities_of(self.turns(disk, 1))[0]
        return int.from_bytes(dab.checksum(entity.data), "big")


class Samples(Status):
    def test_all(self):
        self.shown()
        inspected, version = self.inspected(self.place), self.motcar("--version")[1].split()[1].decode()
        packets, size = inspected["turn_packets"], inspected["turn_bytes"]
        reasons = {"b.txt": "6 EmptyBody", 'c\\"\\\\.txt': "6 EmptyBody", "d?.txt": "2 BadName: a control character"}
        files = {f'motcar_file_refused{{command="read",name="{it}",reason="{why}"}}': 1 for it, why in reasons.items()}
        wanted = {"packets_total": packets, "turns_total": 1, "looks_total": 1, "changes_total": 1, "refusals_total": 4,
                  "line_refusals_total": 0, "mass_withdrawals_total": 0, "objects_limit": 40, "data_bytes": 600_000,
                  "objects": 1, "directory_id": 3, "directory_checksum": self.checksum(self.place),
                  "turn_packets": packets, "turn_bytes": size, "folder_listed": 1,
                  "free_bytes": inspected["data_free"], "gap_bytes": inspected["gap"],
                  f'info{{version="{version}"}}': 1}
        wanted = {f"motcar_{it}": value for it, value in wanted.items()}
        # (the others have rows of their own)
        others = "motcar_refused_total", "motcar_object{", "motcar_last_change_seconds", "motcar_status_seconds"
        came = {it: value for it, value in samples(self.path).items() if not it.startswith(others)}
        self.expect("a status", {**wanted, **files}, came)
        others = [it for it in self.path.read_text().splitlines() if not re.match(r"# (HELP|TYPE) motcar_|motcar_", it)]
        self.expect("with help and a kind for each family", [], others)
        self.expect("for any reader", 0o644, self.path.stat().st_mode & 0o777)
        self.expect("and nothing is left beside it", False, (self.room / "status.new").exists())

    def test_what_the_families_are(self):
        """Each family has its name, its type and its help, in this order; samples come after it alone."""
        self.shown()
        found = re.findall(r"# HELP (\w+) (.*)\n# TYPE (\w+) (\w+)\n", self.path.read_text())
        self.expect("the families", FAMILIES.splitlines(), [f"{name} {kind} {words}" for name, words, _, kind in found])
        self.expect("a name in both lines", [it[0] for it in found], [it[2] for it in found])

    def test_the_log_beside_it(self):
        status, told = self.shown()
        packets, version = self.count("turn_packets"), self.motcar("--version")[1].split()[1].decode()
        first = f"play: motcar {version}, {self.place}, 0 objects, 1 packets a turn"
        wanted = 0, first, f"play: ended, 1 turns, {packets} packets"
        self.expect("lines at the start and the end", wanted, (status, told[0][3:], told[-1][3:]))
        levels = ["<4>" if " refused " in it else "<6>" for it in told]
        self.expect("and the levels of all lines", (levels, 4), ([it[:3] for it in told], levels.count("<4>")))

    def written(self, *more):
        """How many packets there were each time that the status was written."""
        trace, words = self.room / "trace", ["play", self.place, "/dev/null", "--status", self.path, *more]
        run(["strace", "-f", "-qq", "-s", "400", "-e", "trace=write", "-P", f"{self.path}.new", "-o", trace,
             self.program, *words])
        return [int(it) for it in re.findall(r"motcar_packets_total{disk=[^}]*} (\d+)", trace.read_text())]

    @needs_strace
    def test_when_it_is_written(self):
        self.shown()
        packets = self.count("turn_packets")
        turns = 3_500 // packets
        # (a look begins a turn)
        between = -(-1_000 // packets) * packets
        at = self.written("--at-once", "--folder", self.objects_of, "--turns", str(turns))
        wanted = {0, turns * packets, *(number * it for number in (1, 2, 3) for it in (1_000, between))}
        self.expect("after each look, after each thousand packets, and at the end", sorted(wanted), at)
        self.expect("with all looks and turns", (4, turns), (self.count("looks_total"), self.count("turns_total")))
        self.expect("without a folder", [0, 1_000, 2_000, 3_000, turns * packets],
                    self.written("--turns", str(turns)))
        self.expect("with all turns", (0, turns), (self.count("looks_total"), self.count("turns_total")))

    def test_when_it_was_written(self):
        """The second of its writing, each time that it is written."""
        before = int(time.time())
        self.shown()
        first = self.count("status_seconds")
        self.expect("the time of the machine", True, before <= first <= time.time())
        until(lambda: int(time.time()) > first)
        self.motcar("play", self.place, "/dev/null", "--turns", "1", "--status", self.path)
        self.expect("of a later one without a change", (0, True),
                    (self.count("last_change_seconds"), first < self.count("status_seconds") <= time.time()))
        player = self.player(self.place, "/dev/null", "--status", self.path)
        begun = until(lambda: self.count("packets_total"))
        last = self.count("status_seconds")
        self.expect("and while it plays", (True, True), (begun, until(lambda: self.count("status_seconds") > last)))
        player.end()

    def test_a_file_that_is_mended(self):
        self.shown()
        (self.objects_of / "b.txt").write_bytes(b"b")
        self.shown()
        came = self.count("objects"), sum("file_refused" in it and "b.txt" in it for it in samples(self.path))
        self.expect("a file that is mended", (2, 0), came)

    def test_control_characters_above_ascii(self):
        (self.objects_of / "e\u0085.txt").write_bytes(b"")
        self.expect("a control character above ASCII", True, "<4>read e?.txt refused 6 EmptyBody" in self.shown()[1])
        name = 'motcar_file_refused{command="read",name="e?.txt",reason="6 EmptyBody"}'
        self.expect("and in a status", True, name in samples(self.path))
        told = self.sync(self.place, self.objects_of)[1]
        came = b"\nread e?.txt refused 6 EmptyBody\n" in told, b"\xc2\x85" in told
        self.expect("and in the log of sync", (True, False), came)

    def test_folders_that_are_empty_or_gone(self):
        for it in self.objects_of.iterdir():
            it.unlink()
        self.serve(self.place, ["put a 1 0 - 61", "put b 1 0 - 62"])
        words = ["--folder", self.objects_of, "--turns", "1", "--levels", "--status", self.path]
        kept = self.motcar("play", self.place, "/dev/null", *words)[1].decode().splitlines()
        wanted = 0, 2, True
        came = self.count("folder_listed"), self.count("objects"), f"<4>look {self.objects_of} empty, kept" in kept
        self.expect("an empty folder", wanted, came)
        shutil.rmtree(self.objects_of)
        told = self.shown()[1]
        self.expect("a folder that is gone", (0, 2), (self.count("folder_listed"), self.count("objects")))
        reason = f"<4>look {self.objects_of} refused 22 ReadFault: No such file or directory"
        self.expect("with the reason", True, reason in told)

    def test_two_stations(self):
        """A copy of a disk has the checksum of the disk, until something is changed on one of them."""
        def told(disk):
            ended = self.motcar("play", disk, "/dev/null", "--turns", "1", "--status", self.path)
            self.expect("a status is written", 0, ended[0])
            return self.count("directory_checksum")

        self.serve(self.place, ["put a 1 0 - 6162", "put b 1 0 text/plain 62"])
        other = self.room / "other"
        shutil.copy(self.place, other)
        wanted = self.checksum(self.place)
        self.expect("a disk and its copy", (wanted, wanted), (told(self.place), told(other)))
        last = wanted
        for line in ("replace a 1 0 - 6162", "replace a 1 0 - 6163", "period 7", "withdraw b", "put b 1 0 - 62"):
            self.serve(other, [line])
            came = told(other)
            self.expect(line, (self.checksum(other), True), (came, came not in (last, wanted)))
            last = came
        self.expect("the disk as before", wanted, told(self.place))

    def test_an_id_of_the_directory_that_comes_back(self):
        """On a disk whose ids go on before its directory's, the second of two commands gives the directory the same id."""
        slots = [disk.slot(directory=7, last=65_535, tid=tid, start=at, size=1, name=name)
                 for at, (tid, name) in enumerate(((2, b"a"), (4, b"b"), (6, b"c")))]
        self.place.write_bytes(disk.disk_of(*slots, objects=40, area=100, body=b"abc"))
        asked = self.folder({"1.lines": b"put d 1 0 - 64\nput e 1 0 - 65\n"}, name="lines")
        told = self.motcar("play", self.place, "/dev/null", "--turns", "1", "--lines", asked, "--status", self.path)[1]
        self.expect("two commands between two directories", True, b"done object 5 directory 7\n" in told)
        self.expect("the figures are those of the new one", self.checksum(self.place), self.count("directory_checksum"))

    def test_an_object_that_is_replaced(self):
        """Another length of it is another turn, though there are as many objects as before."""
        asked = self.folder(name="lines")
        self.serve(self.place, ["put a 1 0 - 61", "put b 1 0 - 62"])
        player = self.player(self.place, "/dev/null", "--lines", asked, "--status", self.path)
        until(lambda: self.count("turn_packets"))
        before = self.count("turn_packets"), self.count("turn_bytes")
        send(asked, "1.lines", b"replace a 1 0 - " + b"61" * 5_000 + b"\n")
        until(lambda: self.count("changes_total") == 1)
        at = self.count("packets_total")
        until(lambda: self.count("packets_total") > at)
        after = self.count("turn_packets"), self.count("turn_bytes")
        player.end()
        inspected = self.inspected(self.place)
        packets, size = inspected["turn_packets"], inspected["turn_bytes"]
        came = after, after[1] > before[1] + 5_000
        self.expect("a turn after an object was replaced", ((packets, size), True), came)

    @needs_strace
    def test_a_look_that_takes_long(self):
        """It is told at level 4, by the clock of the status; one that is not long is not, and none without a status."""
        def took(delay, *more):
            words = [self.program, "play", self.place, "/dev/null", "--at-once", "--turns", "3", "--levels",
                     "--folder", self.objects_of, *more]
            fault = f"inject=getdents64:delay_enter={delay}:when=1"
            told = run(traced(words, fault, paths=[self.objects_of, f"{self.objects_of}/."]))[1].decode()
            return [re.sub(r" [3-6] s$", " 3 to 6 s", it) for it in told.splitlines() if " took " in it]

        status = "--status", self.path
        self.expect("a listing of 3.2 s", [f"<4>look {self.objects_of} took 3 to 6 s"], took(3_200_000, *status))
        self.expect("one of 0.2 s", [], took(200_000, *status))
        self.expect("one of 2.5 s, without a status", [], took(2_500_000))

    test_a_look_that_takes_long.takes_long = True

    @needs_strace
    def test_a_disk_fault_in_a_look(self):
        """What the look did that ended the program is counted, and no end is logged."""
        (self.objects_of / "e.txt").write_bytes(b"e")
        words = ["play", self.place, "/dev/null", "--at-once", "--folder", self.objects_of, "--status", self.path]
        fault = "inject=fdatasync:error=EIO:when=4"
        ended = run(traced([self.program, *words], fault, paths=[self.place]))
        self.expect("a disk fault in the first look", (1, 1, 1, 0),
                    (ended[0], *[self.count(it) for it in ("looks_total", "changes_total", "packets_total")]))


class Places(Status):
    """How the status comes to its place, and which places it does not take."""

    def told(self, **how):
        """The status of the program, and the lines of its log about the status."""
        status, log = self.shown(**how)
        return status, [it for it in log if it[3:].startswith("status")]

    def test_places_that_are_none(self):
        self.shown()
        before = self.place.read_bytes()
        folder, link, none = self.folder(name="folder"), self.room / "link", self.room / "link.to.nothing"
        link.symlink_to(self.path.name)
        none.symlink_to("nothing")
        os.mkfifo(self.room / "pipe")
        others = "/dev/null", folder, link, none, self.room / "pipe"
        rows = [("nowhere/status", "No such file or directory"), (self.place, "the disk itself"),
                ("disk", "the disk itself"), *[(it, "a link, or not a regular file") for it in others],
                *[(f"{it}{end}", "the name of a file of the disk") for it in (self.place, "disk", "folder/../disk")
                  for end in ("-journal", "-wal", "-shm")]]
        for path, why in rows:
            wanted = 0, [f"<4>status {path} refused 23 WriteFault: {why}"]
            self.expect(f"a status that can't be written: {path}", wanted, self.told(to=path))
        self.expect("leaves the disk", before, self.place.read_bytes())
        self.expect("and links", ("status", "nothing"), (os.readlink(link), os.readlink(none)))
        made = [it for it in ("nothing", "disk-journal", "disk-shm") if (self.room / it).exists()]
        self.expect("and makes nothing", [], made)
        self.expect("and the disk opens again", 0, self.motcar("check", self.place)[0])

    def test_what_stands_beside_it(self):
        """What a killed run left is written over; what is no regular file stays."""
        new, victim = self.room / "status.new", self.room / "victim"
        new.write_bytes(b"half a sta")
        self.expect("a status beside one that was left", (0, []), self.told())
        self.expect("is written", (1, False), (self.count("objects"), new.exists()))
        victim.write_bytes(b"mine")
        before = self.path.read_bytes()
        for row, make in (("a link", lambda: new.symlink_to(victim)), ("a pipe", lambda: os.mkfifo(new))):
            make()
            why = "the .new file beside it is a link, or not a regular file"
            wanted = [f"<4>status {self.path} refused 23 WriteFault: {why}"]
            self.expect(f"{row} beside it", (0, wanted), self.told(turns="2"))
            self.expect(f"{row} stays, and the old status", (True, before, b"mine"),
                        (os.path.lexists(new), self.path.read_bytes(), victim.read_bytes()))
            new.unlink()

    @needs_strace
    def test_that_a_reader_sees_it_whole(self):
        trace = self.room / "trace"
        words = ["play", self.place, "/dev/null", "--turns", "1", "--status", self.path]
        for _ in range(2):
            run(traced([self.program, *words], "trace=open,openat,creat,truncate,rename,renameat,renameat2", out=trace))
            calls = [it for it in trace.read_text().splitlines() if f'"{self.path}' in it]
            written = [it for it in calls if "rename" not in it and "O_RDONLY" not in it]
            opened = [re.search(r'"([^"]*)"', it)[1] for it in written]
            renamed = [re.findall(r'"([^"]*)"', it) for it in calls if "rename" in it]
            self.expect("only the file beside it is opened to be written", {f"{self.path}.new"}, set(opened))
            wanted = [[f"{self.path}.new", str(self.path)]] * 2
            self.expect("and takes its place, at the start and at the end", wanted, renamed)

    @needs_strace
    def test_that_no_packet_waits_for_the_drive(self):
        """The status is not synced: that may take seconds, and nobody needs a status of before a power cut."""
        trace, words = self.room / "trace", ["play", self.place, "/dev/null", "--turns", "1", "--status", self.path]
        run(traced([self.program, *words], "trace=fsync,fdatasync,rename", paths=[f"{self.path}.new"], out=trace))
        calls = [it.split("(")[0].split()[-1] for it in trace.read_text().splitlines() if "(" in it]
        self.expect("a status is renamed, at the start and at the end, and not synced", ["rename"] * 2, calls)

    @needs_strace
    def test_one_that_cant_be_opened(self):
        """It is opened to see whether a program writes it; that no lock is known to be held is no reason."""
        self.shown()
        self.path.write_bytes(b"of before")
        words = [self.program, "play", self.place, "/dev/null", "--turns", "1", "--status", self.path]
        for fault in ("inject=openat:error=EACCES", "inject=flock:error=ENOLCK"):
            ended = self.traced(words, fault, paths=[self.path])
            self.expect(f"a status is written: {fault}", (0, b"", b"", 1), (*ended, self.count("turns_total")))

    def test_a_full_file_system(self):
        self.shown()
        before = self.path.read_bytes()
        def limit():
            resource.setrlimit(resource.RLIMIT_FSIZE, (1_024, 1_024))

        wanted = 0, [f"<4>status {self.path} refused 23 WriteFault: File too large"]
        ended = self.told(turns="2", preexec_fn=limit, restore_signals=False)
        self.expect("no room for a status", wanted, ended)
        self.expect("the old one stays, and no half of a new one", (before, False),
                    (self.path.read_bytes(), (self.room / "status.new").exists()))

    def test_a_place_that_goes_and_comes_back(self):
        """Each time that it can't be written is logged once, and each time that it can be again."""
        folder = self.folder(name="shown")
        path = folder / "status"
        player = self.player(self.place, "/dev/null", "--levels", "--status", path)
        self.expect("a status is written", True, until(path.exists))
        refused = f"<4>status {path} refused 23 WriteFault: No such file or directory"
        for number in (1, 2, 3):
            os.rename(folder, self.room / "away")
            is_logged = player.until(refused, number)
            at = samples(self.room / "away/status").get("motcar_packets_total")
            os.rename(self.room / "away", folder)
            is_logged = is_logged and player.until(f"<6>status {path} written", number)
            is_written = is_logged and until(lambda: samples(path).get("motcar_packets_total", 0) > at)
            self.expect(f"that it can't be written is logged, and that it is again: {number}", True, is_written)
            if not is_written:
                break
        told = [it for it in player.end() if "status" in it]
        self.expect("each once", [refused, f"<6>status {path} written"] * 3, told)


class Counts(Status):
    """Names that have the words of replies in them count as nothing, in lines that tell of no reply."""

    def setUp(self):
        super().setUp()
        self.objects_of = self.room / "words refused 9 done .folder"
        (self.objects_of / "x refused 3 BadType").mkdir(parents=True)
        for name in ("a refused 6 EmptyBody", "b done directory 3", "c refused 2 BadName.doc",
                     "d done object 2 directory 3.doc", "e.txt", "f.txt", "done", "refused"):
            (self.objects_of / name).write_bytes(b"x")

    def counts(self):
        kinds = "motcar_(refusals|changes|file_refused)"
        return {it: value for it, value in samples(self.path).items() if re.match(kinds, it)}

    def wanted(self, changes, refusals, *files):
        counts = {"motcar_changes_total": changes, "motcar_refusals_total": refusals}
        told = [f'command="read",name="{name}",reason="{why}"' for name, why in files]
        return {**counts, **{f"motcar_file_refused{{{it}}}": 1 for it in told}}

    def test_names_that_are_skipped(self):
        status, told = self.shown()
        self.expect("names that are skipped count as nothing", self.wanted(2, 0), self.counts())
        skipped = [it for it in told if it.startswith("<6>skip ")]
        warnings = [it for it in told if it.startswith("<4>")]
        self.expect("and are no warning", (0, 7, []), (status, len(skipped), warnings))

    def test_a_note(self):
        self.shown()
        for name in ("e.txt", "f.txt"):
            (self.objects_of / name).unlink()
        (self.objects_of / "g.txt").write_bytes(b"")
        told = self.shown()[1]
        self.expect("nor does a note of such a folder", self.wanted(2, 1, ("g.txt", "6 EmptyBody")), self.counts())
        notes = [it[:8] for it in told if it[3:].startswith("note ")]
        self.expect("which is no warning", (1, ["<6>note "]), (sum(it.startswith("<4>") for it in told), notes))

    def test_a_young_file(self):
        (self.objects_of / "g.txt").write_bytes(b"")
        for it in self.objects_of.iterdir():
            os.utime(it, (time.time() - 10,) * 2)
        self.shown()
        (self.objects_of / "h.txt").write_bytes(b"h")
        words = ["--folder", self.objects_of, "--turns", "1", "--levels", "--status", self.path]
        told = self.motcar("play", self.place, "/dev/null", *words)[1].splitlines()
        self.expect("a young file counts as none that was refused",
                    (self.wanted(0, 1, ("g.txt", "6 EmptyBody")), [b"<6>read h.txt too young, next look"]),
                    (self.counts(), [it for it in told if b" h.txt " in it]))

    def test_names_with_the_words_of_a_refusal(self):
        """The name of a refused file is what stands before its last reason."""
        names = ("a refused 6 EmptyBody.txt", "x refused 9 NameTaken refused 1 BadLine.txt",
                 "done object 2 directory 3.txt")
        for name in names:
            (self.objects_of / name).write_bytes(b"x")
        told = self.shown()[1]
        files = [(it, "2 BadName: a space") for it in names]
        self.expect("a refused file whose name has the words of a refusal", self.wanted(2, 3, *files), self.counts())
        lines = [f"<4>read {it} refused 2 BadName: a space" for it in sorted(names)]
        self.expect("and the lines about it", lines, sorted(it for it in told if it.startswith("<4>")))

    def test_names_in_front_of_a_reply(self):
        lines, disk = self.folder(name="lines"), self.disk("other")
        puts = "put done 2 3 image/png 00\nput refused 2 3 image/png 00\nlist\nput done 2 3 image/png 00\n"
        (lines / "a refused 9 NameTaken.lines").write_text(puts)
        words = ["--lines", lines, "--turns", "2000", "--levels", "--status", self.path]
        told = self.motcar("play", disk, "/dev/null", *words)[1]
        counts = self.count("changes_total"), self.count("refusals_total"), told.count(b"<4>")
        self.expect("a name in front of a reply counts as nothing", (2, 1, 1), counts)
