"""What a look at a folder does to a carousel, and what `sync` says of it: which files are objects, what changed, and
what waits."""
import os
import re
import shutil
import time

from .air import PNG, AirCase, beginning, needs_strace, samples, traced, until, without_ids
from .program import refused, run

JPEG = b"\xff\xd8\xff"

KINDS = [
    ("a.txt", "1 0", "text/plain", b""), ("b.html", "1 2", "text/html", b""), ("c.HTM", "1 2", "text/html", b""),
    ("d.xml", "0 1", "text/xml", b""), ("e.gif", "2 0", "image/gif", b"GIF89a"), ("f.jpg", "2 1", "image/jpeg", JPEG),
    ("g.Jpeg", "2 1", "image/jpeg", JPEG), ("h.bmp", "2 2", "image/bmp", b"BM"), ("i.png", "2 3", "image/png", PNG),
]


class Looks(AirCase):
    """A folder with a file of each suffix, and names that are no objects."""

    def setUp(self):
        super().setUp()
        files = {it[0]: it[3] + b"x" * at for at, it in enumerate(KINDS, 1)}
        self.place, self.objects_of = self.disk(), self.folder(files)
        for name in (".hidden.txt", "notes.doc", "nodot"):
            (self.objects_of / name).write_bytes(b"x")
        (self.objects_of / "folder.png").mkdir()
        (self.objects_of / "link.png").symlink_to("i.png")
        why = {b"folder.png": b"folder", b"link.png": b"link", b"nodot": b"suffix", b"notes.doc": b"suffix"}
        self.skipped = [b"skip %s %s" % it for it in sorted(why.items())]
        self.first = self.sync(self.place, self.objects_of)

    def test_a_first_look(self):
        status, told, _ = self.first
        self.expect("a first look", (0, len(KINDS), self.skipped),
                    (status, len(beginning(b"put", told)), beginning(b"skip", told)))
        self.expect("logs what it skips first", len(self.skipped), len(told[: told.index(b"put ")].splitlines()))
        wanted = {name: (kind, number + len(front), mime) for number, (name, kind, mime, front) in enumerate(KINDS, 1)}
        self.expect("types by suffixes", wanted, {name: it[2:] for name, it in self.objects(self.place).items()})

    def test_a_second_look_does_nothing(self):
        before = self.place.read_bytes()
        status, told, said = self.sync(self.place, self.objects_of)
        self.expect("a second look does nothing", (0, self.skipped, len(self.skipped), b""),
                    (status, beginning(b"skip", told), told.count(b"\n"), said))
        self.expect("and writes nothing", before, self.place.read_bytes())

    def test_what_changed(self):
        there = self.objects(self.place)
        (self.objects_of / "a.txt").write_bytes(b"y")
        (self.objects_of / "b.html").unlink()
        (self.objects_of / "j.png").write_bytes(PNG + b"new")
        status, told, _ = self.sync(self.place, self.objects_of)
        words = [re.sub(rb"\d+", b"N", it) for it in told.splitlines() if not it.startswith(b"skip ")]
        wanted = [b"withdraw b.html done directory N", b"replace a.txt done object N directory N",
                  b"put j.png done object N directory N"]
        self.expect("what changed is logged", (0, wanted), (status, words))
        now = self.objects(self.place)
        kept = [it for it in there if it not in ("a.txt", "b.html")]
        self.expect("what is right stays, with its id", [there[it] for it in kept], [now[it] for it in kept])
        self.expect("what differs has a version more", there["a.txt"][1] + 1, now["a.txt"][1])

    def test_files_that_cant_be_taken(self):
        there = self.objects(self.place)
        (self.objects_of / "a.txt").write_bytes(b"")
        (self.objects_of / "c.HTM").write_bytes(b"x" * 262_145)
        for name in ("two\nlines.txt", "two words.txt"):
            (self.objects_of / name).write_bytes(b"x")
        status, told, _ = self.sync(self.place, self.objects_of)
        wanted = [b"a.txt refused 6 EmptyBody", b"c.HTM refused 7 BodyTooLong: 262145 bytes, at most 262144",
                  b"two words.txt refused 2 BadName: a space", b"two?lines.txt refused 2 BadName: a control character"]
        told = [it for it in told.splitlines() if not it.startswith(b"skip ")]
        self.expect("files that can't be taken", (1, [b"read " + it for it in wanted]), (status, sorted(told)))
        self.expect("and their objects stay", there, self.objects(self.place))

    def test_no_folder(self):
        there = self.objects(self.place)
        ended = self.sync(self.place, "nowhere")
        self.expect("no folder", (1, b"look nowhere refused 22 ReadFault: No such file or directory\n",
                                  b"motcar: nowhere: No such file or directory\n"), ended)
        self.expect("withdraws nothing", there, self.objects(self.place))


class Withdrawals(AirCase):
    """What goes where files go. A folder that has no object takes none off the air, unless that is allowed; and with
    `--keep-most` neither does one that has lost most."""

    def emptied(self):
        """A disk of three objects, and their folder without them."""
        disk, folder, there = self.three()
        for name in there:
            (folder / name).unlink()
        return disk, folder, there

    def test_one_of_three(self):
        disk, folder, _ = self.three()
        (folder / "3.png").unlink()
        status, told, _ = self.sync(disk, folder)
        self.expect("one of three goes", (0, ["withdraw 3.png"]), (status, without_ids(told)))

    def test_a_folder_without_objects(self):
        disk, folder, there = self.emptied()
        kept = f"look {folder} empty, kept\n".encode()
        self.expect("an empty folder", (1, kept, b""), self.motcar("sync", disk, folder))
        (folder / "notes.doc").write_bytes(b"x")
        kept = b"skip notes.doc suffix\n" + kept
        self.expect("a folder without an object", (1, kept, b""), self.motcar("sync", disk, folder))
        played = self.play(disk, "-", "--folder", folder, "--turns", "1")
        self.expect("is played", (0, b"".join(self.turns(disk, 1)), kept), played)
        self.expect("and withdraws nothing", there, self.objects(disk))

    def test_more_than_half(self):
        disk, folder, _ = self.three()
        for name in ("2.png", "3.png"):
            (folder / name).unlink()
        status, told, _ = self.sync(disk, folder)
        wanted = [f"note {folder} 2 of 3 objects go", "withdraw 2.png", "withdraw 3.png"]
        self.expect("more than half of the objects go", (0, wanted), (status, without_ids(told)))

    def test_all_if_that_is_allowed(self):
        disk, folder, there = self.emptied()
        (folder / "notes.doc").write_bytes(b"x")
        status, told, _ = self.motcar("sync", disk, folder, "--allow-empty")
        wanted = ["skip notes.doc suffix", f"note {folder} 3 of 3 objects go", *[f"withdraw {it}" for it in there]]
        self.expect("all go if that is allowed", (0, wanted, {}), (status, without_ids(told), self.objects(disk)))
        ended = self.motcar("sync", disk, folder)
        self.expect("an empty folder of an empty carousel", (0, b"skip notes.doc suffix\n", b""), ended)

    def lost(self, going, count):
        """A disk of so many objects, and their folder, which has lost so many of the files and has a new one."""
        name, names = f"{going}.of.{count}", [f"{it}.txt" for it in range(count)]
        disk, folder = self.disk(name), self.folder({it: b"x" for it in names}, f"folder.{name}")
        self.sync(disk, folder)
        for it in names[:going]:
            (folder / it).unlink()
        (folder / "new.txt").write_bytes(b"x")
        return disk, folder, names[:going]

    def test_most_that_are_kept(self):
        for going, count in ((4, 7), (5, 8), (7, 8), (8, 8)):
            disk, folder, _ = self.lost(going, count)
            before = disk.read_bytes()
            kept = 1, f"look {folder} {going} of {count} objects would go, kept\n".encode(), b""
            for more in (["--dry-run"], [], []):
                self.expect(f"{going} of {count} would go {more}", kept, self.sync(disk, folder, "--keep-most", *more))
            place = self.room / "packets"
            played = self.play(disk, place, "--at-once", "--keep-most", "--folder", folder, "--turns", "1")
            self.expect("it is played into a file", kept, played)
            self.expect("and nothing is changed", before, disk.read_bytes())

    def test_fewer_that_go(self):
        """No more than half of the objects, no more than three, or any, if all may go or none is held back."""
        rows = [(4, 8, ["--keep-most"]), (3, 4, ["--keep-most"]), (3, 3, ["--keep-most"]), (20, 40, ["--keep-most"]),
                (7, 9, ["--keep-most", "--allow-empty"]), (7, 10, [])]
        for going, count, words in rows:
            disk, folder, names = self.lost(going, count)
            note = [f"note {folder} {going} of {count} objects go"] if 2 * going > count else []
            wanted = note + [f"withdraw {it}" for it in sorted(names)] + ["put new.txt"]
            for more in (["--dry-run"], []):
                status, told, _ = self.sync(disk, folder, *words, *more)
                self.expect(f"{going} of {count} go {words} {more}", (0, wanted), (status, without_ids(told)))

    def test_an_empty_folder_with_most_kept(self):
        disk, folder, there = self.emptied()
        kept = 1, f"look {folder} empty, kept\n".encode(), b""
        self.expect("an empty folder", kept, self.sync(disk, folder, "--keep-most"))
        self.expect("of three objects", there, self.objects(disk))

    def test_the_order_of_names(self):
        disk, names = self.disk(), ["B.txt", "a.txt", "ab.txt", "b.txt", "zoo.txt"]
        self.sync(disk, self.folder({it: b"x" for it in reversed(names)}))
        self.expect("objects in the order of their names", names, list(self.objects(disk)))


class Skips(AirCase):
    """Names that are no objects are logged, but for hidden ones and those that are no text; a hundred at most."""

    def test_pipes_and_names_that_are_no_text(self):
        disk, folder = self.disk(), self.folder({"a.txt": b"x", ".b.txt": b"x", b"\xe9.txt": b"x", b"\xe9.doc": b"x"})
        os.mkfifo(folder / "c.txt")
        os.mkfifo(folder / "d.pipe")
        status, told, _ = self.sync(disk, folder)
        wanted = [b"skip ?.doc not UTF-8", b"skip ?.txt not UTF-8", b"skip c.txt special", b"skip d.pipe special"]
        self.expect("pipes, and names that are no text, are skipped", (0, wanted), (status, beginning(b"skip", told)))
        self.expect("and the rest is taken", ["a.txt"], list(self.objects(disk)))

    def test_a_hundred_at_most(self):
        disk, folder = self.disk(), self.folder({"a.txt": b"x", **{f"{it}.doc": b"" for it in range(122)}})
        status, told, _ = self.sync(disk, folder)
        self.expect("a hundred names are skipped with a line", (0, 100), (status, len(beginning(b"skip", told))))
        self.expect("each once", 100, len(set(beginning(b"skip", told))))
        status, told, _ = self.play(disk, "/dev/null", "--turns", "3000", "--at-once", "--folder", folder)
        counts = len(beginning(b"skip", told)), len(told.splitlines())
        self.expect("and play logs them once", (0, 100, 100), (status, *counts))


class Images(AirCase):
    """A file is noted whose suffix says an image type that its first bytes do not say."""

    NAMES = {"gif": "GIF", "jpg": "JPEG", "jpeg": "JPEG", "bmp": "BMP", "png": "PNG"}
    FRONTS = [("GIF", b"GIF87a"), ("GIF", b"GIF89a"), ("JPEG", JPEG), ("BMP", b"BM"), ("PNG", PNG)]

    def setUp(self):
        super().setUp()
        self.place = self.new_disk("disk", "--objects", "250", "--data", "100000")

    def notes(self, files, *more):
        """The notes of a look at these files, all of which are taken."""
        folder = self.folder(files)
        status, told, said = self.sync(self.place, folder, *more)
        self.expect("each file is taken", (0, len(files), b""), (status, told.count(b" done object "), said))
        return [it for it in told.decode().splitlines() if it.startswith("note ")]

    def test_each_type_under_each_suffix(self):
        files, wanted = {}, []
        for suffix, by_suffix in self.NAMES.items():
            for written in (suffix, suffix.upper(), suffix.title()):
                for number, (by_bytes, front) in enumerate(self.FRONTS):
                    name = f"{number}.{written}"
                    files[name] = front + b"x" * number
                    if by_bytes != by_suffix:
                        wanted.append(f"note {name} {by_suffix} by its suffix, {by_bytes} by its bytes")
        self.expect("each type under each suffix, but for its own", sorted(wanted), sorted(self.notes(files)))

    def test_the_first_bytes(self):
        files, wanted = {}, []
        for number, (name, front) in enumerate(self.FRONTS):
            suffix = name.lower()
            files[f"{number}-alone.{suffix}"] = front
            changed = [front[:at] + bytes([front[at] ^ 1]) + front[at + 1:] for at in range(len(front))]
            others = [front[:at] for at in range(1, len(front))] + [it + b"x" for it in changed] + [b"x" + front]
            for at, content in enumerate(others):
                files[f"{number}-{at}.{suffix}"] = content
                wanted.append(f"note {number}-{at}.{suffix} {name} by its suffix, unknown by its bytes")
        self.expect("no byte of them may be another one, or missing", sorted(wanted), sorted(self.notes(files)))

    def test_what_is_no_image_by_its_suffix(self):
        fronts = [front for _, front in self.FRONTS]
        files = {f"{number}.{suffix}": it for number, it in enumerate(fronts) for suffix in ("txt", "html", "htm", "xml")}
        self.expect("a text may begin as it likes", [], self.notes(files))

    def test_suffixes_that_a_file_adds(self):
        types = self.write("types", b"pic 2 3 image/png\ntiff 2 4 -\nmap 3 1 -\npng 1 0 text/plain\njpg 2 3 image/jpeg\n")
        files = {"1.pic": PNG, "2.pic": JPEG, "3.PIC": b"x", "1.tiff": PNG, "1.map": JPEG, "1.png": JPEG, "1.jpg": PNG,
                 "2.jpg": JPEG, "1.jpeg": JPEG}
        wanted = [("2.pic", "JPEG"), ("3.PIC", "unknown"), ("2.jpg", "JPEG")]
        wanted = sorted(f"note {name} PNG by its suffix, {it} by its bytes" for name, it in wanted)
        self.expect("content type and subtype decide", wanted, sorted(self.notes(files, "--types", types)))

    def test_what_is_not_taken(self):
        folder = self.folder({"empty.png": b"", "long.png": JPEG * 90_000, "a b.png": JPEG})
        told = self.sync(self.place, folder)[1]
        self.expect("a file that is not read as an object has no note", (3, 0), (told.count(b"refused"), told.count(b"note")))

    def test_when_it_is_noted(self):
        note = b"note a.jpg JPEG by its suffix, PNG by its bytes\n"
        folder, status = self.folder({"a.jpg": PNG + b"x" * 3_000, "b.png": PNG + b"x"}), self.room / "status"
        told = self.sync(self.place, folder)[1]
        self.expect("before its command", note + b"put a.jpg", told[: len(note) + 9])
        self.expect("and in each run", (0, note, b""), self.sync(self.place, folder))
        words = ["play", self.place, "/dev/null", "--at-once", "--folder", folder, "--status", status]
        told = self.motcar(*words, "--levels", "--turns", "1")[1].splitlines(True)
        self.expect("as a warning", [b"<4>" + note], [it for it in told if not it.startswith(b"<6>play: ")])
        self.expect("while it plays, once", (0, note, b""), self.play(*words[1:], "--turns", "3000"))
        figures = samples(status)
        counts = {it: figures[f"motcar_{it}_total"] for it in ("refusals", "line_refusals", "mass_withdrawals")}
        self.expect("in many looks", True, figures["motcar_looks_total"] > 3)
        self.expect("it is not counted", ({it: 0 for it in counts}, 1), (counts, figures["motcar_folder_listed"]))

    def test_while_it_plays(self):
        folder = self.folder({"a.jpg": JPEG})
        player = self.player(self.place, "/dev/null", "--at-once", "--folder", folder)

        def settled(lines):
            """The lines but those of a look that met the file just as it became another."""
            return [it for it in lines if it != "read a.jpg changed, next look"]

        wanted = ["put a.jpg"]
        for content, by_bytes in ((PNG, "PNG"), (b"x", "unknown"), (JPEG, "JPEG"), (PNG + b"x", "PNG")):
            until(lambda: len(settled(player.told())) >= len(wanted))
            (self.room / "new").write_bytes(content)
            os.rename(self.room / "new", folder / "a.jpg")
            note = f"note a.jpg JPEG by its suffix, {by_bytes} by its bytes"
            wanted += [*([] if by_bytes == "JPEG" else [note]), "replace a.jpg"]
        until(lambda: len(settled(player.told())) >= len(wanted))
        told = [it.split(" done")[0] for it in settled(player.end())]
        self.expect("each time that it is another type", wanted, told)

    def test_what_has_no_room(self):
        small = self.new_disk("small", "--objects", "4", "--data", "7000")
        told = self.sync(small, self.folder({"a.gif": b"x" * 8_000}))[1].splitlines()[:2]
        wanted = [b"note a.gif GIF by its suffix, unknown by its bytes", b"put a.gif refused 12 NoRoom: 8000 bytes"]
        self.expect("a file that was read is noted, whatever comes of it", wanted, told)

    @needs_strace
    def test_what_is_not_synced(self):
        folder = self.folder({"a.gif": b"x"})
        words = [self.program, "sync", "--at-once", self.place, folder]
        told = run(traced(words, "inject=fsync:error=EIO", paths=[folder / "a.gif"]))[1]
        self.expect("a file that can't be made to last has no note", (1, True), (told.count(b"\n"), told.startswith(b"read a.gif")))


class Young(AirCase):
    """What was changed less than two seconds ago waits."""

    def aged(self, name, seconds):
        """Writes a file whose last change is so many seconds ago."""
        now = time.time()
        (self.objects_of / name).write_bytes(b"x")
        os.utime(self.objects_of / name, (now - seconds, now - seconds))

    def setUp(self):
        super().setUp()
        self.place, self.objects_of = self.disk(), self.folder()

    def test_a_young_file(self):
        for name, age in (("future.txt", -1000), ("old.txt", 2.1), ("new.txt", 0)):
            self.aged(name, age)
        status, told, _ = self.motcar("sync", self.place, self.objects_of)
        self.expect("a young file is left", (1, True, {"future.txt", "old.txt"}),
                    (status, b"read new.txt too young, next look\n" in told, set(self.objects(self.place))))
        status, told, _ = self.sync(self.place, self.objects_of)
        self.expect("but taken at once", (0, ["put new.txt"]), (status, without_ids(told)))

    def test_its_object_stays(self):
        self.aged("old.txt", 10)
        self.motcar("sync", self.place, self.objects_of)
        there = self.objects(self.place)
        (self.objects_of / "old.txt").write_bytes(b"another")
        status, told, _ = self.motcar("sync", self.place, self.objects_of)
        self.expect("its object stays", (1, b"read old.txt too young, next look\n", there),
                    (status, told, self.objects(self.place)))

    def test_while_it_plays(self):
        self.aged("old.txt", 10)
        player = self.player(self.place, "/dev/null", "--folder", self.objects_of)
        self.expect("an old file is taken at once", True, until(lambda: "put old.txt" in player.log.read_text()))
        began = time.monotonic()
        (self.objects_of / "old.txt").write_bytes(b"another")
        (self.objects_of / "new.txt").write_bytes(b"more")
        until(lambda: {it.split(" done")[0] for it in player.told()} >= {"replace old.txt", "put new.txt"})
        waited = time.monotonic() - began
        told = player.end()
        self.expect("while it plays it is taken once it is old", True, 1.5 < waited < 30)
        young = [it.split()[1] for it in told if it.endswith(" too young, next look")]
        self.expect("and was logged once", ["new.txt", "old.txt"], sorted(young))


class Bounds(AirCase):
    """Folders of many files, of long names, and of what has no room."""

    def test_many_files(self):
        disk, folder = self.disk(), self.folder({f"{it}.png": b"" for it in range(20_000)})
        many = f"look {folder} refused 11 TooManyObjects: more than 1000 names have a suffix\n".encode()
        self.expect("20,000 files", (1, many, b""), self.sync(disk, folder))
        status, packets, told = self.play(disk, "-", "--at-once", "--folder", folder, "--turns", "3000")
        turn = len(b"".join(self.turns(disk, 1)))
        self.expect("are logged once, and packets go on", (0, 3000 * turn, many), (status, len(packets), told))

    def test_a_thousand_files(self):
        disk, folder = self.disk(), self.folder({f"{it}.png": b"" for it in range(1_000)})
        many = f"look {folder} refused 11 TooManyObjects: more than 1000 names have a suffix\n".encode()
        status, told, _ = self.sync(disk, folder)
        self.expect("1,000 are looked at", (1, 1000), (status, told.count(b" refused 6 EmptyBody\n")))
        os.symlink("0.png", folder / "link.png")
        status, told, _ = self.sync(disk, folder)
        told = told.removeprefix(b"skip link.png link\n")
        self.expect("and no more names, whatever they are", (1, many), (status, told))

    def test_long_names(self):
        disk = self.new_disk("disk", "--objects", "160", "--data", "600000")
        names = {f"{number:0103}.png" for number in range(160)}
        self.expect("many long names", 0, self.sync(disk, self.folder({it: b"x" for it in names}))[0])
        self.expect("are all objects", names, set(self.objects(disk)))

    def test_what_has_no_room(self):
        disk = self.new_disk("disk", "--objects", "4", "--data", "7000")
        folder, status = self.folder({"1.txt": b"x" * 8_000, "2.txt": b"x", "3.txt": b"x"}), self.room / "status"
        ended, log, _ = self.sync(disk, folder)
        told = b"put 1.txt refused 12 NoRoom: 8000 bytes\n"
        self.expect("what has no room", (1, True, 4), (ended, log.startswith(told), log.count(b"\n")))
        wanted = f"note {folder} 6998 bytes in the longest gap"
        self.expect("and how much there is", wanted, log.decode().splitlines()[-1])
        self.expect("stops no other object", {"2.txt", "3.txt"}, set(self.objects(disk)))
        (folder / "2.txt").write_bytes(b"x" * 7_001)
        told = self.sync(disk, folder)[1].splitlines()
        wanted = [b"put 1.txt refused 12 NoRoom: 8000 bytes", b"replace 2.txt refused 12 NoRoom: 7001 bytes"]
        self.expect("nor to replace one", wanted, told[:-1])
        self.play(disk, "/dev/null", "--at-once", "--folder", folder, "--turns", "1", "--status", status)
        reasons = [it for it in samples(status) if it.startswith("motcar_file_refused")]
        wanted = [f'motcar_file_refused{{command="{it}",name="{name}",reason="12 NoRoom: {size} bytes"}}'
                  for it, name, size in (("put", "1.txt", 8000), ("replace", "2.txt", 7001))]
        self.expect("as the status says", wanted, reasons)

    def test_too_many_objects(self):
        disk = self.new_disk("disk", "--objects", "2", "--data", "7000")
        folder = self.folder({f"{it}.txt": b"xy" for it in range(1, 5)})
        status, told, _ = self.sync(disk, folder)
        told = [it if b"refused" in it or b"note" in it else it[:9] for it in told.splitlines()]
        wanted = [b"put 1.txt", b"put 2.txt", b"put 3.txt refused 11 TooManyObjects: 2 at most",
                  f"note {folder} 2 objects at most, 2 files wait".encode()]
        self.expect("one object too many: no bytes, and no gap, are its reason", (1, wanted), (status, told))


for test in (Bounds.test_many_files, Bounds.test_a_thousand_files, Bounds.test_long_names):
    test.takes_long = True


class Links(AirCase):
    """A folder may be given as a link."""

    def test_a_link_to_a_folder(self):
        disk, folder, there = self.three()
        link = self.room / "link"
        link.symlink_to(folder.name)
        packets = b"".join(self.turns(disk, 1))
        for path in (f"{link}", f"{link}/"):
            self.expect(f"a link to a folder: {path[-5:]}", (0, b"", b""), self.sync(disk, path))
            played = self.play(disk, "-", "--at-once", "--folder", path, "--turns", "1")
            self.expect(f"is played: {path[-5:]}", (0, packets, b""), played)
        self.expect("the objects stay", there, self.objects(disk))

    def test_what_is_no_folder(self):
        disk, folder, there = self.three()
        none = self.room / "none"
        none.symlink_to("nowhere")
        for path, why in ((none, "No such file or directory"), (folder / "1.png", "Not a directory")):
            ended = 1, f"look {path} refused 22 ReadFault: {why}\n".encode(), f"motcar: {path}: {why}\n".encode()
            self.expect(f"no folder: {why}", ended, self.sync(disk, path))
        wanted = 1, b"look  refused 22 ReadFault: No such file or directory\n"
        self.expect("an empty path", wanted, self.sync(disk, "")[:2])
        self.expect("the objects stay", there, self.objects(disk))
        shutil.rmtree(folder)
        wanted = refused(15, "DeviceFault", f"{none}: No such file or directory; check the path")
        self.expect("a disk that is none", wanted, self.motcar("sync", none, folder))
