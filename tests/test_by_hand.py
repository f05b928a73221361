"""What a person does to a disk by hand: `list`, `put`, `withdraw`, `get`; and `sync --dry-run`, which changes nothing."""
import json
import os

from .air import AirCase
from .disk import disk_of
from .program import refused, top

LOGO = (top / "examples" / "logo.png").read_bytes()


class ByHand(AirCase):
    """A disk with one object, and some files beside it."""

    def setUp(self):
        super().setUp()
        self.place = self.disk()
        self.write("logo.png", LOGO)
        self.write("page.html", b"<html>")
        self.first = self.motcar("put", self.place, "logo.png")

    def listed(self):
        return self.motcar("list", self.place)

    def test_names_in_json(self):
        """Each name is a text of JSON, as it is: with quotes, backslashes, and letters of more bytes."""
        names = ['a"b', "c\\d", "e/f", "\u00e9\u20ac\U0001f4fb", "\u0085x"]
        self.serve(self.place, [f"put {it} 1 0 {'text/plain' if it == 'e/f' else '-'} 61" for it in names])
        came = [json.loads(it) for it in self.motcar("list", self.place, "--json")[1].decode().split("\n")[2:-1]]
        wanted = [(it, "text/plain" if it == "e/f" else None) for it in names]
        self.expect("names in JSON", wanted, [(it["name"], it["mime"]) for it in came])

    def test_put(self):
        self.expect("a file is put", (0, b"put logo.png done object 2 directory 3\n", b""), self.first)
        self.expect("a file of its name replaces it, one of another does not",
                    (0, b"put page.html done object 4 directory 5\nput logo.png done object 6 directory 7\n", b""),
                    self.motcar("put", self.place, "page.html", "logo.png"))
        self.expect("so they are listed", (0, b"carousel 0 7 7 2\nobject 6 1 2 3 779 logo.png image/png\n"
                                              b"object 4 0 1 2 6 page.html text/html\n", b""), self.listed())
        self.expect("as `serve` lists them", self.listed(), self.serve(self.place, "list\n"))

    def test_put_by_path(self):
        (self.room / "folder").mkdir()
        self.write("folder/logo.png", b"other")
        self.expect("a file of a folder has its own name alone", (0, b"put logo.png done object 4 directory 5\n", b""),
                    self.motcar("put", self.place, self.room / "folder" / "logo.png"))
        self.expect("and its bytes", (0, b"other", b""), self.motcar("get", self.place, "logo.png"))

    def test_a_name_twice(self):
        (self.room / "folder").mkdir()
        self.write("folder/page.html", b"second")
        self.expect("the second file of a name replaces the first",
                    (0, b"put page.html done object 4 directory 5\nput page.html done object 6 directory 7\n", b""),
                    self.motcar("put", self.place, "page.html", "folder/page.html"))
        self.expect("with its bytes", (0, b"second", b""), self.motcar("get", self.place, "page.html"))
        self.expect("a name that is withdrawn twice",
                    (1, b"withdraw page.html done directory 8\nwithdraw page.html refused 10 NoSuchName\n", b""),
                    self.motcar("withdraw", self.place, "page.html", "page.html"))

    def test_put_refused(self):
        before = self.listed()
        (self.room / "folder.png").mkdir()
        (self.room / "link.png").symlink_to("logo.png")
        os.mkfifo(self.room / "pipe.png")
        self.write("empty.png", b"")
        self.write("long.png", b"x" * 262_145)
        self.write("a b.png", b"x")
        self.write("new.svg", b"<svg>")
        none = b"no regular file, or it changed while it was read"
        rows = [
            ("no such file", "gone.png", b"22 ReadFault", b"No such file or directory"),
            ("a folder", "folder.png", b"22 ReadFault", none),
            ("a link", "link.png", b"22 ReadFault", none),
            ("a pipe", "pipe.png", b"22 ReadFault", none),
            ("an unknown suffix", "new.svg", b"3 BadType", b"unknown suffix"),
            ("a hidden file", ".png", b"3 BadType", b"unknown suffix"),
            ("a space in the name", "a b.png", b"2 BadName", b"no object can have this name"),
            ("too long", "long.png", b"7 BodyTooLong", b"262145 bytes, 262144 at most"),
        ]
        for row, name, number, why in rows:
            self.expect(row, (1, b"put " + name.encode() + b" refused " + number + b"\n", b"motcar: " + name.encode() + b": " + why + b"\n"),
                        self.motcar("put", self.place, name))
        self.expect("no bytes", (1, b"put empty.png refused 6 EmptyBody\n", b""), self.motcar("put", self.place, "empty.png"))
        self.expect("nothing was put", before, self.listed())
        self.expect("the files beside a refused one are put",
                    (1, b"put page.html done object 4 directory 5\nput gone.png refused 22 ReadFault\nput logo.png done object 6 directory 7\n",
                     b"motcar: gone.png: No such file or directory\n"),
                    self.motcar("put", self.place, "page.html", "gone.png", "logo.png"))

    def test_put_unreadable(self):
        home, as_nobody = self.of_nobody("home")
        format = self.motcar("format", "home/disk", **as_nobody)
        (self.room / "logo.png").chmod(0)
        self.expect("a file that can't be read", (0, (1, b"put logo.png refused 22 ReadFault\n", b"motcar: logo.png: Permission denied\n")),
                    (format[0], self.motcar("put", home / "disk", "logo.png", **as_nobody)))

    def test_put_types(self):
        self.write("new.spi", b"<spi>")
        self.write("types.txt", b"spi 7 0 -\n")
        self.expect("a suffix that a file adds", (0, b"put new.spi done object 4 directory 5\n", b""),
                    self.motcar("put", self.place, "new.spi", "--types", "types.txt"))
        self.expect("a line of it that is wrong", refused(1, "BadLine", "types.txt: line 1 is no SUFFIX TYPE SUBTYPE MIME"),
                    self.motcar("put", self.place, "new.spi", "--types", self.write("types.txt", b"spi 7\n").name))

    def test_full(self):
        small = self.new_disk("small.disk", "--objects", "1", "--data", "64")
        self.expect("no room for the body", (1, b"put logo.png refused 12 NoRoom\n", b""), self.motcar("put", small, "logo.png"))
        self.expect("room for one object", (1, b"put page.html done object 2 directory 3\nput b.html refused 11 TooManyObjects\n", b""),
                    self.motcar("put", small, "page.html", self.write("b.html", b"b").name))

    def test_withdraw(self):
        self.motcar("put", self.place, "page.html")
        self.expect("names that are there and are not",
                    (1, b"withdraw gone refused 10 NoSuchName\nwithdraw logo.png done directory 6\n", b""),
                    self.motcar("withdraw", self.place, "gone", "logo.png"))
        self.expect("the other stays", (0, b"carousel 0 6 6 1\nobject 4 0 1 2 6 page.html text/html\n", b""), self.listed())
        for row, name in (("two words are no name", "page.html more"), ("nor is what ends a line", "page.html\nlist"), ("nor is nothing", "")):
            # (what a terminal or a reader of lines would take for something else is shown as `?`)
            line = f"withdraw {name.replace(chr(10), '?')} refused 2 BadName\n"
            self.expect(row, (1, line.encode(), f"motcar: {name}: no object can have this name\n".encode()),
                        self.motcar("withdraw", self.place, name))
        self.expect("it stays", (0, b"carousel 0 6 6 1\nobject 4 0 1 2 6 page.html text/html\n", b""), self.listed())

    def test_get(self):
        before = self.place.read_bytes()
        self.expect("the bytes of a body and nothing else", (0, LOGO, b""), self.motcar("get", self.place, "logo.png"))
        every = bytes(range(256)) * 1024
        self.write("all.txt", every)
        self.expect("the disk was only read", before, self.place.read_bytes())
        self.motcar("put", self.place, "all.txt")
        self.expect("the longest body", (0, every, b""), self.motcar("get", self.place, "all.txt"))
        self.expect("no object of the name", refused(10, "NoSuchName"), self.motcar("get", self.place, "gone"))
        self.expect("no name", refused(2, "BadName"), self.motcar("get", self.place, "a b"))
        self.expect("an output that takes nothing", (1, b"motcar: 23 WriteFault\n"),
                    self.to_full("get", self.place, "logo.png")[::2])

    def test_no_disk(self):
        self.write("text.disk", b"x" * 4_096)
        damaged = refused(20, "Damaged 0", "damaged.disk: slot 0: the directory has transport id 0")
        self.write("damaged.disk", disk_of(b"\xa5\x04"))
        for words in (["list"], ["put", "logo.png"], ["withdraw", "logo.png"], ["get", "logo.png"], ["sync", ".", "--dry-run"]):
            command, more = words[0], words[1:]
            self.expect(f"{command}: no file", refused(15, "DeviceFault", "gone.disk: No such file or directory; check the path"),
                        self.motcar(command, "gone.disk", *more))
            self.expect(f"{command}: no disk", refused(17, "NotFormatted", "text.disk: no motcar disk: it does not begin with "
                                                                           "MOTCAR01"),
                        self.motcar(command, "text.disk", *more))
            self.expect(f"{command}: a damaged disk", damaged, self.motcar(command, "damaged.disk", *more))
            self.expect(f"{command}: a word is missing", 2, self.motcar(command)[0])

    def test_damage_is_kept(self):
        self.expect("an output that takes nothing", (1, b"motcar: 23 WriteFault\n"),
                    self.to_full("put", self.place, "page.html")[::2])
        self.expect("what was done is done", 2, len(self.objects(self.place)))
        self.expect("of `withdraw`, too", (1, b"motcar: 23 WriteFault\n"),
                    self.to_full("withdraw", self.place, "page.html")[::2])
        self.expect("so it is gone", 1, len(self.objects(self.place)))
        self.expect("of `list`", (1, b"motcar: 23 WriteFault\n"), self.to_full("list", self.place)[::2])


class DryRun(AirCase):
    """`sync --dry-run` prints what `sync` prints, and changes nothing."""

    def tried(self, place, folder, *options):
        """What a dry run says, after it has left the disk as it was, and then `sync`."""
        before = place.read_bytes()
        tried = self.motcar("sync", place, folder, "--at-once", "--dry-run", *options)
        self.expect("the disk is as it was", before, place.read_bytes())
        return tried, self.motcar("sync", place, folder, "--at-once", *options)

    def test_as_sync(self):
        place, folder = self.disk(), self.folder({"a.txt": b"a", "b.png": b"b", "c.doc": b"c"})
        tried, done = self.tried(place, folder)
        self.expect("a first look", (0, done), (tried[0], tried))
        self.expect("puts", 2, tried[1].count(b" done object "))
        (folder / "a.txt").write_bytes(b"other")
        (folder / "b.png").unlink()
        tried, done = self.tried(place, folder)
        self.expect("a replacement and a withdrawal", (0, done), (tried[0], tried))
        (folder / "e.txt").write_bytes(b"")
        tried, done = self.tried(place, folder)
        self.expect("something that would be refused", (1, done), (tried[0], tried))
        self.expect("in these words", b"read e.txt refused 6 EmptyBody\n", tried[1].splitlines(True)[-1])
        tried, done = self.tried(place, "nowhere")
        self.expect("no folder", (1, done), (tried[0], tried))
        (folder / "types.txt").write_bytes(b"doc 1 0 -\n")
        tried, done = self.tried(place, folder, "--types", folder / "types.txt")
        self.expect("suffixes that a file adds", (1, done), (tried[0], tried))

    def test_a_longer_file(self):
        place, folder = self.disk(), self.folder({"a.txt": b"a"})
        with open(place, "ab") as file:
            file.truncate(100_000_000)
        tried, done = self.tried(place, folder)
        self.expect("a file that is longer than its disk", (0, done), (tried[0], tried))

    def test_no_output(self):
        place, folder = self.disk(), self.folder({"a.txt": b"a"})
        before = place.read_bytes()
        self.expect("an output that takes nothing", (1, b"motcar: 23 WriteFault\n"),
                    self.to_full("sync", place, folder, "--at-once", "--dry-run")[::2])
        self.expect("changes nothing", before, place.read_bytes())
