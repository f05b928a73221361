"""Suffixes of one's own: `--types` of `sync` and `play`."""
import os

from .air import AirCase
from .program import refused


class Types(AirCase):
    """A folder of four files, and a file of suffixes."""

    def setUp(self):
        super().setUp()
        self.place = self.disk()
        self.objects_of = self.folder({it: b"x" for it in ("a.svg", "b.PNG", "c.doc", "d.spi")})
        self.types = self.room / "types"

    def synced(self):
        return self.sync(self.place, self.objects_of, "--types", self.types)

    def looking(self):
        """The commands that look by suffixes, each with the words that it has."""
        played = ["play", self.place, "/dev/null", "--turns", "1", "--at-once", "--folder", self.objects_of]
        return [["sync", "--at-once", self.place, self.objects_of], played]

    def test_suffixes_that_are_added(self):
        lines = ("svg 2 0 image/svg+xml", "png 2 9 image/apng", "PNG 2 3 image/png", "spi 7 0 -")
        self.types.write_text("# of our own\n\n" + "".join(f"{it}\n" for it in lines))
        self.expect("suffixes that are added", 0, self.synced()[0])
        wanted = {"a.svg": ("2 0", 1, "image/svg+xml"), "b.PNG": ("2 3", 1, "image/png"), "d.spi": ("7 0", 1, "-")}
        came = {name: it[2:] for name, it in self.objects(self.place).items()}
        self.expect("the later line of one counts", wanted, came)

    def test_lines_that_are_none(self):
        before = self.place.read_bytes()
        wrong = (("svg 2 0", 1, "BadLine", 1), ("# own\n\na.b 2 0 x/y\n", 2, "BadName", 3),
                 ("svg 2 0 x/y\nsvg 64 0 x/y\n", 3, "BadType", 2), ("svg 2 0 \x7f\nsvg\n", 4, "BadMime", 1))
        for text, number, name, line in wrong:
            self.types.write_text(text)
            why = f"{self.types}: line {line} is no SUFFIX TYPE SUBTYPE MIME"
            self.expect(f"no suffix: {text!r}", refused(number, name, why), self.synced())
        self.expect("and the disk stays", before, self.place.read_bytes())

    def test_files_that_are_none(self):
        before, pipe = self.place.read_bytes(), self.room / "pipe"
        os.mkfifo(pipe)
        for words in self.looking():
            none = refused(22, "ReadFault", "nowhere: No such file or directory")
            self.expect(f"no file of suffixes: {words[0]}", none, self.motcar(*words, "--types", "nowhere"))
            no_file = refused(22, "ReadFault", f"{pipe}: not a regular file")
            self.expect(f"suffixes of a pipe: {words[0]}", no_file, self.motcar(*words, "--types", pipe))
        self.types.write_text("#" * 65_536 + "\n")
        too_long = refused(22, "ReadFault", f"{self.types}: longer than 65,536 bytes")
        self.expect("a file of suffixes that is too long", too_long, self.synced())
        self.expect("and the disk stays", before, self.place.read_bytes())

    def test_the_longest_file(self):
        self.types.write_text("\ndoc 0 0 application/doc".rjust(65_536, "#"))
        self.expect("the longest one", 0, self.synced()[0])
        self.expect("counts to its end", True, "c.doc" in self.objects(self.place))

    def test_play_looks_by_them(self):
        self.types.write_text("svg 2 0 image/svg+xml\n")
        ended = self.play(self.place, "/dev/null", "--turns", "1", "--at-once", "--folder", self.objects_of,
                          "--types", self.types)
        done = {it[:14] for it in ended[1].splitlines() if it.startswith(b"put ")}
        self.expect("play looks by them, too", (0, {b"put a.svg done", b"put b.PNG done"}), (ended[0], done))
