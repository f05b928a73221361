"""The words of the command line: wrong ones, those of the geometry, help, and the version."""
import re
import shutil

from .program import HELLO, PACKET, Case, refused, top


class Words(Case):
    def test_a_word_that_is_no_text(self):
        wanted = (2, b"", b"motcar: a word of the command line is no UTF-8 text\n")
        for words in ([b"\xff"], ["memory", b"\xff"]):
            self.expect(str(words), wanted, self.motcar(*words, given=HELLO))

    def test_wrong_words(self):
        rows = ("", "play", "check", "memory --packet x", "memory --packet 4294967320",
                "memory --packet=24 --packet=24")
        for words in rows:
            status, printed, said = self.motcar(*words.split(), given=HELLO)
            self.expect(f"wrong words: {words}", (2, b"", True), (status, printed, said != b""))

    def test_a_number_with_a_unit(self):
        """It is refused with the unit that is asked for."""
        said = b"error: invalid value '10M' for '--data <BYTES>': invalid digit found in string"
        status, printed, errors = self.motcar("format", "disk", "--data", "10M")
        self.expect("--data 10M", (2, b"", said), (status, printed, errors.splitlines()[0]))
        self.expect("and no file is made", False, (self.room / "disk").exists())

    def test_the_last_transport_id_of_a_new_disk(self):
        for number, directory in (("0", "1"), ("9", "10"), ("65534", "65535"), ("65535", "1")):
            made = self.motcar("format", number, "--after", number)[0]
            first = self.motcar("check", number)[1].decode().split("\n")[0]
            self.expect(f"--after {number}", (0, f"carousel 0 {directory} {directory} 0"), (made, first))

    def test_transport_ids_begin_again_after_the_last(self):
        made = self.motcar("format", "disk", "--after", "65533")[0]
        told = self.serve("disk", b"put a 2 3 - 00\n")[1]
        self.expect("after 65533", (0, b"done object 65535 directory 1\n"), (made, told))

    def test_a_last_transport_id_out_of_range(self):
        wanted = refused(21, "BadGeometry", "--after 65536: 0 to 65535")
        self.expect("--after 65536", wanted, self.motcar("format", "none", "--after", "65536"))
        self.expect("and no file is made", False, (self.room / "none").exists())


class Geometry(Case):
    def test_geometries_that_are_taken(self):
        far = PACKET.replace(b"0c011074", b"0fff1074").replace(b"8561", b"8ee5")
        # (a group's last packet takes the shortest length that holds it, whatever the configured one)
        for options in ("", "--packet 24", "--packet=0048", "--address 1023", "--data 65537", "--objects 3"):
            packet = far if "1023" in options else PACKET
            self.expect(f"memory {options}", (0, packet, b""), self.memory(HELLO, *options.split()))

    def test_geometries_out_of_range(self):
        options = ("packet 25", "packet 65560", "objects 0", "objects 251", "objects 65552", "data 0", "data 268435457",
                   "segment 63", "segment 8190", "address 0", "address 1024")
        for option in options:
            status, printed, said = self.memory(HELLO, *f"--{option}".split())
            first, second = said.decode().split("\n")[:2]
            is_named = second.startswith(f"motcar: --{option}: ")
            self.expect(option, (1, b"", "motcar: 21 BadGeometry", True), (status, printed, first, is_named))
        wanted = refused(21, "BadGeometry", "--packet 25: 24, 48, 72 or 96")
        came = self.memory(HELLO, "--objects", "3", "--packet", "25")
        self.expect("of two the one that is out of range", wanted, came)

    def test_packets_have_at_most_96_bytes_by_default(self):
        # (a body of 81 bytes takes one of 96 and one of 24)
        packets = self.memory(b"raw 4 2 " + b"55" * 81 + b"\n")[1].splitlines()
        came = [(it[:13], (len(it) - len(b"packet ")) // 2) for it in packets]
        self.expect("81 bytes", [(b"packet c8015b", 96), (b"packet 140101", 24)], came)


class Help(Case):
    """The help is that of the repository's texts, which the launcher prints before there is a proof."""

    texts = sorted((top / "docs/help").glob("*.txt"))

    def test_a_text_for_each_command(self):
        listed = (top / "docs/help/motcar.txt").read_text().partition("Commands:")[2]
        commands = re.findall(r"^  (\w+) ", listed, re.M)
        self.expect("commands", sorted([*commands, "motcar"]), sorted([*(it.stem for it in self.texts), "help"]))

    @staticmethod
    def forms(text):
        name = text.stem
        return ("help", "--help", "-h") if name == "motcar" else (f"help {name}", f"{name} --help", f"{name} -h")

    def test_all_words_that_ask_for_help(self):
        for text in self.texts:
            for words in self.forms(text):
                self.expect(words, (0, text.read_bytes(), b""), self.motcar(*words.split()))

    def test_help_that_can_not_be_printed(self):
        for text in self.texts:
            words = self.forms(text)[0]
            self.expect(f"{words} to a full device", refused(23, "WriteFault"), self.to_full(*words.split()))


class Version(Case):
    """The version is a constant; if a note of an installation is of this version, it is printed instead."""

    def setUp(self):
        super().setUp()
        source = (top / "crates/motcar/src/version.rt").read_text()
        self.released = re.search(r'const VERSION: &str = "motcar (.*)\\n";', source)[1]
        for folder in ("bin", "share/motcar"):
            (self.room / folder).mkdir(parents=True)
        self.program = shutil.copy(self.program, self.room / "bin/motcar")
        self.version = self.motcar("--version")[1]

    def test_without_a_note(self):
        # (of a build between two releases with its commit: tools/version.sh)
        form = rf"motcar {re.escape(self.released)}(\+git\d{{8}}\.\d{{6}}\.[0-9a-f]{{8,}}(\.dirty)?)?\n"
        self.expect("the version of the sources", True, bool(re.fullmatch(form, self.version.decode())))
        for words in ("--version", "-V"):
            self.expect(words, (0, self.version, b""), self.motcar(words))

    def test_a_note_of_this_version(self):
        note = self.version + b"commit 12\nproved with a toolchain\n"
        self.write("share/motcar/VERSION", note)
        self.expect("the note", (0, note, b""), self.motcar("--version"))

    def test_a_note_of_another_version(self):
        self.write("share/motcar/VERSION", b"motcar 0.0.1\ncommit 12\n")
        self.expect("the constant", (0, self.version, b""), self.motcar("--version"))

    def test_a_version_that_can_not_be_printed(self):
        for note in (None, self.version + b"commit 12\n", b"motcar 0.0.1\ncommit 12\n"):
            if note:
                self.write("share/motcar/VERSION", note)
            self.expect(f"with the note {note}", refused(23, "WriteFault"), self.to_full("--version"))
