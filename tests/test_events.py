"""What happened is said once: its line and its level in the log, its count and its samples in the status. No name
decides any of them."""
import os
import re
import resource
import shutil
import subprocess
import time

from .air import AirCase, needs_strace, samples, send, traced, until
from .program import run

REASONS = ("1 BadLine", "2 BadName", "3 BadType", "4 BadMime", "5 BadBody", "6 EmptyBody", "7 BodyTooLong",
           "8 BadNumber", "9 NameTaken", "10 NoSuchName", "11 TooManyObjects", "12 NoRoom", "14 OutOfMemory",
           "15 DeviceFault", "16 Halted", "22 ReadFault", "23 WriteFault")
FAMILIES = ("packets_total turns_total looks_total changes_total refusals_total line_refusals_total "
            "mass_withdrawals_total objects directory_id directory_checksum turn_packets turn_bytes free_bytes "
            "gap_bytes objects_limit data_bytes last_change_seconds status_seconds folder_listed info refused_total file_refused "
            "object").split()
# Names of objects and of files that a label, a line or a reader of one might take for something else.
HOSTILE = ('a".txt', "b\\.txt", "c\\n.txt", 'd\\".txt', "e{}.txt", 'f",id="9.txt', "g}1.txt", "#h.txt",
           "\u20ac\u0085.txt", "i,j=k.txt")


def escaped(name):
    """A name as a label has it."""
    shown = "".join("?" if ord(it) < 32 or 126 < ord(it) < 160 else it for it in name)
    return shown.replace("\\", "\\\\").replace('"', '\\"')


class Events(AirCase):
    """A disk, the status and the log with levels of a program that plays it."""

    def setUp(self):
        super().setUp()
        self.place, self.path = self.disk(), self.room / "status"

    def played(self, *more, turns=1, disk=None, **how):
        words = ["--turns", str(turns), "--levels", "--status", self.path, *more]
        ended = self.motcar("play", disk or self.place, "/dev/null", *words, **how)
        return ended[1].decode().splitlines()

    def looked(self, folder, *more, **how):
        return self.played("--at-once", "--folder", folder, *more, **how)

    def count(self, name):
        return samples(self.path).get(f"motcar_{name}")

    def refusals(self):
        """The counts of refusals: all, those of lines, and by their reasons if there are any."""
        reasons = {it: self.count(f'refused_total{{reason="{it}"}}') for it in REASONS}
        counts = self.count("refusals_total"), self.count("line_refusals_total")
        return *counts, {it: value for it, value in reasons.items() if value}


class Samples(Events):
    def test_each_family_in_its_order(self):
        self.looked(self.folder({"a.txt": b"x", "b.txt": b""}))
        lines = self.path.read_text().splitlines()
        helped = [it.split()[2] for it in lines if it.startswith("# HELP")]
        self.expect("families in their order", [f"motcar_{it}" for it in FAMILIES], helped)
        named = list(dict.fromkeys(it.partition("{")[0] for it in lines if not it.startswith("#")))
        self.expect("and their samples", helped, named)
        others = [it for it in lines if it[0] != "#" and f'{{disk="{self.place}"' not in it]
        self.expect("each with its disk", [], others)

    def test_the_limits(self):
        for objects, data in ((1, 1_000), (40, 600_000), (250, 1)):
            disk = self.new_disk(f"disk.{objects}", "--objects", str(objects), "--data", str(data))
            self.played(disk=disk)
            self.expect("the limits", (objects, data), (self.count("objects_limit"), self.count("data_bytes")))

    def test_each_reason_from_the_start_on(self):
        self.played()
        wanted = {f'motcar_refused_total{{reason="{it}"}}': 0 for it in REASONS}
        self.expect("each reason, from 0 on", wanted,
                    {it: value for it, value in samples(self.path).items() if "refused_total" in it})

    def test_each_object(self):
        """A sample for each object, as `check` shows it, whatever its name is."""
        folder = self.folder({name: b"x" * at for at, name in enumerate(HOSTILE, 1)})
        self.looked(folder)
        (folder / HOSTILE[0]).write_bytes(b"y" * 5_000)
        self.looked(folder)
        found = self.objects(self.place)
        self.expect("all are objects", set(HOSTILE), set(found))
        wanted = [f'motcar_object{{name="{escaped(name)}",id="{it[0]}",version="{it[1]}"}} {it[3]}'
                  for name, it in found.items()]
        shown = [it.replace(f'disk="{self.place}",', "") for it in self.path.read_text().splitlines()]
        self.expect("each has a sample", wanted, [it for it in shown if it.startswith("motcar_object{")])

    def test_no_object(self):
        self.played()
        self.expect("none has a sample", [], [it for it in samples(self.path) if it.startswith("motcar_object{")])

    def test_the_last_change(self):
        folder, before = self.folder({"a.txt": b"x"}), int(time.time())
        self.looked(folder)
        self.expect("the time of a change", True, before <= self.count("last_change_seconds") <= time.time())
        self.looked(folder)
        self.expect("0 in a run without one", 0, self.count("last_change_seconds"))
        asked = self.folder(name="asked")
        send(asked, "1.lines", b"withdraw none\n")
        self.played("--lines", asked)
        self.expect("and after a refusal", 0, self.count("last_change_seconds"))
        send(asked, "1.lines", b"period 5\n")
        self.played("--lines", asked)
        self.expect("a line makes a change", True, before <= self.count("last_change_seconds") <= time.time())

    def test_the_status_at_the_end(self):
        """It counts the last packet and the last turn, however many there were since it was written last."""
        for text in (b"x", b"x" * 100_000):
            folder = self.folder({"a.txt": text}, name=f"objects.{len(text)}")
            self.looked(folder)
            size = self.count("turn_packets")
            for turns in (1, 2, 7):
                self.looked(folder, turns=turns)
                self.expect(f"{turns} turns of {size} packets", (turns * size, turns),
                            (self.count("packets_total"), self.count("turns_total")))
                self.played(turns=turns)
                self.expect("and without a folder", (turns * size, turns),
                            (self.count("packets_total"), self.count("turns_total")))

    def test_changes_by_the_last_lines(self):
        asked = self.folder(name="asked")
        send(asked, "1.lines", b"period 1\nput a 1 0 - 6\nperiod 2\n")
        self.played("--lines", asked, turns=1)
        self.expect("what the only read was answered", (2, (1, 1, {"5 BadBody": 1})),
                    (self.count("changes_total"), self.refusals()))

    def hostile(self):
        """A status of a disk and of files with names that a reader of it may take for something else."""
        folder = self.folder({**{name: b"x" for name in HOSTILE}, 'z"\\.txt': b"", "z\1.txt": b"x", "z\2.txt": b"x"})
        self.looked(folder, disk=self.disk('a"\\b\nc'))

    def test_the_form_of_each_line(self):
        """It is that of the exposition format, and no two samples have one name and the same labels."""
        self.hostile()
        label = r'[a-z]+="(?:[^"\\\n]|\\["\\n])*"'
        form = re.compile(rf"# (HELP|TYPE) motcar_[a-z_]+ .+|(motcar_[a-z_]+{{{label}(?:,{label})*}}) [0-9]+")
        text = self.path.read_text()
        lines = text.removesuffix("\n").split("\n")
        self.expect("each line", ([], "\n"), ([it for it in lines if not form.fullmatch(it)], text[-1]))
        named = [form.fullmatch(it)[2] for it in lines if form.fullmatch(it)]
        named = [it for it in named if it]
        self.expect("each sample once", len(named), len(set(named)))
        self.expect("the label of the disk", True,
                    all(f'{{disk="{self.room}/a\\"\\\\b\\nc"' in it for it in named))

    def test_promtool(self):
        if not shutil.which("promtool"):
            self.skipTest("there is no promtool")
        self.hostile()
        ended = run(["promtool", "check", "metrics"], self.path.read_bytes())
        self.expect("promtool takes it", (0, b""), (ended[0], ended[1]))


class Levels(Events):
    def test_how_many_objects_go(self):
        """More than half of them are a note; of these more than three are a warning, and counted."""
        rows = [(1, 1), (1, 2), (2, 3), (3, 4), (3, 5), (4, 8), (4, 7), (4, 5), (5, 9), (6, 6), (20, 39), (20, 40)]
        for going, all_of_them in rows:
            name = f"{going}.of.{all_of_them}"
            disk, names = self.disk(name), [f"{it}.txt" for it in range(all_of_them)]
            folder = self.folder({it: b"x" for it in names}, name=f"folder.{name}")
            self.looked(folder, disk=disk)
            for it in names[:going]:
                (folder / it).unlink()
            told = self.looked(folder, "--allow-empty", disk=disk)
            is_note, is_warning = 2 * going > all_of_them, 2 * going > all_of_them and going > 3
            wanted = [f"<{4 if is_warning else 6}>note {folder} {going} of {all_of_them} objects go"] if is_note else []
            self.expect(f"{going} of {all_of_them} go", (wanted, int(is_warning), going, (0, 0, {})),
                        ([it for it in told if " go" in it], self.count("mass_withdrawals_total"),
                         self.count("changes_total"), self.refusals()))

    def test_names_like_refusals(self):
        """What has the words of a refusal in its name is none: neither a level nor a count comes of a name."""
        words = ("x refused 5 Bad: y", "x refused 10 NoSuchName", "refused 1 BadLine: a",
                 "look x refused 22 ReadFault: y", "done directory 3", "x done object 2 directory 3")
        for number, name in enumerate(words):
            asked = self.folder(name=f"asked.{number}")
            (asked / f"{name}.lines").write_bytes(b"list\n")
            told = self.played("--lines", asked, turns=9)
            self.expect(f"a reply of a file {name}", (1, [], 0, (0, 0, {})),
                        (sum(" carousel " in it for it in told), [it for it in told if it[:3] != "<6>"],
                         self.count("changes_total"), self.refusals()))
            (self.room / name).mkdir()
            disk = self.disk(f"{name}/disk")
            told = self.played(disk=disk)
            self.expect(f"a disk in {name}", (2, [], 0, (0, 0, {})),
                        (len(told), [it for it in told if it[:3] != "<6>"], self.count("changes_total"),
                         self.refusals()))
            folder = self.folder(name=f"{name} of objects")
            told = self.looked(folder, "--allow-empty", disk=disk)
            self.expect(f"a folder {name}", (2, [], (0, 0, {})),
                        (len(told), [it for it in told if it[:3] != "<6>"], self.refusals()))

    def test_refusals_by_their_reasons(self):
        """Each is counted under its number, and those of lines apart."""
        folder = self.folder({"a.txt": b"", "b b.txt": b"x", "c.txt": b"x" * 262_145, "d.txt": b""})
        self.looked(folder)
        self.expect("of files", (4, 0, {"6 EmptyBody": 2, "2 BadName": 1, "7 BodyTooLong": 1}), self.refusals())
        asked = self.folder(name="asked")
        (asked / "no.lines").write_bytes(b"no line\n")
        send(asked, "1.lines", b"turn\nput a 99 0 - 61\nput a 1 0 \1 61\nput a 1 0 - 6\nperiod x\nwithdraw a\n"
                               b"put b 1 0 - 61\nput b 1 0 - 61\n")
        told = self.played("--lines", asked, turns=9)
        wanted = {"1 BadLine": 2, "3 BadType": 1, "4 BadMime": 1, "5 BadBody": 1, "8 BadNumber": 1, "10 NoSuchName": 1,
                  "9 NameTaken": 1}
        self.expect("of lines", (8, 8, wanted), self.refusals())
        self.expect("each is a warning", 8, sum(it.startswith("<4>") for it in told))
        self.expect("and one is a change", 1, self.count("changes_total"))

    def test_a_folder_that_is_empty_counts_as_a_refusal(self):
        self.serve(self.place, ["put a 1 0 - 61"])
        self.looked(self.folder())
        self.expect("of no number", (1, 0, {}), self.refusals())


class Lines(Events):
    def test_names_that_are_not_utf8(self):
        """Each has a line, whatever it names; a byte that is no printable ASCII is shown as `?`."""
        rows = {b"\xe9.txt": "?.txt", b"f\xe9 g.png": "f? g.png", b"\xff\n.doc": "??.doc", b"\xc3\xa4\xe9": "???",
                b"h\x7f\xe9": "h??", b"\xed\xa0\x80.txt": "???.txt"}
        folder = self.folder({it: b"x" for it in rows})
        os.mkdir(os.fsencode(folder) + b"/d\xe9")
        os.symlink("nothing", os.fsencode(folder) + b"/l\xe9")
        (folder / "a.txt").write_bytes(b"x")
        wanted = sorted(f"skip {it} not UTF-8" for it in (*rows.values(), "d?", "l?"))
        status, told, _ = self.sync(self.place, folder)
        self.expect("each has a line", (0, wanted),
                    (status, sorted(it for it in told.decode().splitlines() if it.startswith("skip "))))
        self.expect("and none is an object", {"a.txt"}, set(self.objects(self.place)))
        with open(os.fsencode(folder) + b"/.\xe9.txt", "wb"):
            told = self.looked(folder)
        self.expect("one with a dot has none", sorted(f"<6>{it}" for it in wanted),
                    sorted(it for it in told if it[3:].startswith("skip ")))
        self.expect("none is refused", (0, 0, {}), self.refusals())

    def test_a_folder_that_is_listed_again(self):
        """The first look says so that goes by the list, after one or more that did not."""
        folder = self.folder({"a.txt": b"x"})
        self.place = self.disk("other")
        player = self.player(self.place, "/dev/null", "--at-once", "--folder", folder, "--status", self.path)
        player.until("put a.txt done object 2 directory 3")
        looks = self.looks
        refused = f"look {folder} refused 22 ReadFault: No such file or directory"
        kept, listed = f"look {folder} empty, kept", f"look {folder} listed"
        wanted = ["put a.txt done object 2 directory 3"]
        for number in (1, 2):
            os.rename(folder, self.room / "away")
            self.expect(f"it is gone: {number}", True, player.until(refused, number))
            looks(2)
            os.rename(self.room / "away", folder)
            self.expect(f"it is listed again: {number}", True, player.until(listed, 2 * number - 1))
            looks(2)
            os.rename(folder / "a.txt", self.room / "a.txt")
            self.expect(f"it is empty: {number}", True, player.until(kept, number))
            looks(2)
            os.rename(self.room / "a.txt", folder / "a.txt")
            self.expect(f"it has an object again: {number}", True, player.until(listed, 2 * number))
            looks(2)
            wanted += [refused, listed, kept, listed]
        # (a look may come to the file just after it has gone, and says so)
        told = [it for it in player.end() if it != "read a.txt refused 22 ReadFault: No such file or directory"]
        self.expect("each is logged once", wanted, told)

    def test_most_objects_that_are_kept(self):
        """One line for all looks that find it so, and one once the folder is right again."""
        names = [f"{it}.txt" for it in range(8)]
        folder, half = self.folder({it: b"x" for it in names}), self.folder({"0.txt": b"x"}, "half")
        self.place, whole = self.disk("other"), self.room / "whole"
        words = ["--at-once", "--keep-most", "--levels", "--folder", folder, "--status", self.path]
        player = self.player(self.place, "/dev/null", *words)
        player.until("<6>put 7.txt done object 16 directory 17")
        gone = f"<4>look {folder} refused 22 ReadFault: No such file or directory"
        kept, listed = f"<4>look {folder} 7 of 8 objects would go, kept", f"<6>look {folder} listed"
        os.rename(folder, whole)
        player.until(gone)
        os.rename(half, folder)
        self.expect("most are kept", True, player.until(kept))
        self.looks(2)
        counts = [self.count(it) for it in ("folder_listed", "objects", "mass_withdrawals_total")]
        self.expect("and the status says so", [0, 8, 0], counts)
        os.rename(folder, half)
        player.until(gone, 2)
        os.rename(whole, folder)
        self.expect("the folder is right again", True, player.until(listed))
        self.looks(2)
        self.expect("and the status says that", 1, self.count("folder_listed"))
        # (a look may come to a file just after it has gone, and says so)
        told = [it for it in player.end() if not it.startswith(("<4>read", "<6>play", "<6>put"))]
        self.expect("each is logged once", [gone, kept, gone, listed], told)
        told = self.looked(half, "--keep-most", disk=self.place)
        wanted = f"<4>look {half} 7 of 8 objects would go, kept", (1, 0, {})
        self.expect("a refusal without a number", wanted, (told[1], self.refusals()))

    def looks(self, count):
        before = self.count("looks_total") or 0
        return until(lambda: (self.count("looks_total") or 0) >= before + count)

    def test_files_that_wait_for_room(self):
        """One line for the first, and if more wait one line for their number."""
        for objects in (1, 2, 5):
            for more in (0, 1, 2, 3, 20):
                names = [f"{it:02}.txt" for it in range(objects + more)]
                name = f"{objects}.and.{more}"
                disk = self.new_disk(name, "--objects", str(objects))
                folder = self.folder({it: b"x" for it in names}, f"folder.{name}")
                told = [it for it in self.looked(folder, disk=disk) if " done " not in it][1:-1]
                first = [f"<4>put {names[objects]} refused 11 TooManyObjects: {objects} at most"] if more else []
                note = [f"<6>note {folder} {objects} objects at most, {more} files wait"] if more > 1 else []
                self.expect(f"{more} more than {objects}", [*first, *note], told)
                counts = {"11 TooManyObjects": 1} if more else {}
                self.expect("and counted once", (min(more, 1), 0, counts), self.refusals())

    def test_words_of_a_refusal(self):
        """Why a file of lines is left, or a line is refused."""
        asked = self.folder(name="asked")
        (asked / "1.lines").write_bytes(b"no line\n")
        (asked / "2.lines").mkdir()
        (asked / "3.lines").symlink_to("nothing")
        os.mkfifo(asked / "4.lines")
        (asked / "5\1.lines").write_bytes(b"list\n")
        with open(os.fsencode(asked) + b"/6\xe9.lines", "wb") as it:
            it.write(b"list\n")
        send(asked, "7.lines", b"next 1\nturn\nnext x\nturn x\nput a 1 0 - 61\r\nlists\n"
             b"put a b 1 0 - 61\nwithdraw\nraw 0 1\nperiod\nreplace\nlist \n")
        told = self.played("--lines", asked, turns=9)[1:-1]
        other = [f"{it}.lines refused 22 ReadFault: not a regular file" for it in "234"]
        replies = [*[f"{it} refused 1 BadLine: not while a disk is played" for it in ("next", "turn")],
                   "next refused 8 BadNumber", "turn refused 1 BadLine: 2 words, 1 asked for", "put a refused 5 BadBody: a carriage return",
                   "refused 1 BadLine: its first word is no command",
                   *[f"{it} refused 1 BadLine: {has} words, {asked} asked for" for it, has, asked in
                     (("put a", 7, 6), ("withdraw", 1, 2), ("raw", 3, 4), ("period", 1, 2), ("replace", 1, 6), ("list", 2, 1))]]
        wanted = ["1.lines refused 1 BadLine: its first word is no command", *other,
                  "5?.lines refused 2 BadName: a control character", "6?.lines refused 2 BadName: not UTF-8",
                  *[f"7.lines:{at} {it}" for at, it in enumerate(replies, 1)]]
        self.expect("why", sorted(f"<4>lines {it}" for it in wanted), sorted(told))
        self.expect("each is counted", (18, 18), self.refusals()[:2])

    def test_the_level_of_the_end(self):
        """The two lines that end the program are errors, where lines have levels."""
        for levels in ((), ("--levels",)):
            level = "<3>" if levels else ""
            for words in (("play", self.room / "missing", "/dev/null"), ("play", self.place, self.room / "no" / "folder")):
                errors = self.motcar(*words, *levels)[2].decode().splitlines()
                self.expect(f"{words[1:]}", [level] * len(errors), [it.split("motcar", 1)[0] for it in errors])
                self.expect("with why", 2, len(errors))

    def test_a_long_line(self):
        """It is cut at 8,192 bytes after its level, and its level and its count are those of the whole one."""
        for size in (8_100, 8_192, 8_193, 20_000, 100_000):
            for levels in ("--levels",), ():
                words = ["--turns", "1", "--status", "/" + "x" * size, *levels]
                line = self.motcar("play", self.place, "/dev/null", *words)[1].splitlines()[1]
                whole = f"status /{'x' * size} refused 23 WriteFault: File name too long"
                self.expect(f"{size} bytes", f"{'<4>' if levels else ''}{whole[:8_192]}", line.decode())
            folder = "y" * size
            told = self.played("--folder", folder)
            self.expect(f"a folder of {size} bytes", (f"<4>look {folder} refused"[:8_195], (1, 0, {"22 ReadFault": 1})),
                        (told[1][:min(size + 16, 8_195)], self.refusals()))


class Handles(Events):
    """A folder of lines takes no handle that it does not give back: 300 turns pass with 64 handles at most, and with
    more files than that."""

    names = [f"{number}.lines" for number in range(10, 90)]

    def told(self, asked, *tracing, folder=None, paths=("1.lines",)):
        def limit():
            resource.setrlimit(resource.RLIMIT_NOFILE, (64, 64))

        words = [self.program, "play", self.place, "/dev/null", "--lines", asked, "--every", "1", "--turns", "300",
                 *(["--folder", folder, "--at-once"] if folder else []), "--status", self.path]
        words = traced(words, *tracing, paths=[asked / it for it in paths]) if tracing else words
        done = subprocess.run(list(map(str, words)), capture_output=True, timeout=120, preexec_fn=limit, cwd=self.room)
        told = done.stdout.decode().splitlines()
        return done.returncode, [it for it in told if f"{asked} refused" in it], told[1:-1]

    def test_an_empty_folder(self):
        asked = self.folder(name="asked")
        self.expect("an empty folder", (0, [], []), self.told(asked))
        folder = self.folder({"a.txt": b"x"})
        self.expect("beside one of objects", (0, []), self.told(asked, folder=folder)[:2])

    def test_files_that_are_left(self):
        asked = self.folder(name="asked")
        for name in self.names:
            (asked / name).write_bytes(b"no line\n")
        wanted = [f"lines {it} refused 1 BadLine: its first word is no command" for it in self.names]
        self.expect("files that are left", (0, [], wanted), self.told(asked))

    def test_files_that_are_answered(self):
        asked = self.folder(name="asked")
        for name in self.names:
            send(asked, name, b"period 1\n")
        status, refused, told = self.told(asked)
        self.expect("files that are answered", (0, [], len(self.names)),
                    (status, refused, sum(" done " in it for it in told)))

    @needs_strace
    def test_files_whose_reads_fail(self):
        asked = self.folder(name="asked")
        for name in self.names:
            send(asked, name, b"period 1\n")
        wanted = [f"lines {it} refused 22 ReadFault: Input/output error" for it in self.names]
        self.expect("files whose reads fail", (0, [], wanted),
                    self.told(asked, "inject=read:error=EIO:when=1+", paths=self.names))

    @needs_strace
    def test_a_file_whose_read_fails(self):
        """It is left, and known as unread from then on."""
        for when in ("1", "1+", "2", "2+2"):
            asked = self.folder(name=f"asked.{when}")
            send(asked, "1.lines", b"period 1\n")
            status, refused, told = self.told(asked, f"inject=read:error=EIO:when={when}")
            unread = sum("1.lines refused 22 ReadFault: Input/output error" in it for it in told)
            self.expect(f"a read that fails: {when}", (0, [], 1), (status, refused, unread))
            self.expect("and it stays", ["1.lines"], os.listdir(asked))

    @needs_strace
    def test_a_file_that_cant_be_opened(self):
        for call in ("openat", "statx"):
            asked = self.folder(name=f"asked.{call}")
            send(asked, "1.lines", b"period 1\n")
            status, refused, told = self.told(asked, f"inject={call}:error=EIO:when=1+")
            self.expect(f"a file that can't be looked at or opened: {call}", (0, [], 1), (status, refused, len(told)))
