"""What lines can't come from: no folder, that of the objects, and one in which the disk, the packets or the suffixes
stand, since files in it are taken away."""
import os
import shutil

from .air import AirCase, needs_strace
from .program import refused


class LineFolder(AirCase):
    def play_lines(self, disk, lines, *more, **how):
        return self.play(disk, "/dev/null", "--turns", "1", "--lines", lines, *more, **how)

    def test_no_folder(self):
        disk = self.disk()
        before = disk.read_bytes()
        rows = (("nowhere", "No such file or directory"), (disk, "not a folder"), ("/dev/null", "not a folder"))
        for path, why in rows:
            self.expect(f"no lines: {path}", refused(22, "ReadFault", f"{path}: {why}"), self.play_lines(disk, path))
        self.expect("and the disk stays", before, disk.read_bytes())

    def test_the_folder_of_the_objects(self):
        disk, folder = self.disk(), self.folder({"a.txt": b"x", "b.lines": b"period 1\n"})
        link = self.room / "link"
        link.symlink_to(folder)
        for path in (f"{folder}", f"{folder}/", f"{link}", f"{link}/", f"{self.room}/./objects", "objects"):
            ended = self.play_lines(disk, path, "--at-once", "--folder", folder)
            wanted = refused(22, "ReadFault", f"{path}: the folder of the objects")
            self.expect(f"no lines among objects: {path.removeprefix(str(self.room))}", wanted, ended)
        self.expect("and no object is lost", ["a.txt", "b.lines"], sorted(os.listdir(folder)))

    def beside(self):
        """A folder with a disk and suffixes in it, links to both, and a disk elsewhere."""
        place, other, linked = self.folder(name="place"), self.room / "other", self.room / "linked.disk"
        outside = self.disk("outside.disk")
        other.symlink_to(place)
        shutil.copy(outside, place / "disk.lines")
        linked.symlink_to(place / "disk.lines")
        (place / "types.lines").write_text("svg 2 0 image/svg+xml\n")
        return place, other, linked, outside

    def test_a_folder_with_other_files_of_the_command(self):
        place, other, linked, outside = self.beside()
        before, objects = {it.name: it.read_bytes() for it in place.iterdir()}, self.folder()
        rows = [("the disk", [place / "disk.lines", "/dev/null"]), ("the disk", [linked, "/dev/null"]),
                ("the packets", [outside, place / "packets.lines"]), ("the packets", [outside, other / "packets"]),
                ("the file of suffixes", [outside, "-", "--folder", objects, "--types", place / "types.lines"])]
        for what, words in rows:
            for path in (f"{place}", f"{other}", f"{other}/"):
                ended = self.play(*words, "--turns", "1", "--lines", path)
                row = f"no lines beside {what}: {path.removeprefix(str(self.room))}, {words[0].name}"
                self.expect(row, refused(22, "ReadFault", f"{path}: the folder of {what}"), ended)
        ended = self.play("disk.lines", "-", "--turns", "1", "--lines", ".", cwd=place)
        self.expect("no lines beside the disk: .", refused(22, "ReadFault", ".: the folder of the disk"), ended)
        self.expect("and all files stay", before, {it.name: it.read_bytes() for it in place.iterdir()})

    @needs_strace
    def test_a_disk_whose_place_is_not_known(self):
        """A link to a disk in the folder of lines that can't be followed for a moment might lead there."""
        place, _, linked, _ = self.beside()
        words = [self.program, "play", linked, "/dev/null", "--turns", "1", "--lines", place]
        for error, why in (("EACCES", "Permission denied"), ("EIO", "Input/output error")):
            ended = self.traced(words, f"inject=readlink:error={error}", paths=[linked])
            self.expect(f"a link that can't be followed: {error}", refused(22, "ReadFault", f"{place}: {why}"), ended)
