"""The directory and its headers: how long it is, how it begins and ends, byte by byte, and what a receiver reads."""
from . import dab
from .program import Case

# The header core, ContentName, MimeType and VersionNumber; names of 50 letters of two bytes, and at both sides of the
# longest short length; the longest header. Of each its length, how it begins and how it ends.
HEADERS = [
    ("a", "image/png", 5, 24, b"\0\0\0\x50\x0c\x04\x03\xcc\x02\xf0a", b"\xd0\x09image/png\x46\0"),
    (50 * "\u00e9", "-", 1, 112, b"\0\0\0\x10\x38\x04\x03\xcc\x65\xf0\xc3\xa9", b"\x46\0"),
    (126 * "a", "-", 1, 138, b"\0\0\0\x10\x45\x04\x03\xcc\x7f\xf0a", b"a\x46\0"),
    (127 * "a", "-", 1, 140, b"\0\0\0\x10\x46\x04\x03\xcc\x80\x80\xf0a", b"a\x46\0"),
    (255 * "a", "-", 1, 268, b"\0\0\0\x10\x86\x04\x03\xcc\x81\0\xf0a", b"a\x46\0"),
    (255 * "a", 64 * "b", 262_144, 334, b"\0\x40\0\0\xa7\x04\x03\xcc\x81\0\xf0a", b"bb\x46\0"),
]


class Directory(Case):
    def directory(self, lines, *options):
        """The directory of a turn, whose checksums are right."""
        entities = dab.entities_of(dab.packets_told(self.memory([*lines, "turn"], *options)[1]))
        self.expect("a turn begins with it", dab.DIRECTORY, entities[0].kind)
        return entities[0].data

    def test_headers(self):
        for name, mime, size, length, front, end in HEADERS:
            row = f"the header of {name[:9]} {mime[:9]} {size}"
            came = self.directory([f"put {name} 2 3 {mime} {'00' * size}"], "--data", "262144")
            # (the directory's 13 bytes, and the object's transport id)
            front = (15 + length).to_bytes(4, "big") + b"\0\x01\0\0\0\x04\0\0\0\0\x02" + front
            self.expect(row, (15 + length, front, end), (len(came), came[:len(front)], came[-len(end):]))
            header = dab.Header(size, 2, 3, name.encode(), None if mime == "-" else mime.encode(), 0)
            self.expect(f"{row} as it is read", dab.Directory(0, 1_024, [dab.Entry(2, header)]), dab.directory_of(came))

    def test_no_object(self):
        self.expect("the directory of no object", b"\0\0\0\x0d\0\0\0\0\0\x04\0\0\0", self.directory([]))

    def test_the_longest_directory(self):
        lines = [f"put {number:03}{252 * 'a'} 2 3 {64 * 'b'} 00" for number in range(250)]
        most = self.directory(lines, "--objects", "250", "--segment", "8189")
        front, end = b"\0\x01\x48\x2d\0\xfa\0\0\0\x1f\xfd\0\0", b"bb\x46\0"
        self.expect("its bytes", (84_013, front, end), (len(most), most[:13], most[-4:]))
        names = [f"{number:03}{252 * 'a'}".encode() for number in range(250)]
        self.expect("its names", names, [it.header.name for it in dab.directory_of(most).entries])
