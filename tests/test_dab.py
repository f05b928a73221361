"""The receiver of these tests itself, on the worked bytes of docs/FORMATS.md, and on bytes that break each rule."""
from . import dab
from .program import Rows

PACKET = bytes.fromhex("0c011074008000120002000568656c6c6f34cf0000008561")
HEADER = bytes.fromhex("000000500c0403cc02f061d009696d6167652f706e674600")


def packet(index, data, flags=3, address=1, length=24):
    """A packet by the format."""
    begin = bytes([length // 24 - 1 << 6 | index % 4 << 4 | flags << 2 | address >> 8, address & 255, len(data)])
    held = (begin + data).ljust(length - 2, b"\0")
    return held + dab.checksum(held)


def group(data, kind=4, index=0, at=0, is_last=True, tid=2):
    begin = bytes([0x70 | kind, index << 4, is_last << 7 | at >> 8, at & 255, 0x12])
    held = begin + tid.to_bytes(2, "big") + len(data).to_bytes(2, "big") + data
    return held + dab.checksum(held)


def packets(groups, begin=0):
    """Groups in packets of 24 bytes."""
    made = []
    for it in groups:
        parts = [it[at:at + 19] for at in range(0, len(it), 19)]
        for at, part in enumerate(parts):
            made.append(packet(begin + len(made), part, 2 * (at == 0) + (at == len(parts) - 1)))
    return made


class Receiver(Rows):
    def test_checksum_words_of_the_format(self):
        for message, word in ((b"123456789", "d64e"), (b"", "0000"), (b"\0", "1e0f")):
            self.expect(f"of {message!r}", word, dab.checksum(message).hex())

    def test_the_packet_of_the_format(self):
        it = dab.packet_of(PACKET)
        self.expect("its fields", (24, 0, True, True, 1, False, bytes(3)),
                    (it.length, it.index, it.is_first, it.is_last, it.address, it.is_command, it.padding))
        self.expect("its group", [dab.Segment(4, 0, 0, True, 0, 2, b"hello")], dab.segments_of([PACKET]))

    def test_every_bit_of_a_packet_is_under_its_checksum(self):
        for at in range(8 * len(PACKET)):
            turned = bytearray(PACKET)
            turned[at // 8] ^= 1 << at % 8
            self.expect_error(f"bit {at}", dab.Wrong, dab.packet_of, bytes(turned))

    def test_every_byte_of_a_group_is_under_its_checksum(self):
        held = group(b"hello")
        for at in range(len(held)):
            turned = held[:at] + bytes([held[at] ^ 1]) + held[at + 1:]
            self.expect_error(f"byte {at}", dab.Wrong, dab.groups_of, [packet(0, turned)])

    def test_packets_of_another_length_than_they_say(self):
        wrong = bytearray(packet(0, b"x", length=48)[:22])
        self.expect_error("24 bytes that say 48", dab.Wrong, dab.packet_of, bytes(wrong) + dab.checksum(bytes(wrong)))
        wrong = bytearray(PACKET[:-2])
        wrong[2] = 20
        self.expect_error("20 useful bytes of 19", dab.Wrong, dab.packet_of, bytes(wrong) + dab.checksum(bytes(wrong)))

    def test_groups_that_do_not_follow_the_flags(self):
        first, middle, last = (packet(at, b"x", flags) for at, flags in enumerate((2, 0, 1)))
        other = packet(1, b"x", 0, address=2)
        for row in ([middle], [last], [first, first], [first, PACKET], [PACKET, last], [first, other]):
            self.expect_error(str([it[0] >> 2 & 3 for it in row]), dab.Wrong, dab.groups_of, row)
        self.expect("a group under way", [False], [it.is_whole for it in dab.groups_of([first, middle])])

    def test_groups_with_other_fields(self):
        good = group(b"hello")
        for at, byte in ((0, 0x34), (0, 0x54), (0, 0x64), (0, 0xF4), (4, 0x02), (4, 0x13), (7, 0x20), (8, 4), (8, 6)):
            held = good[:at] + bytes([byte]) + good[at + 1:-2]
            self.expect_error(f"byte {at} is {byte}", dab.Wrong, dab.segment_of, held + dab.checksum(held))

    def test_entities_of_segments(self):
        parts = [group(b"ab", at=0, is_last=False), group(b"c", kind=6, tid=3), group(b"d", at=1)]
        wanted = [dab.Entity(6, 3, b"c"), dab.Entity(4, 2, b"abd")]
        self.expect("an entity within another", wanted, dab.entities_of(packets(parts)))
        self.expect("one whose beginning was not heard", wanted[:1], dab.entities_of(packets(parts[1:])))
        self.expect("one whose end was not heard", wanted[:1], dab.entities_of(packets(parts[:2])))
        self.expect("one that begins again", wanted, dab.entities_of(packets([parts[0], *parts])))

    def test_indexes_that_count_on(self):
        one, other = group(b"a"), group(b"b", index=1)
        rows = [
            ("the same again", [one, one], 0, True), ("another with the next index", [one, other], 0, True),
            ("another with the same index", [one, group(b"b")], 0, False),
            ("the same with another index", [one, group(b"a", index=1)], 0, False),
            ("from 15 to 0, packets from 3 on", [group(b"a", index=15), group(b"b")], 3, True),
            ("kinds count alone", [one, group(b"b", kind=6, index=7), other], 0, True),
        ]
        for row, groups, begin, wanted in rows:
            self.expect(row, wanted, dab.counts_on(packets(groups, begin)))
        self.expect("a packet is missing", False, dab.counts_on([*packets([one]), *packets([one], 2)]))

    def test_a_directory_and_its_headers(self):
        entry = b"\0\2" + HEADER
        held = (13 + len(entry)).to_bytes(4, "big") + bytes.fromhex("000100000904000000") + entry
        header = dab.Header(5, 2, 3, b"a", b"image/png", 0)
        self.expect("of one object", dab.Directory(9, 1_024, [dab.Entry(2, header)]), dab.directory_of(held))
        none, two = (held[:5] + it + held[6:] for it in (b"\0", b"\2"))
        for wrong in (held[:-1], held + b"\0", none, two, b"\x80" + held[1:]):
            self.expect_error(wrong.hex(), dab.Wrong, dab.directory_of, wrong)
        directory, bodies = dab.carousel_of(packets([group(held, kind=6, tid=7), group(b"hello")]))
        self.expect("its carousel", (9, {b"a": b"hello"}), (directory.period, bodies))

    def test_lengths_of_packets(self):
        rows = [(16, 96, [24]), (19, 24, [24]), (20, 24, [24, 24]), (91, 96, [96]), (92, 96, [96, 24]),
                (182, 96, [96, 96])]
        for size, length, wanted in rows:
            self.expect(f"{size} bytes in packets of {length}", wanted, dab.cut_lengths(size, length))
        stream = [packet(0, b"x", length=it) for it in dab.LENGTHS]
        part = stream[3][:5]
        self.expect("a stream, and a part of a packet", [*stream, part], dab.packets_in(b"".join([*stream, part])))
