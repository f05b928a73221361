"""The command `memory`: what is answered to lines as an operator types them, and which packets come when."""
from .program import HELLO, PACKET, Case

HELLO_TEXT, PACKET_TEXT = HELLO.decode(), PACKET.decode()
EMPTY_TURN = ("packet 08011376008000120001000d0000000d0000000000049c3d\n"
              "packet 140105000000f10d000000000000000000000000000017ad end\n")
DONE = "done directory 2\ndone object 3 directory 4\ndone object 5 directory 6\ndone object 7 directory 8\n"
# The length of packets, the lines, and the reply.
REPLIES = [
    (96, HELLO_TEXT, PACKET_TEXT),
    (24, "raw 6 1 0000000d000000000004000000\n", EMPTY_TURN.replace(" end", "")),
    (24, "raw 4 2 68656c6c6f\nraw 5 2 00\n", PACKET_TEXT + "refused 3 BadType\n"),
    (24, "", ""),
    (24, "raw 4 2 68656c6c6f", PACKET_TEXT),
    (24, "raw 4 2 68656C6C6F", PACKET_TEXT),
    (24, "raw 04 0000000002 68656c6c6f", PACKET_TEXT),
    (24, "period 7\nput a 2 3 image/png 0102030405\nput b 63 511 - 00\nreplace a 0 0 x/y ff\nlist\n",
     f"{DONE}carousel 7 8 8 2\nobject 7 1 0 0 1 a x/y\nobject 5 0 63 511 1 b -\n"),
    (24, "turn\n", EMPTY_TURN),
    (24, "next 2\n", EMPTY_TURN),
    (24, "next 1\nturn\n", EMPTY_TURN),
    (24, "next 0\nnext 100001\nnext\nturn 1\n",
     "refused 8 BadNumber\nrefused 8 BadNumber\nrefused 1 BadLine\nrefused 1 BadLine\n"),
]
# Of bodies of so many bytes in packets of a length: where in the reply which packet begins, and the reply's length.
LENGTHS = [
    (24, 27, 0, "packet 080113", 112), (24, 27, 56, "packet 140113", 112),
    (24, 64, 0, "packet 080113740080001200020040", 4 * 56), (24, 64, 3 * 56, "packet 340112", 4 * 56),
    (24, 8_189, 0, "packet 080113740080001200021ffd", 432 * 56), (24, 8_189, 431 * 56, "packet 34010b", 432 * 56),
    (24, 8_190, 0, "refused 7 BodyTooLong\n", 22), (96, 80, 0, "packet cc015b", 200), (96, 8, 0, "packet 0c0113", 56),
    (96, 9, 0, "packet 4c0114", 104), (96, 32, 0, "packet 4c012b", 104), (96, 33, 0, "packet 8c012c", 152),
    (96, 56, 0, "packet 8c0143", 152), (96, 57, 0, "packet cc0144", 200), (96, 81, 0, "packet c8015b", 256),
    (96, 81, 200, "packet 140101", 256),
]
BODY = "55" * 70
# The length of packets, that of segments, the lines; the reply's length, whether its last packet ends a turn, and where
# in it which packet begins.
PLAYED = [
    (24, 1_024, "put a 2 3 image/png 0102030405\nnext 4\n", 254, True,
     {26: "packet 080113", 82: "packet 100113", 138: "packet 24010c", 194: "packet 3c0110"}),
    (24, 1_024, "turn\nput a 2 3 image/png 0102030405\nturn\n", 370, True,
     {142: "packet 2801137610", 198: "packet 300113", 254: "packet 04010c", 310: "packet 1c01107400"}),
    # The second object in place of the first while its group is under way.
    (24, 1_024, f"put a 2 3 - {BODY}\nnext 5\nreplace a 2 3 - {BODY}\nnext 4\n", 556, False,
     {26: "packet 080113", 82: "packet 100113", 138: "packet 240101", 194: "packet 380113", 250: "packet 000113",
      332: "packet 100113", 388: "packet 200113", 444: "packet 340105", 500: "packet 08011376108000120005001c"}),
    (96, 1_024, "put a 2 3 - 0102030405\nturn\nturn\n", 354, True,
     {26: "packet 4c01277600", 130: "packet 1c01107400", 190: "packet 6c01277600", 294: "packet 3c01107400"}),
    # A body of 64 bytes is one segment.
    (24, 64, f"put a 2 3 - {'55' * 64}\nturn\n", 422, True,
     {194: "packet 380113740080001200020040", 362: "packet 240112"}),
    # A body of 65 bytes: each of its groups has its own index, in both turns.
    (24, 64, f"put a 2 3 - {'55' * 65}\nturn\nturn\n", 930, True,
     {194: "packet 380113740000001200020040", 418: "packet 3c010c741080011200020001",
      646: "packet 380113742000001200020040", 870: "packet 3c010c743080011200020001"}),
]


class Memory(Case):
    def test_replies(self):
        for length, given, wanted in REPLIES:
            self.expect(f"{length} {given}", (0, wanted.encode(), b""), self.memory(given, "--packet", length))

    def test_lengths_of_packets(self):
        for length, size, at, wanted, whole in LENGTHS:
            told = self.memory(b"raw 4 2 " + b"55" * size + b"\n", "--packet", length)[1].decode()
            came = (len(told), told[at:at + len(wanted)])
            self.expect(f"{size} bytes in packets of {length}, at {at}", (whole, wanted), came)

    def test_which_packet_comes_when(self):
        for length, segment, given, size, ends, packets in PLAYED:
            told = self.memory(given, "--packet", length, "--segment", segment)[1].decode()
            came = {at: told[at:at + len(it)] for at, it in packets.items()}
            came = (len(told), told.endswith(" end\n"), came)
            self.expect(f"{length} {segment} {given[:40]}", (size, ends, packets), came)


class Limits(Case):
    def test_as_many_objects_as_there_may_be(self):
        for objects in (16, 250):
            puts = "".join(f"put n{number} 2 3 - 00\n" for number in range(1, objects + 1))
            told = self.memory(f"{puts}put other 2 3 - 00\nreplace n7 2 3 - 00\n", "--objects", objects)[1].decode()
            first = 2 * objects + 1
            wanted = f"directory {first}\nrefused 11 TooManyObjects\ndone object {first + 1} directory {first + 2}\n"
            self.expect(f"{objects} objects and one more", wanted, told[-len(wanted):])

    def test_versions_count_to_255(self):
        replace = "replace a 2 3 - 00\n"
        told = self.memory(f"put a 2 3 - 00\n{255 * replace}list\n{replace}list\n")[1].decode()
        wanted = ("done object 512 directory 513\ncarousel 0 513 513 1\nobject 512 255 2 3 1 a -\n"
                  "done object 514 directory 515\ncarousel 0 515 515 1\nobject 514 0 2 3 1 a -\n")
        self.expect("versions", wanted, told[-len(wanted):])

    def test_a_full_disk_of_one_object(self):
        lines = b"put a 2 3 - 00\nreplace a 2 3 - 01\nwithdraw b\nput b 2 3 - 00\nlist\n"
        wanted = (b"done object 2 directory 3\nrefused 12 NoRoom\nrefused 10 NoSuchName\nrefused 11 TooManyObjects\n"
                  b"carousel 0 3 3 1\nobject 2 0 2 3 1 a -\n")
        told = self.memory(lines, "--objects", 1, "--data", 1)
        self.expect("an object of one byte, of which the data area holds one", (0, wanted, b""), told)

    def test_a_body_that_no_gap_holds(self):
        for size, wanted in ((65_536, b"done object 2 directory 3\n"), (65_537, b"refused 12 NoRoom\n")):
            self.expect(f"{size} bytes", wanted, self.memory(b"put a 2 3 - " + b"55" * size + b"\n")[1])
