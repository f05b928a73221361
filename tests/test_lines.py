"""Lines: which are taken, and why the others are refused."""
from .program import Case

# (what is read well is refused by the carousel, if at all)
TAKEN = ("put a 63 511 x/y 00fF", "replace a 2 3 - 00", "withdraw a", "withdraw \u00e9", "period 16777215", "list",
         "raw 4 1 00", "next 1", "next 100000", "turn")
# Lines that are refused as they are read, and by which number.
REFUSED = [
    (1, ("", "raw", "RAW 4 2 00", "raw 4 2", "raw 4 2 00 00", "raw 4 2  00", "put a b 2 3 - 00", "put a 2 3 -",
         "PUT a 2 3 - 00", "list ", "list\r", "withdraw a b", "period", "next", "next 1 2", "turn 1")),
    (2, ("put \x7f 64 3 - 0", "withdraw \x7f", "withdraw ", "withdraw " + 256 * "n")),
    (3, ("raw 5 2 00", "raw 00000000004 2 00", "raw +4 2 00", "put a 64 3 - 00", "put a 256 3 - 00", "put a 2 512 - 00",
         "put a 2 65536 - 00", "put a 64 3  0")),
    (4, ("put a 2 3  00", "put a 2 3  0")),
    (5, ("raw 4 2 0", "raw 4 2 0g", "raw 4 2 00\r", "put a 2 3 - 0", "put a 2 3 - 0g")),
    (6, ("raw 4 2 ", "put a 2 3 - ")),
    (8, ("raw 4 0 00", "raw 4 65536 00", "raw 4  00", "period +5", "period 00000000005", "period 16777216",
         "period 4294967296", "next 0", "next 100001", "next x")),
]


class Lines(Case):
    def test_lines_that_are_taken(self):
        for line in TAKEN:
            told = self.memory([line])[1].split()
            self.expect(f"taken: {line}", True, told[0] != b"refused" or int(told[1]) > 8)

    def test_lines_that_are_refused_in_one_session(self):
        wanted = [(line, str(number)) for number, lines in REFUSED for line in lines]
        told = self.memory([line for line, _ in wanted])[1].decode().splitlines()
        self.expect("a reply each", len(wanted), len(told))
        for (line, number), it in zip(wanted, told):
            self.expect(f"refused: {line}", ["refused", number], it.split()[:2])

    def test_a_name_that_is_no_text(self):
        self.expect("withdraw", b"refused 2 BadName\n", self.memory(b"withdraw \xc3\x28\n")[1])

    def test_the_longest_lines(self):
        rows = ((524_288, b"done object 2 directory 3\n"), (524_290, b"refused 7 BodyTooLong\n"),
                (529_988, b"refused 7 BodyTooLong\n"), (529_989, b"refused 1 BadLine\n"))
        for digits, wanted in rows:
            line = b"put a 2 3 - " + digits * b"5" + b"\n"
            self.expect(f"a body of {digits} digits", wanted, self.memory(line, "--data", "262144")[1])
