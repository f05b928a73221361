"""With less and less memory: the program serves, or says that it has none, or is not started by the system."""
import resource

from .program import HELLO, PACKET, Case, is_tried, refused, takes_long

LIMITS = [*range(0, 1_000_000, 20_000), *range(1_000_000, 12_000_000, 200_000)]


class OutOfMemory(Case):
    def look(self, kind):
        if is_tried(self.program):
            self.skipTest("the program was built to be tried")
        without, said_so = refused(14, "OutOfMemory"), 0
        for limit in LIMITS:
            try:
                ended = self.motcar("memory", "--packet", "24", given=HELLO,
                                    preexec_fn=lambda limit=limit: resource.setrlimit(kind, (limit, limit)))
            except OSError:
                continue
            said_so += ended == without
            # (a program that its loader or the system ends has not begun)
            if ended[0] in (0, 1) and not ended[1].startswith(b"refused 14"):
                self.expect(f"memory of {limit} bytes", True, ended in ((0, PACKET, b""), without))
        self.expect("the program says at some limit that it has no memory", True, said_so > 0)

    @takes_long
    def test_less_data(self):
        self.look(resource.RLIMIT_DATA)

    @takes_long
    def test_less_address_space(self):
        self.look(resource.RLIMIT_AS)
