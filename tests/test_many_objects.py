"""Disks of 250 objects, the most that there may be: what `check`, `export` and `inspect` print, a turn, and reasons."""
import json

from . import dab
from .disk import NOTHING, disk_of, slot
from .program import Case, refused

COUNT = 250
COMMANDS = ("check", "migrate", "serve", "export", "inspect")


def two(kind, **more):
    return slot(kind, layout=2, **more)


class ManyObjects(Case):
    def setUp(self):
        super().setUp()
        self.path = self.new_disk("disk", "--objects", COUNT, "--data", "300000")
        self.bodies = {f"n{at}": bytes([at]) * (1 + at * 7 % 900) for at in range(COUNT)}
        lines = [f"put {name} 2 3 - {body.hex()}" for name, body in self.bodies.items()]
        status, told, _ = self.serve("disk", lines)
        self.assertEqual((0, COUNT), (status, told.count(b"done ")))
        self.lines = "".join(f"{it}\n" for it in lines).encode()

    def test_check_shows_all(self):
        lines = self.motcar("check", "disk")[1].decode().splitlines()
        wanted = [f"object {2 + 2 * at} 0 2 3 {len(body)} {name} -"
                  for at, (name, body) in enumerate(self.bodies.items())]
        self.expect("check", ["carousel 0 501 501 250", *wanted, "clean", "layout 2"], lines)

    def test_export_prints_all(self):
        self.expect("export", (0, self.lines, b""), self.motcar("export", "disk"))

    def test_inspect_counts_all(self):
        status, printed, said = self.motcar("inspect", "disk", "--json")
        used = sum(map(len, self.bodies.values()))
        packets = dab.packets_told(self.serve("disk", b"turn\n")[1])
        wanted = {"objects_used": 250, "objects_free": 0, "data_used": used, "data_free": 300_000 - used,
                  "gap": 300_000 - used, "slots_used": 251, "slots_free": 1, "turn_packets": len(packets),
                  "turn_bytes": sum(map(len, packets))}
        came = json.loads(printed.splitlines()[0])
        self.expect("inspect", (0, wanted, b""), (status, {it: came[it] for it in wanted}, said))

    def test_json_shows_all(self):
        objects = [{"tid": 2 + 2 * at, "version": 0, "type": 2, "subtype": 3, "length": len(body), "name": name, "mime": None}
                   for at, (name, body) in enumerate(self.bodies.items())]
        listed = [{"period": 0, "directory": 501, "cursor": 501, "objects": 250}, *objects]
        for command, more in (("list", []), ("check", [{"clean": True, "layout": 2}])):
            status, printed, said = self.motcar(command, "disk", "--json")
            came = [json.loads(it) for it in printed.decode().splitlines()]
            self.expect(f"{command} --json", (0, [*listed, *more], b""), (status, came, said))

    def test_a_turn_has_all(self):
        directory, bodies = dab.carousel_of(dab.packets_told(self.serve("disk", b"turn\n")[1]))
        self.expect("bodies", [(it.encode(), body) for it, body in self.bodies.items()], list(bodies.items()))
        self.expect("the directory", (0, 1_024), (directory.period, directory.segment))


class Reasons(Case):
    """Why such a disk is refused; its slots go up to 251 in layout 2, and to 503 in layout 1."""

    def expect_reason(self, held, number, reason):
        self.write("disk", held)
        for command in COMMANDS:
            wanted = refused(20, f"Damaged {number}", f"disk: slot {number}: {reason}")
            self.expect(f"{command}: slot {number}: {reason}", wanted, self.motcar(command, "disk", given=b"list\n"))

    def test_layout_1(self):
        for number in (0, 255, 256, 300, 503):
            slots = [slot(NOTHING)] * number + [slot(tid=0)]
            self.expect_reason(disk_of(*slots, objects=250), number, "the object has transport id 0")

    def test_layout_2(self):
        for number in (1, 250, 251):
            slots = [two(17)] * number + [two(18, size=0)]
            self.expect_reason(disk_of(*slots, objects=250), number, "a body of 0 bytes: 1 to 262144")

    def test_the_second_half(self):
        for number in (255, 503):
            slots = [slot(NOTHING)] * number + [slot(kind=9)]
            self.expect_reason(disk_of(*slots, half=1, objects=250), number, "kind 9: layout 1 has 1 to 3")

    def test_the_list(self):
        objects = [two(18, tid=2 + at, name=b"n%d" % at, start=at, size=1, directory=9_999) for at in range(250)]
        more = two(18, tid=900, name=b"more", start=250, size=1, directory=9_999)
        sizes = {"objects": 250, "area": 300}
        self.expect_reason(disk_of(*objects, more, **sizes), 250, "it sets one object more than 250")
        again = two(18, tid=900, name=b"n0", start=249, size=1, directory=9_999)
        self.expect_reason(disk_of(*objects, again, **sizes), 250, "the body of transport id 900 meets that of another object")
        same = two(18, tid=251, name=b"n0", start=251, size=1, directory=9_999)
        self.expect_reason(disk_of(*objects, same, **sizes), 250, "transport id 251 is that of another object, too")

    def test_a_head(self):
        held = disk_of(objects=250)
        self.write("disk", held[:-1])
        for command in COMMANDS:
            wanted = refused(17, "NotFormatted", f"disk: cut short: {len(held) - 1} of {len(held)} bytes")
            self.expect(f"{command}: cut short", wanted, self.motcar(command, "disk"))
