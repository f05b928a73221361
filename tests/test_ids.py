"""Which logos a listener has when another disk takes the place of one: moved, put back from a backup, or of a second station.

The receiver here keeps a body by its transport id for as long as the directory names that id, as receivers do. So it shows
a wrong picture once an id that it knows comes back for another body.
"""
from . import dab, disk
from .air import AirCase


class Receiver:
    def __init__(self):
        self.directory, self.entries, self.bodies, self.fetched = None, [], {}, 0

    def hear(self, packets):
        for it in dab.entities_of(packets):
            if it.kind == dab.DIRECTORY and it.data != self.directory:
                self.directory, self.entries = it.data, dab.directory_of(it.data).entries
                known = {entry.tid for entry in self.entries}
                self.bodies = {tid: body for tid, body in self.bodies.items() if tid in known}
            if it.kind == dab.BODY and it.tid not in self.bodies:
                self.bodies[it.tid] = it.data
                self.fetched += 1

    def shown(self):
        return {it.header.name: self.bodies.get(it.tid) for it in self.entries}


class Ids(AirCase):
    def turn(self, place):
        return dab.turns_told(self.serve(place, "turn\n")[1])[0]

    def replace(self, place, name, body):
        """A new body for one object of a disk."""
        self.motcar("put", place, self.write(name, body))
        return self.turn(place)

    def listener(self, place):
        """A receiver that has all of a disk."""
        heard = Receiver()
        heard.hear(self.turn(place))
        heard.fetched = 0
        return heard

    def logos(self, name, *options):
        """A disk with five logos."""
        place = self.new_disk(name, "--objects", "20", "--data", "4000", "--segment", "64", *options)
        self.motcar("put", place, *[self.write(f"{it}.png", b"first " + it.encode()) for it in "abcde"])
        return place

    def expect_right(self, row, listener, place):
        """A listener who has heard a turn of a disk shows what it has."""
        listener.hear(self.turn(place))
        self.expect(row, dab.carousel_of(self.turn(place))[1], listener.shown())

    def test_a_move(self):
        old = self.logos("old")
        heard = self.listener(old)
        for number, options in enumerate((["--objects", "40"], ["--data", "9000"], ["--packet", "24"], ["--address", "9"])):
            place = f"new{number}"
            self.motcar("copy", old, place, *options)
            heard.hear(self.turn(place))
            self.expect(f"{options}: nothing is fetched again", 0, heard.fetched)
            self.expect_right(f"{options}: and all is there", heard, place)

    def test_a_move_to_other_ids(self):
        old = self.logos("old")
        for options, fetched in ((["--after", "300"], 0), (["--segment", "128"], 5), (["--segment", "128", "--after", "3"], 5)):
            heard, place = self.listener(old), "new" + "".join(options)
            self.motcar("copy", old, place, *options)
            heard.hear(self.turn(place))
            self.expect(f"{options}: how many are fetched again", fetched, heard.fetched)
            self.expect_right(f"{options}: and all is there", heard, place)

    def test_a_move_when_ids_have_gone_round(self):
        ids = [*range(2, 51, 2), 11, *range(53, 102, 2)]
        sets = [disk.slot(directory=15, last=15, tid=tid, start=2 * at, name=b"%d.png" % tid, type=2, subtype=3)
                for at, tid in enumerate(ids)]
        image = disk.disk_of(*sets, objects=60, area=200, segment=64, body=bytes(range(200)))
        old = self.write("old", image)
        heard = self.listener(old)
        self.motcar("copy", old, "new", "--data", "4000")
        heard.hear(self.turn("new"))
        self.expect("nothing is fetched again", 0, heard.fetched)
        for name in ("11.png", "2.png", "53.png", "50.png"):
            self.replace("new", name, b"new body of " + name.encode())
            self.expect_right(f"after a change of {name}", heard, "new")

    def put_back(self, *options):
        """Who heard a disk hears a backup of it that was put back, each with the same changes in another order."""
        place, back = self.logos("disk"), f"back{len(options)}"
        self.motcar("copy", place, "backup")
        for name in "dca":
            self.replace(place, f"{name}.png", b"second " + name.encode())
        heard = self.listener(place)
        self.motcar("copy", "backup", back, *options)
        for name in "acd":
            self.replace(back, f"{name}.png", b"second " + name.encode())
        self.replace(back, "b.png", b"second b")
        heard.hear(self.turn(back))
        for name in ("disk", "disk-wal", "backup", "backup-wal"):
            (self.room / name).unlink()
        right = dab.carousel_of(self.turn(back))[1]
        return sum(right[name] != body for name, body in heard.shown().items())

    def test_a_backup_that_is_put_back(self):
        self.expect("with --after none is wrong", 0, self.put_back("--after", "5000"))
        self.expect("without it some are", 2, self.put_back())

    def two_stations(self, first, second):
        """Who is switched between two stations that got the same changes in another order."""
        one, other = self.logos("one", "--after", first), self.logos("other", "--after", second)
        heard = self.listener(one)
        for place, names in ((one, "dab"), (other, "adb")):
            for name in names:
                self.replace(place, f"{name}.png", b"second " + name.encode())
        heard.hear(self.turn(one))
        heard.hear(self.turn(other))
        right = dab.carousel_of(self.turn(other))[1]
        wrong = sum(right[name] != body for name, body in heard.shown().items())
        for name in ("one", "one-wal", "other", "other-wal"):
            (self.room / name).unlink()
        return wrong

    def test_two_stations(self):
        self.expect("with --after 0 and 32767 none is wrong", 0, self.two_stations("0", "32767"))
        self.expect("with the same ids some are", 2, self.two_stations("0", "0"))

    def test_a_standby_on_a_copy(self):
        one = self.logos("one")
        self.motcar("copy", one, "standby")
        heard = self.listener(one)
        heard.hear(self.turn("standby"))
        self.expect("a switch costs nothing", 0, heard.fetched)
        self.expect_right("and all is there", heard, "standby")
