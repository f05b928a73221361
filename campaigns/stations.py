#!/usr/bin/env python3
"""Two stations that send one folder, and a receiver that is switched between them: how long it shows a wrong logo.

    campaigns/stations.py [PROGRAM] [--seed N] [--days N]

Each station has a disk of its own, and looks at the folder every 16.8 seconds, the two at different moments. So the same
changes reach them in another order, and they give out ids in another order. A receiver keeps a body by its id for as long
as the directory names that id. It is switched every six hours on average. Years are passed with a model of the rule of
ids; before that the program answers some hundred commands on a disk of its own, with just the ids of the model. Status 1
says that the manual's rule (`--after 0` and `--after 32767`) showed a wrong logo, or that the same `--after` on both showed
none, so that the campaign shows nothing.
"""
import random
import subprocess
import sys
import tempfile

import campaign

LOGOS, CHANGES_A_DAY, BURST, LOOK, DAY, SWITCH = 50, 10, 3, 16.8, 86_400, 21_600
LAST_ID = 65_535


def free_id(last, used):
    """The first id after the last one that is not in use."""
    number = last % LAST_ID + 1
    while number in used:
        number = number % LAST_ID + 1
    return number


class Station:
    """The ids of a disk: those of its objects, and that of its directory, which is the last one that was given out."""

    def __init__(self, after):
        self.directory, self.objects = after % LAST_ID + 1, {}

    def store(self, name, content):
        """Puts or replaces an object; its id and that of the directory."""
        used = {tid for tid, _ in self.objects.values()} | {self.directory}
        number = free_id(self.directory, used)
        self.objects[name] = (number, content)
        used = {tid for tid, _ in self.objects.values()} | {self.directory}
        self.directory = free_id(number, used)
        return number, self.directory


class Receiver:
    """What a listener has, by transport ids."""

    def __init__(self):
        self.bodies = {}

    def hear(self, station):
        """All that a station sends in a turn; how many logos are wrong then."""
        self.bodies = {tid: self.bodies.get(tid, content) for tid, content in station.objects.values()}
        return sum(self.bodies[tid] != content for tid, content in station.objects.values())


def is_the_rule(program, chance):
    """Whether the program gives out the ids of the model."""
    with tempfile.TemporaryDirectory() as room:
        for after in (0, 65_400):
            disk, model, lines, wanted = f"{room}/{after}", Station(after), [], []
            subprocess.run([program, "format", disk, "--objects", "9", "--after", str(after)], check=True, stdout=subprocess.DEVNULL)
            for number in range(120):
                name = f"logo{chance.randrange(9)}"
                lines.append(f"{'replace' if name in model.objects else 'put'} {name} 2 3 - {number:02x}")
                wanted.append("done object %d directory %d" % model.store(name, number))
            given = "".join(f"{it}\n" for it in lines).encode()
            if subprocess.run([program, "serve", disk], input=given, capture_output=True, check=True).stdout.decode().splitlines() != wanted:
                return False
    return True


def changes_of(days, chance):
    """When which logo changes, in bursts."""
    for _ in range(days * CHANGES_A_DAY // BURST):
        begin = chance.uniform(0, days * DAY)
        for _ in range(BURST):
            yield begin + chance.uniform(0, 60), f"logo{chance.randrange(LOGOS)}"


def seen_by(changes, phase):
    """The same changes in the order in which a station that looks so stores them: look by look, then by name."""
    return sorted((LOOK * ((at - phase) // LOOK + 1) + phase, name, number) for number, (at, name) in enumerate(changes))


def run(afters, days, chance):
    """Switches, how many of them showed a wrong logo, and the share of the time in which one was shown."""
    stations = [Station(it) for it in afters]
    for station in stations:
        for number in range(LOGOS):
            station.store(f"logo{number}", -1 - number)
    changes = list(changes_of(days, chance))
    events = [(at, 1, which, name, content) for which, phase in enumerate((0, chance.uniform(1, LOOK - 1)))
              for at, name, content in seen_by(changes, phase)]
    moment = 0
    while (moment := moment + chance.expovariate(1 / SWITCH)) < days * DAY:
        events.append((moment, 0, 0, "", 0))
    heard, listener, wrong, since, switches, seen, lost = 0, Receiver(), 0, 0, 0, False, 0
    listener.hear(stations[0])
    for at, is_change, which, name, content in sorted(events):
        lost += (at - since) * (wrong > 0)
        since = at
        if is_change:
            stations[which].store(name, content)
        else:
            heard, switches = 1 - heard, switches + 1
        if not is_change or which == heard:
            wrong = listener.hear(stations[heard])
            seen += not is_change and wrong > 0
    return switches, seen, lost / (days * DAY)


def main():
    words = campaign.words(__doc__)
    words.add_argument("--days", type=int, default=365, metavar="N", help="days that pass (365)")
    options = campaign.given(words)
    chance = random.Random(options.seed)
    if not is_the_rule(options.program, chance):
        print("the program gives out other ids than the model")
        return 1
    found = {}
    for afters in ((0, 0), (0, 32_767)):
        switches, seen, share = found[afters] = run(afters, options.days, chance)
        print(f"--after {afters[0]} and --after {afters[1]}: {switches} switches in {options.days} days, {seen} to a wrong logo, "
              f"one is shown in {100 * share:.2f} % of the time")
    return 0 if found[0, 0][1] and not found[0, 32_767][1] else 1


if __name__ == "__main__":
    sys.exit(main())
