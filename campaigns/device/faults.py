"""Single faults: each write and each flush that the device gets in one command fails once.

The program is ended, started again on the same mounted file system, and goes on; what it acknowledges then has to be
there in three ways: after a power cut, with all that reached the device and with what a flush covers alone, and after
the file system was unmounted in good order. What the disk has to hold is told by the same lines given to a disk that
is well.
"""
import collections
import dataclasses
import itertools
import os
import pathlib

import device as devices
import judge
import program as motcar
from program import put, replace

# The half has 18 slots; the first eight stand in the file's first page, with the head.
GEOMETRY = ["--objects", "16", "--data", "120000", "--segment", "8189"]
KINDS = ["write", "flush", "lose"]


@dataclasses.dataclass(frozen=True)
class Scenario:
    before: tuple  # commands that are acknowledged
    victim: bytes  # the command that meets the fault
    after: tuple  # commands once the program is started again


names = [b"n%d" % number for number in range(8)]
few = (put(b"a", 3_000, 1), put(b"b", 9_000, 2), *(b"period %d" % number for number in range(4)))
later = (put(b"c", 500, 3), replace(b"a", 7_000, 4), b"withdraw b", put(b"d", 100, 5), b"period 9", b"period 10")
many = (*(put(name, 4_000, at) for at, name in enumerate(names, 1)),
        *(replace(name, 4_000, at) for at, name in enumerate(names, 51)), b"period 3")
SCENARIOS = {
    "gate": Scenario(few, b"period 777", later),
    "selector": Scenario(many, b"period 777", tuple(replace(name, 4_000, at) for at, name in enumerate(names, 101))),
    "body": Scenario(few[:1], put(b"x", 20_000, 77), (put(b"c", 500, 3), put(b"e", 15_000, 6), b"period 4")),
    "killed": Scenario(few, b"period 777", later),
    "format": Scenario((), b"", (put(b"c", 500, 3), put(b"e", 15_000, 6), b"period 4")),
}


class Twin:
    """A disk on a file system that is well, given the same lines."""

    def __init__(self, room, program):
        self.path, self.program, self.known = pathlib.Path(room, "twin"), motcar.Program(program.path), {}

    def kept(self, lines):
        lines = tuple(lines)
        if lines not in self.known:
            self.path.unlink(missing_ok=True)
            self.program.run("format", self.path, *GEOMETRY).check_returncode()
            session, bodies = self.program.serve(self.path), {}
            for line in lines:
                if not motcar.is_done(session.ask(line)):
                    raise RuntimeError(f"refused on a disk that is well: {line[:40]}")
                bodies = motcar.bodies_after(bodies, line)
            self.known[lines] = judge.Kept(session.listing(), bodies)
            session.end()
        return self.known[lines]


@dataclasses.dataclass
class Trial:
    is_met: bool = False  # whether the fault came to pass
    was_stopped: bool = False  # whether the file system had to be mounted again
    wrong: str = ""


def syncs_of_an_opening(program, disk, room):
    """How many calls of fdatasync an opening makes."""
    trace = pathlib.Path(room, "trace")
    words = ["strace", "-f", "-o", trace, "-e", "trace=fdatasync"]
    program.run("serve", disk, given=b"list\n", before=words)
    return trace.read_text().count("fdatasync(")


def started_again(program, disk):
    """A session on the disk, at the third try at most, as a supervisor would; None where none opens."""
    for _ in range(3):
        session = program.serve(disk)
        listing = session.listing()
        if listing is not None:
            return session, listing
        session.end()
    return None, None


def meet_in_format(device, program, kind, number, trial):
    """Whether there is a disk in the end."""
    words = ["format", device.disk(), *GEOMETRY]
    device.fail(kind, number)
    refusal = program.refusal(*words)
    trial.is_met = device.faults() > 0
    device.be_well()
    if refusal:
        refusal = program.refusal(*words)
    trial.was_stopped = bool(refusal) and "18" not in refusal
    return not trial.was_stopped


def meet_in_command(device, program, scenario, kind, number, trial):
    """The commands that were acknowledged, and those that may have been done."""
    session = program.serve(device.disk())
    for line in scenario.before:
        if not motcar.is_done(session.ask(line)):
            raise RuntimeError(f"refused before the fault: {line[:40]}")
    device.fail(kind, number)
    reply = session.ask(scenario.victim)
    trial.is_met = device.faults() > 0
    device.be_well()
    session.end()
    done, unsure = [*scenario.before], [scenario.victim]
    return (done + unsure, []) if motcar.is_done(reply) else (done, unsure)


def meet_when_killed(device, program, scenario, kind, number, trial, room):
    """Killed as it syncs the gate; the fault meets the next opening, of which no command was told."""
    disk = device.disk()
    session = program.serve(disk)
    for line in scenario.before:
        session.ask(line)
    session.end()
    when = syncs_of_an_opening(program, disk, room) + 2
    inject = f"inject=fdatasync:signal=KILL:when={when}"
    words = ["strace", "-f", "-o", "/dev/null", "-e", "trace=fdatasync", "-e", inject]
    told = program.run("serve", disk, given=scenario.victim + b"\n", before=words).stdout
    if told:
        raise RuntimeError(f"it was not killed: {told}")
    device.fail(kind, number)
    session = program.serve(disk)
    session.listing()
    session.end()
    trial.is_met = device.faults() > 0
    device.be_well()
    return [*scenario.before], [scenario.victim]


def tried(room, system, program, twin, name, kind, number):
    scenario, trial = SCENARIOS[name], Trial()
    folder = pathlib.Path(room, "judged")
    folder.mkdir(exist_ok=True)
    with devices.Device(room, system) as device:
        done, unsure = [], []
        if name == "format":
            if not meet_in_format(device, program, kind, number, trial):
                return trial
        else:
            program.run("format", device.disk(), *GEOMETRY).check_returncode()
            if name == "killed":
                done, unsure = meet_when_killed(device, program, scenario, kind, number, trial, room)
            else:
                done, unsure = meet_in_command(device, program, scenario, kind, number, trial)
        if not trial.is_met:
            return trial
        done, unsure = go_on(device, program, twin, scenario, done, unsure, trial)
        allowed = [twin.kept(done)] + [twin.kept(done + [line]) for line in unsure]
        device.copy(f"{room}/stored")
        log = devices.read_log(device.log)
        trial.wrong = trial.wrong or remounted(device, program, allowed)
    devices.flushed_image(log, system.size, f"{room}/flushed")
    for image, what in (("stored", "after a power cut"), ("flushed", "after a power cut, of what was flushed")):
        wrong = judge.judged(program, system, f"{room}/{image}", folder, allowed)
        trial.wrong = trial.wrong or (f"{wrong} ({what})" if wrong else "")
    return trial


def go_on(device, program, twin, scenario, done, unsure, trial):
    """The commands after the start, of which the same is told."""
    session, listing = started_again(program, device.disk())
    if session is None:
        trial.was_stopped = True
        return done, unsure
    if unsure and listing == twin.kept(done + unsure).listing:
        done = done + unsure
    elif listing != twin.kept(done).listing:
        trial.wrong = f"{judge.LOST}: opened to {listing}"
    unsure = []
    for line in scenario.after:
        if not motcar.is_done(session.ask(line)):
            unsure, trial.was_stopped = [line], True
            break
        done = done + [line]
    session.end()
    return done, unsure


def remounted(device, program, allowed):
    device.unmount()
    device.mount()
    if not os.path.exists(device.disk()):
        return f"{judge.LOST}: there is no file (unmounted in good order)"
    wrong = judge.difference(judge.look(program, device.disk()), allowed)
    return f"{wrong} (unmounted in good order)" if wrong else ""


def campaign(room, system, program, scenarios, kinds, most, show):
    """The faults, and notes of what was seen."""
    notes, faults, twin = collections.Counter(), [], Twin(room, program)
    for name, kind in itertools.product(scenarios, kinds):
        for number in range(1, most + 1):
            trial = tried(room, system, program, twin, name, kind, number)
            if not trial.is_met:
                break
            notes["faults"] += 1
            notes["until mounted again"] += trial.was_stopped
            if trial.wrong:
                faults.append(f"{name}, {kind} {number}: {trial.wrong}")
            stopped = ", refused until mounted again" * trial.was_stopped
            show(f"{name}, {kind} {number}: {trial.wrong or 'all there'}{stopped}")
    return faults, notes
