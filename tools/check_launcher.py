#!/usr/bin/env python3
"""Runs the launcher `motcar` over a stand-in for the toolchain, in copies of its own, and looks at what it does.

Each row is a function below, with its name as it is printed; all run side by side, within half a minute.
"""
import concurrent.futures
import os
import pathlib
import shutil
import signal
import subprocess
import sys
import tempfile
import time

ENDING = (signal.SIGTERM, signal.SIGHUP, signal.SIGINT)
top = pathlib.Path(__file__).resolve().parent.parent
ON_FILES = ("format", "copy", "serve", "check", "migrate", "play", "sync", "list", "put", "withdraw", "get", "export",
            "inspect", "health")
EXAMPLES = ("motcar.sysusers", "motcar.default", "motcar@.service", "motcar-health.service", "motcar-health@.service",
            "motcar-health.timer", "motcar-health@.timer")
STAND_IN = r"""#!/bin/sh
# A stand-in for the toolchain: its proof takes PROOF seconds, or, where that is "held", until $ROOM/released is there;
# its unproved run takes TRY seconds, or, where that is "beside", until a proof is under way. A proof writes its priority and RT_JOBS.
echo "$*" >> "$ROOM/calls"
trap 'kill $!; exit 143' TERM
case $1 in
version) echo "stand-in 1" ;;
ci)
    [ $# -eq 1 ] || { echo "usage: rt ci"; exit 2; }
    echo "$(nice) ${RT_JOBS:-}" > "$ROOM/given.new" && mv "$ROOM/given.new" "$ROOM/given"
    find . -type f | LC_ALL=C sort > "$ROOM/read"
    if [ "${PROOF:-}" = held ]; then
        until [ -e "$ROOM/released" ]; do sleep 0.1; done
    else
        sleep "${PROOF:-0.2}" & wait $!
    fi
    [ -z "${BROKEN:-}" ] || exit 1
    mkdir -p crates/motcar/out
    version=$(sed -n 's/^const VERSION: .*"\(.*\).n".*/\1/p' crates/motcar/src/version.rt)
    cp crates/mot_status/src/figures.rt "$ROOM/figures"
    {
        echo '#!/bin/sh'
        echo "[ \"\$*\" != --version ] || { echo \"$version\"; exit; }"
        printf '%s\n' '[ "$*" != --help ] || printf ".a \\\\e-\\n"' 'echo "proved $*"'
    } > crates/motcar/out/motcar
    chmod +x crates/motcar/out/motcar ;;
try)
    shift 2
    mktemp -d > "$ROOM/folder"
    echo $$ > "$ROOM/trying.new" && mv "$ROOM/trying.new" "$ROOM/trying"
    if [ "${TRY:-}" = beside ]; then
        until [ -e "$ROOM/given" ]; do sleep 0.1; done
    else
        sleep "${TRY:-0}" & wait $!
    fi
    case " $* " in
    *wrong*) echo "run=ended status=0 not the last" >&2; echo "wrong words: $*" >&2; status=2 ;;
    *help*) echo "the help"; status=0 ;;
    " memory "*) cat; status=0 ;;
    *" format "*) echo formatted; status=0 ;;
    *) echo "motcar: 15 DeviceFault" >&2; status=1 ;;
    esac
    echo "run=ended status=$status runners=1 proved=no" >&2
    exit $status ;;
esac
"""


class Clone:
    """A copy of the launcher with a crate, and the stand-in on its path.

    All are made before the first row runs, and none writes a program while rows run: what another thread starts in that
    moment has the file open for writing as well until it is a program of its own, and the system runs no file that is
    ("Text file busy").
    """

    def __init__(self, room):
        self.room = pathlib.Path(tempfile.mkdtemp(dir=room))
        self.said = ""
        self.temporary = self.room / "temporary"
        self.top = self.room / "clone"
        for it in ("src", "specs", "proofs"):
            (self.top / "crates/motcar" / it).mkdir(parents=True)
            (self.top / "crates/motcar" / it / "file").touch()
        (self.top / "crates/motcar/src/version.rt").write_text('const VERSION: &str = "motcar 7.8.9\\n";\n')
        (self.top / "crates/mot_status/src").mkdir(parents=True)
        (self.top / "crates/mot_status/src/figures.rt").write_text('pub(crate) const VERSION: &str = "7.8.9";\n')
        for it in ("docs/help", "tools", "examples"):
            (self.top / it).mkdir(parents=True)
        for it in ("tools/from_help.py", "tools/version.sh", *(f"docs/help/{it}.txt" for it in ("motcar", "memory", *ON_FILES))):
            shutil.copy(top / it, self.top / it)
        (self.top / "examples/motcar.service").write_text("ExecStart=/usr/local/bin/motcar\n")
        for it in EXAMPLES:
            (self.top / "examples" / it).touch()
        (self.top / "CHANGELOG.md").touch()
        (self.top / "README.md").write_text("[there](docs/FORMATS.md#x), [not there](CONTRIBUTING.md)\n")
        (self.top / "docs/FORMATS.md").write_text("| 15 | DeviceFault | the disk, as `format` makes it |\n")
        (self.top / "crates/motcar/wrong").mkdir()
        (self.top / "crates/motcar/wrong/wrong.edit").touch()
        (self.top / "crates.txt").write_text("mot_numbers:\nmot_status:\nmotcar: mot_status\nmot_tests: motcar\n")
        (self.top / "HANDLES").write_text("Handles allowed: none.\n")
        shutil.copy(top / "motcar", self.top)
        shutil.copytree(top / "packaging", self.top / "packaging")
        # Older than any proof, also where the clock is set while this runs.
        for it in self.top.rglob("*"):
            os.utime(it, (time.time() - 3600,) * 2)
        self.temporary.mkdir()
        stand_in = self.room / "bin/rt"
        stand_in.parent.mkdir()
        stand_in.write_text(STAND_IN)
        stand_in.chmod(0o755)
        # as many processors as CORES says, whatever this machine has
        processors = stand_in.with_name("nproc")
        processors.write_text('#!/bin/sh\necho "${CORES:-2}"\n')
        processors.chmod(0o755)
        self.environment = {**os.environ, "PATH": f"{stand_in.parent}:{os.environ['PATH']}", "ROOM": str(self.room),
                            "TMPDIR": str(self.temporary)}

    def start(self, *words, streams="", **settings):
        """Starts the launcher; `streams` are redirections of the shell."""
        command = ["sh", "-c", f'exec "$0" "$@" {streams}', str(self.top / "motcar"), *words]
        pipes = {it: subprocess.PIPE for it in ("stdin", "stdout", "stderr")}
        environment = {**self.environment, **settings}
        return subprocess.Popen(command, env=environment, text=True, start_new_session=True, **pipes)

    def run(self, *words, given="", **settings):
        """Its status, what it printed, and its messages."""
        started = self.start(*words, **settings)
        printed, self.said = started.communicate(given, timeout=60)
        return started.returncode, printed, self.said

    def release(self):
        """Lets a proof that is held go to its end."""
        (self.room / "released").touch()

    def prover(self):
        """The process of a proof that has begun."""
        until(lambda: self.calls("ci"))
        return (self.top / "build/prover").read_text().strip()

    def calls(self, word):
        calls = self.room / "calls"
        return [it for it in calls.read_text().splitlines() if it.split()[0] == word] if calls.exists() else []

    def proved(self):
        status, printed, said = self.run("help", MOTCAR_BUILD="proved")
        expect((0, "proved help\n"), (status, printed or said))
        return self

    def version(self):
        return self.run("--version")[1]

    def git(self, *words, **settings):
        names = {f"GIT_{who}_{what}": "a@b" for who in ("AUTHOR", "COMMITTER") for what in ("NAME", "EMAIL")}
        environment = {**self.environment, **names, "GIT_CONFIG_GLOBAL": "/dev/null", **settings}
        return subprocess.run(["git", *words], cwd=self.top, env=environment, capture_output=True, text=True, check=True).stdout

    def commit(self, when):
        """Commits all at this time; the version of a build then."""
        if not (self.top / ".git").exists():
            (self.top / ".gitignore").write_text("build/\n")
            self.git("init", "-q")
        self.git("add", "-A")
        self.git("commit", "-q", "--allow-empty", "-m", "all", GIT_COMMITTER_DATE=when)
        return self.stamped()

    def stamped(self):
        return subprocess.run([self.top / "tools/version.sh"], env=self.environment, capture_output=True, text=True).stdout.strip()


def expect(wanted, came):
    if wanted != came:
        raise AssertionError(f"wanted {wanted!r}, came {came!r}")


def expect_in(part, text):
    if part not in text:
        raise AssertionError(f"{part!r} is not in {text!r}")


def is_gone(process):
    """Within twenty seconds."""
    for _ in range(400):
        try:
            state = pathlib.Path(f"/proc/{process}/stat").read_text().rsplit(")", 1)[1].split()[0]
        except FileNotFoundError:
            return True
        if state == "Z":
            return True
        time.sleep(0.05)
    return False


def expect_nothing_left(clone):
    expect([], sorted(it.name for it in clone.temporary.iterdir()))


def until(done):
    end = time.monotonic() + 60
    while not done():
        if time.monotonic() > end:
            raise AssertionError("it did not come to pass")
        time.sleep(0.05)


def help_is_there_at_once(clone):
    asked = {"motcar": (["help"], ["--help"], ["-h"])}
    asked |= {it: (["help", it], [it, "--help"], [it, "-h"]) for it in ("memory", *ON_FILES)}
    for command, forms in asked.items():
        for words in forms:
            text = (top / f"docs/help/{command}.txt").read_text()
            expect((0, text, ""), clone.run(*words, MOTCAR_BUILD="unproved", PATH="/usr/bin:/bin"))
    expect([], clone.calls("try"))
    started = clone.start("help", streams=">&-")
    expect("motcar: 23 WriteFault\n", started.communicate(timeout=60)[1])
    expect(1, started.returncode)


def help_and_wrong_words_wait_for_no_proof(clone):
    for command in ON_FILES:
        status, printed, said = clone.run(command, "disk", "--help")
        expect((0, "the help\n"), (status, printed))
        status, printed, said = clone.run(command, "/a/disk", "--wrong")
        expect((2, ""), (status, printed))
        expect_in(f"wrong words: {command} disk --wrong", said)
    expect([], clone.calls("ci"))
    expect_nothing_left(clone)


def unproved_starts_no_proof(clone):
    for words in (["memory"], *([command, "disk"] for command in ON_FILES)):
        status, printed, said = clone.run(*words, MOTCAR_BUILD="unproved")
        if words[0] == "memory":
            expect(0, status)
        else:
            expect((1, ""), (status, printed))
            expect_in("a command that touches a file needs the proved build", said)
    expect(1, clone.run("install", str(clone.room / "prefix"), MOTCAR_BUILD="unproved")[0])
    expect([], clone.calls("ci"))
    expect(False, (clone.top / "build").exists())


def tests_are_called_with_their_words(clone):
    (clone.top / "tools/test.py").write_text('#!/bin/sh\necho "tests $*"; exit 3\n')
    (clone.top / "tools/test.py").chmod(0o755)
    expect((3, "tests --quick\n", ""), clone.run("test", "--quick"))
    expect((1, "", "motcar: the toolchain's command rt is not on the path\n"), clone.run("test", PATH="/usr/bin:/bin"))


def unknown_modes_are_refused(clone):
    for fresh in (clone, clone.proved()):
        status, printed, said = fresh.run("help", MOTCAR_BUILD="prooved")
        expect((2, "", "motcar: MOTCAR_BUILD is proved or unproved, and not prooved\n"), (status, printed, said))


def a_proof_reads_what_the_program_is_made_of(clone):
    clone.proved()
    parts = [f"./crates/motcar/{it}" for it in ("proofs/file", "specs/file", "src/file", "src/version.rt")]
    expect(["./HANDLES", "./crates.txt", "./crates/mot_status/src/figures.rt", *parts], (clone.room / "read").read_text().split())
    expect_nothing_left(clone)


def twenty_starts_at_once(clone):
    started = [clone.start("serve", "disk", MOTCAR_BUILD="proved", PROOF="held") for _ in range(20)]
    for it in started:
        expect("motcar: proving and building the program, which takes half an hour or more\n",
               it.stderr.readline())
    clone.release()
    for it in started:
        printed, _ = it.communicate(timeout=60)
        expect((0, "proved serve disk\n"), (it.returncode, printed))
    expect(1, len(clone.calls("ci")))


def twenty_unproved_starts_at_once(clone):
    started = [clone.start("memory", PROOF="held") for _ in range(20)]
    for it in started:
        printed, said = it.communicate("a line\n", timeout=60)
        expect((0, "a line\n"), (it.returncode, printed))
        if "is under way" in said and not (clone.top / "build/prover").exists():
            raise AssertionError("under way before any proof was")
    clone.release()
    until(lambda: (clone.top / "build/motcar").exists())
    expect(1, len(clone.calls("ci")))


def a_first_proof_has_a_processor_a_check(clone):
    status, printed, said = clone.run("serve", "disk", MOTCAR_BUILD="proved", CORES="4")
    expect((0, "proved serve disk\n"), (status, printed))
    expect_in("which takes 15 to 30 minutes on four cores\n", said)
    expect(["ci"], clone.calls("ci"))
    # (fewer, if the memory of this machine is at use)
    expect_in((clone.room / "given").read_text(), [f"0 {it}\n" for it in (1, 2, 3, 4)])
    (clone.top / "crates/motcar/src/file").touch()
    expect(0, clone.run("serve", "disk", MOTCAR_BUILD="proved", CORES="4")[0])
    expect(["0"], (clone.room / "given").read_text().split())


def two_processors_take_longer(clone):
    expect_in("which takes half an hour or more\n", clone.run("serve", "disk", MOTCAR_BUILD="proved", CORES="2")[2])


def a_proof_begins_beside_the_run_without_one(clone):
    status, printed, said = clone.run("memory", given="a line\n", PROOF="held", TRY="beside")
    expect((0, "a line\n"), (status, printed))
    expect_in("motcar: meanwhile the proved build", said)
    expect("10", (clone.room / "given").read_text().split()[0])
    priority = ["ps", "-o", "ni=", "-p", clone.prover()]
    if os.geteuid() == 0:
        expect("0", subprocess.run(priority, capture_output=True, text=True, check=True).stdout.strip())
    clone.release()
    until(lambda: (clone.top / "build/motcar").exists())


def a_proof_that_fails_is_told(clone):
    status, printed, said = clone.run("serve", "disk", BROKEN="yes")
    expect((1, ""), (status, printed))
    expect_in("the proof left no program: see build/log", said)


def long_runs_say_that_they_are_at_work(clone):
    status, printed, said = clone.run("memory", given="a line\n", TRY="20")
    expect((0, "a line\n"), (status, printed))
    expect_in("motcar: at work for 14 seconds\n", said)


def closed_input_is_empty(clone):
    for fresh in (clone, clone.proved()):
        started = fresh.start("memory", streams="<&-")
        printed, said = started.communicate(timeout=60)
        expect(0, started.returncode)
        if "descriptor" in said or "line " in said:
            raise AssertionError(f"the shell's own errors: {said!r}")


def closed_output_is_a_fault(clone):
    started = clone.start("memory", "help", streams=">&-")
    _, said = started.communicate(timeout=60)
    expect(1, started.returncode)
    expect_in("motcar: 23 WriteFault\n", said)
    started = clone.start("memory", streams="2>&-")
    printed, _ = started.communicate("a line\n", timeout=60)
    expect((0, "a line\n"), (started.returncode, printed))


def signals_leave_nothing(clone):
    for number in ENDING:
        started = clone.start("memory", TRY="30")
        started.stdin.close()
        until(lambda: (clone.room / "trying").exists())
        trying = (clone.room / "trying").read_text().strip()
        started.send_signal(number)
        expect(128 + number, started.wait(60))
        expect(True, is_gone(trying))
        until(lambda: not any(clone.temporary.iterdir()))
        (clone.room / "trying").unlink()


def a_signal_ends_the_proof_that_was_waited_for(clone):
    started = clone.start("serve", "disk", MOTCAR_BUILD="proved", PROOF="held")
    prover = clone.prover()
    started.send_signal(signal.SIGTERM)
    expect(143, started.wait(60))
    expect(True, is_gone(prover))
    until(lambda: subprocess.run(["flock", "-n", clone.top / "build/lock", "true"]).returncode == 0)
    expect_nothing_left(clone)


def a_proof_in_the_background_can_be_stopped(clone):
    status, _, said = clone.run("memory", PROOF="held")
    expect(0, status)
    command = next(it for it in said.splitlines() if it.endswith(" stops it"))
    prover = clone.prover()
    subprocess.run(["bash", "-c", command.removeprefix("motcar: ").removesuffix(" stops it")], check=True)
    expect(True, is_gone(prover))
    until(lambda: not any(clone.temporary.iterdir()))


def the_fresh_build_is_run(clone):
    expect((0, "proved serve a disk\n", ""), clone.proved().run("serve", "a", "disk"))
    expect([], clone.calls("try"))


def newer_sources_are_not_proved(clone):
    clone.proved()
    expect_in("proved with stand-in 1\n", clone.version())
    for it in ("src", "specs", "proofs"):
        time.sleep(0.02)
        (clone.top / "crates/motcar" / it / "file").touch()
        expect_in("not proved yet", clone.version())
        clone.proved()
        expect_in("proved with", clone.version())
    (clone.top / "crates.txt").touch()
    expect_in("not proved yet", clone.version())


def sources_edited_under_a_proof_are_not_proved(clone):
    started = clone.start("help", MOTCAR_BUILD="proved", PROOF="held")
    clone.prover()
    time.sleep(0.02)
    (clone.top / "crates/motcar/src/file").touch()
    clone.release()
    started.communicate(timeout=60)
    expect(1, started.returncode)
    expect_in("not proved yet", clone.version())


def another_toolchain_proves_anew(clone):
    clone.proved()
    subprocess.run(["sh", "-c", 'echo "# another one" >> "$0"', clone.room / "bin/rt"], check=True)
    expect_in("not proved yet", clone.version())
    clone.proved()
    expect_in("proved with", clone.version())


def a_clone_that_cannot_be_written(clone):
    words = ["setpriv", "--reuid=65534", "--regid=65534", "--clear-groups"] if os.geteuid() == 0 else []
    for it in [clone.room.parent, clone.room, clone.room / "bin", clone.temporary]:
        it.chmod(0o777)
    for it in [clone.top, *clone.top.rglob("*")]:
        it.chmod(0o555)
    settings = {**clone.environment, "PROOF": "0"}
    memory = [*words, clone.top / "motcar", "memory"]
    done = subprocess.run(memory, env=settings, input="a line\n", capture_output=True, text=True)
    expect((0, "a line\n"), (done.returncode, done.stdout))
    expect_in("this clone can't be written, so no proved build is made", done.stderr)
    done = subprocess.run([*words, clone.top / "motcar", "check", "disk"], env=settings, capture_output=True, text=True)
    expect(1, done.returncode)
    expect_in("this clone can't be written", done.stderr)


def installed_and_taken_away(clone):
    prefix = clone.room / "a prefix of $HOME"
    files = ["bin/motcar", "share/man/man1/motcar.1", "share/motcar/README.md", "share/motcar/VERSION",
             "share/motcar/CHANGELOG.md", "share/motcar/docs/FORMATS.md", "share/bash-completion/completions/motcar",
             "share/zsh/site-functions/_motcar", "share/motcar/examples/motcar.service",
             *(f"share/motcar/examples/{it}" for it in EXAMPLES)]
    files += [f"share/motcar/docs/help/{it}.txt" for it in ("motcar", "memory", *ON_FILES)]
    for _ in range(2):
        status, _, said = clone.run("install", str(prefix))
        expect(0, status)
        expect(sorted(files), sorted(str(it.relative_to(prefix)) for it in prefix.rglob("*") if it.is_file()))
    page = (prefix / files[1]).read_text()
    expect_in('.TH MOTCAR 1 "" "motcar 7.8.9" "User Commands"\n', page)
    for command in ("memory", *ON_FILES):
        expect_in(f"\n.SS motcar {command} ", page)
    expect_in("\n.SH DIAGNOSTICS\n", page)
    expect_in("\n.TP\n.B 15 DeviceFault\nthe disk, as format makes it\n", page)
    expect("[there](docs/FORMATS.md#x), not there\n", (prefix / files[2]).read_text())
    # Lines that are not filled stand in 80 columns, after the indents of a section and of an example.
    parts = [part.split(".fi\n")[0].splitlines() for part in page.split(".nf\n")[1:]]
    kept = [it for part in parts for it in part if not it.startswith(".")]
    expect([], [it for it in kept if len(it.replace("\\(aq", "'").replace("\\", "")) > 66])
    expect(True, len(kept) > 3)
    expect("motcar 7.8.9\nproved with stand-in 1\n", (prefix / files[3]).read_text())
    expect(f"ExecStart={prefix}/bin/motcar\n", (prefix / "share/motcar/examples/motcar.service").read_text())
    expect(0, clone.run("uninstall", str(prefix))[0])
    expect([], [it for it in prefix.rglob("*") if it.is_file()])


def installed_below_another_root(clone):
    root = clone.room / "root"
    expect(0, clone.run("install", "/opt/dab", DESTDIR=str(root))[0])
    expect("ExecStart=/opt/dab/bin/motcar\n", (root / "opt/dab/share/motcar/examples/motcar.service").read_text())
    expect(0, clone.run("uninstall", "/opt/dab", DESTDIR=str(root))[0])
    expect([], [it for it in root.rglob("*") if it.is_file()])


def installed_by_make_alone(clone):
    root = clone.room / "root"
    words = ["make", "-C", clone.top / "packaging", "install", f"DESTDIR={root}", "prefix=/usr"]
    done = subprocess.run(words, env=clone.environment, capture_output=True, text=True)
    expect((2, False), (done.returncode, root.exists()))
    expect_in("build/motcar is missing, older than its sources, or of another commit: ./motcar install proves it first\n",
              done.stderr)
    expect([], clone.calls("ci"))
    clone.proved()
    subprocess.run(words, env=clone.environment, capture_output=True, check=True)
    expect("ExecStart=/usr/bin/motcar\n", (root / "usr/share/motcar/examples/motcar.service").read_text())
    expect("motcar 7.8.9\nproved with stand-in 1\n", (root / "usr/share/motcar/VERSION").read_text())
    expect(0o755, (root / "usr/bin/motcar").stat().st_mode & 0o777)
    subprocess.run([*words[:3], "uninstall", *words[4:]], env=clone.environment, capture_output=True, check=True)
    expect([], [it for it in root.rglob("*") if it.is_file()])


def the_program_says_its_commit(clone):
    expect("7.8.9", clone.stamped())
    first = clone.commit("2026-11-29T17:12:53+0200")
    expect(f"7.8.9+git20261129.151253.{clone.git('rev-parse', 'HEAD')[:8]}", first)
    expect_in(f"motcar {first}\ncommit ", clone.version())
    clone.proved()
    said = f"motcar {first}\ncommit {clone.git('rev-parse', '--short', 'HEAD')}proved with stand-in 1\n"
    expect(said, clone.version())
    expect(f'pub(crate) const VERSION: &str = "{first}";\n', (clone.room / "figures").read_text())


def a_package_is_of_its_commit(clone):
    first = clone.commit("2026-11-29T17:12:53+0200")
    clone.proved()
    second = clone.commit("2026-11-29T17:12:54+0200")
    # a run takes the build of an earlier commit, if the sources are the same
    expect_in(f"motcar {first}\n", clone.version())
    words = ["make", "-C", clone.top / "packaging", "install", f"prefix={clone.room / 'prefix'}"]
    done = subprocess.run(words, env=clone.environment, capture_output=True, text=True)
    expect((2, False), (done.returncode, (clone.room / "prefix").exists()))
    expect(0, clone.run("package", str(clone.room / "packages"))[0])
    expect(2, len(clone.calls("ci")))
    expect_in(f"motcar {second}\n", clone.version())
    names = sorted(it.name for it in (clone.room / "packages").iterdir() if it.suffix in (".deb", ".gz"))
    expect([True] * len(names), [second in it for it in names])
    for it in (it for it in names if it.endswith(".deb")):
        words = ["dpkg-deb", "--field", clone.room / "packages" / it, "Version"]
        expect(f"{second}\n", subprocess.run(words, capture_output=True, text=True, check=True).stdout)
    expect_in(f"motcar {second}\n", (clone.room / "packages/VERSION").read_text())


def a_release_has_the_version_of_its_tag(clone):
    clone.commit("2026-11-29T17:12:53+0200")
    clone.git("tag", "v7.8.8")
    expect_in("+git", clone.stamped())
    clone.git("tag", "v7.8.9")
    expect("7.8.9", clone.stamped())
    expect_in("motcar 7.8.9\n", clone.proved().version())
    (clone.top / "README.md").write_text("another one\n")
    expect(f"7.8.9+git20261129.151253.{clone.git('rev-parse', 'HEAD')[:8]}.dirty", clone.stamped())


def versions_rise_with_the_time(clone):
    if not shutil.which("dpkg"):
        return
    days = ("2026-11-29T09:05:07Z", "2026-11-29T09:05:08Z", "2026-11-29T23:59:59Z", "2026-11-30T00:00:00Z", "2027-01-01T00:00:00Z")
    order = ["7.8.8", "7.8.9", *map(clone.commit, days), "7.8.10", "7.9.0"]
    for lower, higher in zip(order, order[1:]):
        words = ["dpkg", "--compare-versions", lower, "lt", higher]
        expect((lower, higher, 0), (lower, higher, subprocess.run(words).returncode))


def without_make_nothing_is_installed(clone):
    others = clone.room / "others"
    others.mkdir()
    for it in pathlib.Path("/usr/bin").iterdir():
        if it.name not in ("make", "gmake"):
            (others / it.name).symlink_to(it)
    for command in ("install", "uninstall", "package"):
        expect((1, "", f"motcar: {command} needs make, which is not on the path\n"),
               clone.run(command, str(clone.room / "prefix"), PATH=f"{clone.room / 'bin'}:{others}"))
    expect([], clone.calls("ci"))


def others_can_read_what_is_installed(clone):
    prefix = clone.room / "prefix"
    words = [clone.top / "motcar", "install", prefix]
    done = subprocess.run(words, env=clone.environment, umask=0o077, capture_output=True, text=True)
    expect((0, []), (done.returncode, [it for it in prefix.rglob("*") if it.stat().st_mode & 0o044 != 0o044]))
    expect(0o755, (prefix / "bin/motcar").stat().st_mode & 0o777)
    expect_nothing_left(clone)


def wrong_folders_are_refused(clone):
    for command in ("install", "uninstall", "package"):
        status, printed, said = clone.run(command, "--help")
        expect((0, ""), (status, said))
        expect_in(f"motcar {command} [", printed)
        for words in (["a", "b"], ["--prefix=/usr"], [""]):
            expect((2, "", f"motcar: usage: motcar {command} [FOLDER]\n"), clone.run(command, *words))
        expect((2, ""), clone.run(command, str(clone.top / "README.md"))[:2])
    expect([], clone.calls("ci"))


def packed(clone):
    folder = clone.room / "packages"
    expect(0, clone.run("package", str(folder))[0])
    files = sorted(it.name for it in folder.iterdir() if it.suffix in (".deb", ".gz"))
    expect(len(files), len((folder / "SHA256SUMS").read_text().splitlines()))
    subprocess.run(["sha256sum", "--quiet", "-c", "SHA256SUMS"], cwd=folder, check=True)
    archive = next(it for it in files if it.endswith(".gz"))
    held = subprocess.run(["tar", "-tzf", archive], cwd=folder, capture_output=True, text=True, check=True).stdout
    for it in ("bin/motcar", "share/man/man1/motcar.1", "share/motcar/VERSION"):
        expect_in(f"/{it}\n", held)
    for it in (it for it in files if it.endswith(".deb")):
        held = subprocess.run(["dpkg-deb", "-c", it], cwd=folder, capture_output=True, text=True, check=True).stdout
        expect("drwxr-xr-x root/root", held[:20])
        for name in ("usr/bin/motcar", "usr/lib/systemd/system/motcar.service", "usr/lib/sysusers.d/motcar.conf",
                     *(f"usr/lib/systemd/system/{it}" for it in EXAMPLES if it.endswith((".service", ".timer"))),
                     "etc/default/motcar", "usr/share/doc/motcar/copyright", "usr/share/doc/motcar/changelog.gz",
                     "usr/share/motcar/VERSION", "usr/share/man/man1/motcar.1.gz"):
            expect_in(f" ./{name}\n", held)
    expect("motcar 7.8.9\nproved with stand-in 1\n", (folder / "VERSION").read_text())
    expect_nothing_left(clone)


ROWS = [it for it in globals().copy().values() if callable(it) and getattr(it, "__code__", None)
        and it.__code__.co_varnames[:1] == ("clone",) and not it.__name__.startswith("expect")]


def main():
    failed = 0
    # Where this was started with some of them ignored, as `nohup` does, they would be ignored by what it starts.
    for number in ENDING:
        signal.signal(number, signal.SIG_DFL)
    # A proof that a row has left in the background may still write as the folder goes.
    pool = concurrent.futures.ThreadPoolExecutor(len(ROWS))
    with tempfile.TemporaryDirectory(ignore_cleanup_errors=True) as room, pool:
        os.chmod(room, 0o755)
        clones = [Clone(room) for _ in ROWS]
        running = [pool.submit(row, clone) for row, clone in zip(ROWS, clones)]
        for row, clone, future in zip(ROWS, clones, running):
            fault = future.exception()
            if fault:
                failed += 1
                print(f"{row.__name__.replace('_', ' ')}: {type(fault).__name__}: {fault}; said last: {clone.said!r}")
    print(f"tools/check_launcher.py: {len(ROWS) - failed} of {len(ROWS)} rows as they should be")
    return 1 if failed else 0


sys.exit(main())
