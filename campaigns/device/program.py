"""motcar as a running program, and the carousel that its replies are about."""
import subprocess


class Program:
    """The built program; where `without` names a call of the system, that call does nothing and answers success: each
    time, or for the files of these paths."""

    def __init__(self, path, without=None, paths=()):
        self.path, self.before = str(path), []
        if without:
            inject = f"inject={without}:retval=0"
            self.before = ["strace", "-f", "-o", "/dev/null", "-e", f"trace={without}", "-e", inject]
            self.before += [word for it in paths for word in ("-P", str(it))]

    def run(self, *words, given=b"", before=()):
        return subprocess.run([*self.before, *before, self.path, *words], input=given, capture_output=True, timeout=60)

    def refusal(self, *words):
        """None where it ends in status 0, else the first line of what it says."""
        done = self.run(*words)
        return first_line(done.stderr) if done.returncode else None

    def serve(self, disk):
        return Session([*self.before, self.path, "serve", disk])


def first_line(text):
    return text.decode("utf8", "replace").split("\n")[0]


class Session:
    """A running `motcar serve`."""

    def __init__(self, words):
        streams = {"stdin": subprocess.PIPE, "stdout": subprocess.PIPE, "stderr": subprocess.PIPE}
        self.process = subprocess.Popen(words, **streams)

    def ask(self, line):
        """The reply's first line, None where the program has ended."""
        try:
            self.process.stdin.write(line + b"\n")
            self.process.stdin.flush()
        except BrokenPipeError:
            return None
        return self.process.stdout.readline().rstrip(b"\n") or None

    def listing(self):
        """What `list` shows, None where the program has ended."""
        reply = self.ask(b"list")
        if reply is None or not reply.startswith(b"carousel"):
            return None
        count = int(reply.split()[4])
        return b"\n".join([reply] + [self.process.stdout.readline().rstrip(b"\n") for _ in range(count)])

    def end(self):
        """Closes its input; what it said on standard error."""
        try:
            self.process.stdin.close()
        except BrokenPipeError:
            pass
        self.process.stdout.read()
        said = self.process.stderr.read()
        self.process.wait()
        return first_line(said)

    def kill(self):
        self.process.kill()
        self.end()


def is_done(reply):
    return reply is not None and reply.startswith(b"done")


def bodies_after(bodies, line):
    """The bodies by name, after an accepted command."""
    words = line.split(b" ")
    after = dict(bodies)
    if words[0] in (b"put", b"replace"):
        after[words[1]] = bytes.fromhex(words[5].decode())
    elif words[0] == b"withdraw":
        del after[words[1]]
    return after


def body_line(word, name, body):
    return b"%s %s 2 3 - %s" % (word, name, body.hex().encode())


def put(name, size, byte):
    return body_line(b"put", name, bytes([byte]) * size)


def replace(name, size, byte):
    return body_line(b"replace", name, bytes([byte]) * size)


class Commands:
    """Random commands, most of which the carousel accepts."""

    SIZES = [1, 5, 100, 511, 512, 513, 4095, 4096, 4097]

    def __init__(self, choices, objects, longest=60_000):
        self.choices, self.objects, self.longest, self.made = choices, objects, longest, 0

    def next(self, bodies):
        choices, names = self.choices, list(bodies)
        self.made += 1
        word = choices.choice([b"put"] * 4 + [b"replace"] * 4 + [b"withdraw"] * 2 + [b"period"] * 2)
        if word == b"put" and len(names) >= self.objects:
            word = choices.choice([b"replace", b"withdraw"])
        if word in (b"replace", b"withdraw") and not names:
            word = b"put"
        if word == b"period":
            return b"period %d" % choices.randrange(1 << 24)
        name = b"n%d" % self.made if word == b"put" else choices.choice(names)
        if word == b"withdraw":
            return b"withdraw " + name
        most = [3_000, 20_000, self.longest]
        size = min(self.longest, choices.choice(self.SIZES + [choices.randint(1, it) for it in most]))
        return body_line(word, name, choices.randbytes(size))
