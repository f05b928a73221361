#!/usr/bin/env python3
"""Makes the manual page and the completions of the help texts in docs/help, which the gate compares with the program's.

    tools/from_help.py manual VERSION      the manual page, for section 1
    tools/from_help.py bash                completions for bash
    tools/from_help.py zsh                 completions for zsh
"""
import pathlib
import re
import sys

# the values of --packet
LENGTHS = "24 48 72 96"
DOCS = pathlib.Path(__file__).resolve().parent.parent / "docs"
HELP = DOCS / "help"
MANUAL = {
    "FILES": r"""
.TP
.I DISK
A disk: a regular file or a block device. Its format is described in FORMATS.md.
.TP
.I DISK\-wal
An empty file that motcar makes beside a disk that is a regular file. Leave it in place.
.TP
.I PACKETS.new
The packets of a regular file while they are written. It takes the place of PACKETS at the end.
""",
    "SIGNALS": r"""
motcar handles no signal. It may be killed at any time, with SIGKILL too: each command whose reply was printed is on the disk.
""",
    "EXAMPLES": r"""
A folder on air, in packets of 96 bytes at address 7:
.PP
.nf
.RS
motcar format air.disk \-\-objects 60 \-\-data 1000000 \-\-address 7
mkfifo packets.pipe
motcar play air.disk packets.pipe \-\-folder objects
.RE
.fi
.PP
A file on a disk that is not on air, and what the disk has then:
.PP
.nf
.RS
motcar put air.disk logo.png
motcar list air.disk
.RE
.fi
""",
    "SEE ALSO": r"""
OPERATING.md (the manual), FORMATS.md (disks, lines, replies, log lines) and PROMISES.md (what is proved), which are installed in
share/motcar/docs (of the Debian package: /usr/share/doc/motcar/docs).
.PP
ETSI EN 300 401, ETSI EN 301 234, ETSI TS 101 756.
""",
}


def rows(text, title):
    """The rows of a part of a help text: a term and what it means."""
    part = text.partition(f"\n{title}:\n")[2].partition("\n\n")[0]
    return [re.match(r"\s+(.*?)(?:\s{2,}(.*))?$", it).groups("") for it in part.splitlines()]


class Command:
    """A command, as its help text describes it."""

    def __init__(self, name):
        text = (HELP / f"{name}.txt").read_text()
        self.name = name
        self.about = text.split("\n")[0]
        self.usage = re.search(r"^Usage: (.*)$", text, re.M)[1]
        self.arguments = rows(text, "Arguments")
        self.options = [it for it in rows(text, "Options") if "--help" not in it[0]]

    def words(self):
        """Its options by name, each with what stands for its value, or nothing for one that takes none."""
        parted = ((it.partition(" "), help) for it, help in self.options)
        return [(name, value.strip("<>"), help) for (name, _, value), help in parted]


def commands():
    top = (HELP / "motcar.txt").read_text()
    return top, [Command(name) for name, _ in rows(top, "Commands") if name != "help"]


def roff(text):
    return text.replace("\\", "\\e").replace("-", "\\-").replace("'", "\\(aq")


def terms(found):
    return "".join(f".TP\n.B {roff(term)}\n{roff(help)}\n" for term, help in found)


def refusals():
    """Each refusal with its number, and what it means: the table of FORMATS."""
    found = re.findall(r"(?m)^\| (\d+) \| ([A-Z][a-z]\w+) \| (.*) \|$", (DOCS / "FORMATS.md").read_text())
    return [(f"{number} {name}", re.sub(r"`|\[([^\]]*)\]\(\S+\)", r"\1", meaning)) for number, name, meaning in found]


def manual(version):
    top, all_commands = commands()
    notes = top.partition("Print help\n\n")[2]
    status = re.search(r"Exit status: ([\s\S]*)\.", notes)[1]
    done, refused, wrong = re.match(r"0 (.*), 1 (.*), 2 (.*)", " ".join(status.split())).groups()
    about = roff(top[0].lower() + top.split("\n")[0][1:])
    page = f'.TH MOTCAR 1 "" "motcar {version}" "User Commands"\n.SH NAME\nmotcar \\- {about}\n.SH SYNOPSIS\n.nf\n'
    page += "".join(f".B {roff(it.usage)}\n" for it in all_commands)
    page += (".fi\n.SH DESCRIPTION\nmotcar keeps a carousel of MOT objects (station logos, programme guides) on a disk, and plays "
             "it as packets of a packet\\-mode sub\\-channel. Each change that it acknowledged survives a crash.\n"
             ".SH COMMANDS\n")
    for it in all_commands:
        page += f".SS {roff(it.usage)}\n{roff(it.about)}.\n{terms(it.arguments + it.options)}"
    options = [("-h, --help", "Print the help of motcar, or of the command before it"),
               ("-V, --version", "Print the version, the commit and the toolchain that proved it")]
    page += ".SH OPTIONS\n" + terms(options)
    page += ".SH EXIT STATUS\n" + terms([("0", done), ("1", refused), ("2", wrong)])
    page += ".SH DIAGNOSTICS\nEach refusal by its number and name. OPERATING.md says what to do at each.\n" + terms(refusals())
    return page + "".join(f".SH {title}\n{text.strip()}\n" for title, text in MANUAL.items())


def bash():
    _, all_commands = commands()
    names = " ".join(it.name for it in all_commands)
    text = "# Completions of motcar for bash.\n_motcar() {\n"
    text += "    local word=${COMP_WORDS[COMP_CWORD]} before=${COMP_WORDS[COMP_CWORD-1]} options=\n"
    text += '    if [ "$COMP_CWORD" -eq 1 ]; then\n'
    text += f'        mapfile -t COMPREPLY < <(compgen -W "{names} help --help --version" -- "$word")\n'
    text += "        return\n    fi\n    case \"${COMP_WORDS[1]}\" in\n"
    for it in all_commands:
        text += f'        {it.name}) options="{" ".join([*(name for name, _, _ in it.words()), "--help"])}" ;;\n'
    text += f'        help) options="{names}" ;;\n    esac\n'
    folders = sorted({name for it in all_commands for name, value, _ in it.words() if value == "DIR"})
    numbers = sorted({name for it in all_commands for name, value, _ in it.words() if value == "N" and name != "--packet"})
    text += f'    case "$before" in\n        {" | ".join(folders)}) mapfile -t COMPREPLY < <(compgen -d -- "$word"); return ;;\n'
    text += f'        --packet) mapfile -t COMPREPLY < <(compgen -W "{LENGTHS}" -- "$word"); return ;;\n'
    text += f'        {" | ".join(numbers)}) return ;;\n    esac\n'
    text += '    case "${COMP_WORDS[1]} $word" in\n'
    text += '        "help "* | *" -"*) mapfile -t COMPREPLY < <(compgen -W "$options" -- "$word") ;;\n'
    # (the file that stands beside a disk is none)
    text += '        *) mapfile -t COMPREPLY < <(compgen -f -X "*-wal" -- "$word") ;;\n    esac\n}\n'
    return text + "complete -o filenames -F _motcar motcar\n"


def zsh():
    _, all_commands = commands()

    def quoted(help):
        return re.sub(r"([\[\]:'])", lambda it: "'\\''" if it[1] == "'" else "\\" + it[1], help)

    actions = {"DIR": "_files -/", "FILE": "_files", "N": " "}
    text = "#compdef motcar\n# Completions of motcar for zsh.\n_motcar() {\n"
    text += "    if (( CURRENT == 2 )); then\n        local -a commands=(\n"
    text += "".join(f"            '{it.name}:{quoted(it.about)}'\n" for it in all_commands)
    text += "            'help:Print help'\n            '--help:Print help'\n"
    text += "            '--version:Print the version, the commit and the toolchain that proved it'\n        )\n"
    text += "        _describe command commands\n        return\n    fi\n    case $words[2] in\n"
    for it in all_commands:
        parts = []
        for name, value, help in it.words():
            action = f"({LENGTHS})" if name == "--packet" else actions.get(value)
            parts.append(f"'{name}[{quoted(help)}]{f':{value}:{action}' if value else ''}'")
        for number, (name, _) in enumerate(it.arguments, 2):
            place, name = "*" if name.endswith("...") else number, name.strip("<>.")
            parts.append(f"'{place}:{name}:{ {'DIR': '_files -/', 'NAME': ' '}.get(name, '_files')}'")
        text += f"        {it.name}) _arguments {' '.join([*parts, chr(39) + '--help[Print help]' + chr(39)])} ;;\n"
    text += f"        help) _values command {' '.join(it.name for it in all_commands)} ;;\n"
    return text + "    esac\n}\n_motcar \"$@\"\n"


match sys.argv[1:]:
    case ["manual", version]:
        print(manual(version), end="")
    case ["bash"]:
        print(bash(), end="")
    case ["zsh"]:
        print(zsh(), end="")
    case _:
        sys.exit(__doc__)
