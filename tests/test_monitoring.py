"""What monitoring takes from examples/: the rules of Prometheus and the dashboard of Grafana ask for samples that the
program has, and the rules find what they should.

Where there is no promtool on the path (Debian: prometheus), its rows are left out.
"""
import json
import pathlib
import re
import shutil
import tempfile

from . import program
from .air import AirCase

RULES, DASHBOARD = program.top / "examples/motcar.rules.yml", program.top / "examples/motcar.dashboard.json"


def named(text):
    """The samples that a text names, without those that end in a path."""
    return set(re.findall(r"\bmotcar_\w+", text))


def expressions(panel):
    return [it["expr"] for it in panel.get("targets", [])]


class Samples(AirCase):
    def test_documented(self):
        """The table of FORMATS has the samples of the program, and no others."""
        table = "".join(re.findall(r"(?m)^\| .*$", (program.top / "docs/FORMATS.md").read_text()))
        ended = self.motcar("play", self.disk(), "/dev/null", "--turns", "1", "--status", self.room / "status")
        self.expect("a status", 0, ended[0])
        families = set(re.findall(r"(?m)^# TYPE (\w+) ", (self.room / "status").read_text()))
        self.expect("the samples of FORMATS", families, named(table))

    def test_rules(self):
        """A rule names samples that FORMATS has, and the manual has a row for it."""
        text = RULES.read_text()
        formats, manual = ((program.top / "docs" / it).read_text() for it in ("FORMATS.md", "OPERATING.md"))
        asked = re.findall(r"(?m)^    expr: (.*)$", text)
        self.expect("samples of the rules", set(), set().union(*map(named, asked)) - named(formats))
        alerts = re.findall(r"(?m)^  - alert: (\w+)$", text)
        self.expect("each rule asks for something", len(alerts), len(asked))
        self.expect("rules of the manual", sorted(alerts), sorted(re.findall(r"(?m)^\| `(Motcar\w+)` \|", manual)))

    def test_dashboard(self):
        """The dashboard is JSON, and each of its panels asks for samples that FORMATS has."""
        dashboard = json.loads(DASHBOARD.read_text())
        formats = named((program.top / "docs/FORMATS.md").read_text())
        for panel in dashboard["panels"]:
            found = [named(it) for it in expressions(panel)]
            self.expect(f"{panel['title']}: samples", (True, set()), (all(found), set().union(*found) - formats))
        places = [it["gridPos"] for it in dashboard["panels"]]
        cells = [(it["x"] + x, it["y"] + y) for it in places for x in range(it["w"]) for y in range(it["h"])]
        self.expect("no panel hides another one", len(cells), len(set(cells)))
        identifiers = [it["id"] for it in dashboard["panels"]]
        self.expect("each panel has a number of its own", len(identifiers), len(set(identifiers)))


class Promtool(program.Rows):
    def test_rules(self):
        """`promtool` takes the rules, and finds what tests/motcar.rules.test.yml says; with the rule that is commented out,
        and tests/motcar.week.test.yml, too."""
        if not shutil.which("promtool"):
            self.leave_out("promtool", "no promtool")
            return
        whole, count = re.subn(r"(?m)^  # (- alert: |  \w+: )", r"  \1", RULES.read_text())
        self.expect("lines that are commented out", 4, count)
        for rules, name in (RULES.read_text(), "motcar.rules.test.yml"), (whole, "motcar.week.test.yml"):
            with tempfile.TemporaryDirectory() as room:
                file, test = pathlib.Path(room, RULES.name), shutil.copy(program.top / "tests" / name, room)
                file.write_text(rules)
                for words in (("check", "rules", file), ("test", "rules", test)):
                    status, printed, said = program.run(["promtool", *words])
                    self.expect(f"promtool {words[0]} rules, {name}", (0, ""),
                                (status, "" if status == 0 else (printed + said).decode()))
