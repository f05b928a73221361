"""The completions of bash: the names of files and folders come whole, whatever is in them, and those of `-wal` files not at
all."""
import pathlib
import subprocess
import tempfile

from tests import program


def completed(folder, *words):
    """What bash offers for the last of these words in a folder."""
    script = subprocess.run([program.top / "tools/from_help.py", "bash"], capture_output=True, text=True, check=True).stdout
    script += 'COMP_WORDS=("$@") COMP_CWORD=$(($# - 1)); _motcar; printf "%s\\n" "${COMPREPLY[@]}"\n'
    done = subprocess.run(["bash", "-c", script, "bash", *words], cwd=folder, capture_output=True, text=True)
    return sorted(done.stdout.splitlines()), done.stderr


class Completions(program.Rows):
    def test_bash(self):
        with tempfile.TemporaryDirectory() as room:
            pathlib.Path(room, "my objects").mkdir()
            for it in ("my disk", "my disk-wal"):
                pathlib.Path(room, it).touch()
            rows = ((["motcar", "pl"], ["play"]), (["motcar", "play", "my"], ["my disk", "my objects"]),
                    (["motcar", "play", "d", "p", "--folder", "my"], ["my objects"]),
                    (["motcar", "play", "d", "p", "--sta"], ["--status"]), (["motcar", "help", "mig"], ["migrate"]),
                    (["motcar", "format", "d", "--packet", ""], ["24", "48", "72", "96"]),
                    (["motcar", "--v"], ["--version"]))
            for words, wanted in rows:
                self.expect(" ".join(words), (wanted, ""), completed(room, *words))
