"""A small program over some of the crates, in a repository of its own, for the benches that time what the crates offer."""
import os
import shutil
import subprocess
import tempfile

TOP = os.path.dirname(os.path.dirname(os.path.abspath(__file__)))


def write(path, text):
    """Writes a file, and the folders that it stands in."""
    os.makedirs(os.path.dirname(path), exist_ok=True)
    with open(path, "w", encoding="utf-8") as file:
        file.write(text)


def run(line, crates, source, proofs=None, command=("rt", "run")):
    """Makes the repository in a temporary folder and runs the command in the program's crate; the status is the command's.

    The line is the program's in crates.txt, crates are the names of those that are copied, source is the text of src/main.rt, and proofs maps paths
    in the crate's proofs/ to their texts.
    """
    with tempfile.TemporaryDirectory() as top:
        for name in crates:
            shutil.copytree(os.path.join(TOP, "crates", name), os.path.join(top, "crates", name), ignore=shutil.ignore_patterns("out", "must-fail"))
        program = os.path.join(top, "crates", line.split(":")[0])
        write(os.path.join(program, "src", "main.rt"), source)
        for path, text in (proofs or {}).items():
            write(os.path.join(program, "proofs", path), text)
        with open(os.path.join(TOP, "crates.txt"), encoding="utf-8") as file:
            lines = [own for own in file if own.split(":")[0] in crates]
        write(os.path.join(top, "crates.txt"), "".join(lines + [line + "\n"]))
        shutil.copy(os.path.join(TOP, "HANDLES"), top)
        return subprocess.run(command, cwd=program, check=False).returncode
