"""What the scripts that measure growth share: a copy of the repository with one program more, proved and built, and its
user times."""
import pathlib
import resource
import shutil
import subprocess

TOP = pathlib.Path(__file__).resolve().parent.parent
LONG = 40  # seconds that a run may take


def build(top, name, uses, files):
    """Copies the repository to a folder, adds the program of a name with these files, over these libraries, proves and
    builds it by `rt run`, in some minutes, and answers where it lies."""
    shutil.copytree(TOP, top, ignore=shutil.ignore_patterns("out", ".git"), dirs_exist_ok=True)
    (top / "crates.txt").write_text((TOP / "crates.txt").read_text() + f"{name}: {uses}\n")
    crate = top / "crates" / name
    for path, text in files.items():
        (crate / path).parent.mkdir(parents=True)
        (crate / path).write_text(text)
    subprocess.run(["rt", "run"], cwd=crate, stdin=subprocess.DEVNULL, check=True)
    return crate / "out" / name


def timed(words, text):
    """What the program prints, and its user time. TimeoutExpired where it takes too long."""
    before = resource.getrusage(resource.RUSAGE_CHILDREN).ru_utime
    told = subprocess.run(words, input=text, stdout=subprocess.PIPE, text=True, check=True, timeout=LONG).stdout
    return told, resource.getrusage(resource.RUSAGE_CHILDREN).ru_utime - before
