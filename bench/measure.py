"""What the benchmarks share: building a proved program, running it, and reading its time and peak memory."""

import os
import shutil
import subprocess
import sys
import tempfile
import time
from contextlib import contextmanager
from pathlib import Path

REPOSITORY = Path(__file__).resolve().parent.parent
PROGRAM_CRATE = REPOSITORY / "crates" / "gs_prog"


def program():
    """The proved program, built if need be. `GATE_SIZER` names another one."""
    named = os.environ.get("GATE_SIZER")
    if named:
        return Path(named).resolve()
    # A run with no words proves, builds and ends with the exit code of bad usage.
    subprocess.run(["rt", "run"], cwd=PROGRAM_CRATE, stdout=subprocess.DEVNULL, stderr=subprocess.DEVNULL)
    built = PROGRAM_CRATE / "out" / "gs_prog"
    if not built.exists():
        sys.exit(f"the program was not built: run 'rt run' in {PROGRAM_CRATE} to see why")
    return built


class Run:
    """One run: its exit code, what it printed, its seconds by the clock and of processor time, and its peak resident memory in bytes."""

    def __init__(self, words):
        began = time.monotonic()
        child = subprocess.Popen(words, stdout=subprocess.PIPE)
        self.said = child.stdout.read().decode(errors="replace").strip()
        _, status, usage = os.wait4(child.pid, 0)
        self.seconds = time.monotonic() - began
        self.exit = os.waitstatus_to_exitcode(status)
        self.cpu = usage.ru_utime + usage.ru_stime
        self.peak = usage.ru_maxrss * 1024


def best_of(times, words):
    """The quickest of several runs."""
    return min((Run(words) for _ in range(times)), key=lambda run: run.seconds)


def line(label, text_bytes, run):
    """A line of the table that a benchmark prints."""
    megabytes = text_bytes / 1e6
    return (
        f"{label:>24} {megabytes:8.1f} MB {run.seconds:8.3f} s {megabytes / run.seconds:7.1f} MB/s"
        f" {run.peak / 1e6:8.1f} MB peak {run.peak / text_bytes:5.1f} bytes a byte   {run.said}"
    )


def bound(text, is_held):
    """Prints whether a bound is held, and answers it."""
    print(f"{'held' if is_held else 'PASSED OVER'}: {text}")
    return is_held


def growth_is_held(seconds, things="gates"):
    """Judges the time of 1,000,000 things against that of 100,000, where both were measured."""
    if not {100_000, 1_000_000} <= seconds.keys():
        return True
    growth = seconds[1_000_000] / seconds[100_000]
    return bound(f"at most 13 times the time for 10 times the {things} ({growth:.1f})", growth <= 13)


def judge_reader(program, label, source, wanted):
    """Runs a program that reads a text, prints a line, and judges the bounds of a reader. Answers the seconds, and whether they hold."""
    run = best_of(3, [program, source])
    size = source.stat().st_size
    print(line(label, size, run), flush=True)
    if run.exit != 0 or run.said != wanted:
        sys.exit(f"unexpected end: exit {run.exit}, {run.said}")
    held = True
    if size >= 1_000_000:
        held &= bound("at least 20 MB/s", size / 1e6 / run.seconds >= 20)
        held &= bound("at most 40 bytes of memory a byte", run.peak <= 40 * size)
    return run.seconds, held


def lay_out(folder, name, crate, source, proofs):
    """Lays a program of one source file out in a folder, with the crates of the repository that it stands on. Answers the program's folder."""
    listed = dict(text.split(":", 1) for text in (REPOSITORY / "crates.txt").read_text().splitlines() if text[:1].isalpha())
    needed, left = {}, crate.split()
    while left:
        low = left.pop()
        if low in listed:
            needed[low] = listed[low]
            left += listed[low].split()
    crates = folder / "crates"
    for low in needed:
        # What is proved of them already comes along.
        shutil.copytree(REPOSITORY / "crates" / low, crates / low, ignore=shutil.ignore_patterns("must-fail"))
    for path, text in {"src/main.rt": source, **proofs}.items():
        (crates / name / path).parent.mkdir(parents=True, exist_ok=True)
        (crates / name / path).write_text(text)
    lines = [f"{low}:{above}" for low, above in needed.items()] + [f"{name}: {crate} anyhow"]
    (folder / "crates.txt").write_text("\n".join(lines) + "\n")
    shutil.copy(REPOSITORY / "HANDLES", folder)
    return crates / name


@contextmanager
def small_program(name, crate, source, proofs={}):
    """A proved program of one source file over a crate of the repository, or several with blanks between, built in a temporary folder. `proofs` are
    the files of its proof, by their paths in the program's folder."""
    with tempfile.TemporaryDirectory() as folder:
        own = lay_out(Path(folder), name, crate, source, proofs)
        # It runs once as it is built; what counts are the runs after that.
        made = subprocess.run(["rt", "run"], cwd=own, capture_output=True, text=True)
        built = own / "out" / name
        if not built.exists():
            sys.exit(f"{name} was not built:\n{made.stdout[-3000:]}{made.stderr[-3000:]}")
        yield built
