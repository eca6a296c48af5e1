#!/usr/bin/env python3
"""tests/kit.py [PROGRAM]

Tests tools/kit.py, by which tools/prove calls the kit's rt. With kits that are written here: one that is no Python and one that makes the sums of
crates by other code run as they are, with their words and their status; whether a kit keeps what passed is asked of its help, and tools/prove says so
only then. Of tasks of a run, the proofs of the longest chain get more jobs, where no edits are tried beside them, and a program's compilers run side by
side, with the status that they have one after the other. With the kit of this machine: each crate's sum is kept as the kit makes it, its files are read once a run, its version is told as rt
tells it, and a library that is marked as built counts as built with rt, until a file of it changes. Where no kit is in PATH that part is skipped, and
said to be. The program isn't needed. Prints what was checked; the status is 1 where something was wrong."""
import os
import shutil
import subprocess
import sys
import tempfile
import threading
from pathlib import Path

sys.dont_write_bytecode = True
from logs import ROOT, called, check, end_checks
import kit
import lanes
import plan

SHELL = '#!/bin/sh\n[ "$1" = help ] && { echo "rt ci [--anew]"; exit 0; }\necho "shell: $*"; exit 7\n'
OTHER = """#!/usr/bin/env python3
import sys
class Crate:
    def stamp(self): return "other"
class rtlib:
    Crate = Crate
def main(words):
    print("other:", *words, rtlib.Crate().stamp())
    return 5
if __name__ == "__main__": sys.exit(main(sys.argv[1:]))
"""
WORDS = [sys.executable, str(ROOT / "tools/kit.py"), "lib", "--jobs", "2"]
LEAST = ", and less where an earlier run on this machine proved some"


def with_kit(room, text):
    """The environment in which rt is this text."""
    (room / "rt").write_text(text)
    (room / "rt").chmod(0o755)
    return os.environ | {"PATH": f"{room}:{os.environ['PATH']}"}


def test_other_kits(room):
    for text, said, status, keeps in ((SHELL, "shell: lib --jobs 2\n", 7, True), (OTHER, "other: lib --jobs 2 other\n", 5, False)):
        environment = with_kit(room, text)
        ran = called(WORDS, env=environment)
        check((ran.stdout, ran.returncode) == (said, status), f"a kit of another kind: {ran.stdout!r}, status {ran.returncode}")
        told = called([sys.executable, str(ROOT / "tools/prove"), "--estimate"], env=environment)
        check(told.returncode == 0 and (LEAST in told.stdout) == keeps, f"tools/prove says of a kit that {'keeps' if keeps else 'forgets'}: {told.stdout}")
        # of such a kit no library can be marked as built, so each is built by itself
        told = called([sys.executable, str(ROOT / "tools/prove"), "pas_bits", "--estimate"], env=environment)
        check(told.returncode == 0 and LEAST not in told.stdout, f"tools/prove says of a library, with a kit of another kind: {told.stdout}")
    none = called(WORDS, env=os.environ | {"PATH": str(room / "nothing")})
    check(none.returncode == 1 and "there is no rt" in none.stderr, f"without a kit: {none.stderr}")
    print("kits of other kinds, and none")


def test_sums():
    """The sums of some crates by the kit's own code, and kept: the same, and each crate's files are read once."""
    os.chdir(ROOT)
    rt = kit.load(kit.find())
    check(rt is not None and hasattr(rt, "main"), "the kit's rt can't be read")
    crates = {it.name: it for it in rt.rtlib.crates_below(str(ROOT))}
    names = ["pas_bits", "pas_steps", "pas_scan", "pas_search"]
    made = {name: crates[name].stamp() for name in names}
    if not kit.keep_sums(rt.rtlib.Crate):
        print(f"the sums of this kit ({called(['rt', 'version']).stdout.strip()}) are made by code that isn't known: it runs as it is")
        return
    read, files_of = [], rt.rtlib.files_of

    def counted(folder):
        read.append(folder)
        return files_of(folder)

    rt.rtlib.files_of = counted
    check({name: crates[name].stamp() for name in names} == made, "a sum that is kept is another")
    check(len(read) == len(set(read)) >= 5, f"files of {len(set(read))} crates were read {len(read)} times")
    print(f"the sums of {len(names)} crates, by {len(read)} readings")


def test_marks(room):
    """A library of a small repository, as a gate leaves it, and one that wasn't built."""
    (room / ".git").mkdir(parents=True)
    (room / "crates.txt").write_text("low:\nhigh: low\n")
    for name in ("low", "high"):
        (room / "crates" / name / "src").mkdir(parents=True)
        (room / "crates" / name / "src/lib.rt").write_text("//! Nothing.\n")
    (room / "crates/low/out/rlib/low.rlib").mkdir(parents=True)
    (room / "crates/low/out/rlib/low.rlib/format").write_text("")
    rt = kit.building()
    if not rt:
        print(f"this kit ({called(['rt', 'version']).stdout.strip()}) tells by code that isn't known that a library is built: none is marked")
        return
    built = lambda: {it.name for it in rt.rtlib.crates_below(str(room)) if it.is_built()}
    check(built() == set(), "a library counts as built before it is marked")
    check(kit.mark_built(room) == ["low"] and built() == {"low"}, f"marked, and built: {built()}")
    (room / "crates/low/src/lib.rt").write_text("//! Nothing more.\n")
    check(built() == set(), "a library that changed counts as built")
    print("libraries that are marked as built")


def jobs_given(tasks):
    """The jobs with which the tasks are called, one after the other, where each is given one."""
    told = {}
    calls = {key: (after, 1, 1, lambda given, jobs, key=key: told.update({key: jobs})) for key, after in tasks.items()}
    for _, _, _, call in lanes.with_more_jobs(calls).values():
        call({}, 1)
    return told


def test_lanes():
    """Two crates above one: of those the one that takes longer is on the longest chain, and then none is left beside the other."""
    most, seconds, lanes.most_jobs = lanes.most_jobs, plan.seconds_by_crate, lambda: 3
    plan.seconds_by_crate = lambda: {"low": 10, "long": 30, "short": 20}
    low, tests = ("low", "proof"), ("low", "tests")
    tasks = {low: [], tests: [], ("short", "proof"): [low], ("long", "proof"): [low]}
    told = {key: (after, 1, 1, None) for key, after in tasks.items()}
    works = {key: it[1] for key, it in lanes.with_more_jobs(told).items()}
    check(works == {low: 10, tests: 0, ("short", "proof"): 20, ("long", "proof"): 30}, f"the work of each task in seconds: {works}")
    check(lanes.chains(told, works)[low] == 40, "the longest chain isn't of 40 seconds")
    got = jobs_given(tasks)
    check(got == {low: 3, tests: 1, ("short", "proof"): 1, ("long", "proof"): 3}, f"jobs: {got}")
    got = jobs_given(tasks | {("low", "edits", 0): [low]})
    check(set(got.values()) == {1}, f"jobs beside edits: {got}")
    lanes.most_jobs, plan.seconds_by_crate = most, seconds
    check(1 <= lanes.most_jobs() <= plan.MOST_JOBS, f"as many as {lanes.most_jobs()} jobs")
    print("jobs of the longest chain")


class Program:
    """A program of a kit, whose second compiler waits for the first to have begun, and whose first waits for the second."""

    def __init__(self, statuses):
        self.folder, self.statuses, self.begun = "program", statuses, {name: threading.Event() for name in statuses}

    def compile_by(self, backend, words, to):
        self.begun[backend].set()
        together = all(it.wait(10) for it in self.begun.values())
        return self.statuses[backend] if together else 9


def test_compilers():
    lanes.compile_at_once(Program)
    for llvm, own, wanted in ((0, 0, 0), (0, 4, 4), (3, 0, 3), (3, 4, 3)):
        program = Program({"llvm": llvm, "rattle": own})
        status = program.compile_by("llvm", [], "") or program.compile_by("rattle", [], "")
        check(status == wanted, f"compilers that end in {llvm} and {own}: {status}")
    print("compilers side by side")


def main():
    if len(sys.argv) > 2 or sys.argv[1:2] in (["-h"], ["--help"]):
        sys.exit(__doc__)
    with tempfile.TemporaryDirectory() as room:
        test_other_kits(Path(room))
    helped = called([sys.executable, str(ROOT / "tools/kit.py"), "--help"])
    check(helped.returncode == 0 and "tools/kit.py WORD.." in helped.stdout, f"--help: {helped.stdout}")
    test_lanes()
    test_compilers()
    if shutil.which("rt"):
        test_sums()
        with tempfile.TemporaryDirectory() as room:
            test_marks(Path(room) / "repository")
        told = [subprocess.run([*words, "version"], stdout=subprocess.PIPE, text=True).stdout for words in (["rt"], WORDS[:2])]
        check(told[0] == told[1] != "", f"rt version: {told}")
    else:
        print("SKIPPED: there is no kit in PATH")
    end_checks()


if __name__ == "__main__":
    main()
