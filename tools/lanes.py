"""The order of the proofs of `rt ci`, and more processes for those that the end waits for.

The kit's `rt ci` begins with the crate behind which most lines wait, and lines tell little of the time that a crate
takes. Here it begins with the one behind which the longest chain waits, by the seconds that docs/GATE.md has of each.
It also gives a proof the processors that are idle when it begins, shared with all that is ready then, be it tests of a
crate that has none. So the crates of the longest chain, beside which others always run, get one process each, and where
the others have ended, processors have nothing to do. Here the proof of a crate with which the longest chain of crates
that aren't proved begins gets as many as the machine has, as memory allows: it takes less by the clock, and what runs
beside it waits less than the chain gains. And a program's two compilers, which the kit calls one after the other, run
side by side. The verdicts are the kit's: none of this changes what is checked, nor what is done with it.
"""

from __future__ import annotations

import copy
import os
import threading
from concurrent.futures import Future, ThreadPoolExecutor
from types import ModuleType
from typing import Callable

import machine
import plan

GIGABYTES_A_JOB = 1.5
# What is left to the others that run or begin beside such a proof.
GIGABYTES_LEFT = 4.0

Key = tuple  # a crate's name, and what is done for it: "proof", "tests", or what has to do with edits


def seconds_of(tasks: dict[Key, tuple]) -> dict[Key, float]:
    """The seconds of each proof, by the table of times. Nothing waits for the other tasks."""
    known, more = plan.seconds_by_crate(), plan.MORE_SECONDS
    proof = {key[0]: known.get(key[0], plan.USUAL_SECONDS) + more.get(key[0], 0.0) for key in tasks}
    return {key: proof[key[0]] * (key[1] == "proof") for key in tasks}


def chains(tasks: dict[Key, tuple], seconds: dict[Key, float]) -> dict[Key, float]:
    """The seconds of the longest chain that begins with each task. A task comes after those it waits for."""
    chain = dict.fromkeys(tasks, 0.0)
    for key in reversed([*tasks]):
        chain[key] += seconds[key]
        for below in tasks[key][0]:
            chain[below] = max(chain[below], chain[key])
    return chain


def most_jobs() -> int:
    """As many processes as a proof gains from here and now."""
    fitting = int((machine.free_gigabytes() - GIGABYTES_LEFT) / GIGABYTES_A_JOB)
    return max(1, min(plan.MOST_JOBS, machine.processor_count(), fitting))


def with_more_jobs(tasks: dict[Key, tuple]) -> dict[Key, tuple]:
    """The tasks of a run, each with its seconds as its work, in which a proof that the end waits for is called with more
    jobs than it is given."""
    # Where edits are tried too, no processor is idle.
    if any(key[1] == "edits" for key in tasks) or os.environ.get("RT_JOBS"):
        return tasks
    seconds = seconds_of(tasks)
    chain, left, turn = chains(tasks, seconds), set(tasks), threading.Lock()

    def told(key: Key, call: Callable) -> Callable:
        def run(given: dict, jobs: int) -> object:
            with turn:
                is_longest = all(chain[key] >= chain[it] for it in left)
            try:
                return call(given, max(jobs, most_jobs()) if is_longest and key[1] == "proof" else jobs)
            finally:
                with turn:
                    left.discard(key)

        return run

    return {key: (after, seconds[key], needs, told(key, call)) for key, (after, _, needs, call) in tasks.items()}


def widen(rt: ModuleType) -> None:
    """Has the kit's rt begin its tasks so."""
    in_lanes = rt.in_lanes
    rt.in_lanes = lambda tasks: in_lanes(with_more_jobs(tasks))


def compile_at_once(crate: type) -> None:
    """Has a program's second compiler run beside the first, where the kit calls them in turn."""
    compile_by, pool, begun = crate.compile_by, ThreadPoolExecutor(1), {}

    def at_once(self, backend: str, words: list[str], to: str) -> int:
        if backend == "llvm":
            begun[self.folder] = pool.submit(compile_by, copy.copy(self), "rattle", words, to)
            status = compile_by(self, backend, words, to)
            if status:
                begun.pop(self.folder).exception()
            return status
        second: Future | None = begun.pop(self.folder, None)
        return second.result() if second else compile_by(self, backend, words, to)

    crate.compile_by = at_once
