"""Commands side by side, as many as there are processors and memory for, each behind those that it waits for."""

import os
import re
import signal
import subprocess
import time
from concurrent.futures import FIRST_COMPLETED, ThreadPoolExecutor, wait
from dataclasses import dataclass
from pathlib import Path
from typing import Callable, Tuple

# What a check takes at most of memory, in bytes, as far as was seen.
MEMORY_OF_A_CHECK = 2_000_000_000
# More jobs than this make no check faster.
MOST_JOBS = 4


@dataclass
class Task:
    """Something to run: the tasks that have to be done before, how much work follows from it on, itself included, the
    call, which is given a number of jobs and answers a Ran, and how much work it is itself."""

    name: str
    waits: Tuple[str, ...]
    height: int
    call: Callable
    work: int = 0


@dataclass
class Ran:
    """What became of a command."""

    status: int
    seconds: float
    processor_seconds: float

    def is_well(self):
        return self.status == 0


class Lanes:
    """The processors, and the commands that run on them."""

    def __init__(self, count=None, most_jobs=MOST_JOBS):
        self.count = count or lanes()
        self.most_jobs = most_jobs
        self.running = set()
        self.is_stopped = False

    def command(self, words, folder, log):
        """Runs a command in a folder, with nothing to read and all that it writes in a log."""
        began = time.monotonic()
        with open(log, "ab") as out:
            child = subprocess.Popen(
                words, cwd=folder, stdin=subprocess.DEVNULL, stdout=out, stderr=subprocess.STDOUT, start_new_session=True
            )
        self.running.add(child)
        if self.is_stopped:
            end(child)
        _, state, usage = os.wait4(child.pid, 0)
        self.running.discard(child)
        child.returncode = os.waitstatus_to_exitcode(state)
        return Ran(child.returncode, time.monotonic() - began, usage.ru_utime + usage.ru_stime)

    def stop(self):
        """Ends the commands that run."""
        self.is_stopped = True
        for child in list(self.running):
            end(child)

    def jobs(self, task, share, left):
        """How many jobs a task gets: its share of the idle processors, and more where what waits for it would else take
        longer than all that is left on all processors."""
        work = sum(it.work for it in left)
        needed = -(-self.count * task.height // work) if work else 1
        return max(1, min(self.most_jobs, max(share, needed)))

    def run(self, tasks, begun=lambda task: None, ended=lambda task, ran: None):
        """Runs tasks, those with the most work behind them first, and gives what each answered. Where one fails, those
        that wait for it are left out, and so are all where `ended` says so by True."""
        left, at_work, answers = sorted(tasks, key=lambda task: -task.height), {}, {}
        pool = ThreadPoolExecutor(self.count)
        try:
            while left or at_work:
                ready = [task for task in left if all(name in answers and answers[name].is_well() for name in task.waits)]
                idle = self.count - sum(jobs for _, jobs in at_work.values())
                while ready and idle > 0:
                    task, jobs = ready[0], self.jobs(ready[0], idle // len(ready), left)
                    begun(task)
                    at_work[pool.submit(task.call, jobs)] = task, jobs
                    left.remove(task)
                    ready.remove(task)
                    idle -= jobs
                if not at_work:
                    break
                for done in wait(at_work, return_when=FIRST_COMPLETED).done:
                    task, _ = at_work.pop(done)
                    answers[task.name] = done.result()
                    if ended(task, answers[task.name]):
                        return answers
            return answers
        finally:
            self.stop()
            pool.shutdown()


def end(child):
    """Ends a command and what it started."""
    try:
        os.killpg(child.pid, signal.SIGTERM)
    except ProcessLookupError:
        pass


def lanes():
    """How many checks there are processors and memory for."""
    processors = len(os.sched_getaffinity(0))
    quota = number_in("/sys/fs/cgroup/cpu.max", r"^(\d+) "), number_in("/sys/fs/cgroup/cpu.max", r" (\d+)")
    if all(quota):
        processors = min(processors, quota[0] // quota[1])
    free = number_in("/proc/meminfo", r"MemAvailable:\s+(\d+)")
    if free:
        processors = min(processors, free * 1024 // MEMORY_OF_A_CHECK)
    return max(processors, 1)


def number_in(file, pattern):
    """The number that a file of the system has there, or None."""
    try:
        found = re.search(pattern, Path(file).read_text(encoding="utf-8"))
    except OSError:
        return None
    return int(found[1]) if found else None
