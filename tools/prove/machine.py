"""What the machine offers, processors and memory, and the processes that run on it."""

import fcntl
import os
import re
import signal
import subprocess
import time

# What a job of a proof is likely to take of the memory, in bytes.
JOB = 2_500_000_000


def slots():
    """Returns how many jobs can run at once: one for each processor, if memory suffices, and at least one.
    OPENLINK_JOBS sets another number."""
    expected = os.environ.get("OPENLINK_JOBS", "")
    if expected.isdigit() and int(expected) > 0:
        return int(expected)
    found = [len(os.sched_getaffinity(0))]
    quota = re.match(r"(\d+) (\d+)", _text("/sys/fs/cgroup/cpu.max"))
    if quota:
        found.append(int(quota[1]) // int(quota[2]))
    free = re.search(r"MemAvailable:\s+(\d+)", _text("/proc/meminfo"))
    if free:
        found.append(1024 * int(free[1]) // JOB)
    limit, held = _text("/sys/fs/cgroup/memory.max").strip(), _text("/sys/fs/cgroup/memory.stat")
    if limit.isdigit():
        anonymous = re.search(r"^anon (\d+)", held, re.M)
        found.append((int(limit) - int(anonymous[1] if anonymous else 0)) // JOB)
    return max(1, min(found))


def lock(folder, wait):
    """Takes a lock on a folder, as rt does, and returns what holds it. While another process has it, calls wait."""
    held = os.open(folder, os.O_RDONLY)
    while True:
        try:
            fcntl.flock(held, fcntl.LOCK_EX | fcntl.LOCK_NB)
            return held
        except BlockingIOError:
            wait()
        except OSError:
            return held  # some file systems have no locks


def start(words, folder, log):
    """Starts a command in a session of its own, with its output in the file log."""
    with open(log, "wb") as out:
        how = {"stdin": subprocess.DEVNULL, "stdout": out, "stderr": subprocess.STDOUT}
        return subprocess.Popen(words, cwd=folder, start_new_session=True, **how)


def seconds_of(process):
    """Returns what a command took of a processor, with all that it started and waited for, once it has ended; None
    while it runs."""
    found, status, used = os.wait4(process.pid, os.WNOHANG)
    if not found:
        return None
    process.returncode = os.waitstatus_to_exitcode(status)
    return used.ru_utime + used.ru_stime


def is_busy(jobs):
    """Returns whether, in the last minute, far more processes were ready to run than these jobs need."""
    return os.getloadavg()[0] > 1.5 * jobs


def end(processes):
    """Kills the commands and all that they started, in whatever process group, and waits until they are gone."""
    sessions = {it.pid for it in processes}
    while True:
        left = _members(sessions)
        for process in left:
            try:
                os.kill(process, signal.SIGKILL)
            except ProcessLookupError:
                pass
        for it in processes:
            it.poll()
        if not left:
            return
        time.sleep(0.02)


def _members(sessions):
    """Returns the processes of these sessions that have not ended."""
    found = []
    for process in filter(str.isdigit, os.listdir("/proc")):
        # After the name, which is in parentheses: the state, the parent, the process group and the session.
        fields = _text(f"/proc/{process}/stat").rpartition(")")[2].split()
        if fields and fields[0] not in "ZX" and int(fields[3]) in sessions:
            found.append(int(process))
    return found


def _text(path):
    try:
        with open(path, encoding="utf-8", errors="replace") as file:
            return file.read()
    except OSError:
        return ""
