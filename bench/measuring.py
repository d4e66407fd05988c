"""Runs of commands with their seconds and peak memory, one at a time."""

import os
import re
import signal
import subprocess
import tempfile
import time


def measure(command, text=b"", limit=20):
    """Returns the seconds, the peak in megabytes, the status (None where the time limit passed) and what was written."""
    with tempfile.TemporaryFile() as given, tempfile.TemporaryFile() as written:
        given.write(text)
        given.seek(0)
        began = time.monotonic()
        run = subprocess.Popen(command, stdin=given, stdout=written, stderr=subprocess.STDOUT, start_new_session=True)
        status, usage, is_over = wait(run.pid, began + limit)
        took = time.monotonic() - began
        run.returncode = status
        written.seek(0)
        return took, usage.ru_maxrss / 1024, status if is_over else None, written.read().decode(errors="replace")


def wait(pid, end):
    """Waits for a process, and ends its group where the time is over."""
    pause = 0.0005
    while time.monotonic() < end:
        found, status, usage = os.wait4(pid, os.WNOHANG)
        if found:
            return os.waitstatus_to_exitcode(status), usage, True
        time.sleep(pause)
        pause = min(pause * 1.2, 0.02)
    os.killpg(pid, signal.SIGKILL)
    _, status, usage = os.wait4(pid, 0)
    return os.waitstatus_to_exitcode(status), usage, False


def instructions(command, text, limit):
    """How many instructions a command runs, by valgrind's cachegrind, which counts the same on a busy machine; None where it tells none."""
    counting = ["valgrind", "--tool=cachegrind", "--cache-sim=no", "--cachegrind-out-file=/dev/null", "--log-file=/dev/stderr"]
    output = measure([*counting, *command], text, limit)[3]
    found = re.search(r"^==\d+== I +refs: +([0-9,]+)$", output, re.M)
    return int(found[1].replace(",", "")) if found else None


def load():
    return f"{os.getloadavg()[0]:.1f}"
