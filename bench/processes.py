"""Runs a process on some input."""

import os
import subprocess
import sys
import tempfile


def run(words, given=b""):
    """What a process writes, its processor time in seconds, and its greatest memory in MiB."""
    with tempfile.TemporaryFile() as stdin, tempfile.TemporaryFile() as stdout:
        stdin.write(given)
        stdin.seek(0)
        process = subprocess.Popen(words, stdin=stdin, stdout=stdout)
        _, status, usage = os.wait4(process.pid, 0)
        process.returncode = os.waitstatus_to_exitcode(status)
        if process.returncode != 0:
            sys.exit(f"{words}: status {process.returncode}")
        stdout.seek(0)
        return stdout.read().decode().strip(), usage.ru_utime + usage.ru_stime, usage.ru_maxrss / 1024
