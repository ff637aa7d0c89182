#!/usr/bin/env python3
"""Runs the built program on an input, and prints its status, seconds, processor time and greatest memory.

usage: measure.py PROGRAM INPUT
"""
import resource
import subprocess
import sys
import time

program, path = sys.argv[1:]
with open(path, "rb") as source:
    start = time.monotonic()
    status = subprocess.run([program, "serial"], stdin=source, stdout=subprocess.DEVNULL).returncode
    seconds = time.monotonic() - start
used = resource.getrusage(resource.RUSAGE_CHILDREN)
work = used.ru_utime + used.ru_stime
print(f"status {status}, {seconds:.2f} s, {work:.2f} s of a processor, {used.ru_maxrss / 1024:.0f} MiB")
