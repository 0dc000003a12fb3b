"""Reads a shared file, or at a Unix socket, until it is killed: tools/suites/slews.py says which lines it prints."""
import os
import pathlib
import select
import sys
import time

sys.path.insert(0, str(pathlib.Path(__file__).resolve().parents[2] / "clients/python"))

import truetime  # noqa: E402

AT_ONCE, PAUSE_S = 20, 0.005


def look(reader):
    refused, earliest, latest, before = 0, 0, 0, time.time_ns()
    try:
        earliest, latest = reader.now()[:2]
    except truetime.Refused as fault:
        refused = fault.number
    print(before, time.time_ns(), refused, earliest, latest)


with (truetime.Session(sys.argv[1], 10) if pathlib.Path(sys.argv[1]).is_socket() else truetime.Client(sys.argv[1], os.geteuid())) as opened:
    while True:
        for _ in range(AT_ONCE):
            look(opened)
        sys.stdout.flush()
        select.select((), (), (), PAUSE_S)  # a sleep of Python's ends at a time by CLOCK_MONOTONIC
