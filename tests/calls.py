"""Direct calls for a test: lists of open, take and close, which the program test_calls carries out, and what it says of each."""
import os
import pathlib
import struct
import subprocess
import sys

ROOT = pathlib.Path(__file__).resolve().parent.parent
NAME = os.path.basename(sys.argv[0])
PROGRAM = os.path.abspath(sys.argv[1] if len(sys.argv) > 1 else ROOT / "target" / "bin" / "test_calls")
# What fills the lent buffer before a call.
FILL = 0xA5
TOLD = 968
RECORD = 18
# The idle processor, as the program shows it.
IDLE = bytes(TOLD - 64)


def an_open(mode, azimuth):
    return struct.pack(">BBBBB6H", 1, 1, mode, 0xFF, FILL, azimuth, 0, 0, 0, 0, 0), 0


def a_take(flags, values, room):
    """A piece that stands within two longer recordings, at another place in each, between bad samples."""
    head = struct.pack(">BBBBB6H", 2, 1, 0, 0xFF, FILL, 0, 1000, len(flags), 3001, len(values), room)
    return head + flags + values, room


def a_close(room):
    return struct.pack(">BBBBB6H", 3, 1, 0, 0xFF, FILL, 0, 0, 0, 0, 0, room), room


class Outcome:
    """What the program says of a call: the count of records or the number of the refusal, and all that it left behind."""

    def __init__(self, told):
        kind, self.number = struct.unpack(">QQ", told[:16])
        self.accepted = {1: True, 2: False}[kind]
        self.told = told
        self.totals = struct.unpack(">6Q", told[16:64])
        self.processor = told[64:TOLD]
        self.buffer = told[TOLD:]

    def records(self):
        return [self.buffer[RECORD * k : RECORD * (k + 1)] for k in range(self.number if self.accepted else 0)]


def carried_out(calls):
    """The outcomes of the calls, from the start of a program."""
    run = subprocess.run([PROGRAM], input=b"".join(call for call, _ in calls) + bytes(17), capture_output=True, timeout=600)
    if run.returncode or run.stderr or len(run.stdout) != sum(TOLD + room for _, room in calls):
        raise SystemExit(f"{NAME}: {PROGRAM} ended with {run.returncode} and {len(run.stdout)} bytes: {run.stderr.decode()}\n0 passed, 1 failed")
    outcomes, at = [], 0
    for _, room in calls:
        outcomes.append(Outcome(run.stdout[at : at + TOLD + room]))
        at += TOLD + room
    return outcomes


def hold(lines):
    """Holds the lines to the stored ones of the test, counts, and ends the program."""
    if not os.path.isfile(PROGRAM):
        raise SystemExit(f"{NAME}: there is no {PROGRAM}; 'tools/built test_calls' builds it\n0 passed, 1 failed")
    expected = (ROOT / "tests" / f"{NAME}.txt").read_text().splitlines()
    found = list(lines)
    passed = 0
    for want, got in zip(expected, found):
        if want == got:
            passed += 1
        else:
            print(f"{NAME}: {got}\n  should be: {want}")
    failed = max(len(expected), len(found)) - passed
    print(f"{passed} passed, {failed} failed")
    sys.exit(failed > 0)
