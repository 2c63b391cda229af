"""The program, as its first argument names it, asked by the tests; and messages to ask it about."""
import pathlib
import struct
import subprocess
import sys

ROOT = pathlib.Path(__file__).resolve().parent.parent
PROGRAM = pathlib.Path(sys.argv[1]).resolve()
SAMPLE = ROOT / "examples/sample.rec"
DAMAGED = ROOT / "examples/damaged.rec"


def fail(why):
    print(f"FAILED: {why}")
    sys.exit(1)


def run(*words, status=0, program=PROGRAM, given=b"", out=subprocess.PIPE, **how):
    """What the program writes on standard output and on standard error, where it ends with that status."""
    command = [program, *map(str, words)]
    done = subprocess.run(command, input=given, stdout=out, stderr=subprocess.PIPE, check=False, **how)
    if done.returncode != status:
        fail(f"{words}: status {done.returncode}, and not {status}; {done.stderr!r}")
    return done.stdout, done.stderr


def want(words, out, err=b"", status=0):
    got = run(*words, status=status)
    if got[0] != out:
        fail(f"{words}: wrote something else than expected")
    if got[1] != err:
        fail(f"{words}: on standard error: {got[1]!r}")


def frame(kind, body):
    return struct.pack(">III", kind, 7, len(body)) + body


def altered(message, **places):
    """A message with bytes replaced: b3=b"x" puts x at byte 3."""
    new = bytearray(message)
    for place, put in places.items():
        new[int(place[1:]) : int(place[1:]) + len(put)] = put
    return bytes(new)
