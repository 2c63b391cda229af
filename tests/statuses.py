"""The program's exit status. 0: done, and nothing was wrong with the input. 1: done, and the answer is a no. 2: not done. 141: nobody reads
standard output."""
import os
import struct
import subprocess

import golden
from asked import DAMAGED, PROGRAM, ROOT, SAMPLE, altered, fail, frame

MAP = ROOT / "examples/sample.map"
LATER = ROOT / "examples/later.map"
CASES = ROOT / "crates/ulmarzhe/data"
STATUSES = (0, 1, 2)


def ended(words, program=PROGRAM, out=subprocess.PIPE, **how):
    command = [program, *(word if isinstance(word, bytes) else str(word) for word in words)]
    return subprocess.run(command, stdin=subprocess.DEVNULL, stdout=out, stderr=subprocess.PIPE, check=False, **how)


def want_status(words, status, **how):
    """The command ends with that status; if it is 2, with one line on standard error, unless that may be closed."""
    done = ended(words, **how)
    if done.returncode != status:
        fail(f"{words}: status {done.returncode}, and not {status}; {done.stderr!r}")
    if status == 2 and done.stderr.count(b"\n") != 1 and "preexec_fn" not in how:
        fail(f"{words}: on standard error: {done.stderr!r}")


def inputs(scratch):
    """Recordings and maps with something wrong in each, by what it is."""
    folder = scratch / "inputs"
    folder.mkdir()
    sound = next(golden.frames(SAMPLE.read_bytes()))[1]
    moment = 16 + struct.unpack_from(">I", sound, 16 + 44)[0]
    made = {
        "cut": SAMPLE.read_bytes()[:-1],
        "message": frame(2, sound) + frame(2, altered(sound, b3=b"\x0e")),
        "radial": frame(2, sound) + frame(2, altered(sound, b32=b"\1")),
        "scale": frame(2, altered(sound, **{f"b{moment + 20}": bytes(4)})),
        "other": frame(4, b""),
        "short": MAP.read_bytes()[:-1],
        "asked": b"1 header x00\n",
        "differs": b"1 header x00 = no 5\n",
        "malformed": b"1 header\n",
    }
    for name, held in made.items():
        (folder / name).write_bytes(held)
    return {name: folder / name for name in made}


def table(scratch, made):
    """Each command with words by which it ends with each status that it has, at least once each."""
    absent, clean = scratch / "absent", scratch / "status.rec"
    return [
        ("frames", 0, [(SAMPLE,)]),
        ("frames", 1, [(made["cut"],), (made["message"],)]),
        ("frames", 2, [(), (absent,), (scratch,), (SAMPLE, SAMPLE), ("/proc/self/mem",)]),
        ("radials", 0, [(SAMPLE,), (made["other"],), (made["scale"],)]),
        ("radials", 1, [(made["cut"],), (made["message"],), (made["radial"],)]),
        ("radials", 2, [(), (absent,), (scratch,), ("/proc/self/mem",)]),
        ("gates", 0, [(SAMPLE, 0, "REF"), (SAMPLE, 2608, "PHI")]),
        ("gates", 1, [(SAMPLE, 1, "REF"), (made["other"], 0, "REF"), (made["scale"], 0, "REF"), (SAMPLE, 10**9, "REF")]),
        ("gates", 2, [(SAMPLE, 0), (SAMPLE, 0, "CFP"), (SAMPLE, "x", "REF"), (absent, 0, "REF"), (scratch, 0, "REF")]),
        ("picture", 0, [(SAMPLE, "REF")]),
        ("picture", 1, [(made["cut"], "REF"), (made["message"], "REF"), (made["radial"], "REF"), (made["other"], "REF")]),
        ("picture", 2, [(SAMPLE,), (SAMPLE, "ref"), (absent, "REF"), (scratch, "REF"), ("/proc/self/mem", "REF")]),
        ("map", 0, [(MAP, 2, 100, 250)]),
        ("map", 1, [(MAP, 3, 100, 250), (MAP, 2, 360, 250), (made["short"], 1, 1, 1)]),
        ("map", 2, [(MAP, 1, 1), (MAP, 1, 1, "x"), (absent, 1, 1, 1), (scratch, 1, 1, 1)]),
        ("compare", 0, [(MAP, MAP)]),
        ("compare", 1, [(MAP, LATER), (made["short"], MAP), (MAP, made["short"])]),
        ("compare", 2, [(MAP,), (absent, MAP), (MAP, absent), (scratch, MAP), (MAP, scratch)]),
        ("salvage", 0, [(DAMAGED, clean, "over"), (SAMPLE, clean, "over"), (made["other"], clean, "over")]),
        ("salvage", 2, [(DAMAGED,), (DAMAGED, clean), (absent, clean, "over"), (scratch, clean, "over"), (DAMAGED, scratch)]),
        ("why", 0, [(1,), (26,)]),
        ("why", 2, [(), (0,), (27,), ("x",)]),
        ("cases", 0, [(made["asked"],), (CASES / "base.cases",)]),
        ("cases", 1, [(made["differs"],), (made["malformed"],), (made["asked"], made["differs"], made["asked"])]),
        ("cases", 2, [(), (absent,), (made["asked"], absent), (scratch,)]),
        ("help", 0, [()]),
        ("help", 2, [("me",)]),
        ("", 2, [()]),
        ("unknown", 2, [()]),
    ]


def done_words(rows):
    """Each command with words that give status 0, and with words that give status 1 where it has that."""
    return [(command, *words[0]) for command, status, words in rows if status < 2]


def without_output(rows):
    """With a full device, or with standard output closed alone or with the other streams, no command is done. A salvage then leaves
    no file, and none where the input that it reads is closed."""
    asked = done_words(rows)
    for words in asked:
        if words[0] == "salvage":
            words = (*words[:2], words[2].with_name("none.rec"))
            want_status(("salvage", "/dev/stdin", words[2]), 2, preexec_fn=lambda: os.close(0))
        with open("/dev/full", "wb") as full:
            want_status(words, 2, out=full)
        for streams in ((1,), (0, 1), (0, 1, 2)):
            want_status(words, 2, preexec_fn=lambda streams=streams: [os.close(stream) for stream in streams])
        if words[0] == "salvage" and list(words[2].parent.glob("none.rec*")):
            fail("salvage: without an output or an input it left a clean recording")
    return 4 * len(asked) + 1


def not_read(rows):
    """Where nobody reads standard output, no command says a word. A salvage then leaves no file."""
    asked = done_words(rows)
    for words in asked:
        if words[0] == "salvage":
            words = (*words[:2], words[2].with_name("unread.rec"))
        read, write = os.pipe()
        os.close(read)
        done = ended(words, out=write)
        os.close(write)
        if (done.returncode, done.stderr) != (141, b""):
            fail(f"{words}: nobody reads it, and it ends by {done.returncode}, {done.stderr!r}")
        if words[0] == "salvage" and list(words[2].parent.glob("unread.rec*")):
            fail("salvage: nobody reads it, and it left a clean recording")
    return len(asked)


def no_text(scratch):
    """A file whose name is no text cannot be opened."""
    held = os.fsencode(scratch) + b"/\xff.rec"
    with open(held, "wb") as file:
        file.write(SAMPLE.read_bytes())
    for words in (("frames", held), ("salvage", held, scratch / "text.rec"), ("salvage", DAMAGED, held, "over")):
        done = ended(words)
        if done.returncode != 2 or not done.stderr.startswith(held) or done.stderr.count(b"\n") != 1 or done.stdout:
            fail(f"{words}: status {done.returncode}; {done.stderr!r}")
    return 3


def not_readable(scratch, rows):
    """A file that the user may not read."""
    program, held = scratch / "program", scratch / "held.bytes"
    program.write_bytes(PROGRAM.read_bytes())
    held.write_bytes(SAMPLE.read_bytes())
    for path, mode in ((program, 0o755), (held, 0), (scratch, 0o755)):
        path.chmod(mode)
    user = {"user": 65534, "group": 65534, "extra_groups": []} if os.geteuid() == 0 else {}
    asked = [words for words in done_words(rows) if len(words) > 1 and words[0] != "why"]
    for words in asked:
        want_status((words[0], held, *words[2:]), 2, program=program, **user)
    return len(asked)


def each_status(scratch):
    made = inputs(scratch)
    rows = table(scratch, made)
    asked = [(command, status, words) for command, status, each in rows for words in each]
    for command, status, words in asked:
        want_status((command, *words) if command else words, status)
    count = len(asked) + without_output(rows) + not_read(rows) + no_text(scratch) + not_readable(scratch, rows)
    return f"{count} command lines by their status"


TESTS = (each_status,)
