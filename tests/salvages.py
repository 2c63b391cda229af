"""Damaged recordings salvaged by the program: what it writes, as golden.py computes it apart, and what it leaves alone."""
import functools
import itertools
import os
import pty
import random
import re
import resource
import signal
import struct
import subprocess
import time

import golden
from asked import DAMAGED, PROGRAM, ROOT, SAMPLE, altered, fail, frame, run, want

ACCOUNT = (ROOT / "tests/golden/salvage").read_bytes()
# How much of a file the program reads at a time and how much it holds, and the bytes of the longest frame.
READS = (ROOT / "crates/ulmarzhe_text/src/window.rt").read_text()
PIECE = int(re.search(r"AT_ONCE: usize = (\d+);", READS)[1])
WINDOW = int(re.search(r"WINDOW: usize = (\d+);", READS)[1])
LONGEST = 12 + golden.MOST_BODY
# The shortest frame in the long form.
LEAST_LONG = 12 + golden.LEAST_LONG
# A place from which on the longest frame no longer ends in what was read, and two of these and two where a piece ends.
LAST = PIECE + -LONGEST % PIECE
EDGES = (PIECE, LAST, 3 * PIECE, 2 * PIECE + LAST)
AROUND = range(-34, 35)


def sound(size, fill=b"\7"):
    """A data frame of that many bytes, an even number."""
    body = fill * (size // len(fill) + 1)
    halfwords, *fields = golden.size_fields(size - 12)
    return frame(2, struct.pack(">HBBHHIHH", halfwords, 8, 31, 5, 16000, 1000, *fields) + body[: size - 28])


def sound_up_to(size):
    """Frames one after the other that fill an even number of bytes."""
    count = size // 5000 - 1
    return sound(5000) * count + sound(size - 5000 * count)


def want_salvaged(scratch, recorded, *over):
    """The account and the clean recording are as computed apart; the clean one, salvaged, comes out unchanged."""
    damaged, clean, again = (scratch / name for name in ("damaged.rec", "clean.rec", "again.rec"))
    damaged.write_bytes(recorded)
    kept, account = golden.salvaged(recorded)
    for source, path, said in ((damaged, clean, account), (clean, again, golden.salvaged(kept)[1])):
        if over:
            path.write_bytes(b"older")
        want(("salvage", source, path, *over), said.encode())
        if path.read_bytes() != kept:
            fail(f"salvage: another clean recording than expected of {len(recorded)} bytes")
    clean.unlink()
    again.unlink()
    if list(scratch.glob("*.part")):
        fail("salvage: a part is left")


def at_edges(scratch):
    """A frame alone, and a run between frames, at each place around each edge."""
    for away in AROUND:
        alone = bytearray(b"\7" * (EDGES[-1] + LONGEST + 1000))
        among, length = b"\7" * (away % 2), 1 + away % 40
        for edge in EDGES:
            place = edge + away
            alone[place : place + 30] = sound(30)
            # frames have an even number of bytes
            place -= (place - len(among)) % 2
            among += sound_up_to(place - len(among)) + b"\7" * length
        want_salvaged(scratch, bytes(alone))
        want_salvaged(scratch, among + sound(5000) + b"\7" * LONGEST)
    return f"a frame and a run at each of {len(AROUND) * len(EDGES)} places around the edges of pieces"


def full_window(scratch):
    """A run longer than the window, with a frame around its end and around where the longest frame no longer ends in it."""
    places = [edge + away for edge in (WINDOW - LONGEST, WINDOW, 2 * WINDOW - LONGEST) for away in (-30, -2, -1, 0, 1, 2)]
    for place in places:
        recorded = bytearray(b"\7" * (2 * WINDOW + PIECE))
        recorded[place : place + 30] = sound(30)
        want_salvaged(scratch, bytes(recorded))
    return f"a frame at each of {len(places)} places around the edges of windows"


def long_frames(scratch):
    """The longest frame, around edges too. The frames in its body count only where it is cut off or not sound."""
    inner = sound(262)
    whole = sound(LONGEST, inner)
    unsound = altered(whole, b18=b"\0\0")
    endings = [
        whole, unsound, whole[:-1], sound(LONGEST - 2, inner), whole + whole,
        whole[:-1] + b"\7" + unsound + b"\7" + whole,
        sound(LEAST_LONG - 2, inner) + sound(LEAST_LONG, inner) + altered(sound(LEAST_LONG, inner), b27=b"\xfc"),
    ]
    places = [max(0, edge + away) for edge in (0, PIECE, LAST, LAST + PIECE, WINDOW - LONGEST) for away in range(-2, 3)]
    for place, ending in itertools.product(places, endings):
        want_salvaged(scratch, b"\7" * place + ending)
    return f"{len(places) * len(endings)} recordings with the longest frame"


def no_damage_and_nothing_else(scratch):
    """Frames alone, no frame at all, long runs, and ends around an edge; over an older file too."""
    sample = SAMPLE.read_bytes()
    recordings = [sample, sample * 3, b"", b"\0", sound(28), sound(28)[:-1], b"\7" * (3 * PIECE + 5)]
    recordings += [sound(28) + bytes(length) + sound(30) + b"\7" for length in (PIECE, 2 * PIECE, 9 * PIECE)]
    for end in (edge + away for edge in (PIECE, 2 * PIECE) for away in range(-2, 3)):
        recordings += [sound_up_to(end - end % 2) + b"\7" * (end % 2), bytes(end)]
    for recorded in recordings:
        want_salvaged(scratch, recorded)
        want_salvaged(scratch, recorded, "over")
    return f"{len(recordings)} recordings without damage, of damage alone, and that end around an edge"


def by_chance(scratch):
    """Frames, damaged frames and other bytes by chance; from a file, and from a pipe by other pieces."""
    chance, piped, size = random.Random(3), scratch / "piped.rec", 0
    for _ in range(25):
        recorded = b""
        while len(recorded) < 700000:
            long = 2 * chance.choice((14, 15, 40, 1222, 20000, 65539, 65540, 65541, chance.randint(65541, LONGEST // 2)))
            whole = sound(long, sound(2 * (chance.randint(14, 60) + long // 4000)))
            recorded += chance.choice((
                whole, whole, whole[: chance.randrange(long)], whole[chance.randrange(30) :], frame(4, b""),
                altered(whole, **{f"b{chance.randrange(28)}": chance.randbytes(1)}),
                chance.randbytes(chance.randrange(300)), bytes(chance.randrange(200000)),
            ))
        want_salvaged(scratch, recorded)
        kept, account = golden.salvaged(recorded)
        if run("salvage", "/dev/stdin", piped, "over", given=recorded) != (account.encode(), b""):
            fail("salvage: another account from a pipe than from a file")
        if piped.read_bytes() != kept:
            fail("salvage: another clean recording from a pipe than from a file")
        size += len(recorded)
    return f"{size:,} bytes damaged by chance"


def many_runs(scratch):
    """An account of many pages, and an answer."""
    want_salvaged(scratch, (sound(28) + b"\7") * 30000 + b"\7")
    count, cases = 12000, scratch / "runs"
    asked = f"x{((sound(28) + bytes(1)) * count).hex()} ="
    answer = f"salvaged {count} {count} x{(sound(28) * count).hex()}"
    runs = "".join(f" {29 * i + 28} 1" for i in range(count))
    cases.write_text(
        f"all salvage {28 * count} {count} {asked} {answer}{runs}\n"
        f"output salvage {28 * count - 1} {count} {asked} no 13\n"
        f"runs salvage {28 * count} {count - 1} {asked} no 13\n"
        f"more salvage {2**64 - 1} {2**64 - 1} {asked} {answer}{runs}\n"
        f"last salvage {28 * count} {count} {asked} {answer}{runs[:-1]}2\n"
        f"fewer salvage {28 * count} {count} {asked} {answer}{runs.rsplit(' ', 2)[0]}\n"
    )
    want(("cases", cases), b"all same\noutput same\nruns same\nmore same\nlast differs\nfewer differs\n", status=1)
    most = LONGEST // 28
    asked = f"x{(bytes(1) + (sound(28) + bytes(1)) * most).hex()} ="
    answer = f"salvaged {most} {most + 1} x{(sound(28) * most).hex()}" + "".join(f" {29 * i} 1" for i in range(most + 1))
    cases.write_text(f"most salvage {2**64 - 1} {2**64 - 1} {asked} {answer}\n")
    want(("cases", cases), b"most same\n")
    return f"30,000 runs of a recording, 12,000 and {most + 1:,} of an answer"


def seen(folder):
    """What stands in a folder: names, files and what they hold."""
    return {
        path: (path.lstat().st_ino, path.lstat().st_mode, path.is_file() and path.read_bytes())
        for path in folder.iterdir()
    }


def refused(scratch):
    """What is refused before anything is read leaves all as it was, the recording under another name too."""
    folder = scratch / "held"
    folder.mkdir()
    damaged, taken, link, device, fifo, free, absent, other = (
        folder / name for name in ("damaged", "taken", "link", "device", "fifo", "free", "absent/clean", "other")
    )
    damaged.write_bytes(DAMAGED.read_bytes())
    taken.write_bytes(b"taken")
    (folder / "free.part").write_bytes(b"part")
    link.symlink_to(damaged)
    device.symlink_to("/dev/full")
    os.mkfifo(fifo)
    os.link(damaged, other)
    before, itself, special = seen(folder), b": is the damaged recording", b": is not a regular file"
    commands = [
        ((absent, free), b"No such file or directory"), ((folder, free), b"Is a directory"),
        ((damaged, taken), b"File exists"), ((damaged, damaged), b"File exists"), ((damaged, folder), b"File exists"),
        ((damaged, device), b"File exists"), ((damaged, free), b"free.part: File exists"),
        ((damaged, free, "over"), b"free.part: File exists"), ((damaged, absent), b"No such file or directory"),
        ((damaged, absent, "over"), b"No such file or directory"), ((damaged, ""), b"No such file or directory"),
        ((damaged, taken / "clean"), b"Not a directory"), ((damaged, f"{folder}/{'x' * 252}"), b"File name too long"),
        ((damaged, damaged, "over"), itself), ((damaged, f"{folder}/../held/damaged", "over"), itself),
        ((damaged, link, "over"), itself), ((link, damaged, "over"), itself), ((damaged, device, "over"), special),
        ((damaged, fifo, "over"), special), ((damaged, folder, "over"), b"Is a directory"),
    ]
    for words, why in commands:
        out, err = run("salvage", *words, status=2)
        if out or not err.endswith(why + b"\n") or err.count(b"\n") != 1:
            fail(f"{words}: {out!r} on standard output, {err!r} on standard error")
        if seen(folder) != before:
            fail(f"{words}: refused, but something changed")
    want(("salvage", damaged, other, "over"), ACCOUNT)
    after = seen(folder)
    if after.pop(other)[2] != golden.salvaged(DAMAGED.read_bytes())[0] or after | {other: before[other]} != before:
        fail("salvage: the recording's other name was to be written over, and nothing else")
    return f"{len(commands)} salvages refused, with nothing changed"


def not_allowed(scratch):
    """In a folder where nothing may be made. For root the program runs as another user."""
    program, folder, damaged = (scratch / name for name in ("program", "closed", "any.rec"))
    program.write_bytes(PROGRAM.read_bytes())
    damaged.write_bytes(DAMAGED.read_bytes())
    folder.mkdir()
    for path, mode in ((program, 0o755), (damaged, 0o644), (folder, 0o555), (scratch, 0o755)):
        path.chmod(mode)
    user = {"user": 65534} if os.geteuid() == 0 else {}
    for over in ((), ("over",)):
        out, err = run("salvage", damaged, folder / "clean", *over, status=2, program=program, **user)
        if out or not err.endswith(b": Permission denied\n") or err.count(b"\n") != 1 or list(folder.iterdir()):
            fail(f"salvage in a closed folder: {out!r} on standard output, {err!r} on standard error")
    return "a folder where nothing may be made"


def no_more_than(size):
    """From here on, writing a file past that many bytes fails."""
    signal.signal(signal.SIGXFSZ, signal.SIG_IGN)
    resource.setrlimit(resource.RLIMIT_FSIZE, (size, resource.RLIM_INFINITY))


def failing(scratch):
    """A salvage that fails leaves no clean recording, no part of one, and an older one as it was."""
    folder = scratch / "failing"
    folder.mkdir()
    damaged, many, clean = (folder / name for name in ("damaged", "many", "clean"))
    damaged.write_bytes(SAMPLE.read_bytes())
    many.write_bytes((sound(28) + b"\7") * 30000)
    with open("/dev/full", "wb") as full:
        failures = [("/proc/self/mem", b"recording: Input/output error", {})]
        for size in (0, 1, PIECE, SAMPLE.stat().st_size - 1):
            how = {"preexec_fn": functools.partial(no_more_than, size)}
            failures.append((damaged, b"clean recording: File too large", how))
        for path in (damaged, many):
            failures.append((path, b"standard output: No space left on device", {"out": full}))
        for (path, why, how), over in itertools.product(failures, ((), ("over",))):
            if over:
                clean.write_bytes(b"older")
            before = seen(folder)
            out, err = run("salvage", path, clean, *over, status=2, **how)
            if out or err != why + b"\n":
                fail(f"salvage of {path}: {out!r} on standard output, {err!r} on standard error")
            if seen(folder) != before:
                fail(f"salvage of {path}: {why.decode()}, and something changed")
            clean.unlink(missing_ok=True)
    return f"{2 * len(failures)} salvages that fail"


def running(clean):
    """A salvage that waits for its recording, with the clean one begun."""
    command = [PROGRAM, "salvage", "/dev/stdin", clean]
    waits = subprocess.Popen(command, stdin=subprocess.PIPE, stdout=subprocess.PIPE, stderr=subprocess.PIPE)
    while not clean.with_suffix(".part").exists():
        if waits.poll() is not None:
            fail("salvage: no part is written")
        time.sleep(0.001)
    if clean.exists():
        fail("salvage: the clean recording has its name before it is whole")
    return waits


def interrupted(scratch):
    """A file that is made under the clean one's name meanwhile is not written over; a salvage that is killed makes none."""
    folder = scratch / "interrupted"
    folder.mkdir()
    clean = folder / "clean"
    with running(clean) as salvage:
        clean.write_bytes(b"other")
        out, err = salvage.communicate(DAMAGED.read_bytes())
    if salvage.returncode != 2 or out != ACCOUNT or not err.endswith(b"clean: File exists\n"):
        fail(f"salvage: overtaken, {out!r} on standard output, {err!r} on standard error")
    if list(folder.iterdir()) != [clean] or clean.read_bytes() != b"other":
        fail("salvage: a file that was made while it ran was written over, or a part is left")
    clean.unlink()
    with running(clean) as salvage:
        salvage.stdin.write(SAMPLE.read_bytes())
        salvage.kill()
    if clean.exists():
        fail("salvage: killed, it left a clean recording")
    return "a salvage that is overtaken, and one that is killed"


def how_far(scratch):
    """How far a long salvage is, shown on a terminal and nowhere else, and gone before the account."""
    empty, clean = scratch / "empty.rec", scratch / "clean.rec"
    steps = b"".join(b"%d of 64 MiB\r" % step for step in (16, 32, 48)) + b" " * 24 + b"\r"
    for size, shown in ((64 << 20, steps), ((64 << 20) - 1, b"")):
        empty.write_bytes(b"")
        os.truncate(empty, size)
        account = golden.salvaged(bytes(size))[1].encode()
        want(("salvage", empty, clean), account)
        ours, terminal = pty.openpty()
        command = [PROGRAM, "salvage", empty, clean, "over"]
        done = subprocess.run(command, stdout=subprocess.PIPE, stderr=terminal, check=True)
        os.write(terminal, b"end")
        told = b""
        while not told.endswith(b"end"):
            told += os.read(ours, 4096)
        os.close(terminal)
        os.close(ours)
        if done.stdout != account or told != shown + b"end":
            fail(f"salvage: {told!r} on a terminal")
        clean.unlink()
    return "how far a long salvage is"


TESTS = (
    at_edges, full_window, long_frames, no_damage_and_nothing_else, by_chance, many_runs, refused, not_allowed, failing,
    interrupted, how_far,
)
