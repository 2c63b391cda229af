"""What the program and the loader must write for the sample, computed apart from the library: python3 tests/golden.py

It writes the files of tests/golden/, examples/sample.totals and examples/damaged.rec from examples/sample.rec,
examples/sample.map and examples/later.map, by offsets of the interface document and with nothing checked: the sample is
sound. Only what is salvaged is checked, by the rules.
"""
import datetime
import decimal
import itertools
import math
import pathlib
import struct

HERE = pathlib.Path(__file__).parent
EXAMPLES = HERE.parent / "examples"
STATUS = [
    "start of elevation",
    "intermediate",
    "end of elevation",
    "beginning of volume",
    "end of volume",
    "start of last elevation",
]
MAP_CODES = ["bypass filter", "bypass map in control", "force filter"]
PERMITTED = {*range(1, 14), 15, 18, 31}
# The most bytes of a frame's body; the size that says that a header has the long form, and the fewest bytes of one.
MOST_BODY = 1048576
LONG_SIZE = 65535
LEAST_LONG = 131070


def single(x):
    """x rounded to a 32-bit float."""
    try:
        return struct.unpack(">f", struct.pack(">f", x))[0]
    except OverflowError:
        return math.copysign(math.inf, x)


def decimals(x, count):
    """A float in decimals, rounded to the nearest."""
    if math.isinf(x):
        return "-infinite" if x < 0 else "infinite"
    with decimal.localcontext() as context:
        context.prec = 60
        return str(decimal.Decimal(x).quantize(decimal.Decimal(1).scaleb(-count), decimal.ROUND_HALF_EVEN))


def stamp(days, milliseconds):
    """A date of which day 1 is 1 January 1970, and a time of day."""
    moment = datetime.datetime(1969, 12, 31) + datetime.timedelta(days=days, milliseconds=milliseconds)
    return moment.strftime("%Y-%m-%d %H:%M:%S.") + f"{milliseconds % 1000:03}"


def frames(recording):
    """Each frame's place and message."""
    at = 0
    while at < len(recording):
        _, _, size = struct.unpack_from(">III", recording, at)
        yield at, recording[at + 12 : at + 12 + size]
        at += 12 + size


def size_fields(size):
    """Size, N and number in the header of a radial of that many bytes: the long form where the short one cannot hold it."""
    return (LONG_SIZE, *divmod(size, 65536)) if size >= LEAST_LONG else (size // 2, 1, 1)


def lengthened(message, size):
    """A radial's message with zeros after it, up to that many bytes."""
    halfwords, *fields = size_fields(size)
    head = struct.pack(">H", halfwords) + message[2:12] + struct.pack(">HH", *fields)
    return head + message[16:] + bytes(size - len(message))


def moments(body):
    """Each moment of a radial: name, first range, interval, word size, scale, offset and codes."""
    (count,) = struct.unpack_from(">H", body, 30)
    for place in struct.unpack_from(f">{count}I", body, 32)[3:]:
        name = body[place + 1 : place + 4].decode()
        gates, first, interval = struct.unpack_from(">HHH", body, place + 8)
        word = body[place + 19]
        scale, offset = struct.unpack_from(">ff", body, place + 20)
        codes = struct.unpack_from(f">{gates}{'B' if word == 8 else 'H'}", body, place + 28)
        yield name, first, interval, word, scale, offset, codes


def frame_lines(recording):
    for place, message in frames(recording):
        size, _, kind, sequence, days, ms, segments, number = struct.unpack_from(">HBBHHIHH", message)
        form = ", long form" if size == LONG_SIZE else ""
        segments = 1 if form else segments
        yield (
            f"{place:10}  data, {len(message)} bytes, type {kind}, sequence {sequence}, {stamp(days, ms)}, "
            f"segment {1 if segments == 1 else number} of {segments}{form}\n"
        )


def radial_lines(recording):
    for place, message in frames(recording):
        body = message[16:]
        station, ms, days, azimuth_number, azimuth = struct.unpack_from(">4sIHHf", body)
        status, elevation_number, _, elevation = struct.unpack_from(">BBBf", body, 21)
        shown = "".join(f"  {name} {len(codes)} x {word}" for name, _, _, word, _, _, codes in moments(body))
        yield (
            f"{place:10}  {station.decode()}  {stamp(days, ms)}  azimuth {azimuth_number} at  {decimals(azimuth, 2)}  "
            f"elevation {elevation_number} at  {decimals(elevation, 2)}  {STATUS[status]}{shown}\n"
        )


def gate_lines(body, wanted):
    for name, first, interval, _, scale, offset, codes in moments(body):
        if name != wanted:
            continue
        for gate, code in enumerate(codes):
            metres = first + gate * interval
            value = ["below threshold", "range folded"][code] if code < 2 else decimals(
                single(single(code - offset) / scale), 4
            )
            yield f"{gate:5}  {metres // 1000:5}.{metres % 1000:03} km  {code:5}  {value}\n"


def picture(recording, wanted):
    found = [m for _, message in frames(recording) for m in moments(message[16:]) if m[0] == wanted]
    width = max(len(m[6]) for m in found)
    wide = any(m[3] == 16 for m in found)
    head = f"P5\n{width} {len(found)}\n{65535 if wide else 255}\n".encode()
    rows = (m[6] + (0,) * (width - len(m[6])) for m in found)
    return head + b"".join(struct.pack(f">{width}{'H' if wide else 'B'}", *row) for row in rows)


def totals_lines(recording, wanted):
    """What the loader adds up of a moment that every radial has."""
    count, every, values = 0, [], 0.0
    for _, message in frames(recording):
        *_, scale, offset, codes = next(m for m in moments(message[16:]) if m[0].strip() == wanted)
        count += 1
        every += codes
        for code in codes:
            if code > 1:
                values += single(single(code - offset) / scale)
    yield f"{wanted}: {count} frames, {count} radials, 0 without, 0 refused\n"
    yield f"{wanted}: {len(every)} gates, {every.count(0)} below threshold, {every.count(1)} range folded\n"
    yield f"{wanted}: codes sum to {sum(every)}, values to {values:.6f}\n"


def map_codes(body):
    """The codes of each azimuth of each elevation segment, kilometre by kilometre."""
    at, elevations = 6, []
    for _ in range(struct.unpack_from(">H", body, 4)[0]):
        elevations.append([])
        for _ in range(360):
            end, codes = at + 2 + 4 * struct.unpack_from(">H", body, at)[0], []
            for code, last in struct.iter_unpack(">HH", body[at + 2 : end]):
                codes += [code] * (last + 1 - len(codes))
            elevations[-1].append(codes)
            at = end
    return elevations


def map_line(body, elevation, azimuth, kilometre):
    code = map_codes(body)[elevation - 1][azimuth][kilometre]
    return f"code {code}, {MAP_CODES[code]}\n"


def differences(old, new):
    """Each difference of two maps: elevation segment, azimuth, first and last kilometre, old and new code."""
    for elevation, azimuths in enumerate(zip(map_codes(old), map_codes(new)), 1):
        for azimuth, codes in enumerate(zip(*azimuths)):
            first = 0
            for pair, run in itertools.groupby(zip(*codes)):
                last = first + len(list(run)) - 1
                if pair[0] != pair[1]:
                    yield elevation, azimuth, first, last, *pair
                first = last + 1


def compare_lines(old, new):
    found, tally = list(differences(old, new)), {}
    for elevation, azimuth, first, last, *pair in found:
        where = f"kilometre {first}" if first == last else f"kilometres {first} to {last}"
        yield f"elevation {elevation}, azimuth {azimuth}, {where}: {', now '.join(MAP_CODES[code] for code in pair)}\n"
        for cell in itertools.product((elevation, "all"), (tuple(pair), "all")):
            tally[cell] = tally.get(cell, 0) + last + 1 - first
    yield "no difference\n" if not found else f"{len(found)} difference{'s' if len(found) > 1 else ''}\n"
    few, many = sorted(counts := [len(map_codes(body)) for body in (old, new)])
    if few < many:
        segments = f" {many}" if many == few + 1 else f"s {few + 1} to {many}"
        whose = "new" if counts[0] < counts[1] else "old"
        yield f"not compared: elevation segment{segments}, which only the {whose} map has\n"
    if found:
        yield from table_lines(tally, few)


def table_lines(tally, elevations):
    columns = [*range(1, elevations + 1), "all"]
    yield "\nkilometres changed, of 184320 (360 azimuths of 512) in an elevation segment:\n"
    yield "".join(f"{column:>10}" for column in columns) + "  elevation segment\n"
    for row in [*itertools.product(range(3), repeat=2), "all"]:
        if ("all", row) in tally:
            says = row if row == "all" else ", now ".join(MAP_CODES[code] for code in row)
            yield "".join(f"{tally.get((column, row), 0):>10}" for column in columns) + f"  {says}\n"


def passing(recording, at):
    """The bytes of the data frame with a header that passes at a place, or 0."""
    left = len(recording) - at - 12
    if left < 16:
        return 0
    kind, _, size = struct.unpack_from(">III", recording, at)
    halfwords, _, message, _, days, ms, segments, number = struct.unpack_from(">HBBHHIHH", recording, at + 12)
    broken = kind != 2 or size > min(left, MOST_BODY) or message not in PERMITTED or days < 1 or ms > 86399999
    if halfwords == LONG_SIZE:
        length = 65536 * segments + number
        broken = broken or message != 31 or length % 2 or not LEAST_LONG <= length <= MOST_BODY or size != length
    else:
        broken = (
            broken or halfwords < 8 or size != 2 * halfwords or not 1 <= segments <= 128
            or segments > 1 and not 1 <= number <= segments or segments > 1 and message == 31
            or halfwords > 1208 and message != 31
        )
    return 0 if broken else 12 + size


def pieces(recording):
    """Frames kept and runs skipped, in order: where each begins, where it ends, and whether it is kept."""
    first = at = 0
    while at < len(recording):
        size = passing(recording, at)
        if not size:
            # to the next kind of a data frame, or to the end
            at = recording.find(b"\0\0\0\2", at + 1) % (len(recording) + 1)
            continue
        if first < at:
            yield first, at, False
        yield at, at + size, True
        first = at = at + size
    if first < at:
        yield first, at, False


def salvaged(recording):
    """The clean recording, and the account of it."""
    clean = [recording[first:end] for first, end, kept in pieces(recording) if kept]
    account = "".join(
        f"{first:10}  skipped, {end - first} byte{'s' * (end > first + 1)}\n"
        for first, end, kept in pieces(recording) if not kept
    )
    size = sum(map(len, clean))
    account += f"{len(clean):10}  frames kept\n{size:10}  bytes kept\n{len(recording) - size:10}  bytes skipped\n"
    return b"".join(clean), account + f"{len(recording):10}  bytes in all\n"


def damaged(recording):
    """The first messages of a recording as a recorder whose line was cut again and again left them."""
    sound = [recording[at : at + 12 + len(message)] for at, message in itertools.islice(frames(recording), 12)]
    return b"".join((
        sound[0][1000:], sound[1], sound[2],
        # cut off, and gone on within another
        sound[3][:700], sound[4][2000:], sound[5],
        # eight bytes lost: the frame takes them from the next one
        sound[6][:900], sound[6][908:], sound[7], sound[8],
        # a keep alive, and a gap filled with zeros
        struct.pack(">III", 4, 0, 0), sound[9], bytes(100),
        # a date of 0
        sound[10][:18], bytes(2), sound[10][20:], sound[11][:-1],
    ))


def write(name, content, folder=HERE / "golden"):
    content = content if isinstance(content, bytes) else "".join(content).encode()
    (folder / name).write_bytes(content)


if __name__ == "__main__":
    recorded = (EXAMPLES / "sample.rec").read_bytes()
    write("frames", frame_lines(recorded))
    write("radials", radial_lines(recorded))
    first_body = next(frames(recorded))[1][16:]
    for moment in ("REF", "PHI"):
        write(f"gates-{moment}", gate_lines(first_body, moment))
        write(f"picture-{moment}.pgm", picture(recorded, moment))
    sample, later = ((EXAMPLES / name).read_bytes() for name in ("sample.map", "later.map"))
    write("map", map_line(sample, 2, 100, 250))
    write("compare", compare_lines(sample, later))
    write("damaged.rec", damaged(recorded), EXAMPLES)
    write("salvage", salvaged(damaged(recorded))[1])
    every_moment = ("REF", "VEL", "SW", "ZDR", "PHI", "RHO")
    write("sample.totals", (line for m in every_moment for line in totals_lines(recorded, m)), EXAMPLES)
