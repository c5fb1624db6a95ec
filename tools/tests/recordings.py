"""A recording of 24 VCPUs on four cores, of any length, and what `tools/host audit-all` is to say of it; bench/hour takes them too.

In each frame of 10 ms the six VCPUs of a core have it one after another, two of them for a part of a longer period's budget. In every
third frame the fourth sleeps behind its turn. In every 997th, on one core after another, the second has 100 microseconds less than its
budget and the third 50 more. From a second on at which a frame of every kind begins, a multiple of 6, it is the same recording, as a trace
of its own."""
import support

FRAME, CORES, EVERY = 10_000, 4, 997
# the period of each VCPU of a core, and what it gets in a frame
VCPUS = ((10_000, 2000), (10_000, 1500), (10_000, 1000), (10_000, 500), (20_000, 750), (40_000, 500))


def name(core, place):
    return f"c{core}v{place}"


def budget(place):
    period, slice_ = VCPUS[place]
    return slice_ * period // FRAME


def is_broken(frame, core):
    return frame % EVERY == EVERY - 1 and frame // EVERY % CORES == core


def system():
    vcpus = [(core, place, period) for core in range(CORES) for place, (period, _) in enumerate(VCPUS)]
    return support.system(*(f"c{core} edf" for core in range(CORES)), *(
        f"{name(core, place)} c{core} edf {period}/{budget(place)} any:1000000:1" for core, place, period in vcpus))


def frame_rows(frame, core, first):
    """The rows of a core in a frame, each with its moment, which counts from the first frame."""
    at = (frame - first) * FRAME
    if frame % 3 == 0 and frame > first:
        yield at, f"{at},c{core},wake,{name(core, 3)}\n"
    for place, (_, slice_) in enumerate(VCPUS):
        yield at, f"{at},c{core},run,{name(core, place)}\n"
        if place == 4 and frame % 3 == 2:
            yield at, f"{at},c{core},block,{name(core, 3)}\n"
        at += slice_ + ({1: -100, 2: 50}.get(place, 0) if is_broken(frame, core) else 0)
    yield at, f"{at},c{core},stop,\n"


def rows(seconds, since=0):
    """The lines of the trace of so many seconds, from that second on."""
    assert since % 6 == 0, "a recording begins with a frame of every kind"
    first = since * 100
    yield "at,core,what,vcpu\n"
    for core in range(CORES):
        for place in range(len(VCPUS)):
            yield f"0,c{core},start,{name(core, place)}\n"
    for frame in range(first, first + seconds * 100):
        found = [row for core in range(CORES) for row in frame_rows(frame, core, first)]
        yield from (text for _, text in sorted(found, key=lambda row: row[0]))
    yield f"{seconds * 1_000_000},,end,\n"


def told(seconds):
    """The lines that are to be told."""
    frames = range(seconds * 100)
    broken = {core: [frame for frame in frames if is_broken(frame, core)] for core in range(CORES)}
    yield "verdict=no"
    for frame, core in sorted((frame, core) for core, some in broken.items() for frame in some):
        yield f"short {name(core, 1)} from_ns={frame * 10_000_000} got_ns=1400000 of_ns=1500000"
        yield f"over {name(core, 2)} from_ns={frame * 10_000_000} got_ns=1050000 of_ns=1000000"
    for core in range(CORES):
        for place, (period, _) in enumerate(VCPUS):
            begun, got = len(frames) * FRAME // period, budget(place) * 1000
            asleep = len(frames) // 3 if place == 3 else 0
            short, over = (len(broken[core]) if place == which else 0 for which in (1, 2))
            least, most = got - 100_000 * bool(short), got + 50_000 * bool(over)
            judged = f"judged={begun - asleep} short={short} over={over} least_ns={least} most_ns={most}"
            yield f"vcpu {name(core, place)} begun={begun} {judged}"
