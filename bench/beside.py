"""Times a program over this repository's crates beside a plain one: calls, growth, and memory for
each entry.

Both programs take a shape's number, a count of entries and whether to keep them, and print the
nanoseconds of all insertions, searches and removals, and then what these gave, of which the first
number is the count of new entries."""
import os
import resource
import subprocess

COUNTS = [10_000, 20_000, 40_000, 80_000, 160_000, 320_000, 640_000, 1_000_000]
CALLS = ["insert", "closest", "remove"]
RUNS = 3
STACK = 128 * 1024


def small_stack():
    resource.setrlimit(resource.RLIMIT_STACK, (STACK, STACK))


def run(program, shape, count, limit=None):
    """The nanoseconds of each kind of call, and what the calls gave."""
    done = subprocess.run(
        [program, str(shape), str(count), "0"],
        capture_output=True,
        text=True,
        check=True,
        preexec_fn=limit,
    )
    words = [int(word) for word in done.stdout.split()]
    return words[:3], words[3:]


def best(program, shape, count, limit=None):
    times, given = run(program, shape, count, limit)
    for _ in range(RUNS - 1):
        more, again = run(program, shape, count, limit)
        assert again == given
        times = [min(pair) for pair in zip(times, more)]
    return times, given


def memory(program, shape, count):
    """The bytes that one entry takes."""
    peaks = []
    for entries in [0, count]:
        child = subprocess.Popen([program, str(shape), str(entries), "1"], stdout=subprocess.PIPE)
        fresh = int(child.stdout.read().split()[3])
        _, _, used = os.wait4(child.pid, 0)
        child.returncode = 0
        peaks.append(used.ru_maxrss * 1024)
    return (peaks[1] - peaks[0]) / fresh


def compare(shapes, ours, plain, value_bytes):
    """Prints, for each shape, the calls at each count, their growth, their ratio to the plain
    program's, and memory."""
    for shape, name in enumerate(shapes):
        before = None
        for count in COUNTS:
            times, given = best(ours, shape, count, small_stack)
            each = [time / count for time in times]
            line = ", ".join(f"{call} {time:.0f} ns" for call, time in zip(CALLS, each))
            print(f"{name}, {count}: {line}", flush=True)
            if before and count == 2 * before[0]:
                growth = ", ".join(f"{now / then:.2f}" for now, then in zip(each, before[1]))
                print(f"  a call, twice as many: {growth} (wanted: at most 1.3)")
            before = (count, each)
        beside, expected = best(plain, shape, COUNTS[-1])
        assert given == expected, (given, expected)
        ratios = ", ".join(
            f"{call} {own / other:.2f}" for call, own, other in zip(CALLS, times, beside)
        )
        print(f"  beside std's map: {ratios} times as long (wanted: at most 2)")
        entry = memory(ours, shape, COUNTS[-1])
        print(
            (
                f"  memory: {entry:.0f} bytes an entry, {entry - value_bytes:.0f} beside its value"
                " (wanted: at most 130)"
            ),
            flush=True,
        )
