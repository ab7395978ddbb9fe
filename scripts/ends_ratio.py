#!/usr/bin/env python3
"""Round trips over two ends of a link beside those of a world, in one run: one thread drives both ends, and a world, in turn, each over
100 links or worlds of 1,000 round trips and on one processor; then a thread for each end, with 1, 64 and 512 calls in flight, over 20
links of 5,000.

    python3 scripts/ends_ratio.py [TIMES]

at the top of the repository, with nothing else running, once `rt run` has built `bench_parts` and `bench_ends` (in their folders); `BENCH`
and `BENCH_ENDS` name other files to run. It prints the least, the middle and the greatest of TIMES (15) runs of each, in round trips a
second, and of each run by one thread its ratio to the world's run beside it.

The C library is told to keep memory that is let go (`MALLOC_TRIM_THRESHOLD_`, `MALLOC_MMAP_THRESHOLD_`), so that each link and each
world stands in memory that was touched before: by itself it does so for a world, and not for a link, whose two journals and two logs
are let go at once."""
import os
import statistics
import subprocess
import sys

BENCH = os.environ.get("BENCH", "crates/bench_parts/out/bench_parts")
ENDS = os.environ.get("BENCH_ENDS", "crates/bench_ends/out/bench_ends")
KEPT = {"MALLOC_TRIM_THRESHOLD_": str(1 << 30), "MALLOC_MMAP_THRESHOLD_": str(1 << 30)}
PLAYED = {
    "a world": [BENCH, "world", "1000", "100"],
    "two ends, one thread": [ENDS, "1000", "100"],
}
THREADS = {f"two threads, {calls} in flight": [ENDS, "threads", "5000", "20", str(calls)] for calls in (1, 64, 512)}


def on_one():
    os.sched_setaffinity(0, {max(os.sched_getaffinity(0))})


def a_second(words, before=None):
    """What a program says: how many round trips take place in a second."""
    ran = subprocess.run(words, capture_output=True, text=True, check=True, env={**os.environ, **KEPT}, preexec_fn=before)
    return int(ran.stdout.split()[0].replace(",", ""))


def of_three(figures):
    return min(figures), statistics.median(figures), max(figures)


def tell(what, figures):
    least, middle, greatest = of_three(figures)
    print(f"{what}: {least} to {greatest} a second, the middle one {middle:.0f}")


def main():
    times = int(sys.argv[1]) if len(sys.argv) > 1 else 15
    runs = [{what: a_second(words, on_one) for what, words in PLAYED.items()} for _ in range(times)]
    for what in PLAYED:
        tell(what, [run[what] for run in runs])
        low, mid, high = of_three([run[what] / run["a world"] for run in runs])
        print(f"  {low:.2f} to {high:.2f} of a world, the middle one {mid:.2f}")
    for what, words in THREADS.items():
        tell(what, [a_second(words) for _ in range(times)])


main()
