"""How many checks of crates stand side by side, with one job each: four jobs at one took half as much processor time again, or twice as
much. As many as there are processors, and 5 GiB of free memory for each, within the limits of a control group; or as RT_JOBS says.
"""
import os
import re

MEMORY_OF_A_CHECK = 5 << 30
GROUP = "/sys/fs/cgroup"


def number_in(file: str, pattern: str) -> int | None:
    try:
        with open(file) as text:
            found = re.search(pattern, text.read())
    except OSError:
        return None
    return int(found[1]) if found else None


def least(first: int, *others: int | None) -> int:
    return min([first, *(it for it in others if it is not None)])


def processors_of(quota: int | None, period: int | None) -> int | None:
    return quota // period if quota and period else None


def free_of(limit: int | None, held: int | None) -> int | None:
    return limit - held if limit is not None and held is not None else None


def lanes() -> int:
    if os.environ.get("RT_JOBS", "").isdigit():
        return max(int(os.environ["RT_JOBS"]), 1)
    processors = least(
        len(os.sched_getaffinity(0)),
        processors_of(number_in(f"{GROUP}/cpu.max", r"^(\d+)"), number_in(f"{GROUP}/cpu.max", r" (\d+)")),
        processors_of(number_in(f"{GROUP}/cpu/cpu.cfs_quota_us", r"^(\d+)"), number_in(f"{GROUP}/cpu/cpu.cfs_period_us", r"(\d+)")),
    )
    free = least(
        1024 * (number_in("/proc/meminfo", r"MemAvailable:\s+(\d+)") or 0),
        free_of(number_in(f"{GROUP}/memory.max", r"(\d+)"), number_in(f"{GROUP}/memory.stat", r"anon (\d+)")),
        free_of(number_in(f"{GROUP}/memory/memory.limit_in_bytes", r"(\d+)"), number_in(f"{GROUP}/memory/memory.stat", r"total_rss (\d+)")),
    )
    return max(min(processors, free // MEMORY_OF_A_CHECK), 1)


if __name__ == "__main__":
    print(lanes())
