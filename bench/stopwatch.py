"""What a piece of work takes, and how busy the machine was with other work meanwhile."""
import os
import resource
import time

# Of the first line of /proc/stat, in this order; what the host gave to others (steal) was wanted here.
COUNTS = ("user", "nice", "system", "idle", "iowait", "irq", "softirq", "steal")
RESTS = ("idle", "iowait")


class Stopwatch:
    """Measures the time between entering and leaving: `clock` in seconds, `work` in seconds of processors of this process and of those
    that it waited for, `others` in processors that all other work had on the mean."""

    def __enter__(self):
        self.began, self.worked, self.all_worked = time.perf_counter(), own(), everyone()
        return self

    def __exit__(self, *_):
        self.clock, self.work = time.perf_counter() - self.began, own() - self.worked
        self.others = max(0.0, everyone() - self.all_worked - self.work) / self.clock


def own():
    """Seconds of processors that this process and its children spent."""
    return sum(it.ru_utime + it.ru_stime for it in map(resource.getrusage, (resource.RUSAGE_SELF, resource.RUSAGE_CHILDREN)))


def everyone():
    """Seconds of processors that all processes of the machine spent."""
    with open("/proc/stat", encoding="ascii") as file:
        counts = dict(zip(COUNTS, map(int, file.readline().split()[1:])))
    return sum(it for name, it in counts.items() if name not in RESTS) / os.sysconf("SC_CLK_TCK")
