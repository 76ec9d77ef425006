"""The machine that a bench runs on: what it is, whether other work shares it, and what several runs say together."""
import os
import platform
import statistics
import time


def described():
    """The machine, in one line."""
    model = platform.machine()
    if os.path.exists("/proc/cpuinfo"):
        with open("/proc/cpuinfo", encoding="utf-8") as file:
            names = [line.split(":", 1)[1].strip() for line in file if line.startswith("model name")]
        model = names[0] if names else model
    return f"{model}, {os.cpu_count()} processors, {platform.system()} {platform.release()} {platform.machine()}"


def ticks():
    """How long all processors have worked, and how long they have been there, since the machine started; or nothing
    where the system doesn't say."""
    if not os.path.exists("/proc/stat"):
        return None
    with open("/proc/stat", encoding="utf-8") as file:
        spent = [int(word) for word in file.readline().split()[1:9]]
    return sum(spent) - spent[3] - spent[4], sum(spent)


def others():
    """The share of one processor that other work takes in this second."""
    before = ticks()
    time.sleep(1)
    after = ticks()
    if not before or after[1] == before[1]:
        return 0.0
    return (after[0] - before[0]) / (after[1] - before[1]) * (os.cpu_count() or 1)


def warn_if_shared():
    """Says so where other work takes more than a twentieth of a processor: times are then no figures."""
    share = others()
    if share > 0.05:
        print(f"The machine isn't idle: other work takes {share:.1f} of its {os.cpu_count()} processors. "
              "These times are too long, some more than others.")


def summed(values, shown, unit=""):
    """The median of some values, with the least and the most where there are several."""
    middle = shown(statistics.median(values)) + unit
    return middle if len(values) == 1 else f"{middle} ({shown(min(values))} to {shown(max(values))})"
