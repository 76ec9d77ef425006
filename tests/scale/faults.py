"""Faults of each kind, and runs of a recipe of docs/SCALE.md that they hit: a status below 3 may come only with all
answers, and what is written before begins them. Texts are longer than a job takes that ends at once."""
import concurrent.futures
import contextlib
import functools
import os
import re
import resource
import subprocess
import tempfile
import time

from tests.scale.runs import PATH, STANDARD_INPUT, Parallel, environment, left_in, put, ran
from tests.support import commands, places
from tests.support.places import PROGRAM

# What stands for dm_tool in the job that is hit. REAL is the program; `above` are the processes above it that belong to
# its job, `parallel` is GNU parallel and `script` is dm_parts. Only processes of the run's own session are looked for.
FAULTS = {
    **{f"ends with {status} before it has read": f"exit {status}" for status in range(4)},
    "isn't found": "exec /nowhere/dm_tool", "is killed at once": "kill -s KILL $$",
    "is ended by TERM": "kill -s TERM $$", "is killed after 100,000 bytes": "head -c 100000 | REAL; kill -s KILL $$",
    "ends with 0 after 100,000 bytes": "head -c 100000 | REAL; exit 0",
    "reads its part and answers nothing": "cat > /dev/null; exit 0",
    "loses its last answer": "REAL | head -n -$LINES_OF_LAST; exit 0",
    "answers once more": "REAL; echo A; echo; exit 0", "ends with 3 after its answers": "REAL; exit 3",
    "is killed after its answers": "REAL; kill -s KILL $$", "can't write": "REAL > /dev/full",
    "is killed with its job": "kill -s KILL $above $$",
    "sees GNU parallel killed": "kill -s KILL $parallel; cat > /dev/null",
    "sees the joint killed": "pkill -KILL -P $script -f 'sub pass'; sleep 0.2; REAL",
}
# Faults of what is around the program, which is none on other machines; and those with wrong answers.
AROUND = {"is killed with its job", "sees GNU parallel killed", "sees the joint killed"}
LIES = {"is killed with its job", "is killed after 100,000 bytes", "ends with 0 after 100,000 bytes",
        "answers once more"}
FAKE = """#!/bin/sh
# Stands for dm_tool. In the job that is hit, or in all if that is number 0, it has a fault.
SETTINGS
number=${PARALLEL_SEQ:-1}
if [ "$HIT" -ne 0 ] && [ "$HIT" -ne "$number" ]; then exec REAL; fi
look() {
  read -r comm < "/proc/$1/comm" && read -r stat < "/proc/$1/stat" && set -- ${stat##*) } && parent=$2 session=$4
}
look $$
own=$session above='' process=$parent parallel='' script=''
while [ "$process" -gt 1 ] && look "$process" && [ "$session" = "$own" ]; do
  if [ "$comm" = parallel ]; then parallel=$process script=$parent; fi
  [ -n "$parallel" ] || above="$above $process"
  process=$parent
done
if [ "$AROUND" = yes ] && [ -z "$parallel" ]; then exit 3; fi
FAULT
"""

WORDS = {"grids on standard input": ("grids.txt", ["read"]),
         "a file of grids on all processors": ("grids.txt", ["read"]),
         "messages on all processors": ("messages.txt", ["write"]),
         "grids on several machines": ("grids.txt", ["read"])}
# The recipes for one machine.
ALONE = [name for name in WORDS if "machines" not in name]


@functools.cache
def texts():
    """A text of grids and one of messages, of about 1.5 MB, no two records or lines the same. Most bytes of the
    messages are in lines that are too long for a symbol, so that the answers are short."""
    lines = b"".join(b"%08d\n" % (number * 10007 % 100000000) for number in range(9000))
    grids = ran(["write"], lines)[1] + b"10\n01\n"
    messages = b"".join(b"%05d\n" % number + b"%05d" % number * 400 + b"\n" for number in range(750)) + b"\\q\n"
    return {"grids.txt": grids, "messages.txt": messages}


def verdict(done, answers, wanted, left, sure=True, lies=False):
    """What is wrong with a run that a fault has hit, or None. A sure fault loses answers; a lying one has others."""
    status, said = done
    if status < 3 and (sure or (status, answers) != wanted):
        return f"status {status} and {len(answers)} bytes of {len(wanted[1])}"
    if status >= 3 and b"answers are missing" not in said:
        return f"status {status}, and no line that says why: {said[-300:]!r}"
    if status >= 3 and not lies and not wanted[1].startswith(answers):
        return "what was written isn't a beginning of the answers"
    return f"there are left {left}" if left else None


def beside(folder, given):
    return left_in(folder) + [name for name in os.listdir(folder) if name not in (*given, "scratch", "answers.txt")]


def answers_in(folder):
    with contextlib.suppress(FileNotFoundError):
        return places.read(folder, "answers.txt")
    return b""


def hit(block, given, wanted, *, path=PATH, env=None, sure=True, lies=False, ssh=None, is_first=False, **options):
    """A recipe that a fault hits, in a folder of its own, where a killed process may still write: what is wrong."""
    with tempfile.TemporaryDirectory(ignore_cleanup_errors=True) as folder:
        put(folder, given)
        settings = {**environment(folder, path, ssh, is_first), **(env or {})}
        done = subprocess.run(["bash", "-c", block], cwd=folder, env=settings, stdin=subprocess.DEVNULL,
                              stderr=subprocess.PIPE, timeout=300, start_new_session=True, **options)
        answers, left = answers_in(folder), beside(folder, given)
        if "--output" in block and done.returncode > 1 and os.path.lexists(os.path.join(folder, "answers.txt")):
            left.append("answers.txt")
        return verdict((done.returncode % 256, done.stderr), answers, wanted, left, sure, lies)


def made_fake(folder, body, number=1, is_around=False, lines=1):
    """A path on which dm_tool has a fault in the job with this number; its last answer has so many lines."""
    settings = f"HIT={number} AROUND={'yes' if is_around else 'no'} LINES_OF_LAST={lines}"
    fake = os.path.join(folder, "fake")
    os.makedirs(fake, exist_ok=True)
    text = FAKE.replace("SETTINGS", settings).replace("FAULT", body).replace("REAL", f'{PROGRAM} "$@"')
    os.chmod(places.wrote(text, folder, "made"), 0o755)
    os.replace(os.path.join(folder, "made"), os.path.join(fake, "dm_tool"))
    return fake + os.pathsep + PATH


def planted(fault, block, given, words, wanted, number):
    """What is wrong with a recipe one of whose jobs has a fault, or None."""
    with tempfile.TemporaryDirectory() as folder:
        path = made_fake(folder, FAULTS[fault], number, fault in AROUND, 1 if words[0] in ("read", "check") else 2)
        return hit(block, given, wanted, path=path, lies=fault in LIES)


def tried(call):
    """What a test says is wrong, or with which exception it ended."""
    try:
        return call()
    except (OSError, subprocess.SubprocessError) as fault:
        return f"{type(fault).__name__}: {fault}"


def in_parts(block, size):
    return block.replace("dm_parts ", f"dm_parts --jobs 3 --block {size} ")


def without(folder, *names):
    """A path on which these programs aren't."""
    os.makedirs(folder, exist_ok=True)
    for directory in reversed(PATH.split(os.pathsep)):
        for name in os.listdir(directory) if os.path.isdir(directory) else []:
            place = os.path.join(folder, name)
            if os.path.lexists(place):
                os.remove(place)
            if name not in names:
                os.symlink(os.path.join(directory, name), place)
    return folder


def to_output(block):
    return block.rstrip("\n").replace("--output answers.txt ", "").replace("> answers.txt", "")


def limited(name, kind, most):
    """A run whose process gets a limit: of one recipe a first run, since what is measured then is the same for each."""
    return {"is_first": name == "a file of grids on all processors",
            "preexec_fn": lambda: resource.setrlimit(kind, (most, most))}


def machines(folder):
    """Paths on which a program is missing, or another one is called parallel."""
    paths = {name: without(os.path.join(folder, name), name) for name in ("dm_tool", "parallel", "perl")}
    other = os.path.join(without(os.path.join(folder, "other"), "parallel"), "parallel")
    places.wrote("#!/bin/sh\nexit 0\n", other)
    os.chmod(other, 0o755)
    return {**paths, "GNU parallel": os.path.dirname(other)}


def missing_text(block):
    """A recipe without its text, of which the shell may say so itself, where it can't open standard input."""
    with tempfile.TemporaryDirectory() as folder:
        done = commands.run(["bash", "-c", block], cwd=folder, env=environment(folder), stdin=subprocess.DEVNULL)
        by_shell = block == STANDARD_INPUT and done.status == 1 and b"No such file" in done.errors
        return None if done.status >= 3 or by_shell else f"status {done.status}"


def in_session(session):
    listed = subprocess.run(["ps", "-eo", "sid=,stat=,args="], capture_output=True, text=True).stdout.splitlines()
    return [line for line in listed if line.split()[0] == str(session) and not line.split()[1].startswith("Z")]


def catches(pid, number):
    """Whether a process has said what it does at a signal; before that it ends without a word."""
    caught = re.search(r"^SigCgt:\s*(\w+)$", places.text_of(f"/proc/{pid}/status"), re.M)[1]
    return int(caught, 16) >> number - 1 & 1


def signalled(block, given, wanted, number, to_all, delay):
    """A recipe, or all of its processes, gets a signal so long after it can; delay None: once an answer has come."""
    with tempfile.TemporaryDirectory() as folder:
        put(folder, given)
        run = subprocess.Popen(["sh", "-c", "exec " + block.split("\n")[1]], cwd=folder, start_new_session=True,
                               env=environment(folder, is_first=delay is not None), stdin=subprocess.DEVNULL,
                               stdout=subprocess.PIPE, stderr=subprocess.PIPE)
        while not catches(run.pid, number) and run.poll() is None:
            time.sleep(0.001)
        answers = os.read(run.stdout.fileno(), 100) if delay is None else time.sleep(delay) or b""
        (os.killpg if to_all else os.kill)(run.pid, number)
        more, said = run.communicate(timeout=60)
        time.sleep(0.2)
        answers = answers_in(folder) if "--output" in block else answers + more
        wrong = verdict((run.returncode % 256, said), answers, wanted, beside(folder, given), delay is None)
        return wrong or (in_session(run.pid) or None)


class Faults(Parallel):
    """A case with texts, and what the program answers to them in one run."""

    @classmethod
    def setUpClass(cls):
        super().setUpClass()
        cls.given = texts()
        cls.wanted = {name: ran(words, cls.given[file]) for name, (file, words) in WORDS.items()}

    def of(self, name):
        """Gives the texts and the wanted answers of a recipe."""
        file = WORDS[name][0]
        return {file: self.given[file]}, self.wanted[name]

    def all_tried(self, tests):
        """Tries several at a time. Each is a name and a call that tells what is wrong, or nothing."""
        with concurrent.futures.ThreadPoolExecutor(4) as pool:
            self.all_sound((name, future.result())
                           for name, future in [(name, pool.submit(tried, call)) for name, call in tests])
