"""A folder in which Debian packages are installed as on a machine that has nothing else: what they depend on is copied
from this one, with what dpkg knows of it. No network is needed, and nothing outside the folder changes."""
import os
import re
import shutil
import stat
import subprocess

# What dpkg and the packages' own scripts need, beside what the packages depend on.
BASE = ["base-files", "dash", "coreutils", "libc-bin", "dpkg", "sed", "grep"]
INFO = "/var/lib/dpkg/info"
TRIGGERS = "/var/lib/dpkg/triggers"
LEFT_OUT = re.compile(r"/usr/share/(doc|man|locale|info|lintian)/|/usr/lib/python3\S*/test/")


class Missing(Exception):
    """A package that this machine doesn't have."""


def said(*words):
    return subprocess.run(words, stdout=subprocess.PIPE, check=True, text=True).stdout


def known():
    """For each installed package of this machine's architecture what it depends on, as lists of alternatives, and who
    provides a name. Packages of other architectures may stand beside them."""
    form = "${Package}\t${Architecture}\t${db:Status-Status}\t${Depends}, ${Pre-Depends}\t${Provides}\n"
    here = said("dpkg", "--print-architecture").strip()
    needs, provided = {}, {}
    for line in said("dpkg-query", "-W", "-f", form).splitlines():
        name, architecture, status, depends, provides = line.split("\t")
        if status == "installed" and architecture in (here, "all"):
            needs[name] = alternatives(depends)
            for group in alternatives(provides):
                provided.setdefault(group[0], name)
    return needs, provided


def alternatives(field):
    groups = [[re.split(r"[ (:]", word.strip())[0] for word in group.split("|")] for group in field.split(",")]
    return [group for group in groups if group != [""]]


def closure(names, own):
    """The packages that these stand on, themselves among them, without our own."""
    needs, provided = known()
    found, todo = [], list(names)
    while todo:
        group = todo.pop()
        group = group if isinstance(group, list) else [group]
        name = next((known_as for it in group for known_as in (it, provided.get(it)) if known_as in needs
                     or known_as in own), None)
        if name is None:
            raise Missing(" or ".join(group))
        if name not in found and name not in own:
            found.append(name)
            todo += needs[name]
    return found


def copy(path, root):
    """A file, folder or link of this machine, at the same place below the root."""
    to = root + path
    if os.path.islink(path):
        if not os.path.lexists(to):
            os.makedirs(os.path.dirname(to), exist_ok=True)
            os.symlink(os.readlink(path), to)
    elif os.path.isdir(path):
        os.makedirs(to, exist_ok=True)
    elif os.path.isfile(path):
        os.makedirs(os.path.dirname(to), exist_ok=True)
        shutil.copy2(path, to)


def qualified(names):
    """These packages with their architecture, as dpkg-query wants where some is installed for another one too."""
    here = said("dpkg", "--print-architecture").strip()
    lines = said("dpkg-query", "-W", "-f", "${Package}\t${Architecture}\n").splitlines()
    known_as = {name: it for name, it in (line.split("\t") for line in lines) if it in (here, "all")}
    return [f"{name}:{known_as[name]}" for name in names]


def told(option, names):
    """What dpkg-query tells of these packages, asked once for all, since each time it reads all that it knows."""
    return said("dpkg-query", option, *names)


def keep_triggers(names, root):
    """What dpkg runs when a file of some folder comes, as far as it is of these packages: libc-bin's ldconfig."""
    os.makedirs(root + TRIGGERS)
    for file in os.listdir(TRIGGERS):
        with open(f"{TRIGGERS}/{file}", encoding="utf-8") as lines:
            kept = [line for line in lines
                    if re.split(r"[/:]", line.split()[-1])[0] in names] if file not in ("Lock", "Unincorp") else []
        with open(f"{root}{TRIGGERS}/{file}", "w", encoding="utf-8") as to:
            to.writelines(kept)


def make(root, names, own=()):
    """Makes the root with these packages and what they stand on; `own` will be installed, and aren't copied."""
    os.makedirs(root, exist_ok=True)
    os.chmod(root, 0o755)
    for link in ("bin", "sbin", "lib", "lib64"):
        if os.path.islink(f"/{link}"):
            os.makedirs(f"{root}/usr/{link}")
            os.symlink(f"usr/{link}", f"{root}/{link}")
    names = closure([*BASE, *names], own)
    os.makedirs(root + INFO)
    whole = qualified(names)
    with open(f"{root}/var/lib/dpkg/status", "w", encoding="utf-8") as status:
        status.write(told("--status", whole) + "\n")
    for path in dict.fromkeys(told("-L", whole).splitlines()):
        if path.startswith("/") and not LEFT_OUT.search(path):
            copy(path, root)
    for file in os.listdir(INFO):
        of = file.rsplit(".", 1)[0]
        if file == "format" or of in names or of in whole:
            copy(f"{INFO}/{file}", root)
    keep_triggers(names, root)
    for folder, mode in (("tmp", 0o1777), ("dev", 0o755), ("root", 0o700)):
        os.makedirs(f"{root}/{folder}", exist_ok=True)
        os.chmod(f"{root}/{folder}", mode)
    try:
        os.mknod(f"{root}/dev/null", stat.S_IFCHR | 0o666, os.makedev(1, 3))
    except OSError:
        with open(f"{root}/dev/null", "w", encoding="utf-8"):
            pass
    os.chmod(f"{root}/dev/null", 0o666)


def install(root, packages):
    """Installs package files by dpkg; what it says, and its status."""
    env = {"PATH": "/usr/sbin:/usr/bin:/sbin:/bin", "DEBIAN_FRONTEND": "noninteractive", "LC_ALL": "C"}
    done = subprocess.run(["dpkg", f"--root={root}", "--install", *packages], env=env, stdout=subprocess.PIPE,
                          stderr=subprocess.STDOUT, text=True)
    return done.returncode, done.stdout


def run(root, words, given=b"", folder="/"):
    """Runs a command in the root as nobody, with an empty environment but for the path."""
    inside = ["chroot", "--userspec=65534:65534", root, "/usr/bin/env", "-i", "PATH=/usr/bin:/bin", "/bin/sh", "-c",
              f"cd {folder} && exec \"$@\"", "", *words]
    done = subprocess.run(inside, input=given, stdout=subprocess.PIPE, stderr=subprocess.STDOUT, timeout=300)
    return done.returncode, done.stdout.decode(errors="replace")
