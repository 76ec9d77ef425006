"""How what is installed is found: by Python through a path file in a site folder of the prefix, and by the shell,
pkg-config and the loader where they look; and what has to be set where they don't."""
import os
import shutil
import subprocess

NAME = "ecc200.pth"


def said(words):
    """What a command prints; nothing where it fails or isn't there."""
    try:
        return subprocess.run(words, stdout=subprocess.PIPE, stderr=subprocess.DEVNULL, text=True).stdout
    except OSError:
        return ""


def is_below(path, folder):
    return os.path.commonpath([os.path.realpath(path), os.path.realpath(folder)]) == os.path.realpath(folder)


def path_file(python, folders):
    """Where a path file leads this Python to the module, if one of its site folders lies below the prefix."""
    asked = "import site; print('\\n'.join([*site.getsitepackages(), site.getusersitepackages()]))"
    sites = said([python, "-c", asked]).splitlines()
    below = [it for it in sites if is_below(it, folders.prefix)]
    return os.path.join(below[0], NAME) if below and folders.of["python"] not in sites else None


def lead(python, folders):
    """Writes the path file, if there is a place for it; whether Python finds the module then."""
    path = path_file(python, folders)
    if path:
        os.makedirs(os.path.dirname(path), exist_ok=True)
        with open(path, "w", encoding="utf-8") as file:
            file.write(f"{folders.of['python']}\n")
    return path is not None


def forget(python, folders):
    path = path_file(python, folders)
    if path and os.path.isfile(path):
        os.remove(path)


def tell_loader(library):
    """Lets the loader find what is new in a folder of its list, which root alone can; whether the folder is in it."""
    ldconfig = shutil.which("ldconfig", path="/usr/sbin:/sbin")
    listed = [line.partition(":")[0] for line in said([ldconfig, "-NXv"]).splitlines()
              if line[:1] == "/"] if ldconfig else []
    if library not in listed:
        return False
    return os.geteuid() != 0 or subprocess.run([ldconfig]).returncode == 0


def settings(folders, has_module):
    """The lines of a shell that are needed so that all of it is found."""
    described = said(["pkg-config", "--variable=pc_path", "pkg-config"]).strip().split(":")
    needed = [("PATH", folders.of["bin"], folders.of["bin"] in os.environ.get("PATH", "").split(":")),
              ("PKG_CONFIG_PATH", os.path.join(folders.of["lib"], "pkgconfig"),
               os.path.join(folders.of["lib"], "pkgconfig") in described),
              ("LD_LIBRARY_PATH", folders.of["lib"], tell_loader(folders.of["lib"])),
              ("PYTHONPATH", folders.of["python"], has_module)]
    return [f'export {name}="{value}${{{name}:+:${name}}}"' for name, value, is_found in needed if not is_found]
