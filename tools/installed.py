#!/usr/bin/env python3
"""Copies files to a PREFIX and removes them again, by a manifest:

    tools/installed.py install STAGE PREFIX     copies each file and each link below the folder STAGE
    tools/installed.py uninstall PREFIX         removes what these copies made

The manifest is PREFIX/share/fixed_decimal/manifest, and several copies share it. `sha256sum -c` in PREFIX reads its
lines too. Links and folders that were made are in its comments. A file is listed before it is copied, so that the
manifest also covers a copy that is interrupted.

A file, or a link, that is not what was installed stays, and so does a folder that is not empty.
"""
import contextlib
import errno
import fcntl
import hashlib
import os
import re
import shutil
import signal
import sys

FOLDER = "share/fixed_decimal"
MANIFEST = f"{FOLDER}/manifest"
TITLE = "# What was installed, for `sha256sum -c` in this PREFIX.\n"
# The value of a folder that was made.
MADE = "folder"
# How often a folder is made that another process removes.
ATTEMPTS = 100


class Failure(Exception):
    """A line for standard error."""


def value_of(path):
    """What is at a path, as the manifest has it: the sum of a file, the target of a link, or None."""
    if os.path.islink(path):
        return f"link {os.readlink(path)}"
    if not os.path.isfile(path):
        return None
    with open(path, "rb") as file:
        return hashlib.sha256(file.read()).hexdigest()


def is_below(path):
    """Whether a path of the manifest names something below PREFIX, or PREFIX itself."""
    return not os.path.isabs(path) and path == os.path.normpath(path) and path.split("/")[0] != ".."


class Manifest:
    """What was installed in a PREFIX: the values that a path may have, by the path."""

    def __init__(self, prefix):
        self.path = os.path.join(prefix, MANIFEST)
        self.values = {}
        with contextlib.suppress(FileNotFoundError), open(self.path, encoding="utf-8") as file:
            for number, line in enumerate(file, 1):
                if line == TITLE:
                    continue
                found = re.fullmatch(r"([0-9a-f]{64})  (.+)\n|# (folder) (.+)\n|# (link \S+) (.+)\n", line)
                value, path = [part for part in found.groups() if part] if found else ("", "..")
                if not is_below(path):
                    raise Failure(f"{self.path}: line {number} is not one of a manifest")
                self.values.setdefault(path, set()).add(value)

    def lines(self):
        yield TITLE
        for path in sorted(self.values):
            for value in sorted(self.values[path]):
                yield f"{value}  {path}\n" if re.fullmatch("[0-9a-f]{64}", value) else f"# {value} {path}\n"

    def write(self):
        with replacing(self.path) as new:
            with open(new, "w", encoding="utf-8") as file:
                file.writelines(self.lines())
            os.chmod(new, 0o644)


def new_path(path):
    """The path beside this one where a file is written first."""
    return os.path.join(os.path.dirname(path), f".{os.path.basename(path)}.fixed_decimal")


def remove_new(path):
    with contextlib.suppress(FileNotFoundError):
        os.remove(new_path(path))


@contextlib.contextmanager
def replacing(path):
    """A new path beside this one, which takes its place at once, or is removed."""
    remove_new(path)
    try:
        yield new_path(path)
        os.replace(new_path(path), path)
    finally:
        remove_new(path)


def lock(folder):
    """Opens a folder when no other process has locked it. It is an error if that process has removed it."""
    handle = os.open(folder, os.O_RDONLY)
    fcntl.flock(handle, fcntl.LOCK_EX)
    if os.path.isdir(folder) and os.path.samestat(os.stat(folder), os.fstat(handle)):
        return handle
    os.close(handle)
    raise FileNotFoundError(errno.ENOENT, os.strerror(errno.ENOENT), folder)


@contextlib.contextmanager
def locked(folder, prepare):
    """Nothing else installs to the same PREFIX, or removes it, at this time. `prepare` makes or checks the folder."""
    for attempt in range(ATTEMPTS):
        try:
            prepare()
            handle = lock(folder)
            break
        except FileNotFoundError:
            if attempt == ATTEMPTS - 1:
                raise
    try:
        yield
    finally:
        os.close(handle)


def missing_folders(prefix, paths):
    """Which folders below PREFIX are not there yet, of these paths: PREFIX is `.`."""
    parts = {"/".join(path.split("/")[:length]) or "." for path in paths for length in range(path.count("/") + 1)}
    return [part for part in sorted(parts, key=lambda part: (part != ".", part))
            if not os.path.isdir(os.path.join(prefix, part))]


def make_folders(prefix, paths):
    for path in paths:
        folder = os.path.normpath(os.path.join(prefix, path))
        os.makedirs(folder, exist_ok=True)
        os.chmod(folder, 0o755)


def copy(source, target):
    try:
        with replacing(target) as new:
            if os.path.islink(source):
                os.symlink(os.readlink(source), new)
            else:
                shutil.copyfile(source, new)
                os.chmod(new, 0o755 if os.access(source, os.X_OK) else 0o644)
    except OSError as error:
        raise Failure(f"{target}: {error.strerror}") from None


def install(stage, prefix):
    found = sorted(os.path.relpath(os.path.join(folder, name), stage)
                   for folder, folders, names in os.walk(stage)
                   for name in [*names, *(it for it in folders if os.path.islink(os.path.join(folder, it)))])
    for path in found:
        target = os.path.join(prefix, path)
        if os.path.isdir(target) and not os.path.islink(target):
            raise Failure(f"{target} is a folder: nothing is installed")
    values = {path: value_of(os.path.join(stage, path)) for path in found}
    own = []

    def prepare():
        own.extend(missing_folders(prefix, [MANIFEST]))
        make_folders(prefix, own)

    with locked(os.path.join(prefix, FOLDER), prepare):
        manifest = Manifest(prefix)
        made = missing_folders(prefix, found)
        for path in [*own, *made]:
            manifest.values.setdefault(path, set()).add(MADE)
        for path in found:
            manifest.values.setdefault(path, set()).add(values[path])
        try:
            manifest.write()
        except BaseException:
            remove_folders(prefix, own)
            raise
        make_folders(prefix, made)
        for path in found:
            copy(os.path.join(stage, path), os.path.join(prefix, path))
        for path in found:
            manifest.values[path] = {values[path]}
        manifest.write()


def remove_files(prefix, manifest):
    """Removes each file that is what was installed, and returns a line for each other one that is there."""
    kept = []
    for path in sorted(path for path, values in manifest.values.items() if MADE not in values):
        target = os.path.join(prefix, path)
        try:
            remove_new(target)
            if not os.path.lexists(target):
                del manifest.values[path]
            elif value_of(target) in manifest.values[path]:
                os.remove(target)
                del manifest.values[path]
            else:
                kept.append(f"{target} is not what was installed: it stays")
        except OSError as error:
            kept.append(f"{target} stays: {error.strerror}")
    return kept


def remove_folders(prefix, paths):
    """Removes the empty ones of these folders, the innermost first."""
    for path in sorted(paths, key=lambda path: (path != ".", path), reverse=True):
        with contextlib.suppress(OSError):
            os.rmdir(os.path.normpath(os.path.join(prefix, path)))


def uninstall(prefix):
    def check():
        if not os.path.lexists(os.path.join(prefix, MANIFEST)):
            raise Failure(f"{os.path.join(prefix, MANIFEST)} is missing: nothing is removed")

    with locked(os.path.join(prefix, FOLDER), check):
        check()
        manifest = Manifest(prefix)
        kept = remove_files(prefix, manifest)
        if kept:
            with contextlib.suppress(OSError):
                manifest.write()
            raise Failure("\n".join(kept))
        remove_new(manifest.path)
        os.remove(manifest.path)
        remove_folders(prefix, manifest.values)


def main(verb="", *folders):
    for number in (signal.SIGINT, signal.SIGTERM, signal.SIGHUP):
        signal.signal(number, lambda *_: sys.exit("stopped"))
    try:
        if verb == "install" and len(folders) == 2:
            install(*folders)
        elif verb == "uninstall" and len(folders) == 1:
            uninstall(*folders)
        else:
            print(__doc__, end="", file=sys.stderr)
            return 2
    except (Failure, OSError) as error:
        where = getattr(error, "filename", None) or folders[-1]
        print(error if isinstance(error, Failure) else f"{where}: {error.strerror}", file=sys.stderr)
        return 1
    return 0


if __name__ == "__main__":
    sys.exit(main(*sys.argv[1:]))
