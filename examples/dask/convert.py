#!/usr/bin/env python3
"""Converts a column of tables that one machine does not hold: `fixdec_lines` over blocks of lines, by Dask.

    convert.py [--scheduler ADDRESS] [--block BYTES] [--program PROGRAM] [--out FOLDER] FILE.. -- WORD..

The words are those of `fixdec_lines`, and the output is what it writes for each file; with `header` the header is
written once, and has to be the same in all files. Without a scheduler the blocks are converted on the processors of
this machine; else the workers read the files by the same paths, and PROGRAM, by default `fixdec_lines`, is there too.
An error line begins with its file, and the number of the line is that in the file. `records` is refused, since a block
ends at a line feed.

With `--out` the workers write the output: each block is a file of FOLDER, part-00000 and so on, and `cat part-*` is the
output. FOLDER is missing or empty at the start. A worker renames a part when it is whole. If a block ends the run, the
parts after it are removed.

Statuses are those of `fixdec_lines`. If the program does not convert a block, as when it is killed twice, nothing of
the block is written: a line names the file and the first line of the block, and the status is 3. A block that cannot be
read or written, or whose file has another size than at the start, is reported in the same way.
"""
import argparse
import contextlib
import functools
import logging
import os
import re
import signal
import subprocess
import sys
import threading
import uuid
from collections import deque
from itertools import islice

from dask.distributed import Client

MARK = b"\xef\xbb\xbf"
USAGE, SYSTEM = 2, 3


class Failure(Exception):
    """A line for standard error, and a status."""

    def __init__(self, line, status=SYSTEM):
        super().__init__(line)
        self.line, self.status = line, status


def reason(error):
    """One line on an error of the system or of Dask."""
    text = getattr(error, "strerror", None) or str(error) or type(error).__name__
    return " ".join(text.split())


def in_memory():
    """A new file in memory."""
    return open(os.memfd_create("lines"), "w+b")


def run(program, words, lines):
    """Runs the program on lines: its output, status and errors. One that is killed by a signal is run once more."""
    # Through pipes `subprocess` would write 4 KiB of the lines at a time, and read 32 KiB of the output.
    with in_memory() as file, in_memory() as output:
        file.write(lines)
        for _ in range(2):
            file.seek(0)
            output.seek(0)
            output.truncate()
            try:
                done = subprocess.run([program, *words], stdin=file, stdout=output, stderr=subprocess.PIPE)
            except OSError as error:
                raise OSError(f"{program}: {reason(error)}") from None
            if done.returncode >= 0:
                break
        output.seek(0)
        return output.read(), done.returncode, done.stderr


def has_mark(file):
    """Whether a byte order mark is next in a file."""
    at = file.tell()
    found = file.read(len(MARK))
    file.seek(at)
    return found == MARK


def lines_of(path, size, start, end, has_header):
    """The lines of a block: those that begin in a range. It is an error if the file no longer has this size.

    The program takes a byte order mark at the start of its input for a mark of the whole input. So without a header no
    block but the first begins with one: a line that does belongs to the block of the line before.
    """
    with open(path, "rb") as file:
        file.seek(max(start - 1, 0))
        if start:
            # The rest of the line that begins before the range.
            file.readline()
            while not has_header and has_mark(file):
                file.readline()
        lines = file.read(max(end - file.tell(), 0))
        if lines and not lines.endswith(b"\n"):
            lines += file.readline()
        while lines and not has_header and has_mark(file):
            lines += file.readline()
        if os.fstat(file.fileno()).st_size != size:
            raise OSError("the file has changed")
    return lines


def write_part(path, output):
    """Writes a part, under another name until it is whole."""
    folder, name = os.path.split(path)
    unfinished = f"{folder}/.{name}.{uuid.uuid4().hex}"
    try:
        with open(unfinished, "xb") as file:
            file.write(output)
        os.replace(unfinished, path)
    except OSError as error:
        with contextlib.suppress(OSError):
            os.remove(unfinished)
        raise OSError(f"{path}: {reason(error)}") from None


def convert(program, words, header, copied, part, path, size, start, end):
    """Converts a block: its output, status and errors, and the number of its lines. A part has the output, if given."""
    output, status, errors = b"", 0, b""
    try:
        lines = lines_of(path, size, start, end, bool(header))
        if lines:
            output, status, errors = run(program, words, header + lines)
        if part and status in (0, 1):
            write_part(part, output[copied:])
    except OSError as error:
        return b"", reason(error), b"", 0
    count = lines.count(b"\n") + (lines[-1:] not in (b"\n", b""))
    return b"" if part else output[copied:], status, errors, count


def blocks(files, count, header):
    """The blocks of files: the path and the size of the file, and the range, of `count` bytes at most."""
    for path, size in files:
        for start in range(len(header), size, count):
            yield path, size, start, min(start + count, size)


def in_order(client, under_way, window, tasks):
    """The results of tasks in order, of which at most `window` are under way."""
    while True:
        for place, work in islice(tasks, window - len(under_way)):
            # A block may be converted again, on another worker, if its worker ends.
            under_way.append((place, client.submit(*work, pure=False)))
        if not under_way:
            return
        place, future = under_way.popleft()
        try:
            result = future.result()
        except Exception as error:
            result = b"", f"{type(error).__name__}: {reason(error)}", b"", 0
        yield place, result


class Parts:
    """The parts of the output in a folder, one for each block."""

    def __init__(self, folder, count):
        self.folder, self.digits = folder, max(5, len(str(count - 1)))

    def path(self, number):
        return f"{self.folder}/part-{number:0{self.digits}}"

    def keep(self, count, late, header):
        """Keeps the first `count` parts: removes `late` parts after them, and what is not whole.

        If there is no part, one has the header. On a shared file system a list of the folder may lack new names.
        """
        try:
            for number in range(count, count + late):
                with contextlib.suppress(FileNotFoundError):
                    os.remove(self.path(number))
            for name in os.listdir(self.folder):
                if name.startswith(".part-"):
                    os.remove(f"{self.folder}/{name}")
            if not count:
                write_part(self.path(0), header)
        except OSError as error:
            raise Failure(f"{self.folder}: {reason(error)}")


def write(output):
    """Writes bytes to standard output. No buffer is left to be written when the program ends."""
    try:
        while output:
            output = output[os.write(1, output) :]
    except OSError as error:
        raise Failure(f"output: {reason(error)}")


def tell(lines):
    """Writes bytes to standard error. A failure changes no status."""
    try:
        while lines and sys.stderr:
            lines = lines[os.write(2, lines) :]
    except OSError:
        pass


def tell_line(line):
    tell(os.fsencode(line) + b"\n")


def report(path, before, errors):
    """Writes error lines, which end at line feeds alone, with their file and their numbers in it."""
    for line in errors.removesuffix(b"\n").split(b"\n") if errors else ():
        numbered = re.sub(rb"^line (\d+)", lambda it: b"line %d" % (int(it[1]) + before), line)
        tell(os.fsencode(path) + b": " + numbered + b"\n")


def ending(program, status):
    """How a program ended that has not converted its lines, or the error for which it was not run."""
    if isinstance(status, str):
        return status
    return f"{program}: " + (f"killed by signal {-status}" if status < 0 else f"ended with status {status}")


def write_all(results, options, header):
    """Writes results in order, up to the first that fails without `skip` or `keep`: the status, and how many."""
    status, path, before, number = 0, None, 0, 0
    for number, (block_path, (output, block_status, errors, count)) in enumerate(results, 1):
        if block_path != path:
            path, before = block_path, 0
        if block_status not in (0, 1):
            report(path, before, errors)
            first = before + 1 + bool(header)
            tell_line(f"{path}: the block from line {first} on: {ending(options.program, block_status)}")
            return SYSTEM, number - 1
        write(output)
        report(path, before, errors)
        status = max(status, block_status)
        if block_status and not {"skip", "keep"} & set(options.words):
            break
        before += count
    return status, number


def convert_all(client, options, header, written):
    """Converts the blocks, and returns the status. Of the header `written` is the output."""
    found = functools.partial(blocks, options.sizes, options.block, header)
    parts = options.out and Parts(options.out, sum(1 for _ in found()))
    work = convert, options.program, options.words, header
    tasks = (
        # The first part begins with the header.
        (block[0], (*work, len(written) if number or not parts else 0, parts and parts.path(number), *block))
        for number, block in enumerate(found())
    )
    window, under_way = 4 * max(sum(client.nthreads().values()), 1), deque()
    status, count = write_all(in_order(client, under_way, window, tasks), options, header)
    if parts:
        # Blocks after one that fails may still write their parts, and so may that one if it was lost.
        for _, future in under_way:
            with contextlib.suppress(Exception):
                future.result()
        parts.keep(count, 1 + len(under_way), written)
    return status


class Options(argparse.ArgumentParser):
    def print_help(self, _=None):
        write(self.format_help().encode())

    def error(self, message):
        raise Failure(f"convert.py: {message}", USAGE)


def block_size(text):
    if not re.fullmatch("[0-9]{1,15}", text) or not int(text):
        raise argparse.ArgumentTypeError(f"not a number of bytes above 0: {text}")
    return int(text)


def empty_folder(text):
    """The path of a folder that is missing or empty."""
    path = os.path.abspath(text)
    try:
        if text and not (os.path.lexists(path) and os.listdir(path)):
            return path
    except NotADirectoryError:
        pass
    except OSError as error:
        raise Failure(f"{path}: {reason(error)}")
    raise argparse.ArgumentTypeError(f"not an empty folder: {text}")


def options_of(arguments):
    options = Options(prog="convert.py", description=__doc__.partition("\n")[0], allow_abbrev=False)
    options.add_argument("--scheduler", help="the address of a Dask scheduler, as tcp://host:8786")
    options.add_argument("--block", type=block_size, default=16 << 20, help="bytes of a block, by default 16 MiB")
    options.add_argument("--program", default="fixdec_lines")
    options.add_argument("--out", type=empty_folder, metavar="FOLDER",
                         help="the workers write parts of the output there")
    options.add_argument("files", nargs="+", metavar="FILE")
    split = arguments.index("--") if "--" in arguments else len(arguments)
    found = options.parse_args(arguments[:split])
    found.words = arguments[split + 1 :]
    if "records" in found.words:
        options.error("records: a block ends at a line feed")
    found.files = [os.path.abspath(path) for path in found.files]
    return found


def first_line(path):
    """The first line of a file, and its size."""
    try:
        if os.path.exists(path) and not os.path.isdir(path) and not os.path.isfile(path):
            raise Failure(f"{path}: not a regular file")
        with open(path, "rb") as file:
            return file.readline(), os.fstat(file.fileno()).st_size
    except OSError as error:
        raise Failure(f"{path}: {reason(error)}")


def header_of(options):
    """The header of all files that are not empty, with the sizes of the files in `options.sizes`."""
    found = [(path, *first_line(path)) for path in options.files]
    options.sizes = [(path, size) for path, _, size in found]
    if "header" not in options.words:
        return b""
    headers = [(path, line) for path, line, _ in found if line]
    for path, line in headers:
        # A file that is its header alone may end without a line feed.
        if line.rstrip(b"\n") != headers[0][1].rstrip(b"\n"):
            raise Failure(f"{path}: another header", 1)
    return max((line for _, line in headers), key=len, default=b"")


def make_folder(path):
    try:
        os.makedirs(path, exist_ok=True)
    except OSError as error:
        raise Failure(f"{path}: {reason(error)}")


def connected(scheduler):
    try:
        if scheduler:
            return Client(scheduler, timeout=60)
        # Dask serves HTTP in any case: by a free port of this machine alone, since the default one may be taken.
        local = {"dashboard_address": "127.0.0.1:0", "scheduler_kwargs": {"dashboard": False}}
        return Client(processes=False, threads_per_worker=os.cpu_count(), timeout=60, **local)
    except Exception as error:
        raise Failure(f"convert.py: {scheduler or 'Dask'}: {reason(error)}")


def close(client):
    """Closes Dask, which removes its scratch files. On a busy machine it may not end, so five seconds are enough."""
    closing = threading.Thread(target=client.close, daemon=True)
    closing.start()
    closing.join(5)


def convert_files(arguments):
    options = options_of(arguments)
    if not options.out and not sys.stdout:
        raise Failure("output: standard output is closed")
    header = header_of(options)
    # The header alone: what is written of it, and errors of words.
    try:
        written, status, errors = run(options.program, options.words, header)
    except OSError as error:
        raise Failure(reason(error))
    if not options.out:
        write(written)
    if status == 1 and header:
        report(next(path for path, size in options.sizes if size), 0, errors)
    else:
        tell(errors)
    if status not in (0, 1, 2):
        raise Failure(ending(options.program, status))
    if status:
        return status
    if options.out:
        make_folder(options.out)
    client = connected(options.scheduler)
    try:
        return convert_all(client, options, header, written)
    finally:
        close(client)


def main():
    # Dask logs what is reported here in one line.
    logging.disable()
    # An interrupt ends the program without a traceback. If interrupts are ignored they still are.
    if signal.getsignal(signal.SIGINT) == signal.default_int_handler:
        signal.signal(signal.SIGINT, signal.SIG_DFL)
    try:
        return convert_files(sys.argv[1:])
    except Failure as failure:
        tell_line(failure.line)
        return failure.status


if __name__ == "__main__":
    # Nothing is buffered, and no thread of Dask is waited for.
    os._exit(main())
