"""Packed files that the program doesn't read by itself, unpacked ahead of it through pipes: no disk, bounded memory.

Each such file has a pipe, which the program is given as /dev/fd/N, so files keep their number, their ends and their
faults. A few threads unpack files in order, each one file: what its pipe doesn't take yet waits in memory, at most
AHEAD chunks a thread.
"""

import bz2
import collections
import concurrent.futures
import contextlib
import fcntl
import gzip
import lzma
import os
import resource
import select
import shutil
import stat
import struct
import subprocess
import termios
import threading

from .errors import OpenError

CHUNK = 1 << 20  # bytes
AHEAD = 16  # chunks
PAGE = 4096  # bytes: the least that a pipe holds
MAGIC = {b"BZh": "bzip2", b"\x1f\x8b": "gzip", b"\xfd7zXZ\x00": "xz", b"\x28\xb5\x2f\xfd": "zstd"}
OPEN = {"bzip2": bz2.open, "gzip": gzip.open, "xz": lzma.open, "zstd": lambda path: _Zstd(path)}


def packing(path):
    """How an ordinary file is packed, by its first bytes: "gzip", "bzip2", "xz", "zstd" or None."""
    try:
        if not stat.S_ISREG(os.stat(path).st_mode):
            return None
        with open(path, "rb") as file:
            first = file.read(6)
    except OSError:
        return None  # the program says why
    return next((kind for magic, kind in MAGIC.items() if first.startswith(magic)), None)


class _Zstd:
    """What `zstd` unpacks of a file; OSError if it isn't installed, or says that the file is damaged."""

    def __init__(self, path):
        if not shutil.which("zstd"):
            raise OSError("zstd isn't installed")
        with open(path, "rb") as file:
            pipes = {"stdout": subprocess.PIPE, "stderr": subprocess.PIPE}
            self.process = subprocess.Popen(["zstd", "-dcq"], stdin=file, **pipes)

    def read(self, size):
        chunk = self.process.stdout.read(size)
        if not chunk:
            words = self.process.stderr.read().decode(errors="replace").strip()
            if self.process.wait() != 0:
                raise OSError(words or f"zstd ended with status {self.process.returncode}")
        return chunk

    def close(self):
        self.process.kill()
        self.process.communicate()


class _Packed:
    def __init__(self, number, path, kind):
        self.number, self.path, self.kind, self.written = number, path, kind, 0
        self.reader, self.writer = os.pipe()
        os.set_blocking(self.writer, False)

    def close_reader(self):
        self.reader = None if self.reader is None else os.close(self.reader)

    def close(self):
        self.writer = None if self.writer is None else os.close(self.writer)


class Unpacking:
    """Unpacks those of some files that are packed as one of `kinds` says. `names` are the program's, `fds` its pipes.

    `errors` has what went wrong, as (number of the file from 1, words): a report on what came before it isn't one on
    the file. OpenError: there are more packed files than this process may have open, at two a file.
    """

    def __init__(self, files, kinds, threads=None):
        # One thread feeds the program, and one more has to see that the program has left that one's file.
        self.threads = max(2, threads or len(os.sched_getaffinity(0)) // 2 + 1)
        self.names, self.packed, self.errors = [], [], []
        self.begun, self.stopped, self.held, self.peak = 0, False, 0, 0
        self.lock, self.pool = threading.Lock(), None
        found = [packing(path) for path in files]
        _allow_files(3 * sum(kind in kinds for kind in found))
        try:
            for path, kind in zip(files, found):
                if kind in kinds:
                    self.packed.append(_Packed(len(self.names) + 1, path, kind))
                self.names.append(f"/dev/fd/{self.packed[-1].reader}" if kind in kinds else path)
        except OSError as error:
            self.stop()
            raise OpenError(f"open failed: file {len(self.names) + 1}\n  {path}: {error.strerror}", 3) from error
        self.fds = [file.reader for file in self.packed]
        if len(self.packed) > 32:  # all pipes of a user have 16,384 pages: each has one until its turn
            for file in self.packed:
                fcntl.fcntl(file.writer, fcntl.F_SETPIPE_SZ, PAGE)

    def start(self, fail):
        """Begins to unpack; called once the program has its pipes. `fail` is called when a file can't be unpacked."""
        self.fail = fail
        for file in self.packed:
            file.close_reader()
        if self.packed:
            self.pool = concurrent.futures.ThreadPoolExecutor(self.threads)
            for at in range(len(self.packed)):
                self.pool.submit(self._pass_on, at)

    def stop(self):
        """Called when the program has ended: ends the threads and closes the pipes."""
        self.stopped = True
        if self.pool:
            self.pool.shutdown()
        for file in self.packed:
            file.close_reader()
            file.close()

    def _pass_on(self, at):
        file, waiting = self.packed[at], collections.deque()
        if self.stopped:
            return
        try:
            with contextlib.suppress(OSError):  # no pages left: slower, not wrong
                fcntl.fcntl(file.writer, fcntl.F_SETPIPE_SZ, CHUNK)
            with contextlib.closing(OPEN[file.kind](file.path)) as stream:
                while not self._is_over(at) and (chunk := stream.read(CHUNK)):
                    waiting.append(memoryview(chunk))
                    self._hold(len(chunk))
                    self._write(at, waiting, AHEAD)
            self._write(at, waiting, 0)
        except Exception as error:  # OSError, EOFError, zlib.error, lzma.LZMAError: each module has its own
            self.errors.append((file.number, str(error) or type(error).__name__))
            self.fail()
        finally:
            self._hold(-sum(map(len, waiting)))
            file.close()

    def _hold(self, count):
        with self.lock:
            self.held += count
            self.peak = max(self.peak, self.held)

    def _write(self, at, waiting, most):
        """Writes until at most `most` chunks wait, and as much of those as the pipe takes at once."""
        file = self.packed[at]
        poll = select.poll()
        poll.register(file.writer, select.POLLOUT)
        while waiting:
            try:
                count = os.write(file.writer, waiting[0])
            except BlockingIOError:
                if len(waiting) <= most:
                    return
                poll.poll(100)
                if self._is_over(at):
                    return
                continue
            except BrokenPipeError:
                return  # the program has ended
            file.written += count
            self._hold(-count)
            waiting[0] = waiting[0][count:]
            if not waiting[0]:
                waiting.popleft()

    def _is_over(self, at):
        """Whether the program reads no more of a file: after some faults it goes on to the next one."""
        file = self.packed[at]
        if _unread(file.writer) < file.written:
            with self.lock:
                self.begun = max(self.begun, at)
        return self.stopped or at < self.begun


def _unread(fd):
    """How many bytes wait in a pipe."""
    return struct.unpack("i", fcntl.ioctl(fd, termios.FIONREAD, b"\0\0\0\0"))[0]


def _allow_files(count):
    """Raises the limit of open files, which the program inherits, as far as it may be raised."""
    soft, hard = resource.getrlimit(resource.RLIMIT_NOFILE)
    wanted = count + 256
    if count and soft != resource.RLIM_INFINITY and soft < wanted:
        most = wanted if hard == resource.RLIM_INFINITY else min(wanted, hard)
        resource.setrlimit(resource.RLIMIT_NOFILE, (max(soft, most), hard))
