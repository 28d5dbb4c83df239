#!/usr/bin/env python3
"""Has each call of the disk fail in turn while a script is carried out, and looks at what is written and at the file.

usage: bench/failing_calls.py SCRIPT [WORKERS ..]      with 1 and with 7 workers where none is given

The program is crates/bokzarn/out/bokzarn, or what PROGRAM names. A small library, which `cc` builds, makes the Nth read, write, sync or cut of the database
end with EIO (LD_PRELOAD). Each time what was written has to be a front of the replies of a whole run, and the file, opened again, has to be that run's file up
to one of its commits, with each commit among them whose reply was written.
Prints a line for each number of workers and for each call that did not hold; ends with 1 where there was one.
"""
import os
import subprocess
import sys
import tempfile

HERE = os.path.dirname(os.path.abspath(__file__))
PROGRAM = os.environ.get("PROGRAM") or os.path.join(HERE, "..", "crates", "bokzarn", "out", "bokzarn")
SHIM = r"""
#define _GNU_SOURCE
#include <dlfcn.h>
#include <errno.h>
#include <fcntl.h>
#include <limits.h>
#include <stdio.h>
#include <stdlib.h>
#include <string.h>
#include <sys/types.h>
#include <unistd.h>

static long made, failing = -1;

static int fails(int fd) {
  char link[64], path[PATH_MAX];
  const char *name = getenv("FAIL_FILE"), *number = getenv("FAIL_AT");
  ssize_t length;
  if (!name || !number) return 0;
  snprintf(link, sizeof link, "/proc/self/fd/%d", fd);
  length = readlink(link, path, sizeof path - 1);
  if (length < 0) return 0;
  path[length] = 0;
  if (strcmp(path, name)) return 0;
  if (failing < 0) failing = atol(number);
  if (++made != failing) return 0;
  if (getenv("FAIL_MARK")) close(creat(getenv("FAIL_MARK"), 0600));
  return 1;
}

#define CALL(type, name, params, args)                        \
  type name params {                                          \
    static type(*real) params;                                \
    if (!real) real = dlsym(RTLD_NEXT, #name);                \
    if (fails(fd)) { errno = EIO; return -1; }                \
    return real args;                                         \
  }

CALL(ssize_t, read, (int fd, void *to, size_t n), (fd, to, n))
CALL(ssize_t, write, (int fd, const void *of, size_t n), (fd, of, n))
CALL(ssize_t, pread, (int fd, void *to, size_t n, off_t at), (fd, to, n, at))
CALL(ssize_t, pwrite, (int fd, const void *of, size_t n, off_t at), (fd, of, n, at))
CALL(ssize_t, pread64, (int fd, void *to, size_t n, off_t at), (fd, to, n, at))
CALL(ssize_t, pwrite64, (int fd, const void *of, size_t n, off_t at), (fd, of, n, at))
CALL(int, fsync, (int fd), (fd))
CALL(int, fdatasync, (int fd), (fd))
CALL(int, ftruncate, (int fd, off_t n), (fd, n))
CALL(int, ftruncate64, (int fd, off_t n), (fd, n))
"""


def ends_of(file):
    """Where the 7 bytes of the header and each record end: 01, the length of the payload in 8 bytes, the payload."""
    ends, at = [7], 7
    while at < len(file) and file[at] == 1:
        at += 9 + int.from_bytes(file[at + 1 : at + 9], "big")
        ends.append(at)
    return ends


def read(path):
    with open(path, "rb") as file:
        return file.read()


def run(db, script, workers, **failing):
    env = dict(os.environ, **failing)
    return subprocess.run([PROGRAM, db, "run", "--workers", workers], input=script, capture_output=True, env=env)


def written_with(text, script, work, workers):
    """For each length of the text, how many commits stand in the file once so much was written: by a run of each front of the script's lines."""
    lines, found = script.split(b"\n"), [(0, 0)]
    for count in range(1, len(lines) + 1):
        db = os.path.join(work, f"front{count}")
        done = run(db, b"\n".join(lines[:count]) + b"\n", workers)
        if done.returncode in (0, 1) and text.startswith(done.stdout):
            found.append((len(done.stdout), len(ends_of(read(db))) - 1))
        os.remove(db)
    return found


def fail_each(script, workers, work, shim):
    whole_db = os.path.join(work, "whole")
    whole = run(whole_db, script, workers)
    if whole.returncode not in (0, 1):
        sys.exit(f"the whole script ended with status {whole.returncode}")
    file = read(whole_db)
    ends = ends_of(file)
    fronts = written_with(whole.stdout, script, work, workers)
    bad, at, statuses = 0, 0, {}
    while True:
        at += 1
        db, mark = os.path.join(work, f"db{at}"), os.path.join(work, "mark")
        done = run(db, script, workers, LD_PRELOAD=shim, FAIL_FILE=db, FAIL_AT=str(at), FAIL_MARK=mark)
        if not os.path.exists(mark):
            os.remove(db)
            break
        os.remove(mark)
        statuses[done.returncode] = statuses.get(done.returncode, 0) + 1
        opened = run(db, b"", workers)
        left = read(db) if os.path.exists(db) else b""
        # A file of at most 8 bytes holds no record, whatever they are.
        count = len(ends_of(left)) - 1 if len(left) > 8 else 0
        least = max(commits for length, commits in fronts if length <= len(done.stdout))
        is_front = whole.stdout.startswith(done.stdout)
        is_prefix = len(left) <= 8 or (count < len(ends) and left[: ends[count]] == file[: ends[count]])
        if opened.returncode not in (0, 1) or not is_front or not is_prefix or count < least:
            bad += 1
            print(f"{workers} workers, call {at}: status {done.returncode}, a front: {is_front}, a prefix: {is_prefix}, {count} commits of at least {least}")
        if os.path.exists(db):
            os.remove(db)
    print(f"{workers} workers: each of {at - 1} calls failed in turn, statuses {dict(sorted(statuses.items()))}; {bad} did not hold")
    return bad


def main():
    if len(sys.argv) < 2:
        sys.exit(__doc__.split("\n\n")[1])
    if not os.access(PROGRAM, os.X_OK):
        sys.exit("build the program first: ./bokzarn")
    script = read(sys.argv[1])
    with tempfile.TemporaryDirectory() as work:
        source, shim = os.path.join(work, "shim.c"), os.path.join(work, "shim.so")
        with open(source, "w") as out:
            out.write(SHIM)
        subprocess.run(["cc", "-O1", "-shared", "-fPIC", "-o", shim, source, "-ldl"], check=True)
        bad = 0
        for workers in sys.argv[2:] or ["1", "7"]:
            with tempfile.TemporaryDirectory(dir=work) as own:
                bad += fail_each(script, workers, own, shim)
        return 1 if bad else 0


if __name__ == "__main__":
    sys.exit(main())
