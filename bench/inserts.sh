#!/usr/bin/env bash
# Times INSERTs of 500 rows and one SELECT of all rows, then a second run that only opens the file, and notes the
# peak memory. usage: bench/inserts.sh [COUNT ..]  (200 and 400 where none is given)
set -eu
here=$(cd "$(dirname "$0")" && pwd)
program=$here/../crates/bokzarn/out/bokzarn
[ -x "$program" ] || { echo "build the program first: ./bokzarn" >&2; exit 1; }
work=$(mktemp -d); trap 'rm -rf "$work"' EXIT
for count in "${@:-200 400}"; do for n in $count; do
  python3 "$here/inserts.py" "$n" 500 >"$work/script.sql"
  rm -f "$work/db"
  /usr/bin/env python3 - "$program" "$work" "$n" <<'PY'
import os, resource, subprocess, sys, time
program, work, n = sys.argv[1:]
def run(script, what):
    start = time.monotonic()
    with open(script, "rb") as source, open(os.path.join(work, "out"), "wb") as out:
        pid = os.fork()
        if pid == 0:
            os.dup2(source.fileno(), 0); os.dup2(out.fileno(), 1); os.dup2(os.open(os.devnull, os.O_WRONLY), 2)
            os.execv(program, [program, os.path.join(work, "db"), "run"])
        _, status, usage = os.wait4(pid, 0)
    seconds = time.monotonic() - start
    lines = sum(1 for _ in open(os.path.join(work, "out"), "rb"))
    size = os.path.getsize(os.path.join(work, "db"))
    print(f"{n} inserts, {what}: status {os.waitstatus_to_exitcode(status)}, {seconds:.2f} s, {usage.ru_maxrss / 1024:.0f} MiB at the peak, {lines} lines, file of {size} bytes")
run(os.path.join(work, "script.sql"), "written and listed")
with open(os.path.join(work, "empty.sql"), "w"): pass
run(os.path.join(work, "empty.sql"), "opened again")
PY
done; done
