#!/usr/bin/env bash
# How long texts take to be read: INSERTs of numbers that are refused, since their table isn't there.
# usage: bench/texts.sh      prints for each length of text how many were read, and the milliseconds of one; then a script of 100 MB, with the peak of memory
set -eu
here=$(cd "$(dirname "${BASH_SOURCE[0]}")" && pwd)
program=$here/../crates/bokzarn/out/bokzarn
[ -x "$program" ] || { echo "build the program first: ./bokzarn" >&2; exit 1; }
work=$(mktemp -d)
trap 'rm -rf "$work"' EXIT
run() { # COUNT BYTES: seconds and peak memory of one run
  python3 "$here/texts.py" "$1" "$2" >"$work/script"
  rm -f "$work/db"
  python3 - "$program" "$work" <<'P'
import resource, subprocess, sys, time
program, work = sys.argv[1:]
start = time.monotonic()
with open(work + "/script", "rb") as script, open(work + "/out", "wb") as out:
    code = subprocess.run([program, work + "/db", "run"], stdin=script, stdout=out, stderr=subprocess.DEVNULL).returncode
spent = time.monotonic() - start
assert code == 1, code
print(f"{spent:.3f} {resource.getrusage(resource.RUSAGE_CHILDREN).ru_maxrss // 1024}")
P
}
for bytes in 8125 16250 32500 65000; do
  read -r seconds memory < <(run 100 "$bytes")
  echo "100 texts of $bytes bytes: $seconds s, so $(python3 -c "print(f'{$seconds * 10:.2f}')") ms each; $memory MiB"
done
read -r seconds memory < <(run 1540 65000)
echo "a script of $(($(stat -c %s "$work/script") / 1000000)) MB: $seconds s, $memory MiB"
