#!/bin/sh
# Time and peak memory of `flagops bucket` on a rule file of about 40 MB.
#
# Needs python3, which makes the file and reads the figures of the run from the system.

. "$(dirname -- "$0")/opening.sh"
python3 - "$here/flagops" "$folder/rule.json" <<'PYTHON'
import os, resource, subprocess, sys, time

program, rule = sys.argv[1:]
entries = ",".join(f'["variant-{i % 100}",{i % 1000}]' for i in range(2_200_000))
with open(rule, "w") as file:
    file.write(f"[{entries}]")
print(f"rule file: {os.path.getsize(rule) / 1e6:.1f} MB, 2200000 entries")
times = []
for _ in range(3):
    started = time.perf_counter()
    report = subprocess.run([program, "bucket", rule, "test"], check=True, capture_output=True).stdout
    times.append((time.perf_counter() - started) * 1000)
print(report.decode(), end="")
print(f"milliseconds: {min(times):.0f} (best of 3)")
print(f"peak memory: {resource.getrusage(resource.RUSAGE_CHILDREN).ru_maxrss / 1024:.0f} MB")
PYTHON
