"""Debian's `logrotate` with the rule of `deploy/`, once a second for SECONDS, on the logs of a service under load: every key that a
client was told a variant for stands in a file of the folder. (The rule keeps 30 files; here it keeps all.)

    bench/service/rotate.py [SECONDS [CLIENTS]]

Ends with 1 where a line is lost."""
import os
import shutil
import subprocess
import sys
import tempfile
import time

from service import ROOT, Load, Service, line_for, wait_until

WORKERS = 2


def rule_for(log):
    """The rule of `deploy/`, for the logs of a folder."""
    with open(os.path.join(ROOT, "deploy", "logrotate"), encoding="utf-8") as file:
        text = file.read()
    for old, new in (("/var/lib/flagops/log", log), ("rotate 30", "rotate 1000000")):
        assert old in text, old
        text = text.replace(old, new)
    return text


def rotated(words):
    """Whether a rotation found its file there: it is named by its second, and some two are in one where the machine is slow."""
    ran = subprocess.run(words, stderr=subprocess.PIPE, text=True, check=False)
    assert ran.returncode == 0 or "already exists, skipping rotation" in ran.stderr, ran.stderr
    return ran.returncode != 0


def main(seconds="300", clients="4"):
    logrotate = shutil.which("logrotate", path=os.environ.get("PATH", "") + ":/usr/sbin:/sbin")
    with tempfile.TemporaryDirectory() as folder:
        log, rule = os.path.join(folder, "log"), os.path.join(folder, "rule")
        service = Service(folder, log, "--workers", str(WORKERS))
        with open(rule, "w", encoding="utf-8") as file:
            file.write(rule_for(log))
        os.chmod(rule, 0o644)
        load, begun, skipped = Load(service, int(clients)), time.monotonic(), 0
        while time.monotonic() < begun + int(seconds):
            skipped += rotated([logrotate, "--force", "--state", os.path.join(folder, "state"), rule])
            time.sleep(1)
        count = len(load.answered)
        wait_until(lambda: len(load.answered) > count, "the load does not go on")
        load.end()
        reopened = sum(count for series, count in service.metrics().items() if series.startswith("ofrep_log_reopened_total"))
        service.kill()
        lines = service.lines()
        lost = [each.key for each in load.answered if line_for(each.key) not in lines]
        print(f"{seconds} seconds, {skipped} rotations that found their file there, {len(os.listdir(log))} files, {reopened:.0f} times opened anew, {len(load.answered)} told, {len(lines)} lines, {len(lost)} lost, other answers {load.others}")
    return 1 if lost else 0


if __name__ == "__main__":
    sys.exit(main(*sys.argv[1:]))
