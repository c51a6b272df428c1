"""What operators do to the logs of a service under load, each act ROUNDS times: every key that a client was told a variant for stands
in a file that is or was in the folder, the error output and `/metrics` say what was found, and each path has a file again.

    bench/service/acts.py [ROUNDS [CLIENTS [ACT ..]]]

The acts: `mv` (a log to another name), `gzip`, `rm` (a log), `rm-folder`, `sed` (`sed -i` of a line), `copytruncate` (by `cp` and
`truncate`; what was written between the two is gone, and counted), `remount` (another file system at the folder; needs root),
`services` (the service ends by SIGKILL, and two others start at once: one of them serves, the other is refused). Without any, all. Prints a line for each act; ends with 1 where a line is
lost. A file stays open here as long as the load goes on, so that it can be read though it has no name any more."""
import os
import shutil
import subprocess
import sys
import tempfile
import threading
import time

from service import Load, Service, line_for, wait_until, whole_lines

WORKERS = 2


class Folder:
    """The folder of the logs: the service on it, its load, and each file that ever stood there, open."""

    def __init__(self, folder, clients):
        self.folder, self.log, self.files, self.turn = folder, os.path.join(folder, "log"), {}, 0
        self.service, self.windows = self.start(), []
        self.load = Load(self.service, clients)

    def start(self):
        return Service(self.folder, self.log, "--workers", str(WORKERS))

    def path(self):
        """The log on which it is the turn now."""
        return os.path.join(self.log, f"worker-{self.turn % WORKERS + 1}.log")

    def open_all(self):
        """Keeps each file that stands at a path of a log now."""
        for number in range(1, WORKERS + 1):
            file = open(os.path.join(self.log, f"worker-{number}.log"), encoding="utf-8", errors="replace")
            self.files.setdefault(os.fstat(file.fileno())[1:3], file)

    def reopened(self, reasons):
        """How often a log was opened anew for one of these reasons, and for any other."""
        counts = {series.split('"')[1]: count for series, count in self.service.metrics().items() if series.startswith("ofrep_log_reopened_total")}
        among = sum(counts[reason] for reason in reasons)
        return among, sum(counts.values()) - among

    def end(self):
        """Ends the load and the service: the lines of all files that are or were there."""
        self.load.end()
        self.open_all()
        self.service.kill()
        lines = self.service.lines()
        for file in self.files.values():
            file.seek(0)
            lines.update(whole_lines(file.read()))
            file.close()
        return lines


def mv(folder):
    os.rename(folder.path(), f"{folder.path()}.{folder.turn}")


def gzip(folder):
    subprocess.run(["gzip", "-S", f".{folder.turn}.gz", folder.path()], check=True, stderr=subprocess.DEVNULL)


def rm(folder):
    os.remove(folder.path())


def rm_folder(folder):
    """(the service may make a file amid it)"""
    while subprocess.run(["rm", "-r", folder.log], stderr=subprocess.DEVNULL, check=False).returncode:
        pass


def sed(folder):
    subprocess.run(["sed", "-i", '/"color0-0"/d', folder.path()], check=True)


def copytruncate(folder):
    """Of a log that has lines. What was told between the copy's last read and the cut may be gone."""
    paths = [os.path.join(folder.log, f"worker-{number}.log") for number in range(1, WORKERS + 1)]
    wait_until(lambda: any(map(os.path.getsize, paths)), "no log has lines")
    path, begun = max(paths, key=os.path.getsize), time.monotonic()
    shutil.copyfile(path, f"{path}.{folder.turn}")
    os.truncate(path, 0)
    folder.windows.append((begun, time.monotonic()))


def remount(folder):
    subprocess.run(["umount", "-l", folder.log], check=True)
    subprocess.run(["mount", "-t", "tmpfs", "-o", "size=256m,mode=700", "tmpfs", folder.log], check=True)


def services(folder):
    """Two start at once where one was ended. The load goes on with the one that serves."""
    folder.service.kill()
    started = []
    threads = [threading.Thread(target=lambda: started.append(folder.start())) for _ in range(2)]
    for thread in threads:
        thread.start()
    for thread in threads:
        thread.join()
    serving = [service for service in started if service.serves]
    refused = [service for service in started if not service.serves]
    assert len(serving) == 1, [service.first for service in started]
    folder.service = folder.load.service = serving[0]
    for service in refused:
        assert (service.first, service.child.wait(), service.child.stdout.read()) == ("refused log 2 InUse\n", 1, ""), service.first
        service.child.stdout.close()


ACTS = {"mv": mv, "gzip": gzip, "rm": rm, "rm-folder": rm_folder, "sed": sed, "copytruncate": copytruncate, "remount": remount, "services": services}

# How the report of it on the error output begins, and the reasons by which `/metrics` counts it. Any other act removes the file.
# (Between two file systems the folder below them is seen.)
MOVED = "a log was moved"
REPORTS = {"mv": [MOVED], "copytruncate": ["a log was cut"], "remount": [MOVED, "another file was put in the place of a log"]}
REASONS = {"mv": ["missing"], "copytruncate": ["shorter"], "remount": ["missing", "replaced"]}


def round_of(name, folder):
    """One act; then waits until the service has found it, and has all paths again."""
    folder.open_all()
    reasons = REASONS.get(name, ["removed"])
    (before, others), reported = folder.reopened(reasons), folder.service.reports()
    ACTS[name](folder)
    if name != "services":
        wait_until(lambda: folder.reopened(reasons)[0] > before, f"{name}: no log is opened anew")
        assert folder.reopened(reasons)[1] == others, f"{name}: {folder.service.metrics()}"
        parts = REPORTS.get(name, ["a log was removed"])
        wait_until(lambda: any(part in folder.service.reports()[len(reported) :] for part in parts), f"{name}: nothing is reported")
    for number in range(1, WORKERS + 1):
        path = os.path.join(folder.log, f"worker-{number}.log")
        wait_until(lambda: os.path.exists(path), f"{name}: {path} is not there again")


def tried(name, rounds, clients):
    """An act so many times: how many keys were told, and which of them are nowhere."""
    with tempfile.TemporaryDirectory() as top:
        if name == "remount":
            os.mkdir(os.path.join(top, "log"))
            subprocess.run(["mount", "-t", "tmpfs", "-o", "size=256m,mode=700", "tmpfs", os.path.join(top, "log")], check=True)
        try:
            folder = Folder(top, clients)
            for folder.turn in range(rounds):
                begun = len(folder.load.answered)
                wait_until(lambda: len(folder.load.answered) > begun + 20, f"{name}: the load does not go on")
                round_of(name, folder)
            lines = folder.end()
        finally:
            if name == "remount":
                subprocess.run(["umount", "-l", os.path.join(top, "log")], check=True)
        # (what was below the file systems: the service may look between two of them)
        lines |= folder.service.lines()
    lost = [each for each in folder.load.answered if line_for(each.key) not in lines]
    known = [each for each in lost if any(each.asked < last and first < each.answered for first, last in folder.windows)]
    print(
        f"{name}: {rounds} times, {len(folder.load.answered)} told, {len(lost) - len(known)} lost"
        + (f", {len(known)} gone between copy and cut" if folder.windows else "")
        + (f", other answers {folder.load.others}" if folder.load.others else ""),
        flush=True,
    )
    return len(lost) - len(known)


def main(rounds="20", clients="8", *names):
    return 1 if sum([tried(name, int(rounds), int(clients)) for name in names or ACTS]) else 0


if __name__ == "__main__":
    sys.exit(main(*sys.argv[1:]))
