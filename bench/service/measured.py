"""A process of the benchmarks, and what it has taken of the machine."""
import os


class Measured:
    """A process, `child`, that is ended with its block."""

    def __enter__(self):
        return self

    def __exit__(self, *_):
        self.child.kill()
        self.child.wait()
        self.child.stdout.close()

    def seconds(self):
        """The seconds of a processor that it has taken."""
        spent, tasks = 0, f"/proc/{self.child.pid}/task"
        for task in os.listdir(tasks):
            with open(f"{tasks}/{task}/schedstat", encoding="utf-8") as file:
                spent += int(file.read().split()[0])
        return spent / 1e9

    def megabytes(self, name="VmRSS"):
        """What it holds (`VmRSS`), or held at most (`VmHWM`)."""
        with open(f"/proc/{self.child.pid}/status", encoding="utf-8") as file:
            return next(int(line.split()[1]) for line in file if line.startswith(f"{name}:")) / 1024
