#!/bin/sh
# `flagops serve` with 64 followers, each in a process of its own, over the loopback: 16 documents, one published after the
# other. Every follower's last lines have to be those of the last snapshot. Then bytes a second that `flagops follow` reads of
# a stream of documents near the limit of 4 MiB, beside `flagops check` on the same documents.
#
# Needs python3, which makes the documents, starts the programs, and sends the second stream.

. "$(dirname -- "$0")/opening.sh"
python3 - "$here/flagops" "$folder" <<'PYTHON'
import json, os, socket, struct, subprocess, sys, threading, time

program, folder = sys.argv[1:]
FOLLOWERS, DOCUMENTS = 64, 16


def flag(number):
    return {"state": "ENABLED", "variants": {"on": True, "off": False}, "defaultVariant": "off", "targeting": {"fractional": [["on", number], ["off", 100]]}}


def free_port():
    with socket.socket() as probe:
        probe.bind(("127.0.0.1", 0))
        return probe.getsockname()[1]


def written(name, text):
    path = os.path.join(folder, name)
    with open(path, "w") as file:
        file.write(text)
    return path


def serve_all():
    """Each document has one flag of its own, so that the last snapshot has as many flags as there are documents."""
    paths = [written(f"{i}.json", json.dumps({"flags": {f"flag-{i}": flag(i)}})) for i in range(DOCUMENTS)]
    port = str(free_port())
    started = time.perf_counter()
    server = subprocess.Popen([program, "serve", port, str(FOLLOWERS), *paths], stdout=subprocess.PIPE, stderr=subprocess.PIPE, text=True)
    told = [server.stderr.readline()]
    followers = [subprocess.Popen([program, "follow", port, "1000"], stdout=subprocess.PIPE, text=True) for _ in range(FOLLOWERS)]
    reader = threading.Thread(target=lambda: told.extend(server.stderr))
    reader.start()
    wrong = 0
    for follower in followers:
        lines = follower.communicate()[0].splitlines()
        numbers = [int(line.split()[1]) for line in lines if line.startswith("snapshot ")]
        good = lines[-2:] == [f"snapshot {DOCUMENTS} flags {DOCUMENTS}", "ended"] and numbers == sorted(set(numbers)) and follower.returncode == 0
        wrong += not good
    printed = server.stdout.read()
    server.wait()
    reader.join()
    taken = (time.perf_counter() - started) * 1000
    gone = sum("has gone" in line for line in told)
    print(f"{FOLLOWERS} followers, {DOCUMENTS} documents: {FOLLOWERS - wrong} ended with the last snapshot, {gone} seen to go, {printed.strip()}, {taken:.0f} milliseconds")
    return wrong == 0 and printed == f"published {DOCUMENTS}\n" and server.returncode == 0 and gone == FOLLOWERS


def large_document():
    flags, size = {}, 0
    while size < 4_150_000 and len(flags) < 9_999:
        key = f"flag-{len(flags):05}-" + "k" * 300
        flags[key] = flag(len(flags) % 100)
        size += len(json.dumps({key: flags[key]}, separators=(",", ":")))
    return json.dumps({"flags": flags}, separators=(",", ":"))


def send(listener, frames):
    connection, _ = listener.accept()
    with connection:
        for frame in frames:
            connection.sendall(frame)


def read_all():
    text = large_document()
    path = written("large.json", text)
    document = text.encode()
    frames = [struct.pack(">IQ", 8 + len(document), number) + document for number in range(1, DOCUMENTS + 1)]
    total = sum(map(len, frames))
    listener = socket.create_server(("127.0.0.1", 0))
    sender = threading.Thread(target=send, args=(listener, frames))
    sender.start()
    started = time.perf_counter()
    report = subprocess.run([program, "follow", str(listener.getsockname()[1]), "1000000"], capture_output=True, text=True)
    followed = time.perf_counter() - started
    sender.join()
    started = time.perf_counter()
    for _ in range(DOCUMENTS):
        subprocess.run([program, "check", path], check=True, stdout=subprocess.DEVNULL)
    checked = time.perf_counter() - started
    print(f"a stream of {DOCUMENTS} documents of {len(document) / 1e6:.2f} MB: follow {total / followed / 1e6:.1f} MB a second, check {DOCUMENTS * len(document) / checked / 1e6:.1f}")
    return report.stdout.splitlines()[-1:] == ["ended"] and len(report.stdout.splitlines()) == DOCUMENTS + 1 and report.returncode == 0


served, read = serve_all(), read_all()
if not served or not read:
    sys.exit("a follower did not print what it was sent")
PYTHON
