"""The logs on a file system that fills up: each key that a client was told a variant for stands in the logs, and the others got 500;
once there is room they are answered again. It needs the right to mount a tmpfs. Usage: full.py FOLDER_OF_A_SMALL_FILE_SYSTEM"""
import json
import os
import sys
import tempfile

from service import Service, ask, line_for

LOG, FILLER = sys.argv[1] + "/log", sys.argv[1] + "/filler"
with open(FILLER, "wb") as file:
    file.write(bytes(500_000))
with tempfile.TemporaryDirectory() as folder:
    service = Service(folder, LOG, "--workers", "2")
    connection = service.connect()
    told, refused = [], 0
    for number in range(200_000):
        key = f"user-{number}-" + "x" * 500
        status = ask(connection, key)
        if status == 200:
            told.append(key)
        else:
            assert status == 500, status
            refused += 1
            if refused == 100:
                break
    os.remove(FILLER)
    again = [f"later-{number}" for number in range(100)]
    assert [ask(connection, key) for key in again] == [200] * len(again)
    told += again
    lines = service.lines()
    lost = [key for key in told if line_for(key) not in lines]
    service.kill()
    print(json.dumps({"told": len(told), "refused": refused, "lines": len(lines), "lost": len(lost)}))
    assert not lost and refused
