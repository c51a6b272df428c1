"""Asks a running flagd over OFREP what `flagops drive` is asked, and tells where the two differ.

compare_flagd.py [--url URL] [--program PROGRAM] [--show N] [--reasons] DOC ASKS

Compared is what a client would get: the value, and the name of the variant. Where flagd answers with an error or without a
value, that is the ask's default and no variant; and so it is where the value is of another kind than was asked for. With
--reasons the reason and the error code have to agree too. A line for each flag that is asked for, and below it the first N
asks that differ; the last line counts them. The status is 0 where none differs, 1 where one does, and 2 where it can't be told.
"""
import argparse
import http.client
import json
import os
import subprocess
import sys
import tempfile
import urllib.parse
from typing import NamedTuple

SHIPPED = os.path.join(os.path.dirname(os.path.dirname(os.path.abspath(__file__))), "release", "x86_64-linux", "flagops")
ERRORS = (OSError, http.client.HTTPException, AttributeError, LookupError, TypeError, ValueError)


class Answer(NamedTuple):
    """What a client gets for an ask."""

    value: object
    variant: object
    reason: object
    code: object

    def got(self, reasons):
        """What is compared, as a text, so that true and 1 differ."""
        return json.dumps(self if reasons else self[:2], sort_keys=True)

    def __str__(self):
        return " ".join(json.dumps(part, ensure_ascii=False) for part in self)


KINDS = {bool: "bool", str: "text", int: "whole", dict: "object"}


def number(text):
    """A number that is spelled with a fraction or an exponent; where it is whole, it is one."""
    value = float(text)
    return int(value) if value.is_integer() else value


class Flagd:
    """A flagd that answers OFREP at an address."""

    def __init__(self, url):
        parts = urllib.parse.urlsplit(url)
        if parts.scheme not in ("http", "https") or not parts.hostname:
            raise ValueError(f"{url} is no address as http://host:port")
        self.path = parts.path.rstrip("/") + "/ofrep/v1/evaluate/flags/"
        connection = http.client.HTTPSConnection if parts.scheme == "https" else http.client.HTTPConnection
        self.connection = connection(parts.hostname, parts.port, timeout=30)

    def reply(self, ask):
        """The object that it replies to an ask, and the status; other replies are errors of these calls."""
        body = json.dumps({"context": ask["context"]})
        path = self.path + urllib.parse.quote(ask["key"], safe="")
        self.connection.request("POST", path, body, {"Content-Type": "application/json"})
        with self.connection.getresponse() as response:
            text = response.read()
        if response.status not in (200, 400, 404):
            raise ValueError(f"flagd replies {response.status} to {path}")
        return json.loads(text, parse_float=number), response.status

    def answer(self, ask):
        """What a client gets of it."""
        reply, status = self.reply(ask)
        if status != 200:
            return Answer(ask["default"], None, "ERROR", reply.get("errorCode"))
        variant = reply.get("variant") or None
        if reply.get("value") is None:
            return Answer(ask["default"], variant, reply.get("reason"), None)
        if KINDS.get(type(reply["value"])) != ask["want"]:
            return Answer(ask["default"], None, "ERROR", "TYPE_MISMATCH")
        return Answer(reply["value"], variant, reply.get("reason"), None)


def driven(program, document, asks, count):
    """What `drive` answers to the asks of a file."""
    with tempfile.TemporaryDirectory() as folder:
        words = [program, "drive", document, asks, "1", os.path.join(folder, "book")]
        ran = subprocess.run(words, stdout=subprocess.PIPE, stderr=subprocess.PIPE, encoding="utf-8", check=False)
    if ran.returncode:
        sys.stderr.write(ran.stderr)
        raise ValueError(ran.stdout.strip() or f"{program} ended with status {ran.returncode}")
    resolutions = [json.loads(line) for line in ran.stdout.split("\n")[:count]]
    return [Answer(*(resolution[name] for name in Answer._fields)) for resolution in resolutions]


def differences(asks, answers, flagd, reasons):
    """For each flag how many asks there are, and the places of those that differ with both answers."""
    flags = {}
    for place, (ask, ours) in enumerate(zip(asks, answers)):
        counted, found = flags.setdefault(ask["key"], ([], []))
        counted.append(place)
        theirs = flagd.answer(ask)
        if theirs.got(reasons) != ours.got(reasons):
            found.append((place, theirs, ours))
    return flags


def tell(flags, show):
    """The lines of each flag, and the sum; whether an ask differs."""
    for key, (counted, found) in sorted(flags.items()):
        print(f"{json.dumps(key, ensure_ascii=False)} {len(counted)} asks, {len(found)} differ")
        for place, theirs, ours in found[:show]:
            print(f"  ask {place}\n    flagd   {theirs}\n    flagops {ours}")
    different = sum(len(found) for _, found in flags.values())
    print(f"{sum(len(counted) for counted, _ in flags.values())} asks, {different} differ")
    return different > 0


def main():
    words = argparse.ArgumentParser(description="Compares a running flagd with `flagops drive` on the asks of a file.")
    words.add_argument("--url", default="http://localhost:8016", help="where flagd answers OFREP (%(default)s)")
    words.add_argument("--program", default=SHIPPED, help="the program flagops")
    words.add_argument("--show", type=int, default=3, metavar="N", help="show so many differences of each flag (%(default)s)")
    words.add_argument("--reasons", action="store_true", help="compare reasons and error codes too")
    words.add_argument("document", metavar="DOC", help="the flag document that flagd serves")
    words.add_argument("asks", metavar="ASKS", help="the file of asks")
    given = words.parse_args()
    try:
        with open(given.asks, encoding="utf-8") as file:
            asks = json.load(file)
        answers = driven(given.program, given.document, given.asks, len(asks))
        return tell(differences(asks, answers, Flagd(given.url), given.reasons), given.show)
    except ERRORS as fault:
        print(f"compare_flagd: {fault}", file=sys.stderr)
        return 2


if __name__ == "__main__":
    sys.exit(main())
