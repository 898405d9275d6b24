"""The records that calls.c wrote during a run, and conclusions about the run's output. For power.py."""

import re
import struct


def notes(path):
    """The records of calls.c."""
    log, at, found = path.read_bytes() if path.exists() else b"", 0, []
    while at < len(log):
        place, length = struct.unpack("<QQ", log[at + 1:at + 17])
        found.append((log[at:at + 1], place, log[at + 17:at + 17 + length]))
        at += 17 + length
    return found


def told_by(line):
    """The position in a last line of `extract`, or None."""
    words = line.split()
    if words[:1] == [b"COMPLETE"]:
        return "whole"
    return (int(words[2]), int(words[3]), int(words[4]) if len(words) > 4 else 0) if words[:1] == [b"AWAITS"] else None


def is_misnamed(log):
    """Whether OUT got its name before its bytes were durable, or COMPLETE was printed before the name was durable."""
    early = any(letter == b"N" and place for letter, place, _ in log)
    told = [letter == b"P" and "whole" in map(told_by, data.splitlines()) for letter, _, data in log]
    row = b"".join(b"C" if complete else letter for complete, (letter, _, _) in zip(told, log))
    return early or (b"C" in row and not re.match(b".*N.*D.*C", row))
