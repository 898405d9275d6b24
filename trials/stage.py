#!/usr/bin/env python3
"""Stops `tape extract --stage` at every system call, at random instants and by power cuts, and continues.
Run manually; CI does not run it.

    ./stage.py [--program PATH] [--kills N] [--damages N] [--sets N] [--seed N]

First each allocation, opening, read, write, sync, new name and lock is refused in turn by calls.c, alone
and with all later ones of its kind: the result must be status 1 with one fault line, or what the report
says of an image that is not read; and the same command run again, with nothing refused, must complete the
file. A stage whose creation was interrupted is not a stage: its file must be removed, and then the command
completes the file. On a file system without locks nothing changes. A run whose stage is used by another
run is refused, and leaves the stage alone.
Then the program is killed at random instants, over many reels, until a run completes: what it writes must
be the whole file each time.
Then a stage is damaged, cut at any byte or with one of its bytes changed, and what `tape stage --damaged`
prints and writes is compared with a walk over its frames as FORMATS.md describes them.
Last, over sets of random records, the files are made that a power cut could leave at each moment of some
days, and each is continued: power.py defines what is right.
Prints a line for each wrong result and two tables; exit status 1 if there was one.
"""

import fcntl
import os
import random
import re
import subprocess
import sys
import time

import fail
import power
from common import arguments, folder_with, library

REELS = {"one.tap": fail.ONE, "two.tap": fail.TWO}
WORDS = ["extract", "ABC001", "1", "OUT"]
KEEP = ["--stage", "kept"]
FAULTS = r"tape: (run fault [14]|stage fault [347]|file fault [24]|image fault 6 at 0)\n"
# records on each of the reels on which the program is killed
RECORDS, MANY = 100_000, 20


def run(options, folder, images, preload=None, refusal=""):
    told = os.environ | ({"LD_PRELOAD": str(preload), "FAIL": refusal, "FAIL_COUNTS": str(folder / "counts")} if preload else {})
    return subprocess.run([options.program, *WORDS, *images, *KEEP], cwd=folder, env=told, stdin=subprocess.DEVNULL,
        capture_output=True, text=True, check=False)


def is_unmade(folder, done):
    """Whether the creation of the stage was interrupted; if so, its file is removed."""
    kept = folder / "kept"
    unmade = done.stderr == "tape: stage fault 1\n" and kept.stat().st_size <= 256
    if unmade:
        kept.unlink()
    return unmade


def wrong_refusal(options, preload, refusal):
    """The fault after a refused call, if there is one, and the number of calls of each kind."""
    with folder_with(REELS) as folder:
        done = run(options, folder, REELS, preload, refusal)
        counts = [int(count) for count in (folder / "counts").read_text().split()]
        if done.returncode == 1 and done.stderr and not re.fullmatch(FAULTS, done.stderr):
            return f"the fault line {done.stderr!r}", counts
        if done.returncode not in (0, 1, 3) or (done.returncode == 0 and (folder / "OUT").read_bytes() != fail.LINES):
            return f"status {done.returncode}", counts
        again = run(options, folder, REELS)
        if is_unmade(folder, again) and done.stderr in ("", "tape: stage fault 3\n"):
            again = run(options, folder, REELS)
        if again.returncode != 0 or (folder / "OUT").read_bytes() != fail.LINES:
            return f"the run after it: status {again.returncode}, {again.stderr!r}, {again.stdout!r}", counts
        return None, counts


def wrong_locks(options, preload):
    """The fault without locks, and if another run uses the stage."""
    with folder_with(REELS) as folder:
        with open(folder / "kept", "wb") as held:
            fcntl.flock(held, fcntl.LOCK_EX)
            done = run(options, folder, REELS)
            if (done.returncode, done.stdout, done.stderr) != (1, "", "tape: stage fault 7\n") or os.fstat(held.fileno()).st_size:
                return f"two runs on one stage: status {done.returncode}, {done.stderr!r}"
            unlocked = run(options, folder, REELS, preload, "u")
        if unlocked.returncode != 0 or (folder / "OUT").read_bytes() != fail.LINES:
            return f"no locks: status {unlocked.returncode}, {unlocked.stderr!r}"
        return None


def refuse_each(options):
    """The numbers of runs and of wrong results."""
    runs, wrong = 0, 0
    with folder_with() as folder:
        preload = library(folder)
        why, counts = wrong_refusal(options, preload, "")
        if why:
            sys.exit(f"with nothing refused: {why}")
        why = wrong_locks(options, preload)
        if why:
            wrong += 1
            print(why)
        for kind, count in zip(fail.KINDS, counts):
            for refusal in (f"{kind}{n}{behind}" for n in range(1, count + 1) for behind in ("", "+")):
                why, _ = wrong_refusal(options, preload, refusal)
                runs += 1
                if why:
                    wrong += 1
                    print(f"{refusal}: {why}")
    return counts, runs, wrong


def many_reels(folder):
    """A file on many reels, each with one section; returns their names and the lines of the file."""
    lines = []
    for n in range(MANY):
        numbers = [i % 10_000 for i in range(n * RECORDS, (n + 1) * RECORDS)]
        (folder / f"reel{n}.tap").write_bytes(fail.volume(n + 1, n == MANY - 1, numbers))
        lines.append(b"".join(b"%04d" % i + b" " * 76 + b"\n" for i in numbers))
    return [f"reel{n}.tap" for n in range(MANY)], b"".join(lines)


def kill_at_random(options):
    """The numbers of killed runs, of completed files, and of wrong files."""
    killed = completed = wrong = 0
    with folder_with() as folder:
        names, lines = many_reels(folder)
        began = time.monotonic()
        run(options, folder, names)
        longest = time.monotonic() - began
        while killed < options.kills:
            # a temporary file of OUT remains if a run was killed
            for path in (*folder.glob("OUT*"), folder / "kept"):
                path.unlink(missing_ok=True)
            left = random.randint(1, 12)
            while True:
                process = subprocess.Popen([options.program, *WORDS, *names, *KEEP], cwd=folder, stdin=subprocess.DEVNULL,
                    stdout=subprocess.DEVNULL, stderr=subprocess.PIPE, text=True)
                try:
                    _, told = process.communicate(timeout=random.uniform(0, longest) if left else None)
                    process.stderr = told
                    if is_unmade(folder, process):
                        continue
                    break
                except subprocess.TimeoutExpired:
                    process.kill()
                    process.communicate()
                    killed, left = killed + 1, left - 1
            completed += 1
            if process.returncode != 0 or (folder / "OUT").read_bytes() != lines:
                wrong += 1
                print(f"after kills: status {process.returncode}, {told!r}")
    return killed, completed, wrong


def damaged_at_random(kept):
    """A stage truncated at a byte after its slots, or with one of these bytes changed."""
    place = random.randrange(256, len(kept))
    if random.random() < 0.3:
        return kept[:place]
    if random.random() < 0.7:
        # in the header of a frame; each has 85 bytes
        place = 256 + 85 * random.randrange((len(kept) - 256) // 85) + random.randrange(5)
    return kept[:place] + bytes([random.randrange(256)]) + kept[place + 1:]


def walked(bytes_, staged):
    """The parts before the first offset without a frame, and that offset, by FORMATS.md."""
    parts, place, end = [], 256, 256 + staged
    while place < end:
        length = int.from_bytes(bytes_[place + 1:place + 5], "big")
        if bytes_[place:place + 1] not in (b"0", b"1", b"2", b"3") or length > 99_999 or place + 5 + length > min(end, len(bytes_)):
            return parts, place
        parts.append((bytes_[place:place + 1], bytes_[place + 5:place + 5 + length]))
        place += 5 + length
    return parts, None


def joined(parts):
    """The records of parts: a record ends with each part that is whole or last."""
    records, begun = [], b""
    for span, content in parts:
        begun += content
        if span in (b"0", b"3"):
            records.append(begun)
            begun = b""
    return records


def damage_stages(options):
    """The numbers of damaged stages shown and of wrong results."""
    wrong = 0
    kept = fail.stage_of(options.program)
    with folder_with() as folder:
        for number in range(options.damages):
            damaged = damaged_at_random(kept)
            parts, broken = walked(damaged, len(kept) - 256)
            records = joined(parts)
            (folder / "torn").write_bytes(damaged)
            (folder / "OUT").unlink(missing_ok=True)
            done = subprocess.run([options.program, "stage", "--damaged", "torn", "OUT"], cwd=folder, capture_output=True,
                text=True, check=False)
            told = f"STAGE ABC001 1 {len(records)}\n" + ("AWAITS" if broken is None else f"TRUNCATED AT {broken}\n")
            lines = b"".join(record + b"\n" for record in records)
            if done.returncode != 3 or not done.stdout.startswith(told) or (folder / "OUT").read_bytes() != lines:
                wrong += 1
                print(f"a damaged stage, {number}: status {done.returncode}, {done.stdout!r}, {done.stderr!r}")
            elif (folder / "torn").read_bytes() != damaged:
                wrong += 1
                print(f"a damaged stage, {number}: it is another")
    return options.damages, wrong


def cut_the_power(options):
    """The rows of a table, one for each set, and the number of wrong results."""
    rows, wrong = [], 0
    # the disk is that of power.py: a real disk would only add the time of its syncs
    memory = "/dev/shm" if os.access("/dev/shm", os.W_OK) else None
    with folder_with(place=memory) as place:
        preload = library(place)
        for number in range(options.sets):
            rng = random.Random(f"{options.seed} {number}")
            folder = place / f"set{number}"
            folder.mkdir()
            trial = power.Trial(options, preload, folder, power.make_plan(options, folder, rng, number), rng)
            trial.live()
            wrong += trial.wrong
            rows.append(f"| {trial.plan.name} | {len(trial.plan.days)} | {trial.states} | {len(trial.judged)} | {trial.unmade} | {trial.wrong} |")
            print(rows[-1], file=sys.stderr, flush=True)
    return rows, wrong


def main():
    options = arguments(__doc__, ("--kills", 300, "how often the program is killed"),
        ("--damages", 1_000, "how many damaged stages are shown"), ("--sets", 12, "over how many sets the power is cut"),
        ("--seed", 1, "of the random instants, sets and cuts"))
    random.seed(options.seed)
    counts, runs, wrong = refuse_each(options)
    killed, completed, torn = kill_at_random(options)
    damages, mistold = damage_stages(options)
    rows, lost = cut_the_power(options)
    print("| Allocations | Openings | Reads | Writes | Syncs | New names | Locks | Refused runs | Wrong | Kills | Files completed | Wrong | Damaged stages | Wrong |")
    print("|---|---|---|---|---|---|---|---|---|---|---|---|---|---|")
    print("| " + " | ".join(str(n) for n in [*counts[:7], runs, wrong, killed, completed, torn, damages, mistold]) + " |\n")
    print("| Set | Days | Power cuts | Different files | Before the stage was made | Wrong |")
    print("|---|---|---|---|---|---|")
    print("\n".join(rows))
    return wrong + torn + mistold + lost != 0


if __name__ == "__main__":
    sys.exit(main())
