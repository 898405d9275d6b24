#!/usr/bin/env python3
"""Copies of the volumes of a set in which parts of an image are overwritten, removed or put in, so that length words are wrong
or lost, and what is recovered from them.

    trials/wrong_words.py [--program PROGRAM] [--shelves N] [--seed N]

Each set has one to four files in formats F, D, S and U, on one or more volumes; the labels of some sets are in EBCDIC, have
padding, or have no file numbers or block counts. Of each volume there are one to three copies. At least one of them has up to three damaged places, which contain words; others have unreadable blocks, are cut off or intact. A
shelf on which a damage cannot be noticed, since all words are right, is left out. The images are read by `survey`, `unpack` with
and without `--salvage`, `extract --again` and `salvage`, each also after `convert --resync` of the damaged ones, and merged with
other copies. No file that is reported as complete may be wrong.

Prints each wrong file with the seed of its shelf, and counts; exit status 1 if there is one.
"""
import random
import subprocess
import sys

import reels
from common import Results, arguments, folder_with
from make_worked_image import block, word

SET = "WORDS1"


def file_of(rng, number):
    """A file in format F, D, S or U."""
    if rng.random() < .75:
        return reels.file_of(rng, number, " 85100")
    length = rng.choice([80, 400])
    records = [bytes(rng.choices(b"ABCDEFGHIJ 0123456789", k=rng.randint(18, length))) for _ in range(rng.randint(1, 30))]
    made = reels.File(number, rng.choice(reels.NAMES), ("U", length, 0), " 85100")
    made.text = b"".join(record + b"\n" for record in records)
    made.blocks = records
    return made


def recoded(way, item):
    """An item with its label in EBCDIC, with padding, or without a number or a block count."""
    if item.kind in ("mark", "data"):
        return item
    label = item.spelling[4:84]
    if way == "EBCDIC":
        label = label.decode("ascii").encode("cp037")
    elif way == "padding":
        label += bytes(16)
    elif way == "no numbers" and item.kind in ("header", "trailer"):
        label = label[:31] + b"    " + label[35:]
    elif way == "no counts" and item.kind in ("header", "trailer"):
        label = label[:54] + b"      " + label[60:]
    return reels.Item(block(label), item.kind, item.file, item.section, item.number)


def damaged(rng, items, faults):
    """An image with damaged places, each of which contains bytes of a word. None if a block is changed between words that are
    right."""
    image, words, at = bytearray(b"".join(item.spelling for item in items) + word(0xFFFFFFFF)), [], 0
    for item in items:
        words += [at, at + len(item.spelling) - 4]
        at += len(item.spelling)
    origin = [*range(len(image))]
    # From the last to the first, so that the words before a place are where they were.
    for place in sorted((rng.choice(words) + rng.randrange(4) for _ in range(rng.randint(1, 3))), reverse=True):
        before = rng.choice([0, 0, 1, 2, 4, 40, 300, 2000])
        size = before + rng.choice([1, 1, 2, 4, 4, 8, 40, 300, 512, 2000, 5000])
        start = min(max(0, place - before), len(image))
        if rng.random() < .2:
            start -= start % 512
        end = max(start, min(len(image), max(start + size, place + 1)))
        how = rng.choice(["zeros", "ones", "noise", "other", "remove", "put in", "flip"])
        new = {"ones": b"\xFF" * (end - start), "noise": rng.randbytes(end - start), "remove": b""}.get(how, bytes(end - start))
        if how == "other":
            away = rng.randrange(max(1, len(image) - (end - start)))
            new = image[away:away + end - start]
        if how == "put in":
            end, new = start, rng.choice([new, rng.randbytes(len(new))])
        if how == "flip":
            start, end = place, min(place + 1, len(image))
            new = bytes(byte ^ 1 << rng.randrange(8) for byte in image[start:end])
        image[start:end], origin[start:end] = new, [-1] * len(new)
        faults.append(f"{how} {start}+{max(end - start, len(new))}")
    at, places = 0, {place: now for now, place in enumerate(origin)}
    for item in items:
        begin, end = places.get(at, -1), places.get(at + len(item.spelling) - 1, -1) + 1
        at += len(item.spelling)
        whole = image[begin:end]
        if begin >= 0 and end - begin == len(item.spelling) and whole[:4] == whole[-4:] and whole != item.spelling:
            return None
    return bytes(image)


def readable(image):
    """The items of an image up to its end or a wrong word, each a block or None, and whether a word is wrong."""
    at, found = 0, []
    while at + 4 <= len(image):
        lead = int.from_bytes(image[at:at + 4], "little")
        length = lead & 0xFFFFFF
        if lead in (0, 0xFFFFFFFE):
            found += [b"mark"] if lead == 0 else []
            at += 4
            continue
        if lead == 0xFFFFFFFF:
            return found, False
        end = at + 8 + length + length % 2
        if lead & 0x7F000000 or not length or end > len(image) or image[end - 4:end] != image[at:at + 4]:
            return found, True
        found.append(image[at + 4:at + 4 + length] if lead < 0x80000000 else b"bad")
        at = end
    return found, at < len(image)


def is_noticed(image, items):
    """Whether the items before the first wrong word are those of the volume, and one is wrong."""
    found, is_wrong = readable(image)
    true = [b"mark" if item.kind == "mark" else item.spelling[4:4 + int.from_bytes(item.spelling[:4], "little")] for item in items]
    return is_wrong and all(one in (two, b"bad") for one, two in zip(found, true)) and len(found) <= len(true)


def shelf(rng):
    """The files, the images, and what was done to each. None if a damage is not noticed."""
    files = [file_of(rng, number) for number in range(1, rng.randint(2, 5))]
    volumes = reels.volumes_of(SET, files, rng, "WV")
    coded = rng.choice(["", "", "EBCDIC", "padding", "no counts", "no numbers" if len(volumes) == 1 else ""])
    volumes = [[recoded(coded, item) for item in items] for items in volumes]
    images, told = {}, [coded]
    for number, items in enumerate(volumes):
        ways = ["words", *(rng.choice(["words", "words", "bad", "cut", "whole"]) for _ in range(rng.randint(0, 2)))]
        for way in ways if rng.random() < .8 else ["whole"]:
            reel, faults = reels.Reel("", SET, items), []
            data = [at for at, item in enumerate(items) if item.kind == "data"]
            if way == "bad" or rng.random() < .2:
                reel.bad = {at for at in data if rng.random() < rng.choice([.1, .5])}
            if way == "cut":
                reel.cut = rng.randrange(40, sum(len(item.spelling) for item in items))
            image = reel.image()
            if way == "words":
                spelled, at = [], 0
                for place, item in enumerate(items):
                    spelled.append(reels.Item(image[at:at + len(item.spelling)], item.kind))
                    at += len(item.spelling)
                image = damaged(rng, spelled, faults)
                if image is None or not is_noticed(image, items):
                    return None
            name = f"v{number}c{len(images)}.tap"
            images[name] = image
            told.append(f"{name} {way} {faults}")
    return files, images, told


def check(trial, program, number):
    rng = random.Random(number)
    drawn = shelf(rng)
    if drawn is None:
        return 0
    files, images, told = drawn
    names = rng.sample(sorted(images), len(images))
    complete = 0
    with folder_with(images) as folder:
        def call(*words):
            done = subprocess.run([program, *words], cwd=folder, capture_output=True, check=False)
            trial.expect(done.returncode in (0, 1, 3), f"shelf {number}: {words}: status {done.returncode} {done.stderr[-300:]}")
            return done

        def right(path, file, words):
            nonlocal complete
            complete += 1
            is_right = (folder / path).read_bytes() == file.text
            trial.expect(is_right, f"shelf {number}: {told}\n  {words}: {path} is complete and wrong")

        def unpacked(into, options, shown):
            (folder / into).mkdir()
            call("unpack", into, *shown, *options)
            for path in sorted((folder / into).iterdir()):
                parts = path.name.split(".")
                if path.suffix not in (".stage", ".salvaged", ".gaps") and path.name[:8] != "MANIFEST":
                    right(f"{into}/{path.name}", files[int(parts[1]) - 1], (into, options, shown))
            if "--manifest" in options:
                call("unpack", "--verify", into)

        def read_all(into, shown):
            call("survey", *shown)
            unpacked(f"{into}u", ("--manifest",), shown)
            unpacked(f"{into}w", ("--salvage", "--manifest"), shown)
            for file in files:
                for words in (("extract", "--again"), ("salvage",)):
                    out = f"{into}{words[0]}{file.number}"
                    done = call(words[0], SET, str(file.number), out, *shown, *words[1:])
                    if b"\nCOMPLETE" in b"\n" + done.stdout and (folder / out).exists():
                        right(out, file, (words, shown))

        read_all("a", names)
        parts = {}
        for name in names:
            out = f"r-{name}"
            done = call("convert", "--resync", out, name)
            if done.returncode in (0, 3):
                parts[name] = sorted(path.name for path in folder.glob(f"r-{name[:-4]}*.tap"))
        further = [part for name in names for part in parts.get(name, [name])]
        if further != names:
            read_all("b", further)
        for name in names:
            others = [other for other in names if other[:2] == name[:2] and other != name]
            for part in parts.get(name, []):
                for other in others:
                    done = call("merge", f"m{part}{other}", part, other)
                    if done.returncode in (0, 3):
                        unpacked(f"d{part}{other}", (), [f"m{part}{other}"])
    return complete


def main():
    options = arguments(__doc__, ("--shelves", 1000, "how many"), ("--seed", 1, "of the first shelf"))
    trial, complete = Results(), 0
    for number in range(options.seed, options.seed + options.shelves):
        complete += check(trial, options.program, number)
    print(f"{complete} files were reported as complete")
    return trial.end()


if __name__ == "__main__":
    sys.exit(main())
