#!/usr/bin/env python3
"""Writes the list of definitions in docs/DEFINITIONS.md from the definitions themselves.

READ names the definitions that have to be believed for the headline, in reading order. The list has
their files in crates/NAME/specs/; the comments are in the files. The rest of the page is written by
hand and stays.

    docs/definitions.py           writes the list
    docs/definitions.py --check   says if the list is out of date, with status 1
    docs/definitions.py --main    prints the list with the main definitions of each file
    docs/definitions.py --tied    prints which definitions need no belief (TIED)
    docs/definitions.py CALL      prints which files to read for the statement of another call (MORE)

The first two also report names of READ, MORE, TIED, of the text written by hand, and of files in a
list of ARCHITECTURE.md, that do not exist (status 1).
"""
import collections
import os
import re
import sys

TOP = os.path.dirname(os.path.dirname(os.path.abspath(__file__)))
PAGE = os.path.join(TOP, "docs", "DEFINITIONS.md")
PLACE = re.compile(r"(<!-- written by docs/definitions.py -->\n).*?(<!-- end -->\n)", re.S)
DEFINED = re.compile(r"(?:(?:abbrev|unfoldable) )?pub (record |data )?([^\s:]+)")

# Definitions of the standard library that the page names.
OF_STD = {"Appends", "Keeps", "Consumes", "IsAtEnd"}

# Pages with lists of files in specs/, and a text above each list.
LISTS = [("ARCHITECTURE.md", "## Where to change what")]

# Files and definitions of each crate that need no belief, since contracts and laws tie them to the others; all
# others do, if a statement uses them.
TIED = {
    "tape_image":
        "Laws, FormatLaws, Examples, Device, Front, FormatState; State and Standing except "
        "`status_of` and `standing_of`",
    "tape_label":
        "`number_of`, `kind_at`, `kind_named`, `is_volume_label`; Reading and Labels except "
        "`begins_as`, `IsLabel` and the order of faults",
    "tape_blocks":
        "Units, Packed; Judged and Parts except `begun_behind` and `view`; Cases",
    "tape_set":
        "Laws",
    "tape_writer":
        "`trailer_items`, `StaysAsked`, `IsOfOut`, `Stops`, `Opens`",
    "tape_core":
        "Follows between its headings on the file and on a step, except `IsReading`; Table resembles "
        "code, but has to be believed",
    "tape_run":
        "Steps and Runs follow for `headline` and `stopped`; Made, Puts, Taking; `kept` (Noted), "
        "`stop_at` (Added), `greatest` (Lacks), `blocks_of` (Passing)",
    "tape_stage":
        "Laws, `SameContent` and `DidCall` (Memory), the cases",
}

# Of a file all definitions count, and --main prints these.
Main = collections.namedtuple("Main", "names")

# Of a file these count.
Names = collections.namedtuple("Names", "names")

# What to read, in order: a heading, and files of a crate, each with the names that count or are main.
READ = [
    ("What items bytes begin with", "tape_image", {
        "Tape": Main(["TapeItem"]), "Word": Main(["block_len"]),
        "Spelling": Main(["item_of", "IsFramed", "Leads", "Spells"]),
        "Begins": Main(["Stop", "Begins"])}),
    ("Which characters a label has where", "tape_label", {
        "Positions": Main([]), "Digits": Names(["digits"]), "Formats": Main(["is_standard"]),
        "Kinds": Main(["HasKind"]), "VolumeLabels": Names(["IsOfVolume"]),
        "Head1": Main(["HasHead"]), "Head2": Main(["IsHead2"]), "Trail1": Main([]),
        "Reading": Names(["begins_as"])}),
    ("Which parts a block has, in which order", "tape_blocks", {
        "Block": Main(["Portion", "HoldsUnits", "Holds"]),
        "Spans": Main(["InOrder", "join"]),
        "Tight": Names(["Filled", "parts_of_all", "Chain"])}),
    ("What is on a volume, and which sets are valid", "tape_set", {
        "Layout": Main(["FileSet", "entries_on", "up_to_data", "items"]),
        "Lawful": Main(["IsTrailer", "FileForm", "HasForm", "IsFile", "GoesOn", "IsLawful"])}),
    ("Positions, and how far one reading gets", "tape_set", {
        "Position": Main(["awaiting", "at_part", "IsBefore"]),
        "Before": Main(["parts_before"]),
        "Reading": Main(["Reading", "IsReadingOf", "as_read"]),
        "Reach": Main(["passes", "good_run", "far", "far_over"])}),
    ("Which reels are not of the set", "tape_core",
     {"Foreign": ["is_of_set", "labels_of_set", "is_vol1", "starts_set"]}),
    ("What happened, and where it leads", "tape_run", {
        "Mount": Main(["IsCopy", "IsMount", "after_mount"]),
        "History": Main(["Course", "at_note", "course", "IsHistory"]), "Given": Main(["IsGiven"]),
        "Seen": ["Seen"], "Headline": Names(["begins", "IsRead"])}),
    ("What is in memory", "tape_core",
     {"Memory": Names(["portions"]), "Entries": Main(["IsLaid"])}),
    ("For any tape: the reading table", "tape_core", {
        "Table": Main(["Outcome", "step_of", "restart_of"]),
        "Labels": Main([]), "Parts": Main(["parts_in", "other_front"]),
        "Stands": ["weight_of"], "Weight": ["IsFront"], "Place": Names(["rest_of"])}),
    ("For any tape: what the table delivers from a list of reels", "tape_run", {
        "Reels": Names(["behind_items"]), "ByTable": Main(["parts_at", "IsLed"]),
        "Lead": Main(["Lead", "lead", "LeadsBy", "StopsBy"])}),
]

# What to read for another statement than the headline: its calls, and files of crates/NAME/specs/.
MORE = {
    "run":
        "SessionState, the rest of Seen and of Headline, Back; of `tape_core` State, Point, Known, "
        "Place, Stands and Follows up to `IsAt`; for `runs`, `faults`, `cause` and `crash` also "
        "Steps, Reels, Runs, Causes and Crash of `tape_run`, and Crash of `tape_core`",
    "Stage":
        "of `tape_stage` Disk, Moments, Body, Parts, Staged, Stages: some 270 lines without Disk; "
        "Crash of `tape_core`; `longest_block` (Packing) of `tape_blocks`; for the texts of "
        "checkpoints also Fields and Reading, and Point, Known and Range of `tape_core`; for refusals "
        "Faults, Found and Salvaged",
    "extract_to, extract_in_passes, extract_streaming, extract_watched":
        "those of `run`, with all its clauses; of `tape_image` Step; of `tape_run` ReelLine, "
        "RecordText, OutSinks, Reeling, Stopping, Rounds, Extracting",
    "extract_located":
        "those of `extract_streaming`; of `tape_core` Behind; of `tape_run` `same_key` (Noted), "
        "`key_at` (Lacks), `Located` (SurveyLocations), ExtractingLocated",
    "write_set":
        "of `tape_set` Sizes and Tight, of `tape_label` Written, of `tape_blocks` Packing and Tight, "
        "of `tape_image` Writer and Written; of `tape_writer` Tapes, Images, Labels, Told, Records, "
        "ToldFiles, WriteSet",
    "refusals":
        "of `tape_writer` Refusals, WriteFaults, Faults, State, Draft, Inside, Front, LeftOf, Fields, "
        "Characters and Widths of `tape_label`, and Run and `AreRecordsOf` (Records) of `tape_blocks`",
    "list_to, list_places_to":
        "of `tape_image` Step; of `tape_run` Identifier, ListLine, Listing, Listed; for "
        "`list_places_to` also Placed",
    "tape_items, tape_label, tape_list, tape_survey":
        "of `tape_c` Items, Fields, Lists, Surveyed, Ends; of `tape_image` Step; of `tape_label` "
        "Reading, Labels; what `list_to` and `survey_to` need",
    "open_session":
        "those of the stage, for refusals too; Text of `tape_stage`, and Written of `tape_label`; of "
        "`tape_core` State, Place, Stands and Follows up to `IsAt`; of `tape_run` SessionState, Seen, "
        "`IsNew` and `IsStart` (Headline), `IsResumed` (CrashRuns); of `tape_tool` Staging",
    "show_stage":
        "those of the stage except Disk and Stages, for refusals too; OnlyReading of `tape_stage`; of "
        "`tape_run` Identifier, RecordText, ReelLine; of `tape_tool` StageReport",
    "check_to":
        "of `tape_image` Step; of `tape_label` Vol1; of `tape_run` Identifier, Shown, Noted, Added, "
        "Passing, Lacks, CheckLine, Reeling, Checked; for `whole_sets_are_told` WholeSet and "
        "WholeReels",
    "survey_to, survey_laws":
        "those of `check_to`; of `tape_run` WidePassing, Onward, WideShown, Quoting, SurveyGaps, "
        "SurveyGlance, SurveyFiles, SurveyDigest, SurveyCopies, SurveyWhole, SurveyRead, SurveyLine, "
        "SurveyLocations, Dates, SurveyProblems, SurveyChain, SurveySets, SurveyCompared, SurveyRows, "
        "SurveyConflicts, SurveySound, Survey, SurveyLaws",
    "find_files":
        "of `tape_image` Step; of `tape_run` Noted, Added, Passing, Lacks, `Mounting` (Reeling), "
        "`Reel` (Checked), SurveyGlance, SurveyFiles, SurveyDigest, SurveyCopies, SurveyWhole, "
        "SurveyRead, SurveyLocations, Unpacking; for the other calls of `unpack` also ReadingOrder, "
        "UnpackLine, UnpackChoice, UnpackTally, UnpackLaws",
    "merge_items, merge_to, merge_now":
        "of `tape_image` Reader, Step, Calls, Writer, Written; of `tape_run` Passing, Merging, "
        "MergeSteps, MergeCalls, MergedImages, MergeLines, MergeLog, `TakesAs` (MergeLaws); for "
        "`merge_now` also `stop_at` (Added), `stop_text` (CheckLine), Quoting, Reeling, MergeNow",
    "merge_laws":
        "of `tape_image` Reader, Step, Calls; of `tape_run` Merging, `HasRead` (MergeSteps), "
        "MergeLaws, MergedCopies",
    "salvage_to":
        "of `tape_image` Step; of `tape_blocks` `longest_block` (Packing); of `tape_core` Known, "
        "Range, `to_ascii` and `unpadded` (NormalForm); of `tape_run` `same_key` (Noted), "
        "`StopsBehind` (Added), Checked, RecordText, Reeling, SurveyDigest, SalvageTrailers, "
        "SalvageWalk, SalvageCopies, SalvageRecords, SalvageLine, SalvageBlocks, SalvageImage, "
        "SalvageEnds, SalvageChoice, SalvageTaking, SalvageConflicts, Salvaging",
    "salvage_laws":
        "those of `salvage_to`; of `tape_run` `IsNoDevice` (WholeSet), SalvageGaps, SalvageClosed, "
        "SalvagedSets, SalvageWhole, SalvageSections, SalvageFile, SalvageReadings, SalvageSets, "
        "SalvageDamaged, SalvageUnnamed, SalvageDamagedSets",
}


def read(*path):
    with open(os.path.join(TOP, *path), encoding="utf-8") as file:
        return file.read()


def definitions(crate, file):
    """The names of the public definitions of a file."""
    for line in read("crates", crate, "specs", file + ".antt").split("\n"):
        found = DEFINED.match(line)
        if found and not line.startswith(("pub mod", "pub use")):
            yield found[2].strip("◌")


def listed(crate, file, names):
    """What the page says of a file, its main definitions, and the names that it does not define."""
    named = names.names if isinstance(names, (Main, Names)) else names
    unknown = sorted(set(named) - set(definitions(crate, file)))
    if isinstance(names, Main):
        return file, named, unknown
    return f"{file} (only {', '.join(f'`{name}`' for name in named)})", [], unknown


def the_list(with_main=False):
    """The generated part of the page, or what --main prints, and what READ names in vain."""
    out, missing = [], []
    for number, (heading, crate, files) in enumerate(READ, 1):
        found = {file: listed(crate, file, names) for file, names in files.items()}
        missing += [f"definitions.py: {file} of {crate} does not define {name}"
                    for file, (_, _, unknown) in found.items() for name in unknown]
        texts = [shown + (f": {', '.join(main)}" if with_main and main else "") for shown, main, _ in found.values()]
        out += [f"{number}. {heading}, in `{crate}/specs/`: {(' · ' if with_main else ', ').join(texts)}"]
    return "\n".join([*out, ""]), missing


def known_names():
    """The names of all definitions, of their files and of the types of the code."""
    names = set()
    for folder, _, files in os.walk(os.path.join(TOP, "crates")):
        parts = os.path.relpath(folder, TOP).split(os.sep)
        if "out" in parts or not {"src", "specs"} & set(parts):
            continue
        for file in files:
            text = read(folder, file)
            if file.endswith(".antt"):
                names.add(file.removesuffix(".antt"))
                names.update(re.findall(r"^(?:\w+ )?pub (?:record |data )?(\w+)", text, re.M))
            elif file.endswith(".rt"):
                names.update(re.findall(r"\b(?:struct|enum|trait|type) (\w+)", text))
    return names


def unknown_words(text):
    """Names in code of the text written by hand that look like definitions and are not."""
    words = {word for code in re.findall(r"`([^`]*)`", PLACE.sub("", text))
             for word in [code.split("/")[-1]] if re.fullmatch(r"[A-Z][a-z]\w*", word)}
    return sorted(words - known_names() - OF_STD)


def unknown_files(place, text):
    """Names in a text, outside code, that look like files in specs/ and are not."""
    walk = os.walk(os.path.join(TOP, "crates"))
    files = {it for at, _, names in walk if at.endswith("/specs") for it in names}
    words = set(re.findall(r"\b[A-Z][a-z]\w*", re.sub(r"`[^`]*`", "", text)))
    return [f"{place}: no {it}.antt" for it in sorted(words) if f"{it}.antt" not in files]


def items(page, above):
    """The items of the list below a text of a page."""
    return read("docs", page).partition(above)[2].partition("\n- ")[2].partition("\n\n")[0]


def print_more(call):
    """Prints what to read for a call; status 1 if MORE has no such call."""
    found = [(calls, files) for calls, files in MORE.items() if call in calls.split(", ")]
    for calls, files in found:
        print(f"{calls}: {files}")
    if found:
        print("most statements: `IfKnown` (Reader), `AppendsFront` (Written) and, for numbers of faults, Fault of "
              "`tape_image`; Faults of `tape_label`; Faults and Numbers of `tape_blocks`")
    if not found:
        print("one of", *", ".join(MORE).split(", "))
    return 0 if found else 1


def main():
    if sys.argv[1:] == ["--main"]:
        print(the_list(with_main=True)[0], end="")
        return 0
    if sys.argv[1:] == ["--tied"]:
        print(*(f"{crate}: {names}" for crate, names in TIED.items()), sep="\n")
        return 0
    if sys.argv[1:] and sys.argv[1:] != ["--check"]:
        return print_more(sys.argv[1])
    old = read("docs", "DEFINITIONS.md")
    text, wrong = the_list()
    new = PLACE.sub(lambda it: it[1] + "\n" + text + it[2], old)
    wrong += [f"DEFINITIONS.md: `{word}` is not defined" for word in unknown_words(old)]
    wrong += [line for page, above in LISTS for line in unknown_files(page, items(page, above))]
    wrong += [line for text in [*MORE.values(), *TIED.values()] for line in unknown_files("a list", text)]
    wrong += [f"TIED: `{word}` is not defined" for text in TIED.values() for word in unknown_words(text)]
    if sys.argv[1:] == ["--check"]:
        wrong += ["DEFINITIONS.md is out of date: run docs/definitions.py"] * (new != old)
    elif new != old:
        with open(PAGE, "w", encoding="utf-8") as file:
            file.write(new)
    for line in wrong:
        print(line)
    return 1 if wrong else 0


sys.exit(main())
