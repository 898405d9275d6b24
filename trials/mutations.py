"""Mutations of the definitions in a crate's specs/, made by rule or read from a list.

The rules:

    field, conjunct, result   a field of facts, a factor of a product or a result becomes trivially true
    premise, vacuous, choice  a premise becomes trivially true, or false; an alternative becomes false
    truth, bool, order        exchanges true and false, && and ||, <= and <; drops a `not`
    number, if, match         replaces a constant by its neighbour; exchanges two branches or two cases
    swap, sibling             exchanges two arguments of one type; reads another field of its type
    same                      exchanges the sides of an equation. This changes no meaning: it is a control

Cases, examples and worked sets are not mutated. Mutations that no rule makes, most of which change
several places at once, are listed in trials/composite.txt:

    CRATE FILE.DEFINITION [FIELD FIELD]: the fact that is lost
        OLD => NEW

These fields become trivially true, if there are any, and in the definition the text OLD, which it
contains once, becomes NEW (`true`: trivially true). `=> NEW` may be on a line of its own, `\\n` is the
end of a line, and PATH.antt: before OLD names another file.
"""
import os
import random
import re
from pathlib import Path

HEAD = re.compile(r"(?m)^ *(?:pub )?(abbrev|unfoldable|record) (?:pub )?([\w']+)")
FN = re.compile(r"(?m)^ *(?:pub(?:\([a-z]+\))? )?(?:const )?fn (\w+)")
BEFORE_FN = re.compile(r"\n\n(?=(?: *///[^\n]*\n| *#\[[^\n]*\n)* *(?:pub(?:\([a-z]+\))? )?(?:const )?fn )")
PRIVATE_FN = re.compile(r"(?ms)^( *)(?:pub\([a-z]+\) )?(?:const )?fn .*?(?=^\1\{$|;$|\Z)")
WORD, BINDER = re.compile(r"[\w']+"), re.compile(r"[({][\w' ]+ : ")
SCAFFOLD = re.compile(r"^(Cases\w*|\w*Examples\w*|Worked\w*|Mistakes\w*)\.antt$")
TRUE, FALSE = "Unit {0}", "⊥"
SIGNED = re.compile(r"nat_le|nat_lt|not|true|false|decimal|\[\]|≤|<|&&|\|\||≢|⊎| \+ | - ")
TURNS = {r"≤": "<", r"<": "≤", r"\bnat_lt\b": "nat_le", r"\bnat_le\b": "nat_lt", r"&&": "||",
         r"\|\|": "&&", r"\bnot (?=[(\w])": "", r"(?<=≡ )true\b": "false", r"(?<=≡ )false\b": "true"}


def files_of(crate, *tops):
    """The files in some directories of a crate, as relative paths."""
    return [os.path.relpath(f"{at}/{it}", crate) for top in tops
            for at, _, files in sorted(os.walk(f"{crate}/{top}"))
            for it in sorted(files) if it.endswith((".antt", ".rt"))]


def masked(text):
    """The text with comments and strings replaced by spaces."""
    return re.sub(r'--[^\n]*|"[^"\n]*"', lambda it: " " * len(it.group()), text)


def trim(text, first, last):
    said = text[first:last]
    return first + len(said) - len(said.lstrip()), max(first, last - len(said) + len(said.rstrip()))


def split(text, first, last, sign):
    """The ranges between the signs that are not inside brackets."""
    depth, at = 0, [first - 1]
    for k in range(first, last):
        depth += (text[k] in "([{") - (text[k] in ")]}")
        at += [k] if depth == 0 and text[k] == sign else []
    return [trim(text, a + 1, b) for a, b in zip(at, [*at[1:], last])]


class Mutation:
    """Changes of texts, of one definition or (rule `composite`) of several, and the answer to it."""

    def __init__(self, crate, name, rule, edits, why=""):
        self.crate, self.name, self.rule, self.edits, self.why = crate, name, rule, edits, why
        self.file, self.first, self.last, self.new = edits[0]
        text = Path(crate, self.file).read_text()
        self.old, self.line = text[self.first:self.last], text.count("\n", 0, self.first) + 1
        self.names = {name} if rule != "composite" else {heading(text, self.first)}
        self.answer, self.kinds, self.size, self.is_quiet = "", [], 0, False

    def row(self):
        its = (os.path.basename(self.crate), self.file, self.line, self.name, self.rule, self.old, self.new,
               self.answer or "not tried", "+".join(self.kinds), self.size, self.why)
        return "\t".join(re.sub(r"\s+", " ", str(it))[:160] for it in its)


def heading(text, place):
    """The name of the definition around a place."""
    found = [it.group(2) for it in HEAD.finditer(text) if it.start() <= place]
    return found[-1] if found else ""


def of_type(text, first, last, depth=0):
    """Mutations of a proposition: rule, range and new text."""
    first, last = trim(text, first, last)
    if text[first:last] in (TRUE, FALSE, "⊤"):
        yield "truth", first, last, TRUE if text[first:last] == FALSE else FALSE
    elif not re.match(r"λ|let\b|if\b|Match|record\b", text[first:last]):
        parts = split(text, first, last, "→")
        for k, part in enumerate(parts):
            is_binder, is_last = BINDER.match(text, *part), k == len(parts) - 1
            if len(parts) > 1 and is_last:
                yield "result", *part, TRUE
            elif not is_last and not is_binder:
                yield from (("premise", *part, TRUE), ("vacuous", *part, FALSE))
            for choice in split(text, *part, "⊎") if is_last or not is_binder else []:
                yield from [("choice", *choice, FALSE)] if choice != part else []
                yield from of_product(text, choice, depth)


def of_product(text, choice, depth):
    """Mutations of a proposition without → and ⊎."""
    for one in split(text, *choice, "×"):
        sides = split(text, *one, "≡")
        if one[0] == one[1] or BINDER.match(text, *one):
            continue
        yield from [("conjunct", *one, TRUE)] if one != choice else []
        if len(sides) == 2:
            yield "same", *one, f"({text[slice(*sides[1])]}) ≡ ({text[slice(*sides[0])]})"
        if text[one[0]] == "(" and text[one[1] - 1] == ")" and depth < 3:
            yield from of_type(text, one[0] + 1, one[1] - 1, depth + 1)


def of_term(text, first, last, siblings):
    """Mutations of any text by its words and signs."""
    said = text[first:last]
    yield from [("bool", first, last, "false" if said == "true" else "true")] if said in ("true", "false") else []
    for old, new in TURNS.items():
        for it in re.finditer(old, said):
            rule = "order" if new in ("≤", "<", "nat_le", "nat_lt") else "bool"
            yield rule, first + it.start(), first + it.end(), new
    for it in re.finditer(r"(?<!Type )(?<![\w.{])\d+(?![\w}])", said):
        yield "number", first + it.start(), first + it.end(), str(int(it.group()) + 1)
    for it in re.finditer(r"\bif ((?:(?!\bif\b|\bthen\b)[^\n])+?) then\b", said):
        yield "if", first + it.start(1), first + it.end(1), f"not ({it.group(1)})"
    for it in re.finditer(r"(?<=[\w)]\.)(\w+)\b(?!\.\{)", said):
        if it.group(1) in siblings:
            yield "sibling", first + it.start(), first + it.end(), siblings[it.group(1)]


def of_record(text, head, ranges, stop, end, siblings):
    """Mutations of a record: of its fields, and of the order of its parameters."""
    for first, last in ranges if "(" in text[head.end():stop] else []:
        if re.match(r"(?!List |Option |Result )(?:[A-Z]\w+ |(?s:.*)[≡≢≤<→×⊎⊥\d])", text[first:last]):
            yield "field", first, last, TRUE
            yield from of_type(text, first, last)
            yield from of_term(text, first, last, siblings)
    for it in re.compile(r"\((\w+) (\w+)((?: \w+)*) : ").finditer(text, head.end(), stop):
        yield "swap", it.start(), it.end(), f"({it.group(2)} {it.group(1)}{it.group(3)} : "


def of_definition(text, start, end, siblings):
    """Mutations of the definition in this range of a text without comments."""
    head = HEAD.search(text, start, end)
    is_record, name = head.group(1) == "record", re.escape(head.group(2))
    spot = r" +pub (\w+) : " if is_record else rf" *({name}\b(?! :)[^=\n]*?) =(?=\s)"
    spots = list(re.compile(rf"(?m)^{spot}").finditer(text, head.end(), end))
    stop = spots[0].start() if spots else end
    ends = [*[it.start() for it in spots[1:]], end]
    ranges = [trim(text, it.end(), to) for it, to in zip(spots, ends)]
    if is_record:
        yield from of_record(text, head, ranges, stop, end, siblings)
        return
    is_type = re.search(r"Type [01]\s*$", text[head.end():stop])
    clauses = [(it.span(1), there) for it, there in zip(spots, ranges)]
    for k, (left, body) in enumerate(clauses):
        if is_type:
            yield from of_type(text, *body)
            yield "result", *body, TRUE
        yield from of_term(text, *body, siblings)
        if k + 1 < len(clauses):
            pair = ([set(WORD.findall(text[slice(*x)])) for x in one] for one in clauses[k:k + 2])
            (mine, uses), (its, used) = pair
            there = clauses[k + 1][1]
            both, is_same = (text[slice(*body)], text[slice(*there)]), mine & uses <= its and its & used <= mine
            if both[0] != both[1] and is_same:
                yield "match", body[0], there[1], both[1] + text[body[1]:there[0]] + both[0]
    types = [text[slice(*x)] for x in split(text, text.find(":", head.end(), stop) + 1, stop, "→")]
    words = text[slice(*clauses[0][0])].split(" ") if len(clauses) == 1 else []
    for k in range(min(len(words) - 2, len(types) - 1)):
        if types[k] == types[k + 1] and all(re.fullmatch(r"[a-z]\w*", x) for x in words[k + 1:k + 3]):
            new = " ".join([*words[:k + 1], words[k + 2], words[k + 1], *words[k + 3:]])
            yield "swap", *clauses[0][0], new


def siblings_in(crate):
    """For a field name another field that has its type wherever both names are declared."""
    found = {}
    for text in (Path(crate, it).read_text() for it in files_of(crate, "src", "specs")):
        for body in re.findall(r"(?ms)^ *pub (?:struct|record) [^\n]*\n(.*?)(?:^\}|\n\n|\Z)", text):
            fields = re.findall(r"(?m)^ +pub (\w+) ?: ([^\n,]+),?$", body)
            for name, its in fields:
                others = [it for it, of in fields if of == its and it != name and not re.search(r"[≡≤<→×]", of)]
                found[name] = [it for it in found.get(name, others) if it in others]
    return {name: others[0] for name, others in found.items() if others}


def promised_in(crate):
    """The words of a crate's public contracts: of its sources without bodies and private functions."""
    words = set()
    for file in files_of(crate, "src"):
        text = re.sub(r"(?m)^ *ghost use [^;]*;", "", Path(crate, file).read_text())
        text = re.sub(r"(?ms)^( *)\{\n.*?^\1\}$", "", text)
        is_trait = re.search(r"(?m)^ *(?:pub )?(?:trait|impl\b.* for )", text)
        words |= set(WORD.findall(text if is_trait else PRIVATE_FN.sub("", text)))
    return words


def generated(crate):
    """The mutations that the rules make of a crate's definitions that public contracts reach."""
    made, siblings, cites = [], siblings_in(crate), {}
    files = [it for it in files_of(crate, "specs") if not SCAFFOLD.match(os.path.basename(it))]
    for file in files:
        text, at, found = Path(crate, file).read_text(), 0, {}
        plain = masked(text)
        for paragraph in text.split("\n\n"):
            end = at + len(paragraph.rstrip())
            named = HEAD.search(plain, at, end)
            if named:
                cites.setdefault(named.group(2), set()).update(WORD.findall(plain[at:end]))
                for rule, *its in of_definition(plain, at, end, siblings):
                    if text[its[0]:its[1]] != its[2]:
                        edits = [(file, *its)]
                        found.setdefault(tuple(its), Mutation(crate, named.group(2), rule, edits))
            at += len(paragraph) + 2
        made += found.values()
    reached, left = set(), promised_in(crate) & cites.keys()
    while left:
        reached |= left
        left = {x for it in left for x in cites[it] if x in cites} - reached
    return [it for it in made if it.name in reached]


def listed(crate):
    """The composite mutations of a crate."""
    text = (Path(__file__).parent / "composite.txt").read_text()
    form = r"(?m)^%s (\w+)\.([\w']+)(?: \[([\w ]+)\])?: (.*)\n((?:    .*\n)*)"
    return [composite(crate, f"specs/{it[0]}.antt", *it[1:])
            for it in re.findall(form % os.path.basename(crate), text)]


def composite(crate, file, name, fields, why, changes):
    """A mutation from the list: fields that become trivially true, and changes of texts."""
    edits, text = [], Path(crate, file).read_text()
    start = re.search(rf"(?m)^ *(?:\w+ )*{re.escape(name)}\b", text).start()
    end = text.find("\n\n", start) if "\n\n" in text[start:] else len(text)
    for field in fields.split():
        its = re.compile(rf"(?m)^ +pub {field} : ").search(text, start, end)
        after = re.compile(r"(?m)^ +pub \w+ : ").search(text, its.end(), end)
        edits.append((file, *trim(masked(text), its.end(), after.start() if after else end), TRUE))
    for other, old, new in re.findall(r"    (?:(\S+\.antt): )?(.*?)(?:\n   )? => (.*)\n", changes):
        old, new = (it.replace("\\n", "\n") for it in (old, new))
        its = (Path(crate, other).read_text(),) if other else (text, start, end)
        if its[0].count(old, *its[1:]) != 1:
            raise SystemExit(f"{name}: `{old}` is not in {other or file} exactly once")
        first = its[0].find(old, *its[1:])
        edits.append((other or file, first, first + len(old), TRUE if new == "true" else new))
    return Mutation(crate, name, "composite", edits, why)


def drawn(mutations, seed):
    """The mutations in a random order that takes one of each rule in turn, so that no rule prevails."""
    chance, by_rule = random.Random(seed), {}
    for it in mutations:
        by_rule.setdefault(it.rule, []).append(it)
    for its in by_rule.values():
        chance.shuffle(its)
    longest = max((len(its) for its in by_rule.values()), default=0)
    return [its[k] for k in range(longest) for its in by_rule.values() if k < len(its)]


def with_mutations(group):
    """The texts of the files that a group changes, with the imports that these changes need."""
    texts, edits = {}, [(it.crate, *edit) for it in group for edit in it.edits]
    for crate, file, first, last, new in sorted(edits, key=lambda x: -x[2]):
        text = texts.get(file) or Path(crate, file).read_text()
        texts[file] = text[:first] + (f"({TRUE})" if new == TRUE else new) + text[last:]
    for file, text in texts.items():
        new = " ".join(edit[4] for edit in edits if edit[1] == file)
        names = {x if re.match(r"\w|\[", x) else f"◌{x.strip()}◌" for x in SIGNED.findall(new)}
        wanted = [it for it in names if not re.search(rf"(?m)^use [^\n]*[{{ ]{re.escape(it)}[,}}]", text)]
        imports = f"use Rattle.std.specs.Prelude.{{{', '.join(wanted)}}}"
        texts[file] = re.sub("^[^\n]*", imports, text) if wanted and file.startswith("specs/") else text
    return texts
