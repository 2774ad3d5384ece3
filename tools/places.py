#!/usr/bin/env python3
"""Counts, in src/ of every crate, the places where an older form of the language may stand where a newer one would be
plainer. `tools/places.py` prints how many there are of each kind; `tools/places.py --list` prints them too.
A row is a place to look, not a verdict."""
import collections
import glob
import re
import sys

FILES = sorted(glob.glob("crates/*/src/**/*.rt", recursive=True))


def code(path):
    """The lines of a file up to its tests, remarks emptied."""
    lines = []
    for line in open(path, encoding="utf-8"):
        if line.strip().startswith("#[cfg(test)]"):
            break
        lines.append(re.sub(r"//.*", "", line.rstrip("\n")))
    return lines


SOURCE = {path: code(path) for path in FILES}


def lines_like(pattern, skip=None):
    """Places whose line has the pattern, the contracts' lines left out."""
    found = []
    for path, lines in SOURCE.items():
        for number, line in enumerate(lines, 1):
            if re.match(r"\s*(ghost|requires|ensures)\b", line):
                continue
            if re.search(pattern, line) and not (skip and re.search(skip, line)):
                found.append((path, number, line.strip()))
    return found


def functions():
    """Every function with a body: file, line, name, parameters, result and contract clauses."""
    for path, lines in SOURCE.items():
        text = "\n".join(lines)
        for match in re.finditer(r"^( *)(?:pub(?:\(crate\))? )?(?:extern \"C\" )?fn (\w+)", text, re.M):
            start = match.end()
            depth, end = 0, start
            # the parameter list
            open_at = text.index("(", start) if "<" not in text[start : start + 1] else None
            if open_at is None:
                angle, at = 0, start
                while True:
                    if text[at] == "<":
                        angle += 1
                    elif text[at] == ">" and text[at - 1] != "-":
                        angle -= 1
                        if angle == 0:
                            break
                    at += 1
                open_at = text.index("(", at)
            at = open_at
            while True:
                if text[at] == "(":
                    depth += 1
                elif text[at] == ")":
                    depth -= 1
                    if depth == 0:
                        break
                at += 1
            parameters = text[open_at + 1 : at]
            rest = []
            for line in text[at + 1 :].split("\n"):
                stripped = line.strip()
                if rest and (stripped in ("{", "{}") or stripped.startswith("fn ") or stripped.startswith("pub ")):
                    break
                rest.append(line)
                if not re.match(r"\s*(requires|ensures|where)\b", line) and line.rstrip().endswith(("{", ";", "{}")):
                    break
            head = "\n".join(rest)
            result = re.match(r"\s*->\s*([^\n{;]*)", head)
            number = text.count("\n", 0, match.start()) + 1
            yield {
                "path": path,
                "line": number,
                "name": match.group(2),
                "parameters": [p.strip() for p in split_top(parameters, ",") if p.strip()],
                "result": result.group(1).strip() if result else "",
                "clauses": re.findall(r"(requires|ensures\*?)(?: \w+)? \{ (.*) \}\s*;?$", head, re.M),
            }


def split_top(text, mark):
    parts, depth, last = [], 0, 0
    for at, char in enumerate(text):
        if char in "([{<":
            depth += 1
        elif char in ")]}>" and not (char == ">" and text[at - 1] == "-"):
            depth -= 1
        elif char == mark and depth == 0:
            parts.append(text[last:at])
            last = at + 1
    return parts + [text[last:]]


FUNCTIONS = list(functions())


def show(function):
    return (function["path"], function["line"], function["name"])


def own_enums():
    """Own enums with at most three cases of which one carries a value and another does not, or two carry one each."""
    found = []
    for path, lines in SOURCE.items():
        text = "\n".join(lines)
        for match in re.finditer(r"enum (\w+)(?:<[^>]*>)? \{\n(.*?)\n\}", text, re.S):
            cases = [c.strip().rstrip(",") for c in match.group(2).split("\n") if c.strip()]
            carrying = [c for c in cases if "(" in c or "{" in c]
            if len(cases) <= 3 and carrying:
                found.append((path, text.count("\n", 0, match.start()) + 1, match.group(1) + ": " + ", ".join(cases)))
    return found


def optional_faults():
    return [show(f) for f in FUNCTIONS if re.match(r"Option<\w*Fault>", f["result"])]


def success_flags():
    """Functions that change what they are lent and answer a bool."""
    return [show(f) for f in FUNCTIONS if f["result"] == "bool" and any("&mut" in p for p in f["parameters"])]


def numeric_kinds():
    """Literal numbers where a kind is meant: in a charge, and in a fault's place."""
    return lines_like(r"charge\(\d+,|Fault::\w+\((0|32|1 \+)|Level\(level_place")


def bare_fields():
    """Answers of a number that says whether there was a refusal, with a value beside it."""
    return lines_like(r"^\s*pub refusal: u\d+,")


def names_twice():
    """Functions of one name in more than one file: free ones, and methods with the same parameters."""
    by_name = collections.defaultdict(list)
    traits = {"known", "at_or_below", "join", "floor", "laws", "charge", "steady", "largest_charge", "from", "fmt",
              "main", "drop", "from_str", "try_from", "default", "new"}
    for f in FUNCTIONS:
        if f["name"] not in traits:
            method = f["parameters"] and "self" in f["parameters"][0]
            by_name[(f["name"], ", ".join(f["parameters"][1:]) if method else "free")].append(show(f))
    return [p for _, places in sorted(by_name.items()) if len({q[0] for q in places}) > 1 for p in places]


def same_constants():
    """Constants of one name and value in more than one file."""
    by_name = collections.defaultdict(list)
    for path, number, line in lines_like(r"^\s*(pub )?const \w+: \w+ = "):
        by_name[re.sub(r"^\s*pub ", "", line)].append((path, number, line))
    return [p for places in by_name.values() if len(places) > 1 for p in places]


def same_shape():
    """Functions of one impl or file whose bodies are the same but for names, of four lines or more."""
    found = []
    for path, lines in SOURCE.items():
        text = "\n".join(lines)
        bodies = collections.defaultdict(list)
        for f in FUNCTIONS:
            if f["path"] != path:
                continue
            after = lines[f["line"] - 1 :]
            indent = re.match(r" *", lines[f["line"] - 1]).group()
            body, inside = [], False
            for line in after:
                if inside and line.rstrip() == indent + "}":
                    break
                if inside:
                    body.append(re.sub(r"[A-Za-z_]\w*|\d+", "x", line.strip()))
                if not inside and (line.rstrip() == indent + "{" or line.rstrip().endswith(" {")):
                    inside = True
            if len(body) >= 4:
                bodies["\n".join(body)].append(show(f))
        found += [p for places in bodies.values() if len(places) > 1 for p in places]
    return found


def counted_loops():
    return lines_like(r"\bwhile\b") + lines_like(r"\bfor \w+ in [^{]*\.\.")


def counted_by_hand():
    """A count that a `for` raises by hand."""
    return lines_like(r"^\s*(count|index|place|at|i|n) \+= 1;")


def by_field():
    """Values compared field by field."""
    return lines_like(r"\w+\.(holder|from|to|number) == \w+\.\1")


def conversions():
    """Functions that only turn a value into one of another type, and are no From, TryFrom or FromStr."""
    return [show(f) for f in FUNCTIONS if f["name"] in ("refusal", "parse", "layer_name", "natural", "instruction_code",
                                                        "level_place", "put_number", "last_digit", "hex_digit")]


def casts():
    return lines_like(r"\bas (u8|u16|u32|u64|usize|i32|i64)\b", skip=r"^\s*use ")


def long_tests():
    """Matches that answer true for some cases and false for all others."""
    found = []
    for path, lines in SOURCE.items():
        for number, line in enumerate(lines, 1):
            if re.search(r"=> (true|false),?$", line.strip()):
                found.append((path, number, line.strip()))
    return found


def repeated_facts():
    """Facts that stand in the contracts of three or more functions of a crate, and how often."""
    facts = collections.defaultdict(set)
    for f in FUNCTIONS:
        crate = f["path"].split("/")[1]
        for kind, text in f["clauses"]:
            for part in split_top(text, "×"):
                part = re.sub(r"\s+", " ", part.strip().strip("()").strip())
                part = re.sub(r"\bself\.(old|new|now)\b", "self", part)
                facts[(crate, kind, part)].add((f["path"], f["line"], f["name"]))
    return [(crate, len(where), kind + " " + part) for (crate, kind, part), where in sorted(facts.items()) if len(where) > 2]


def travellers():
    """Pairs of parameters that three or more functions of a crate have together."""
    pairs = collections.defaultdict(set)
    for f in FUNCTIONS:
        crate = f["path"].split("/")[1]
        names = sorted({re.sub(r"\s+", " ", p) for p in f["parameters"] if "self" not in p.split(":")[0]})
        for i, one in enumerate(names):
            for other in names[i + 1 :]:
                pairs[(crate, one + ", " + other)].add((f["path"], f["line"]))
    return [(crate, len(where), names) for (crate, names), where in sorted(pairs.items()) if len(where) > 2]


def sized_arrays():
    """Fields that are arrays of a fixed size."""
    return lines_like(r"^\s*(pub(\(crate\))? )?\w+: \[(T|[ui]\d+|Instruction); \w+\],")


def step_tables():
    """Function pointers and trait objects, and cases that only pass a call on to what they hold."""
    return lines_like(r"\bfn\(|&dyn |Box<dyn") + lines_like(r"\((\w+)\) => \1\.\w+\(")


def shared_parameter():
    """A parameter that three or more methods of one file take beside self."""
    taken = collections.defaultdict(set)
    for f in FUNCTIONS:
        if f["parameters"] and "self" in f["parameters"][0]:
            for parameter in f["parameters"][1:]:
                taken[(f["path"], re.sub(r"\s+", " ", parameter))].add(f["line"])
    return [(path, len(where), parameter) for (path, parameter), where in sorted(taken.items()) if len(where) > 2]


def answers():
    """What the proofs answer where the check finds nothing alone."""
    found = []
    for path in sorted(glob.glob("crates/*/proofs/**/*.antt", recursive=True)):
        if path.endswith("Answers.antt"):
            for number, line in enumerate(open(path, encoding="utf-8"), 1):
                if re.match(r"pub \S+ : goal\.", line):
                    found.append((path, number, line.strip()))
    return found


KINDS = [
    ("own enums of at most three cases that carry a value", own_enums),
    ("functions that answer an Option of a fault", optional_faults),
    ("functions that change something and answer a bool", success_flags),
    ("literal numbers for a kind", numeric_kinds),
    ("a number that says whether there was a refusal, with a value beside it", bare_fields),
    ("names of functions in more than one file", names_twice),
    ("constants in more than one file", same_constants),
    ("functions of one file with the same body but for names", same_shape),
    ("while loops, and for loops over a range", counted_loops),
    ("counts raised by hand", counted_by_hand),
    ("values compared field by field", by_field),
    ("conversions and printing by functions of one's own", conversions),
    ("casts", casts),
    ("cases that answer true or false", long_tests),
    ("facts in the contracts of three or more functions", repeated_facts),
    ("pairs of parameters of three or more functions", travellers),
    ("parameters that three or more methods of one file take", shared_parameter),
    ("fields that are arrays of a fixed size", sized_arrays),
    ("tables of functions, and cases that only pass a call on", step_tables),
    ("answers in proofs/", answers),
]

for title, find in KINDS:
    places = find()
    print(f"{title}: {len(places)}")
    if "--list" in sys.argv[1:]:
        for place in places:
            print("    " + ":".join(str(part) for part in place[:2]) + "  " + str(place[2]))
