"""The bugs that tools/plant-bugs plants: small changes of one line of code in the body of a function.

A line is code if it stands in the body of a function that is not compiled for tests alone, and is neither an attribute
nor a comment nor of a proof. Of each such line all changes are listed, by kind, whether they compile or not.
"""
import os
import re

from crates import OF_TESTS
from together import functions_in, path_of, text_of

COMPARED = {"<": "<=", "<=": "<", ">": ">=", ">=": ">", "==": "!=", "!=": "=="}
SUMS = {"+": "-", "-": "+", "+=": "-=", "-=": "+="}
CALLED = {"saturating_add": "saturating_sub", "wrapping_add": "wrapping_sub", "checked_add": "checked_sub",
          "min": "max"}
CALLED.update({new: old for old, new in CALLED.items()})
OTHERS = {"&&": "||", "||": "&&", "true": "false", "false": "true", "continue": "break", "break": "continue"}
# What is no code in a line: the insides of strings and characters, and a comment at its end.
MASKED = re.compile(r"\"(?:[^\"\\]|\\.)*\"|'(?:[^'\\]|\\[^']*)'|//.*")
OF_PROOFS = re.compile(r"\b(?:ghost|requires|ensures|invariant|decreases)\b|^ *#")
CONDITION = re.compile(r"(?:^|.*\W)(?:if|while) (?!let )((?:(?!=>).)+) \{$")
STATEMENT = re.compile(r" *(?!(?:let|return|break|continue|use|const)\b)[\w*(&].*;")
ENDING = re.compile(r" *(?:return|break|continue)\b.*;")
STRUCT = re.compile(r"^(?:pub(?:\(crate\))? )?struct \w+[^;{]*\{\n((?:.*\n)*?)\}", re.M)
FIELD = re.compile(r"^    (?:pub(?:\(crate\))? )?(\w+): (.+),$", re.M)
TEST = re.compile(r" *#\[(?:test\b|cfg\(test\))")


class Bug:
    """A changed line of a file of a crate, which is applied as an edit of together.py is."""

    def __init__(self, crate, place, kind, new):
        self.crate, self.kind, self.new = crate, kind, new
        self.file, self.function, self.path, self.number, self.old = place
        change = f"{kind}: '{self.old.strip()}' becomes '{new.strip()}'"
        self.name = f"{crate}/{self.file}:{self.number} {self.function.name}: {change}"

    def applied(self, text):
        """The text of the file with the changed line."""
        lines = text.split("\n")
        lines[self.number - 1] = self.new
        return "\n".join(lines)


class Line:
    """A line of code, with what a change of it must know: the line with blanks in the place of what is no code, whether
    a statement begins with it, and the types of parameters and fields that may be meant in it."""

    def __init__(self, text, begins, types):
        self.text, self.code, self.begins, self.types = text, masked(text), begins, types

    def put(self, span, text):
        """The line with a text in the place of what stands in a span of columns."""
        return self.text[:span[0]] + text + self.text[span[1]:]


class Types:
    """Which parameters of the functions of some crates have one type, and which fields of their structs."""

    def __init__(self, texts):
        self.alike, self.fields = {}, {}
        for text in texts:
            self.take_functions(text.split("\n"))
            self.take_fields(text)

    def take_functions(self, lines):
        """Notes of each function's name, with the number of its parameters, which pairs of these have one type."""
        for function in functions_in(lines):
            head = " ".join(it.strip() for it in lines[function.head - 1:function.first])
            begin = head.find("(", re.search(r"\bfn \w+(?:<.*?>(?=\())?", head).end())
            words = [head[a:b].strip() for a, b in parts_of(head, begin + 1) or []]
            types = [it.partition(": ")[2] for it in words if ": " in it]
            pairs = {(a, b) for b in range(len(types)) for a in range(b) if types[a] == types[b]}
            self.alike.setdefault((function.name, len(types)), set()).update(pairs)

    def take_fields(self, text):
        """Notes of each field's name the others of its struct that have its type."""
        for struct in STRUCT.findall(text):
            fields = FIELD.findall(struct)
            for name, kind in fields:
                others = (other for other, of in fields if of == kind and other != name)
                self.fields.setdefault(name, set()).update(others)


def masked(line):
    """A line with blanks in the place of what is no code in it."""
    return MASKED.sub(lambda found: " " * len(found[0]), line)


def parts_of(code, at):
    """Where each part begins and ends of what stands in brackets, from a column on, with commas between; None if the
    bracket is not closed there."""
    spans, depth = [], 0
    for end, sign in enumerate(code[at:], at):
        if depth == 0 and sign in ",)":
            spans += [(at, end)] if code[at:end].strip() else []
            at = end + 1
            if sign == ")":
                return spans
        depth += (sign in "([{<") - (sign in ")]}" or sign == ">" and code[end - 1] not in "-= ")
    return None


def words_changed(pattern, others):
    """The kind that puts another word in the place of one that a pattern finds."""
    return lambda line: [line.put(it.span(1), others[it[1]]) for it in re.finditer(pattern, line.code)]


def numbers_changed(line):
    """The numbers beside a number."""
    for found in re.finditer(r"(?<!\w)(?<![^.]\.)(\d+)(?!\w|\.\d)", line.code):
        yield line.put(found.span(), str(int(found[1]) + 1))
        if int(found[1]) > 0:
            yield line.put(found.span(), str(int(found[1]) - 1))


def sums_changed(line):
    """A difference in the place of a sum, the larger in the place of the lesser, and the other way round."""
    yield from words_changed(r"(?<= )([+-]=?)(?= )", SUMS)(line)
    yield from words_changed(rf"(?<=\.)({'|'.join(CALLED)})(?=\()", CALLED)(line)


def negated(line):
    """A condition that is negated, or is taken without its `!`."""
    found = CONDITION.match(line.code)
    if found:
        yield line.put(found.span(1), f"!({line.text[slice(*found.span(1))]})")
    for found in re.finditer(r"(?<!\w)!(?=[\w(])", line.code):
        yield line.put(found.span(), "")


def left_out(pattern):
    """The kind that leaves a statement of one line out."""
    return lambda line: [""] if line.begins and pattern.fullmatch(line.code.rstrip()) else []


def arguments_swapped(line):
    """Two arguments of a call, of parameters of one type, each in the other's place."""
    for found in re.finditer(r"(\w+)\(", line.code):
        spans = parts_of(line.code, found.end()) or []
        for first, second in sorted(line.types.alike.get((found[1], len(spans)), ())):
            one, other = (line.text[slice(*spans[it])].strip() for it in (first, second))
            words = [line.text[slice(*it)].strip() for it in spans]
            words[first], words[second] = other, one
            if one != other:
                yield line.put((spans[0][0], spans[-1][1]), ", ".join(words))


def fields_changed(line):
    """Another field of the same struct and type in the place of a field."""
    for found in re.finditer(r"(?<=[\w)\]]\.)([a-z]\w*)\b(?!\()", line.code):
        yield from (line.put(found.span(), other) for other in sorted(line.types.fields.get(found[1], ())))


KINDS = {
    "comparison changed": words_changed(r"(?<= )([<>]=?|[=!]=)(?= )", COMPARED),
    "number off by one": numbers_changed,
    "sum changed": sums_changed,
    "and for or": words_changed(r"(?<= )(&&|\|\|)(?= )", OTHERS),
    "condition negated": negated,
    "truth value changed": words_changed(r"\b(true|false)\b", OTHERS),
    "statement left out": left_out(STATEMENT),
    "return or break left out": left_out(ENDING),
    "arguments swapped": arguments_swapped,
    "other field": fields_changed,
    "continue for break": words_changed(r"^ *(continue|break)(?=;)", OTHERS),
}


def sources_of(folder):
    """The names of a crate's source files that are not of modules for tests alone, with their texts, in which the lines
    of such modules are blank."""
    found, tests = {}, set()
    for at, folders, names in os.walk(os.path.join(folder, "src")):
        folders.sort()
        for path in (os.path.join(at, it) for it in sorted(names) if it.endswith(".rt")):
            text = text_of(path)
            tests.update(OF_TESTS.findall(text))
            found[os.path.relpath(path, folder)] = OF_TESTS.sub(lambda it: "\n" * it[0].count("\n"), text)
    return {name: text for name, text in found.items() if not tests.intersection(name[:-len(".rt")].split("/"))}


def begins_statement(lines, number):
    """Whether a statement begins with a line of a body: what stands before it has ended."""
    before = next((it for it in map(str.strip, reversed(lines[:number - 1])) if it and not it.startswith("//")), "{")
    return before[-1] in ";{}"


def code_in(lines):
    """The lines of code of a source file: of each the innermost function that holds it, and its number."""
    holders = {}
    for function in functions_in(lines):
        if not any(map(TEST.match, lines[function.top - 1:function.head])):
            holders.update((number, function) for number in range(function.first + 1, function.last))
    for number, function in sorted(holders.items()):
        if masked(lines[number - 1]).strip() and not OF_PROOFS.search(lines[number - 1]):
            yield function, number


def bugs_of(crate, folder, types):
    """All bugs that could be planted in a crate."""
    for file, text in sources_of(folder).items():
        lines = text.split("\n")
        for function, number in code_in(lines):
            path, line = path_of(file, lines, function), Line(lines[number - 1], begins_statement(lines, number), types)
            for kind, changes in KINDS.items():
                for new in changes(line):
                    yield Bug(crate, (file, function, path, number, line.text), kind, new)
