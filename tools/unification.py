#!/usr/bin/env python3
"""Tries unification beside a plain and slow search for solutions, on small systems of equations of types.

    tools/unification.py TYPE_CASES [--systems N] [--seed N] [--keep FOLDER]

TYPE_CASES is the built program `type_cases`, which is asked how the equations of each system come out, and what their variables
become under their most general solution. The search puts each of some small ground types, rows and effects for each variable. What is
looked for is
- a system whose first equation without a solution is another one, of those whose solutions are small where they have any,
- a system that has a small solution, and of which the program finds none, of all others,
- a solution by which the sides of an equation become two types, or a row has a label twice,
- a small solution that is no instance of the one that the program finds, which then isn't the most general one.

The systems are each equation that two sides of a family make, and N systems (1,000) of two or three equations for each family.
Before that the search is tried on the cases that are worked by hand. What differs is printed, and the files of cases and what the
program told of them stay in FOLDER. The status is 1 where anything differs. No gate runs this.
"""

import argparse
import itertools
import math
import os
import random
import re
import subprocess
import sys
import tempfile
from collections import namedtuple

TOP = os.path.dirname(os.path.dirname(os.path.abspath(__file__)))
DATA = f"{TOP}/crates/type_cases/data"

# How many groundings of a system are tried.
MOST_GROUNDINGS = 3000


# ---- types: a row is its fields or effects and the number of its tail, or None where it is closed

def kind_of_data(name, fields):
    """A kind of tuples, none of which equals one of another kind."""
    return namedtuple(name, f"{fields} kind", defaults=[name])


Base = kind_of_data("Base", "name")
Var = kind_of_data("Var", "number")
ListOf = kind_of_data("ListOf", "item")
Row = kind_of_data("Row", "fields tail")
Fields = kind_of_data("Fields", "row")
Tags = kind_of_data("Tags", "row")
Fun = kind_of_data("Fun", "params effects answer")

# The variables: those of types, of rows and of effects are three kinds.
Plain = kind_of_data("Plain", "number")
RowVar = kind_of_data("RowVar", "number")
EffectsVar = kind_of_data("EffectsVar", "number")


class Reader:
    """Reads a type as it is printed."""

    def __init__(self, text):
        self.text = text
        self.at = 0

    def match(self, pattern):
        found = re.compile(pattern).match(self.text, self.at)
        if found:
            self.at = found.end()
        return found

    def need(self, pattern):
        found = self.match(pattern)
        if not found:
            raise ValueError(f"no {pattern} at {self.at} of {self.text}")
        return found

    def type(self):
        if self.match(r"\[\|"):
            row = self.row()
            self.need(r"\|\]")
            return Tags(row)
        if self.match(r"\["):
            item = self.type()
            self.need(r"\]")
            return ListOf(item)
        if self.match(r"\("):
            return self.in_parentheses()
        found = self.match(r"Int|Bool|String")
        if found:
            return Base(found.group())
        return Var(int(self.need(r"t(\d+)").group(1)))

    def in_parentheses(self):
        row = self.row()
        params = []
        while not self.match(r"\)"):
            params.append(self.type())
            self.match(",")
        if row == Row((), None) and self.match(" "):
            effects = self.effects()
            self.need("-> ")
            return Fun(tuple(params), effects, self.type())
        if params:
            raise ValueError(f"parameters without a function in {self.text}")
        return Fields(row)

    def tail(self):
        found = self.match(r"\|t(\d+)")
        return int(found.group(1)) if found else None

    def row(self):
        fields = []
        while found := self.match(r"(\w+):"):
            fields.append((found.group(1), self.type()))
            self.match(",")
        return Row(tuple(fields), self.tail())

    def effects(self):
        if not self.match(r"\{"):
            return Row((), None)
        labels = []
        while found := self.match(r"[a-z]+"):
            if found.group() == "t":
                raise ValueError(f"a variable among effects in {self.text}")
            labels.append(found.group())
            self.match(",")
        tail = self.tail()
        self.need(r"\}")
        return Row(tuple(labels), tail)


def read_type(text):
    reader = Reader(text)
    found = reader.type()
    if reader.at != len(text):
        raise ValueError(f"{text[reader.at:]} behind a type")
    return found


def read_equation(text):
    left, right = text.split(" = ")
    return read_type(left), read_type(right)


def variables_of(ty):
    """The variables of a type, in the order in which they come, each as often."""
    if isinstance(ty, Var):
        yield Plain(ty.number)
    elif isinstance(ty, ListOf):
        yield from variables_of(ty.item)
    elif isinstance(ty, (Fields, Tags)):
        for _label, inside in ty.row.fields:
            yield from variables_of(inside)
        if ty.row.tail is not None:
            yield RowVar(ty.row.tail)
    elif isinstance(ty, Fun):
        for inside in ty.params:
            yield from variables_of(inside)
        if ty.effects.tail is not None:
            yield EffectsVar(ty.effects.tail)
        yield from variables_of(ty.answer)


def variables_in(equations):
    """The variables of equations, each once."""
    found = {}
    for left, right in equations:
        for variable in itertools.chain(variables_of(left), variables_of(right)):
            found[variable] = True
    return list(found)


# ---- what types become

class Twice(Exception):
    """A row has a label or an effect twice."""


def joined(own, row_of_tail):
    """A row of these fields or effects, and then what its tail becomes, in order."""
    fields = own + row_of_tail.fields
    labels = [field[0] if isinstance(field, tuple) else field for field in fields]
    if len(set(labels)) < len(labels):
        raise Twice
    return Row(tuple(sorted(fields)), row_of_tail.tail)


def tail_under(images, variable):
    if variable.number is None:
        return Row((), None)
    return images.get(variable, Row((), variable.number))


def row_under(images, row):
    own = tuple((label, under(images, ty)) for label, ty in row.fields)
    return joined(own, tail_under(images, RowVar(row.tail)))


def under(images, ty):
    """What a type becomes where these images are put for variables, all others staying what they are. Fields and effects stand in
    order in it, so two types become the same just where these are equal."""
    if isinstance(ty, Var):
        return images.get(Plain(ty.number), ty)
    if isinstance(ty, ListOf):
        return ListOf(under(images, ty.item))
    if isinstance(ty, Fields):
        return Fields(row_under(images, ty.row))
    if isinstance(ty, Tags):
        return Tags(row_under(images, ty.row))
    if isinstance(ty, Fun):
        params = tuple(under(images, param) for param in ty.params)
        effects = joined(ty.effects.fields, tail_under(images, EffectsVar(ty.effects.tail)))
        return Fun(params, effects, under(images, ty.answer))
    return ty


def is_met(images, equation):
    """Whether both sides become something, and the same."""
    try:
        return under(images, equation[0]) == under(images, equation[1])
    except Twice:
        return False


def type_text(ty):
    """A type as it is printed, but for the names of its variables."""
    if isinstance(ty, Base):
        return ty.name
    if isinstance(ty, Var):
        return f"t{ty.number}"
    if isinstance(ty, ListOf):
        return f"[{type_text(ty.item)}]"
    if isinstance(ty, Fun):
        params = ",".join(map(type_text, ty.params))
        effects = row_text(ty.effects, ty.effects.fields)
        return f"({params}) {f'{{{effects}}}' if effects else ''}-> {type_text(ty.answer)}"
    fields = row_text(ty.row, [f"{label}:{type_text(inside)}" for label, inside in ty.row.fields])
    return f"({fields})" if isinstance(ty, Fields) else f"[|{fields}|]"


def row_text(row, parts):
    return ",".join(parts) + ("" if row.tail is None else f"|t{row.tail}")


# ---- systems of equations

class Family:
    """Sides of equations, and what is tried for their variables. It is complete if equations of these sides have a solution of
    that where they have any."""

    def __init__(self, name, is_complete, sides, plain=(), rows=(), effects=()):
        self.name = name
        self.is_complete = is_complete
        self.sides = sides
        self.tried = {
            "Plain": [under({}, read_type(text)) for text in plain],
            "RowVar": [under({}, read_type(f"({text})")).row for text in rows],
            "EffectsVar": [Row(tuple(sorted(words)), None) for words in effects],
        }

    def systems(self, rng, count):
        """Each equation of two sides, and so many systems of more equations."""
        for left, right in itertools.product(self.sides, repeat=2):
            yield [f"{left} = {right}"]
        for _ in range(count):
            yield [f"{rng.choice(self.sides)} = {rng.choice(self.sides)}" for _ in range(rng.choice((2, 3)))]


FAMILIES = (
    # three equations nest lists three times at most
    Family(
        "lists",
        True,
        ("t1", "t2", "t3", "Int", "Bool", "[t1]", "[t2]", "[t3]", "[Int]", "[Bool]"),
        plain=("Int", "Bool", "[Int]", "[Bool]", "[[Int]]", "[[Bool]]", "[[[Int]]]", "[[[Bool]]]"),
    ),
    Family(
        "records",
        True,
        (
            "()", "(|t1)", "(|t2)", "(|t3)", "(a:Int|t1)", "(a:Bool|t2)", "(a:t1|t3)", "(b:Int|t1)", "(b:t1|t2)", "(b:Bool|t3)",
            "(a:Int,b:t1)", "(a:t1,b:Bool|t1)", "(b:t1,a:Int|t2)", "(a:t1)", "(b:Bool)", "(a:Int,a:Int|t1)",
        ),
        plain=("Int", "Bool"),
        rows=("", "a:Int", "a:Bool", "b:Int", "b:Bool", "a:Int,b:Int", "a:Int,b:Bool", "a:Bool,b:Int", "a:Bool,b:Bool"),
    ),
    Family(
        "variants",
        True,
        (
            "[||]", "[||t1|]", "[||t2|]", "[|A:()|t1|]", "[|A:Int|t2|]", "[|B:t1|t2|]", "[|B:()|t1|]", "[|A:t1,B:t2|]",
            "[|B:t2,A:t2|t3|]", "[|A:Int|]",
        ),
        plain=("()", "Int"),
        rows=("", "A:()", "A:Int", "B:()", "B:Int", "A:(),B:()", "A:(),B:Int", "A:Int,B:()", "A:Int,B:Int"),
    ),
    Family(
        "effects",
        True,
        (
            "() -> ()", "() {print}-> ()", "() {print,trap}-> ()", "() {|t1}-> ()", "() {|t2}-> ()", "() {|t3}-> ()",
            "() {print|t1}-> ()", "() {print|t2}-> ()", "() {trap|t2}-> ()", "() {trap|t3}-> ()", "() {trap,print|t1}-> ()",
            "() {print,print|t3}-> ()",
        ),
        effects=((), ("print",), ("trap",), ("print", "trap")),
    ),
    # all kinds of types, of which some systems have only solutions that aren't tried
    Family(
        "mixed",
        False,
        (
            "t1", "t2", "t3", "Int", "String", "[t1]", "[t2]", "(|t1)", "(a:t1|t1)", "(a:t2|t2)", "(b:Int|t1)", "(b:t2|t2)",
            "(a:t1,b:t2)", "[|A:t1|t1|]", "[||t2|]", "(t1) {|t1}-> t2", "(t2) {print|t2}-> t2", "() {|t2}-> t1",
            "(t1,t2) {print|t1}-> Int", "((a:t1|t1)) {|t1}-> (b:t2|t1)", "([t1]) {trap}-> (|t2)", "([|A:t1|t2|]) -> t1",
            "[(a:[t2]|t1)]", "(a:() {|t1}-> t1,b:[t2])",
        ),
        plain=("Int", "String", "[Int]", "()", "(a:Int)", "() -> Int"),
        rows=("", "a:Int", "b:Int", "A:Int"),
        effects=((), ("print",), ("trap",)),
    ),
    Family(
        "small",
        False,
        (
            "t1", "Int", "[t1]", "[Int]", "(a:Int)", "(a:t1)", "(|t1)", "(a:Int|t1)", "(b:Int|t2)", "(a:t1|t2)", "(a:Int,b:Int)",
            "[|A:Int|t1|]", "() {print|t1}-> ()", "() {|t1}-> ()",
        ),
        plain=(
            "Int", "Bool", "String", "[Int]", "[[Int]]", "()", "(a:Int)", "(b:Int)", "(a:Int,b:Int)", "[|A:Int|]", "() -> ()",
            "() {print}-> ()", "(Int) -> Int",
        ),
        rows=("", "a:Int", "b:Int", "a:Int,b:Int", "a:Bool", "a:()", "x:Int", "A:Int", "B:Int"),
        effects=((), ("print",), ("trap",), ("print", "trap")),
    ),
)


class Search:
    """The groundings of a system that are left with each equation, and the first one with which none is. A grounding is the place of
    what is put for each variable."""

    def __init__(self, family, equations):
        self.variables = variables_in(equations)
        self.choices = [family.tried[variable.kind] for variable in self.variables]
        self.first = None
        self.left = []
        self.is_tried = math.prod(map(len, self.choices)) <= MOST_GROUNDINGS
        if self.is_tried:
            self.left = list(itertools.product(*(range(len(choice)) for choice in self.choices)))
            self.solve(equations)

    def solve(self, equations):
        for number, (left, right) in enumerate(equations):
            left, right = self.value(left), self.value(right)
            self.left = [places for places in self.left if left(places) == right(places) is not None]
            if not self.left:
                self.first = number
                break

    def value(self, side):
        """What a side becomes under a grounding, None where a row has a label twice."""
        own = [self.variables.index(variable) for variable in dict.fromkeys(variables_of(side))]
        known = {}

        def at(places):
            key = tuple(places[i] for i in own)
            if key not in known:
                try:
                    known[key] = under(self.images(places), side)
                except Twice:
                    known[key] = None
            return known[key]

        return at

    def images(self, places):
        """What the grounding puts for each variable."""
        return {variable: choice[place] for variable, choice, place in zip(self.variables, self.choices, places)}


# ---- the cases that are worked by hand

def paragraphs(text):
    """The line of each paragraph, and its lines."""
    line = 1
    for paragraph in text.split("\n\n"):
        yield line, paragraph.split("\n")
        line += paragraph.count("\n") + 2


def worked_by_hand():
    """Each case of small equations: its place, its equations, and the first one that has no solution, if one hasn't."""
    for topic in ("plain", "records", "variants", "inside", "functions"):
        path = f"{DATA}/unify_{topic}.cases"
        with open(path, encoding="utf-8") as file:
            text = file.read().rstrip("\n")
        for line, lines in paragraphs(text):
            equations = [it.removeprefix("equation ") for it in lines if it.startswith("equation ")]
            wanted = [int(it.split()[1]) for it in lines if it.startswith("unsolvable ")]
            if equations:
                yield f"{path}:{line}", equations, wanted[0] if wanted else None


def try_search():
    """How many cases that are worked by hand the search finds unsolvable at the same equation, how many it can't, and the places of
    those for which it finds a solution that they haven't."""
    same, other, wrong = 0, 0, []
    for place, texts, wanted in worked_by_hand():
        equations = [read_equation(text) for text in texts]
        search = Search(FAMILIES[-1], equations)
        if not search.is_tried:
            other += 1
        elif search.first == wanted:
            same += 1
        elif search.first is None or wanted is not None and search.first > wanted:
            wrong.append(place)
        else:
            other += 1
    return same, other, wrong


# ---- what the program says

Answer = namedtuple("Answer", "fault solution")


def type_with(variable):
    """The text of a type in which a variable stands alone."""
    if variable.kind == "Plain":
        return f"t{variable.number}"
    if variable.kind == "RowVar":
        return f"(|t{variable.number})"
    return f"() {{|t{variable.number}}}-> ()"


def image_of(variable, ty):
    """What stands for the variable where the type in which it stands alone becomes this one."""
    if variable.kind == "Plain":
        return ty
    return ty.row if variable.kind == "RowVar" else ty.effects


def case_of(texts, variables):
    """The lines of a case that asks how equations come out and what their variables become. That no type is wanted, so what it is is
    told in any case."""
    params = ",".join(["Int", *map(type_with, variables)])
    return "\n".join(["# a system", *(f"equation {text}" for text in texts), "solvable", f"solution ({params}) -> () = none"])


def answers(program, path, count):
    """What the program tells of the cases of a file: for each the fault of its equations, if it has one, and the solution."""
    folder, name = os.path.split(path)
    ran = subprocess.run([program, name], cwd=folder, capture_output=True, text=True, check=True)
    with open(f"{path}.told", "w", encoding="utf-8") as file:
        file.write(ran.stdout)
    told = {}
    for line in ran.stdout.splitlines():
        found = re.fullmatch(rf"{re.escape(name)}:(\d+): (.*)", line)
        if found:
            told.setdefault(int(found.group(1)), []).append(found.group(2))
    if not ran.stdout.endswith(f"{name}: {count} cases\n"):
        raise SystemExit(f"{program} told no end of {path}")
    with open(path, encoding="utf-8") as file:
        for line, _lines in paragraphs(file.read().rstrip("\n")):
            yield answer_of(told.get(line, []))


def answer_of(lines):
    faults = [line for line in lines if not line.startswith("solution ")]
    solutions = [line.split(" = ", 1)[1] for line in lines if line.startswith("solution ")]
    return Answer(faults[0] if faults else None, solutions[0] if solutions else "")


# ---- what is wrong with it

def first_of(fault, count):
    """The number of the first equation without a solution, or how many there are."""
    if fault is None:
        return count
    found = re.fullmatch(r"unsolvable (\d+)", fault)
    if not found:
        raise ValueError(fault)
    return int(found.group(1))


def bind(found, variable, image):
    return found.setdefault(variable, image) == image


def row_matches(found, variable, pattern, row, matches_field):
    """Whether a closed row is one that the pattern may become, what stands for the variables being found."""
    left = dict(row)
    for label, inside in pattern:
        if label not in left or not matches_field(inside, left.pop(label)):
            return False
    if variable.number is None:
        return not left
    return bind(found, variable, tuple(sorted(left.items())))


def matches(found, pattern, ty):
    """Whether a ground type is one that the pattern may become, what stands for the variables being found."""
    if isinstance(pattern, Var):
        return bind(found, Plain(pattern.number), ty)
    if type(pattern) is not type(ty):
        return False
    if isinstance(pattern, ListOf):
        return matches(found, pattern.item, ty.item)
    if isinstance(pattern, (Fields, Tags)):
        row = pattern.row
        return row_matches(found, RowVar(row.tail), row.fields, ty.row.fields, lambda p, t: matches(found, p, t))
    if isinstance(pattern, Fun):
        effects = [(word, None) for word in pattern.effects.fields]
        its_effects = [(word, None) for word in ty.effects.fields]
        return (
            len(pattern.params) == len(ty.params)
            and all(matches(found, p, t) for p, t in zip(pattern.params, ty.params))
            and row_matches(found, EffectsVar(pattern.effects.tail), effects, its_effects, lambda p, t: True)
            and matches(found, pattern.answer, ty.answer)
        )
    return pattern == ty


def wrong_solution(equations, variables, solved, search):
    """What is wrong with the type that a function of all variables becomes, if anything is."""
    function = read_type(solved)
    images = {variable: image_of(variable, ty) for variable, ty in zip(variables, function.params[1:])}
    if not all(is_met(images, equation) for equation in equations):
        return f"{solved} is no solution"
    shown = Fun((Base("Int"), *(read_type(type_with(variable)) for variable in variables)), Row((), None), Fields(Row((), None)))
    for places in search.left:
        ground = under(search.images(places), shown)
        if not matches({}, function, ground):
            return f"{solved} isn't most general: {type_text(ground)} is no instance"
    return None


def wrong_answer(family, equations, search, answer):
    """What is wrong with an answer, if anything is."""
    count = len(equations)
    try:
        first = first_of(answer.fault, count)
        tried = count if search.first is None else search.first
        if search.is_tried and (tried != first if family.is_complete else tried > first):
            return f"{answer.fault or 'solvable'}, and the search says {search.first}"
        if first < count:
            return None
        return wrong_solution(equations, variables_in(equations), answer.solution, search)
    except (ValueError, AttributeError) as fault:
        return f"not understood: {fault}"


def try_family(program, family, rng, count, folder):
    """How many systems of a family have a solution, how many haven't, of how many too much would have to be tried, and what is
    wrong."""
    systems = list(family.systems(rng, count))
    path = f"{folder}/{family.name}.cases"
    with open(path, "w", encoding="utf-8") as file:
        cases = [case_of(texts, variables_in([read_equation(text) for text in texts])) for texts in systems]
        file.write("\n\n".join(cases) + "\n")
    solved, untried, wrong = 0, 0, []
    for texts, answer in zip(systems, answers(program, path, len(systems)), strict=True):
        equations = [read_equation(text) for text in texts]
        search = Search(family, equations)
        solved += answer.fault is None
        untried += not search.is_tried
        fault = wrong_answer(family, equations, search, answer)
        if fault:
            wrong.append(f"{family.name}: {'; '.join(texts)}: {fault}")
    return solved, len(systems) - solved, untried, wrong


def main():
    parser = argparse.ArgumentParser(description=__doc__, formatter_class=argparse.RawDescriptionHelpFormatter)
    parser.add_argument("type_cases")
    parser.add_argument("--systems", type=int, default=1000)
    parser.add_argument("--seed", type=int, default=1)
    parser.add_argument("--keep", default=None)
    args = parser.parse_args()
    folder = args.keep or tempfile.mkdtemp()
    os.makedirs(folder, exist_ok=True)
    rng = random.Random(args.seed)
    same, other, wrong = try_search()
    print(f"by hand: {same} the same, {other} with no small solution, {len(wrong)} wrong")
    for family in FAMILIES:
        solved, refused, untried, faults = try_family(os.path.abspath(args.type_cases), family, rng, args.systems, folder)
        print(f"{family.name}: {solved} with a solution, {refused} without, {untried} not searched, {len(faults)} wrong")
        wrong += faults
    for fault in wrong:
        print(fault)
    sys.exit(1 if wrong else 0)


if __name__ == "__main__":
    main()
