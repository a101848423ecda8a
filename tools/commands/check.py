"""check: loading and the check of many files, as the proved check says them."""

import json
import sys
from collections import namedtuple

from cases import answers
from commands.options import FILE_HELP
from commands.places import line_at, method_name
from common import FAULT, UNUSABLE, Trouble, parser_for, shown
from housetext.explaining import explain, with_class_names
from housetext.second_opinion import second_opinion
from modules import BadText, read_module
from words import meaning

WHAT = """Loads and checks modules without running them, and says the first fault of each as the proved check finds it.

The status is 0 where all pass, 1 where one has a fault, 2 where one can't be read. So it can stand in a pre-commit hook."""
EXAMPLE = "./loitsupar check examples/*.turn"

PROVED = "proved check"
SECOND = "second implementation"

# A fault at a place of a module, who found it, and what was wanted there, where that is known.
Found = namedtuple("Found", "number method offset found_by wanted")


def main(words):
    parser = parser_for(WHAT, EXAMPLE)
    parser.add_argument("files", metavar="FILE", nargs="+", help=FILE_HELP)
    parser.add_argument("--all", action="store_true", help="the first fault of every method, as the second implementation finds it")
    parser.add_argument("--json", action="store_true", help="the answers as JSON")
    options = parser.parse_args(words)
    results = checked(options.files, options.all)
    status = max(result.status for result in results)
    if options.json:
        print(json.dumps({"status": status, "files": [result.record() for result in results]}, indent=2))
    else:
        for result in results:
            print("\n".join(result.lines()), file=sys.stderr if result.status == UNUSABLE else sys.stdout)
    return status


class Unread:
    """A file that holds no module."""

    def __init__(self, name, trouble):
        self.name = name
        self.trouble = trouble
        self.status = trouble.status

    def lines(self):
        return [str(self.trouble)]

    def record(self):
        if isinstance(self.trouble, BadText):
            errors = [{"line": bad.line, "column": bad.column, "message": bad.message} for bad in self.trouble.errors]
            return {"file": self.name, "passes": False, "text": errors}
        return {"file": self.name, "passes": False, "unreadable": str(self.trouble)}


class Checked:
    """What the check says of a module; with `every`, what the second implementation says of each method too."""

    def __init__(self, name, module, answer, every):
        self.name = name
        self.source = module.source
        number, method, offset = answer.check
        self.first = Found(number, method, offset, PROVED, None)
        self.others = every_fault(self.source) if every and answer.load.number == 0 else []
        agreed = [(found.number, found.method, found.offset) for found in self.others[:1]] or [(0, 0, 0)]
        self.differs = every and answer.load.number == 0 and agreed != [tuple(answer.check)]
        self.status = FAULT if number or self.differs else 0

    def lines(self):
        if not self.first.number:
            lines = [f"{shown(self.name)}: passes"]
        else:
            number, method, offset = self.first[:3]
            lines = [self.headline(self.first)] + ["    " + line for line in explain(self.source, [number, method, offset, 0, "-"])[1:]]
        more = [found for found in self.others if found[:3] != self.first[:3]]
        lines += [f"{self.headline(found)}; wanted: {with_class_names(self.source, found.wanted)} ({SECOND})" for found in more]
        if self.differs:
            lines.append(f"{shown(self.name)}: the proved check and the {SECOND} differ; the proved check decides")
        return lines

    def headline(self, found):
        """File, line of the text, number and place in one line, as compilers write them."""
        line = line_at(self.source, found.method, found.offset)
        place = f" in {method_name(self.source, found.method)} at offset {found.offset}" if found.method else f" at place {found.offset}"
        return f"{shown(self.name)}:{f'{line}:' if line else ''} number {found.number}{place}: {meaning(found.number)}"

    def record(self):
        record = {"file": self.name, "passes": not self.first.number, **self.found_record(self.first)}
        if self.others:
            record["methods"] = [self.found_record(found) for found in self.others]
        if self.differs:
            record["differs"] = True
        return record

    def found_record(self, found):
        record = {"number": found.number, "method": found.method, "offset": found.offset, "found_by": found.found_by}
        if found.number:
            record |= {"meaning": meaning(found.number), "line": line_at(self.source, found.method, found.offset)}
            record["name"] = method_name(self.source, found.method) if found.method else None
        if found.wanted:
            record["wanted"] = with_class_names(self.source, found.wanted)
        return record


def every_fault(source):
    """The first fault of every method that has one, as the second implementation finds it."""
    opinion = second_opinion(source.tables, source.code)
    if opinion is None:
        raise Trouble("--all asks the second implementation, which is not there")
    faults = []
    for row in range(1, len(source.methods) + 1):
        fault = opinion.fault(row)
        if fault:
            number, offset, wanted = fault
            faults.append(Found(number, row, offset, SECOND, wanted))
    return faults


def checked(names, every=False):
    """What the check says of each file. All modules go to the proved program at once, with no budget, as nothing is to run."""
    read = [read_or_trouble(name) for name in names]
    modules = [module for module in read if not isinstance(module, Trouble)]
    said = iter(answers([module.data for module in modules], budget=0))
    return [Unread(name, module) if isinstance(module, Trouble) else Checked(name, module, next(said), every) for name, module in zip(names, read)]


def read_or_trouble(name):
    try:
        return read_module(name)
    except Trouble as trouble:
        return trouble
