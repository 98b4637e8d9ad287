"""Puts wrong bodies into a copy of the package, one at a time, and looks whether its tests refuse each.

usage: links/wrong-bodies [WORD]

WORD chooses those with it in their name. Each is a line, `caught` or `NOT CAUGHT`, with the tests that failed; it takes
two seconds each. Before that the copy is tested as it is: where that fails, nothing else is tried. The last line is 'N
bodies, M not caught', and the status is 0 only where M is 0.
"""
from __future__ import annotations

import os
import shutil
import subprocess
import sys
import tempfile

PACKAGE = os.path.dirname(os.path.dirname(os.path.realpath(__file__)))
# Of each its name, the file, the text that stands there once or more, and the text in its place.
BODIES = (
    ('a start that is skipped', 'parent.py',
     'return start is not None and start.is_declared and start.action != sub.link.report',
     'return start is not None and start.action != sub.link.report'),
    ('lines in pieces', 'lines.py',
     '        return bytes(self.waiting[:self.waiting.rfind(b"\\n", 0, PIECE) + 1] or self.wait'
     'ing[:PIECE])',
     '        return bytes(self.waiting[:PIECE])'),
    ('nothing withdrawn at rest', 'parent.py',
     '    return Command(at.last, at.known.log, target, WITHDRAWN)',
     '    return None'),
    ('an operator who gives up', 'asking.py',
     '        action = WITHDRAWN if self.is_withdrawn else self.action',
     '        action = self.action'),
    ('the last K of a dead SUB', 'decide.py',
     '        if known is None or self.table.states[name] == self.domain.class_of(name).dead:',
     '        if known is None:'),
    ('K of an outcome', 'table.py',
     '            if last is None or last.k < number:\n'
     '                self.lasts[name] = Last(number, target, "waits"',
     '            if last is None:\n'
     '                self.lasts[name] = Last(number, target, "waits"'),
    ('of neither is the number known', 'table.py',
     'is_its_own = last.number != NOT_KNOWN and (',
     'is_its_own = ('),
    ('a name without its K', 'table.py',
     '(was.name, was.k) == (who, last.k)',
     'was.name == who'),
    ('a state that SUB does not declare', 'parent.py',
     '    if heard.state.state not in at.states:\n'
     '        return State(heard.state.log, heard.state.version, sub.link.lost)\n',
     ''),
    ('a log that is synced', 'decide.py',
     'if notes.log and notes.boot == boot:',
     'if notes.log and notes.boot == boot and boot != marks.SYNCED:'),
    ('one beat is a life', 'parent.py',
     'heard.beats < 2',
     'heard.beats < 1'),
    ('a state that is older', 'parent.py',
     'or heard.state.version < known.version:',
     'or False:'),
    ('an outcome that is older', 'parent.py',
     '    return None if outcome.is_last() and outcome.version < known.version else outcome',
     '    return outcome'),
    ('late by what was told before', 'parent.py',
     'sub.heard.told > clocks.withdrawn and not away',
     'not away'),
    ('a link that is pointed elsewhere', 'decide.py',
     'former = known.child if known is not None and known.child != f"{sub.link.child}.{sub.lin'
     'k.object}" else ""',
     'former = ""'),
    ('a greater number on its own topic', 'decide.py',
     '        if alive.log > self.notes.log or alive.is_up',
     '        if False and alive.is_up'),
    ("a greater number of a parent", 'decide.py',
     'if found is Verdict.HIGHER_LOG and commander.is_link():',
     'if False:'),
    ('a greater number of an operator', 'decide.py',
     'if found is Verdict.HIGHER_LOG and commander.is_link():',
     'if found is Verdict.HIGHER_LOG:'),
    ('given up before the log is known', 'parent.py',
     '(sub.clocks.withdrawn is not None or sub.clocks.answered)',
     '(sub.clocks.answered)'),
    ('cut lines count', 'marks.py',
     '_NOTE.finditer(text, 0, last + 1)',
     '_NOTE.finditer(text)'),
    ('an operator named as a manager', 'description.py',
     '            if name in self.of.managers:\n',
     '            if False:\n'),
    ('the session of a link', 'description.py',
     'if fields.pop("session", LINK_SESSION) != LINK_SESSION:',
     'if fields.pop("session", LINK_SESSION) == 0:'),
    ('a life that is counted', 'decide.py',
     '        self.life = self.life or self.notes.lives\n'
     '        self.go_on(now)\n'
     '\n'
     '    def rolled',
     '        self.life = 1\n'
     '        self.go_on(now)\n'
     '\n'
     '    def rolled'),
    ('a new log, once answered', 'parent.py',
     '(sub.clocks.withdrawn is not None or sub.clocks.answered)',
     '(sub.clocks.withdrawn is not None)'),
    ('arguments of what is open', 'decide.py',
     'start = self.start_at(name) if was is not None and was.number != NOT_KNOWN else None',
     'start = self.start_at(name)'),
    ('answered under the new number', 'decide.py',
     'sub.clocks = Clocks(self.open_k(name), now, answered=name in answered)',
     'sub.clocks = Clocks()'),
    ('no room uses K up', 'child.py',
     'NO_OUTCOMES = ("Limit", "TooManyNames")',
     'NO_OUTCOMES = ()'),
    ('a withdrawal does not stand', 'child.py',
     '    return command.action == WITHDRAWN and newest.action != WITHDRAWN',
     '    return True'),
    ('a full log takes commands', 'decide.py',
     'not self.is_begun or self.is_mute:\n'
     '            return\n'
     '        commands.given',
     'not self.is_begun:\n'
     '            return\n'
     '        commands.given'),
    ('circles', 'description.py',
     '                elif name in path:\n',
     '                elif False:\n'),
    ('a tree without domains', 'description.py',
     '    if not hierarchy.faults:\n'
     '        Check(hierarchy).check_tree()\n',
     '    if not hierarchy.faults and domains is not None:\n'
     '        Check(hierarchy).check_tree()\n'),
    ('a broker for nobody', 'access.py',
     '    if not hierarchy.broker.ca and not hierarchy.broker.passwords:\n',
     '    if False:\n'),
    ('a driver that cannot be started', 'process.py',
     'self.side.tell(f"the driver {self.words[0]} could not be started: {fault.strerror}")',
     'pass'),
    ('a long begin', 'decide.py',
     '            sub.heard.at = now\n',
     '            pass\n'),
)


def failed_with(name: str, old: str, new: str) -> list[str] | None:
    """The tests that fail where a text of a file is another, or None where the file has no such text."""
    with tempfile.TemporaryDirectory(prefix="wrong-bodies-") as folder:
        shutil.copytree(PACKAGE, f"{folder}/links", ignore=shutil.ignore_patterns("__pycache__"))
        path = f"{folder}/links/{name}"
        with open(path, encoding="utf-8") as file:
            text = file.read()
        if old not in text:
            return None
        with open(path, "w", encoding="utf-8") as file:
            file.write(text.replace(old, new))
        words = [sys.executable, "-B", "-m", "unittest", "discover", "-s", "links/tests", "-p", "test_*.py"]
        done = subprocess.run(words, cwd=folder, capture_output=True, text=True)
        found = [line.split(" ")[1] for line in done.stderr.splitlines() if line.startswith(("FAIL:", "ERROR:"))]
        return found or (["the run itself"] if done.returncode else [])


def main() -> int:
    if sys.argv[1:2] in (["--help"], ["-h"]):
        print(__doc__, end="")
        return 0
    if failed := failed_with("__init__.py", "", ""):
        print(f"the tests fail without a wrong body: {', '.join(failed)}")
        return 1
    bodies = [body for body in BODIES if not sys.argv[1:] or sys.argv[1] in body[0]]
    passed = 0
    for what, name, old, new in bodies:
        failed = failed_with(name, old, new)
        passed += not failed
        by = f"{name} has no such text" if failed is None else ", ".join(dict.fromkeys(failed[:2]))
        print(f"{'caught' if failed else 'NOT CAUGHT'}: {what} ({by})", flush=True)
    print(f"{len(bodies)} bodies, {passed} not caught")
    return 1 if passed else 0


if __name__ == "__main__":
    sys.exit(main())
