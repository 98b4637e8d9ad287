"""What lines of JSON are as text, and what the lines of a script leave at hand: `tools/same-json`."""
import importlib.machinery
import importlib.util
import os
import sys
import tempfile
import unittest

TOOLS = os.path.dirname(os.path.dirname(os.path.realpath(__file__)))
sys.path.insert(0, TOOLS)
LOADER = importlib.machinery.SourceFileLoader("same_json", f"{TOOLS}/same-json")
tool = importlib.util.module_from_spec(importlib.util.spec_from_loader("same_json", LOADER))
sys.modules["same_json"] = tool
LOADER.exec_module(tool)

# Lines of JSON, and the lines of text that they are (docs/FORMATS.md).
LINES = (
    ('{"line":"accept","sender":"@1","object":"RUN","number":0,"action":"GO","args":[]}', "accept @1 RUN 0 GO"),
    ('{"line":"start","object":"HV","sender":"RUN","number":7,"action":"SET","args":[{"name":"VOLTS","value":-5},'
     '{"name":"WHY","value":"a \\\\ (b)"}]}', 'start HV RUN 7 SET (VOLTS = -5, WHY = "a \\ (b)")'),
    ('{"line":"post","object":"RUN","target":"HV","number":0,"action":"GO","args":[]}', "post RUN HV 0 GO"),
    ('{"line":"post","object":"RUN","target":"HV","refused":"full","action":"GO","args":[]}',
     "post RUN HV refused full GO"),
    ('{"line":"set","object":"RUN","name":"NOTE","value":""}', 'set RUN NOTE=""'),
    ('{"line":"set","set":"SUPPLIES","objects":["HV","SPARE"]}', "set SUPPLIES HV SPARE"),
    ('{"line":"set","set":"NOBODY","objects":[]}', "set NOBODY"),
    ('{"line":"seen","object":"RUN","read":[{"object":"HV","state":"ON"}]}', "seen RUN HV=ON"),
    ('{"line":"seen","object":"RUN","read":[]}', "seen RUN"),
    ('{"line":"end","end":"Quiet"}', "end Quiet"),
    ('{"line":"end","object":"RUN","state":"READY"}', "end RUN READY"),
    ('{"line":"end","object":"RUN","skipped":true}', "end RUN skipped"),
    ('{"line":"refused","kind":"BadLine"}', "refused BadLine"),
    ('{"line":"refused","sender":"@1","count":2}', "refused @1 2"),
    ('{"line":"state","class":"C","state":"S","initial":true,"dead":true}', "state C S initial dead"),
    ('{"line":"state","class":"C","state":"S","initial":false,"dead":false}', "state C S"),
    ('{"line":"state","object":"HV","state":"ON"}', "state HV ON"),
    ('{"line":"param","class":"C","name":"TRIES","kind":"int","value":-5}', "param C TRIES int -5"),
    ('{"line":"param","object":"RUN","name":"TRIES","value":9223372036854775807}',
     "param RUN TRIES=9223372036854775807"),
    ('{"line":"open","object":"HV","action":"GO","device":true}', "open HV GO waits device"),
    ('{"line":"open","object":"RUN","action":"GO","waits":["HV","SPARE"]}', "open RUN GO waits HV SPARE"),
    ('{"line":"open","object":"RUN","action":"GO"}', "open RUN GO"),
    ('{"line":"action","class":"C","state":"S","action":"GO","parameters":[{"kind":"int","name":"N"},'
     '{"kind":"string","name":"WHY","value":"x"}]}', 'action C S GO (int N, string WHY = "x")'),
    ('{"line":"class","class":"C","associated":true}', "class C associated"),
    ('{"line":"Illegal","at":3,"rule":"Meaning"}', "Illegal 3 Meaning"),
)
# What is no line of text, and is an empty one.
NO_LINES = ("", "no JSON", "3", "[]", "{}", '{"line":"other"}', '{"line":3}', '{"object":"HV"}')
ESCAPED = (
    ("", b""), ("plain", b"plain"), (r"\x41\x0aB", b"A\nB"), (r"\xC3\xa9", b"\xc3\xa9"), (r"\x", rb"\x"),
    (r"\x\x41", rb"\xA"), (r"\xg1", rb"\xg1"), (r"\x4", rb"\x4"), (r"\\x41", rb"\A"),
)


def at_hand(*lines):
    """The text that lines leave at hand in an empty folder, and the names of its files."""
    with tempfile.TemporaryDirectory() as folder:
        place = tool.Place(folder)
        for line in lines:
            tool.perform("no program", tool.unescaped(line), place)
        return place.text, sorted(os.listdir(folder))


class TextOfJson(unittest.TestCase):
    def test_lines(self):
        for line, text in LINES:
            self.assertEqual(tool.text_of(line), text)

    def test_what_is_no_line(self):
        for line in NO_LINES:
            self.assertEqual(tool.text_of(line), "", line)

    def test_each_pattern_is_that_of_some_line(self):
        for word, field, pattern in tool.PATTERNS:
            self.assertEqual(tool.pattern_of({"line": word, **({field: 1} if field else {})}), pattern)

    def test_true_is_no_number(self):
        self.assertEqual(tool.text_of('{"line":"wait","object":true}'), "wait ")
        self.assertEqual(tool.text_of('{"line":"end","object":"RUN","skipped":1}'), "end RUN")


class Differences(unittest.TestCase):
    def test_the_same(self):
        lines = "".join(f"{line}\n" for line, _ in LINES)
        text = "".join(f"{text}\n" for _, text in LINES)
        self.assertEqual(list(tool.differences(text, lines)), [])

    def test_nothing(self):
        self.assertEqual(list(tool.differences("", "")), ["nothing is written"])

    def test_another_line(self):
        told = list(tool.differences("Legal\nwait B\n", '{"line":"Legal"}\n{"line":"wait","object":"A"}\n'))
        self.assertEqual(told, ["is 'wait B', and of the lines of JSON 'wait A'"])

    def test_a_line_more_or_less(self):
        one = '{"line":"Legal"}\n'
        for text, lines in (("Legal\nLegal\n", one), ("Legal\n", one * 2), ("Legal", one), ("Legal\n", one[:-1])):
            self.assertNotEqual(list(tool.differences(text, lines)), [])


class Script(unittest.TestCase):
    def test_escapes(self):
        for line, meant in ESCAPED:
            self.assertEqual(tool.unescaped(line), meant)

    def test_words(self):
        self.assertEqual(tool.words_of(b'smirun run "" a  b'), [b"run", b"", b"a", b"", b"b"])

    def test_lines_are_added(self):
        self.assertEqual(at_hand("| a", "| b")[0], b"a\nb")
        self.assertEqual(at_hand("| a", "|")[0], b"a\n")
        self.assertEqual(at_hand("| a", "* 3 b c")[0], b"a\nb c\nb c\nb c")
        self.assertEqual(at_hand("| a", "* 0 b")[0], b"a")
        self.assertEqual(at_hand("| a", "+ 2 b ", r"| \x00")[0], b"ab b \n\0")

    def test_a_new_text_begins_after_calls(self):
        for line in ("$ smirun list a", "% smirun list a", "^ smirun", "~ smirun", "= a | b", "@ write f", "@ piped x"):
            self.assertEqual(at_hand("| a", line, "| b")[0], b"b", line)
        for line in ("? part", "& smirun list a", "@ show f", "# name", "", "other"):
            self.assertEqual(at_hand("| a", line, "| b")[0], b"a\nb", line)

    def test_files(self):
        self.assertEqual(at_hand("| a", "@ write f", "@ write g", "@ remove f"), (b"a", ["g"]))

    def test_what_is_not_performed(self):
        for verb in ("fill f 0 9", "filled 9 x", "folder f", "held f x", "link f g", "symlink f g"):
            with self.assertRaises(ValueError):
                at_hand(f"@ {verb}")


if __name__ == "__main__":
    unittest.main()
