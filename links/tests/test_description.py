"""Descriptions: a good one, and each fault by its table and sentence; and the rights at the broker."""
import tempfile
import unittest

from links.access import access_list, write_broker
from links.description import read
from links.domain import Refused
from links.tests.sides import TOML, faults_of, hierarchy_of

FAULTS = (
    ("x = [", None, "(at end of document)"),
    ("", None, "the file: there is no manager"),
    ("colour = 1\n" + TOML, None, "the file: `colour` is not known"),
    (TOML.replace('"C.T" }', "3 }"), None, "managers.P.links.SUB: `to` is of another kind"),
    (TOML.replace('"C.T" }', '"CT" }'), None, 'managers.P.links.SUB: `to` is "MANAGER.OBJECT"'),
    (TOML.replace('"C.T" }', '"D.T" }'), None, "managers.P.links.SUB: there is no manager D"),
    (TOML.replace('"C.T" }', '"C.X" }'), None, "has no object X"),
    (TOML.replace("SUB =", "BUS ="), None, "has no object BUS"),
    (TOML.replace("SUB =", "U ="), None, "U is no associated object"),
    (TOML.replace('"C.T" }', '"P.SUB" }'), None, "the file: a circle: P commands P"),
    (TOML, {"parent": ("state BELOW ON", "state BELOW UP\nstate BELOW ON")}, "SUB does not declare REPORT in UP"),
    (TOML, {"child": ("state UNIT ON", "state UNIT UP\nstate UNIT ON")},
     "C.T may be in UP, which SUB does not declare"),
    (TOML, {"child": ("action UNIT OFF GO\n", "")}, "C.T does not declare GO"),
    (TOML, {"child": ("action UNIT OFF GO\n", "action UNIT OFF GO (int N)\n")}, "GO has other parameters at C.T"),
    (TOML, {"child": ("GO_TO (int N = 3)", "GO_TO (int N = 9)")}, "ok"),
    (TOML, {"child": ("action UNIT OFF GO\n", "action UNIT OFF GO\naction UNIT OFF REPORT\n")},
     "REPORT is an action of C.T too"),
    (TOML, {"child": ("action UNIT OFF GO\n", "action UNIT OFF GO\naction UNIT OFF WITHDRAWN\n")},
     "managers.C: no class may declare an action WITHDRAWN"),
    (TOML.replace('"C.T" }', '"C.T", lost = "GONE" }'), None, "SUB does not declare GONE"),
    (TOML.replace('"C.T" }', '"C.T", lost = "ON" }'), None, "ON is a state of C.T too"),
    (TOML, {"parent": ("action BELOW DEAD REPORT\n", "")}, "SUB does not declare REPORT in DEAD"),
    (TOML, {"parent": ("action BELOW ON REPORT", "action BELOW ON REPORT (int N)")}, "REPORT has parameters"),
    (TOML.replace("[managers.C]", 'S2 = { to = "C.T" }\n[managers.C]'),
     {"parent": ("object SUB BELOW", "object SUB BELOW\nobject S2 BELOW")}, "C.T has two parents: P.SUB and P.S2"),
    (TOML.replace("[managers.C]\n", '[managers.C]\nlog = "p.log"\n'), None, "another manager has the log"),
    (TOML.replace("[managers.C]\n", '[managers.C]\nreact = "T GO_TO"\n'), None, '`react` is "OBJECT ACTION"'),
    (TOML.replace("[managers.C]\n", '[managers.C]\ncapacity = 0\n'), None, "`capacity` is 1 to 1024"),
    (TOML.replace("[managers.C]\n", '[managers.C]\nmachine = "a/b"\n'), None, "`machine` is the name of a machine"),
    (TOML.replace("[managers.C]\n", '[managers.C]\ndrivers = ["x"]\n'), None, "`drivers` is a list of lists of words"),
    (TOML.replace("[managers.C]\n", '[managers.c]\n') + '[managers.C]\ndomain = "child.sml"\n', None,
     "it is there twice, in other letters"),
    (TOML.replace("[managers.C]\n", '[managers.IF]\n'), None, "no reserved word"),
    (TOML + '[defaults]\nlimit = nan\n', None, "`limit` and `patience` are seconds"),
    (TOML + '[defaults]\nlimit = true\n', None, "defaults: `limit` is of another kind"),
    (TOML + '[broker]\nhost = "a b"\n', None, "broker: `host` is a name or an address"),
    (TOML + '[broker]\nca = "a\\nlistener 1"\n', None, "broker: `ca` has a byte that no line may have"),
    (TOML.replace("parent.sml", "other.sml"), None, "is refused"),
    (TOML + '[operators.BERT]\nmay = ["C.X"]\n', None, "operators.BERT: there is no C.X"),
    (TOML + '[operators.BERT]\nmay = [1]\n', None, '`may` is a list of "MANAGER.OBJECT"'),
    # A session that programs or nodes have is none of a link's, and the other way round.
    (TOML.replace('"C.T" }', '"C.T", session = 3 }'), None, "`session` of a link is 8, and no other"),
    (TOML.replace('"C.T" }', '"C.T", session = 8 }'), None, "ok"),
    (TOML + '[operators.BERT]\nmay = ["C.T"]\nsession = 8\n', None, "`session` of an operator is 1 to 6"),
    (TOML + '[operators.BERT]\nmay = ["C.T"]\nsession = 7\n', None, "`session` of an operator is 1 to 6"),
    # A name is one place.
    (TOML + '[operators.P_SUB]\nmay = ["C.T"]\n', None, "operators.P_SUB: the name P_SUB is that of a link too"),
    (TOML + '[operators.P]\nmay = ["C.T"]\n', None, "operators.P: the name P is that of a manager too"),
)


class Descriptions(unittest.TestCase):
    def test_a_good_one(self) -> None:
        self.assertEqual(faults_of(TOML), "ok")

    def test_each_fault_is_told(self) -> None:
        for toml, changes, sentence in FAULTS:
            with self.subTest(sentence=sentence, toml=toml[-60:]):
                self.assertIn(sentence, faults_of(toml, changes))

    def test_all_faults_are_told(self) -> None:
        told = faults_of(TOML.replace('"C.T" }', '"C.T", colour = 1, limit = "x" }') + "[operators.P]\nmay = 3\n")
        self.assertEqual(len(told.splitlines()), 3, told)

    def test_circles_are_told_once_each(self) -> None:
        """Of a tree with a circle in it, and one that hangs below the circle: by the managers in the circle alone."""
        links = {"A": "B", "B": "CD", "C": "B", "D": "", "E": "B", "F": "F"}
        text = "".join(f'[managers.{name}]\ndomain = "x.sml"\n[managers.{name}.links]\n' + "".join(
            f'S{child} = {{ to = "{child}.T{name}" }}\n' for child in children) for name, children in links.items())
        told = faults_of(text)
        self.assertEqual([line.partition(": the file: ")[2] for line in told.splitlines()], [
            "a circle: B commands C commands B", "a circle: F commands F"])

    def test_the_tree_is_looked_at_without_domains(self) -> None:
        """An operator's machine has none of them."""
        with tempfile.TemporaryDirectory() as folder:
            path = f"{folder}/h.toml"
            for toml, sentence in ((TOML.replace('"C.T" }', '"D.T" }'), "there is no manager D"),
                                   (TOML.replace('"C.T" }', '"P.SUB" }'), "a circle"),
                                   (TOML + '[operators.BERT]\nmay = ["X.T"]\n', "operators.BERT: there is no X.T")):
                with open(path, "w", encoding="ascii") as file:
                    file.write(toml)
                with self.assertRaisesRegex(Refused, sentence):
                    read(path, domains=None)

    def test_the_tree(self) -> None:
        links = {"C": "", "A": "CB", "B": "CD", "D": "", "E": ""}
        text = "".join(f'[managers.{name}]\ndomain = "child.sml"\n[managers.{name}.links]\n' + "".join(
            f'S{child} = {{ to = "{child}.T{name}" }}\n' for child in children) for name, children in links.items())
        with tempfile.TemporaryDirectory() as folder:
            with open(f"{folder}/h.toml", "w", encoding="ascii") as file:
                file.write(text)
            tree = read(f"{folder}/h.toml", domains=None).tree()
        self.assertEqual([(name, depth, link.sub if link else "") for name, depth, link in tree], [
            ("A", 0, ""), ("C", 1, "SC"), ("B", 1, "SB"), ("D", 2, "SD"), ("E", 0, "")])

    def test_a_broker_that_would_let_nobody_in(self) -> None:
        with tempfile.TemporaryDirectory() as folder, self.assertRaisesRegex(Refused, "neither `ca` nor `passwords`"):
            write_broker(hierarchy_of(), f"{folder}/broker")

    def test_each_name_has_one_account_and_the_topics_that_it_needs(self) -> None:
        lines = access_list(hierarchy_of()).splitlines()
        users = [line for line in lines if line.startswith("user ")]
        self.assertEqual(users, ["user P", "user C", "user ANNA"])
        of_parent = lines[1:lines.index("user C")]
        self.assertEqual(sorted(line for line in of_parent if " write " in line), [
            "topic write smirun/C/command/P_SUB", "topic write smirun/P/alive", "topic write smirun/P/outcome/+",
            "topic write smirun/P/state/+"])
        of_operator = lines[lines.index("user ANNA"):]
        self.assertEqual(sorted(line for line in of_operator if " write " in line), [
            "topic write smirun/C/command/ANNA", "topic write smirun/P/command/ANNA"])


if __name__ == "__main__":
    unittest.main()
