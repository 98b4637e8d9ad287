"""What stands against the rules of the house, and what of it is known: `tools/order`."""
import unittest

from copied import Repository

KNOWN = "tools/order.known"
ONE = """//! The first crate.
use other::Thing;

/// Does much.
pub fn wide<'a, F: Fn(u8, u8) -> u8>(
    a: u8, b: &'a [u8], c: (u8, u8), d: Map<u8, u8>, e: fn(u8) -> u8, f: F, g: u8,
) -> u8
    ensures said { IsSaid a }
{
    a
}

impl<T: Into<u8>> Holder<T> for Thing {
    // Six, with itself.
    fn narrow(&self, a: u8, b: Map<u8, u8>, c: (u8, u8), d: u8, e: u8) -> u8 {
        a
    }

    fn seven(&self, a: u8, b: u8, c: u8, d: u8, e: u8, f: u8) {}
}
"""
SPECS = """-- What is said.
-- it is said
pub IsSaid : Bytes → Type 0
IsSaid a = is_one a
abbrev pub is_one : ℕ → Bool
"""
LEMMAS = """-- Of what is said.
use Rattle.one.specs.Said.{IsSaid}
used : IsSaid 0
used = cc
last : IsSaid 1
last = used
"""
PYTHON = "#!/usr/bin/env python3\ndef told(a: int, *, b: str = '') -> int:\n    return a\n"


class Order(Repository):
    TOOLS_COPIED = ("order", "sources.py", "laying.py")

    def setUp(self) -> None:
        super().setUp()
        self.write("crates/one/src/lib.rt", ONE)
        self.write("crates/one/specs/Said.antt", SPECS)
        self.write("crates/one/proofs/Said.antt", LEMMAS)
        self.write("crates/one/proofs/Lib.antt", "mod Said\n")
        self.write("crates/two/src/inner/mod.rt", "//! The second.\n")
        self.write("tools/play", PYTHON)
        self.write(KNOWN, "")
        status, told = self.tell("order")
        self.write(KNOWN, "".join(f"{it[5:].partition(' (')[0]}\n" for it in told if it.startswith("new: ")))

    def new(self) -> list[str]:
        """What is told as new, without its places."""
        status, told = self.tell("order")
        found = [it[5:].partition(" (")[0] for it in told if it.startswith("new: ")]
        self.assertEqual((status, told[-1].split(", ")[1]), (1 if found else 0, f"{len(found)} new"))
        return found


class Looks(Order):
    def test_what_stands_at_first(self) -> None:
        self.assertEqual(self.read(KNOWN).splitlines(), [
            "unnamed one last 1", "wide one/src/lib.rt Thing::seven 7", "wide one/src/lib.rt wide 7",
        ])
        self.assertEqual(self.tell("order"), (0, ["3 known, 0 new, 0 gone"]))

    def test_a_name_in_two_crates(self) -> None:
        for text in ("pub IsSaid : Type 0\n", "abbrev pub IsSaid (a : ℕ) : Type 0\n", "pub record IsSaid : Type 0\n"):
            self.write("crates/two/specs/Other.antt", f"{text}mine : IsSaid\n")
            self.assertEqual(self.new(), ["doubled IsSaid 2"], text)
        told = self.tell("order")[1][0]
        self.assertTrue(told.endswith("(crates/one/specs/Said.antt:3, crates/two/specs/Other.antt:1)"), told)

    def test_a_name_in_two_files_of_one_crate(self) -> None:
        self.write("crates/one/specs/Other.antt", "pub IsSaid : Type 0\n")
        self.assertEqual(self.new(), [])

    def test_an_offered_file_that_only_its_own_crate_cites(self) -> None:
        self.write("crates/one/proofs/Lib.antt", "pub mod Said\n")
        self.write("crates/one/proofs/lib/wide/Answers.antt", "use Rattle.one.proofs.Said.{used}\n")
        self.assertEqual(self.new(), ["offered one Said 1"])
        self.write("crates/two/proofs/inner/x/Answers.antt", "use Rattle.one.proofs.Said.{used}\n")
        self.assertEqual(self.new(), [])

    def test_a_lemma_or_a_definition_that_nothing_names(self) -> None:
        self.write("crates/one/proofs/More.antt", "lonely : ℕ\nlonely = 0\n-- lonely is only told of here\n")
        self.write("crates/two/specs/More.antt", "pub Lonely' : ℕ\nLonely' = 0\n")
        self.assertEqual(self.new(), ["unnamed one lonely 1", "unnamed two Lonely' 1"])
        self.write("crates/two/src/lib.rt", "fn f()\n    ensures { Lonely' ≡ lonely }\n{}\n")
        self.assertEqual(self.new(), [])

    def test_functions_with_many_parameters(self) -> None:
        self.replace("crates/one/src/lib.rt", "d: u8, e: u8) -> u8", "d: u8, e: u8, f: u8) -> u8")
        self.assertEqual(self.new(), ["wide one/src/lib.rt Thing::narrow 7"])
        self.replace("crates/one/src/lib.rt", "f: F, g: u8,", "f: F, g: u8, h: u8")
        self.assertEqual(self.new(), ["wide one/src/lib.rt Thing::narrow 7", "wide one/src/lib.rt wide 8"])
        self.assertIn("and it was 7)", self.tell("order")[1][1])

    def test_functions_of_tests_may_be_wide(self) -> None:
        for name in ("tests_of_one", "test_domains", "example_of_one"):
            self.write(f"crates/{name}/src/lib.rt", ONE)
        self.assertEqual(self.new(), [])

    def test_long_contracts(self) -> None:
        clauses = "".join(f"    ensures c{number} {{ number ≡ {number} }}\n" for number in range(29))
        text = f"fn long() -> u8\n{clauses}    ensures last {{ OnOk (a\n        × b) }}\n{{\n    0\n}}\n"
        self.write("crates/two/src/lib.rt", text)
        self.assertEqual(self.new(), ["long two/src/lib.rt long 31"])
        self.write("crates/two/src/lib.rt", text.replace("    ensures c0 { number ≡ 0 }\n", ""))
        self.assertEqual(self.new(), [])

    def test_the_contract_of_a_declaration_ends_with_it(self) -> None:
        clause = "        ensures { a ≡ record self.old {\n          a = record b { c = 1; };\n        } };\n"
        text = "".join(f"    fn f{it}(&self)\n{clause}" for it in range(20))
        self.write("crates/two/src/lib.rt", f"trait Many {{\n{text}}}\n")
        self.assertEqual(self.new(), [])
        others = "        ensures { a }\n" * 27
        text = f"    fn f(&self)\n{clause.replace('} };', '} }')}{others}        ensures {{ a }};\n"
        self.write("crates/two/src/lib.rt", f"trait Many {{\n{text}}}\n")
        self.assertEqual(self.new(), ["long two/src/lib.rt Many::f 31"])

    def test_python_without_types(self) -> None:
        for text, name in (
            ("def f(a) -> int: ...\n", "f"), ("def f(a: int): ...\n", "f"), ("def f(a: int, *, b) -> int: ...\n", "f"),
            ("def f(*a) -> int: ...\n", "f"), ("def f(**a) -> int: ...\n", "f"), ("def f(a, /) -> int: ...\n", "f"),
            ("class C:\n    def f(self, a) -> int: ...\n", "C.f"), ("def g() -> int:\n    def f(): ...\n", "g.f"),
            ("class C:\n    @staticmethod\n    def f(a) -> int: ...\n", "C.f"), ("async def f(): ...\n", "f"),
            ("class C:\n    def f(self): ...\n", "C.f"), ("if True:\n    def f(): ...\n", "f"),
        ):
            self.write("links/new.py", text)
            self.assertEqual(self.new(), [f"untyped links/new.py {name} 1"], text)

    def test_python_with_types(self) -> None:
        for text in (
            "class C:\n    def f(self) -> None: ...\n    @classmethod\n    def g(cls, a: int) -> None: ...\n",
            "def f(*a: int, **b: int) -> None: ...\n", "f = lambda a: a\n",
        ):
            self.write("links/new.py", text)
            self.assertEqual(self.new(), [], text)

    def test_which_files_are_python(self) -> None:
        text = "def f(): ...\n"
        self.write("examples/deep/tool", f"#!/usr/bin/env python3\n{text}")
        self.write("top.py", text)
        for name in ("other.txt", "crates/one/src/no.py", "tools/out/no.py", "tools/__pycache__/no.py", "tools/shell"):
            self.write(name, text)
        self.assertEqual(self.new(), ["untyped examples/deep/tool f 1", "untyped top.py f 1"])

    def test_python_that_is_none(self) -> None:
        self.write("tools/bad.py", "x = 1\ndef f(:\n")
        status, told = self.tell("order")
        self.assertEqual((status, told[0][:15], told[-1]), (1, "tools/bad.py:2:", "1 wrong"))

    def test_long_lines(self) -> None:
        for size, found in ((120, []), (121, ["column tools/play 1"])):
            self.write("tools/play", PYTHON + "#" * size + "\n")
            self.assertEqual(self.new(), found)
        self.write("tools/play", PYTHON)
        wide = "x" * 121
        self.write("crates/two/src/lib.rt", f"//! Two.\nghost use {wide};\n#[tactic({wide})]\n    #[tactic({wide})]\n")
        self.assertEqual(self.new(), ["column crates/two/src/lib.rt 2"])


class Known(Order):
    def test_what_is_gone_is_told_and_taken_away(self) -> None:
        before = self.read(KNOWN)
        self.write("crates/one/proofs/More.antt", "more = last\n")
        self.replace("crates/one/src/lib.rt", "f: F, g: u8,", "f: F,")
        told = ["gone: unnamed one last 1", "gone: wide one/src/lib.rt wide 7", "3 known, 0 new, 2 gone"]
        self.assertEqual(self.tell("order"), (0, told))
        self.assertEqual(self.read(KNOWN), before)
        self.assertEqual(self.tell("order", "--write"), (0, told))
        self.assertEqual(self.read(KNOWN), "wide one/src/lib.rt Thing::seven 7\n")
        self.assertEqual(self.tell("order"), (0, ["1 known, 0 new, 0 gone"]))

    def test_numbers_become_smaller(self) -> None:
        self.replace(KNOWN, "wide one/src/lib.rt wide 7", "wide one/src/lib.rt wide 9")
        told = ["gone: wide one/src/lib.rt wide 9, and 7 is left", "3 known, 0 new, 1 gone"]
        self.assertEqual(self.tell("order", "--write"), (0, told))
        self.assertIn("wide one/src/lib.rt wide 7\n", self.read(KNOWN))

    def test_nothing_is_added(self) -> None:
        self.replace(KNOWN, "wide one/src/lib.rt wide 7", "wide one/src/lib.rt wide 9")
        self.write("links/new.py", "def f(): ...\n")
        before = self.read(KNOWN)
        status, told = self.tell("order", "--write")
        self.assertEqual((status, told[-2:]), (1, [
            "tools/order.known is not written: it never gets more", "3 known, 1 new, 1 gone",
        ]))
        self.assertEqual(self.read(KNOWN), before)

    def test_without_the_file_all_is_new(self) -> None:
        self.write(KNOWN, "")
        self.assertEqual(self.tell("order")[1][-1], "0 known, 3 new, 0 gone")

    def test_a_line_that_is_none(self) -> None:
        for line in ("wide", "wide one/src/lib.rt wide", "7"):
            self.write(KNOWN, f"unnamed one last 1\n{line}\n")
            told = [f"{KNOWN}:2: is not a word, a place and a number", "1 wrong"]
            self.assertEqual(self.tell("order"), (1, told), line)


if __name__ == "__main__":
    unittest.main()
