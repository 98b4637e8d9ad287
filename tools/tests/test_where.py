"""Where names are, and whether pages name what is there: `tools/where`, `tools/rules` and `tools/promises`."""
import unittest

from copied import Repository

LOW = """//! What bytes say.
ghost use Rattle.low.specs.Bytes.{Front, Rest as Left};
ghost use Rattle.low.specs.Marks as marks;

/// The longest text.
pub const LONGEST: usize = 64;

/// Why a text is refused.
pub enum Kind {
    /// It is too long.
    Long,
    Bad { at: usize },
}

/// Reads.
pub fn first(text: &[u8]) -> usize
    requires short { length text.now < LONGEST }
    ensures front { result ≡ Front text.now }
    ensures { marks.Mark text.now
        × Left text.now }
{
    // Front is no word here
    second(text)
}

#[cycle(round)]
fn second(text: &[u8]) -> usize
    ensures { Left text.now ≡ [] }
{
    match text {
        [] => third(Kind::Long),
        _ => first(text),
    }
}

fn third(kind: Kind) -> usize {
    40 + 2
}

pub trait Reader {
    fn take(&mut self) -> usize
        ensures { marks.Mark self.new };
}

pub struct Fast {
    at: usize,
}

impl Fast {
    pub fn new() -> Fast {
        Fast { at: 0 }
    }
}

impl Reader for Fast {
    fn take(&mut self) -> usize {
        third(Kind::Long)
    }
}
"""
BYTES = """-- Of bytes.
-- the front of a text
pub Front : List ℕ → ℕ
Front [] = 0

-- what is left
abbrev pub Rest : List ℕ → List ℕ
Rest a = [Front a]

mutual
  -- one of two
  pub data One : Type 0 where
    alone : One
"""
TESTS = """use low::first;

fn asks_first() {
    assert!(first(b"a") == 1);
    let n = Fast::new().take();
}
"""
RULES = """# The rules

## All

### What is read first (LANGUAGE, "Reading")

- Definition: `low` (`Front`, `first`), beside `low/specs/Bytes.antt`
- Code: `low` (`LONGEST`, `first` by `Front`; `second` by
  `Rest` and `match`)
- Laws: `low` (`fronts`)
- Test: `tests_of_low/src/all.rt` (`asks_first`), `tests_of_low/data/all.script` (`reads_a`)
"""
PROMISES = """# Promises

## Texts (`low`)

- It is read: `first`, clauses `short` (`Front`, of `low`) and
  `front`, and `third`; of another `Fast::new`.
- Nothing else, clause `front` of `first`.

## What is only tested

- All of `no_such_thing`, clause `none`.
"""
SECOND = "ghost use Rattle.low.specs.Bytes.{Front};\n\npub fn first(a: u8) -> u8 {\n    a\n}\n"


class Where(Repository):
    TOOLS_COPIED = (
        "where", "rules", "promises", "laying.py", "sources.py", "named.py", "rule_page.py",
    )

    def setUp(self) -> None:
        super().setUp()
        self.write("crates.txt", "low: itoa\nhigh: low\ntests_of_low: low\n")
        self.write("docs/RULES.md", RULES)
        self.write("docs/PROMISES.md", PROMISES)
        self.write("crates/low/src/lib.rt", LOW.replace("Left text.now ≡ []", "Rest text.now ≡ []"))
        self.write("crates/high/src/lib.rt", SECOND)
        self.write("crates/low/specs/Bytes.antt", BYTES)
        self.write("crates/low/specs/Marks.antt", "-- Of marks.\npub record Mark : Type 0 where\n  pub at : ℕ\n")
        self.write("crates/low/proofs/Fronts.antt", "-- Laws.\n\n-- of all fronts\nfronts : ℕ\nfronts = 0\n")
        self.write("crates/low/proofs/lib/first/Answers.antt", "")
        self.write("crates/low/proofs/lib/+round/Answers.antt", "")
        self.write("crates/low/proofs/lib/FastReader/take/Answers.antt", "")
        self.write("crates/low/must-fail/calls_none.edit", "file: src/lib.rt\nold:     second(text)\nnew:     0\n")
        self.write("crates/low/wrong-bodies/always.edit", "file: src/lib.rt\nold: 40 + 2\nnew: 0\n")
        self.write("crates/low/wrong-bodies/long.edit", "file: src/lib.rt\nold: LONGEST: usize = 64\nnew: 65\n")
        self.write("crates/tests_of_low/src/all.rt", TESTS)
        self.write("crates/tests_of_low/data/all.script", "# reads_a\n$ smirun\n  Long\n")

    def told(self, *words: str) -> list[str]:
        status, lines = self.tell("where", *words)
        self.assertEqual(status, 0, lines)
        return [" ".join(line.split()) for line in lines]


class Places(Where):
    def test_a_function(self) -> None:
        self.assertEqual(self.told("low/first"), [
            "first",
            "code crates/low/src/lib.rt:16-24",
            "requires short",
            "ensures front: Front (low/specs/Bytes.antt:3)",
            "ensures -: marks.Mark (low/specs/Marks.antt:2), Left (low/specs/Bytes.antt:7)",
            "proof crates/low/proofs/lib/first",
            "must-fail calls_none",
            "wrong-bodies (always)",
            "tests tests_of_low/src/all.rt:4",
            'rule What is read first (LANGUAGE, "Reading") (docs/RULES.md:5)',
        ])

    def test_functions_that_have_one_name(self) -> None:
        for words, count in ((["first"], 2), (["low/first"], 1), (["lib/first"], 2), (["high/lib/first"], 1)):
            self.assertEqual(self.told(*words).count("first"), count, words)

    def test_the_proof_of_a_cycle(self) -> None:
        self.assertIn("proof crates/low/proofs/lib/+round", self.told("second"))
        self.assertIn("proof by the tactics alone: it has no contract", self.told("third"))
        self.assertIn("proof by the tactics alone: it has no contract", self.told("Fast::new"))

    def test_what_a_type_has_for_a_trait(self) -> None:
        declared, _, made = " ".join(self.told("take")).partition("Fast::take code")
        self.assertIn("proof of each that has it: Fast::take (low/src/lib.rt:56)", declared)
        self.assertIn("contract that of Reader::take (low/src/lib.rt:41)", made)
        self.assertIn("proof crates/low/proofs/lib/FastReader/take", made)
        self.assertIn("tests tests_of_low/src/all.rt:5", made)

    def test_a_definition(self) -> None:
        self.assertEqual(self.told("Front"), [
            "Front",
            "defined crates/low/specs/Bytes.antt:3 the front of a text",
            "cited by first (low/src/lib.rt:16)",
            "named by Rest",
            'rule What is read first (LANGUAGE, "Reading") (docs/RULES.md:5)',
        ])
        self.assertIn("cited by first (low/src/lib.rt:16)", self.told("Rest"))
        self.assertEqual(self.told("One")[1], "defined crates/low/specs/Bytes.antt:12 one of two")

    def test_constants_and_variants(self) -> None:
        self.assertEqual(self.told("LONGEST"), [
            "LONGEST",
            "const crates/low/src/lib.rt:6 The longest text.",
            "pub const LONGEST: usize = 64;",
            "functions first (low/src/lib.rt:16)",
            "wrong-bodies long",
            'rule What is read first (LANGUAGE, "Reading") (docs/RULES.md:5)',
        ])
        self.assertEqual(self.told("Kind::Long"), [
            "Kind::Long",
            "variant crates/low/src/lib.rt:11 It is too long.",
            "functions second (low/src/lib.rt:27), Fast::take (low/src/lib.rt:56)",
            "scripts tests_of_low/data/all.script",
        ])
        self.assertEqual(self.told("Bad")[1], "variant crates/low/src/lib.rt:12")

    def test_lemmas_rows_and_edits(self) -> None:
        for name, place in (
            ("fronts", "lemma crates/low/proofs/Fronts.antt:4 of all fronts"),
            ("reads_a", "row crates/tests_of_low/data/all.script:1"),
            ("always", "edit crates/low/wrong-bodies/always.edit:1"), ("at", "word crates/low/specs/Marks.antt:3"),
        ):
            self.assertEqual(self.told(name)[:2], [name, place])

    def test_what_is_nowhere(self) -> None:
        for name in ("nothing", "high/third", "Fast::first", "comment"):
            self.assertEqual(self.tell("where", "third", name)[0], 1, name)
            self.assertEqual(self.tell("where", name)[1], [f"{name}: nothing has this name"])
        self.assertEqual(self.tell("where")[0], 2)


class Rules(Where):
    def wrong(self, *options: str) -> list[str]:
        """What is told of the page, without the name of the page."""
        status, lines = self.tell("rules", *options)
        self.assertEqual((status, lines[-1]), (1 if lines[:-1] else 0, f"1 rules, {len(lines) - 1} wrong"))
        return [line.removeprefix("docs/RULES.md:") for line in lines[:-1]]

    def change(self, old: str, new: str) -> None:
        self.write("docs/RULES.md", RULES)
        self.replace("docs/RULES.md", old, new)

    def test_the_page(self) -> None:
        self.assertEqual(self.wrong(), [])

    def test_what_is_not_there(self) -> None:
        for old, new, told in (
            ("`low` (`Front`", "`slow` (`Front`", "7: `slow` stands after no crate and no path"),
            ("(`Front`,", "(`Back`,", "7: `low` has no `Back` (tools/where low/Back)"),
            ("specs/Bytes", "specs/Bits", "7: there is no crates/low/specs/Bits.antt"),
            ("(`fronts`", "(`backs`", "10: `low` has no `backs` (tools/where low/backs)"),
            ("`asks_first`", "`asks_last`", "11: `asks_last` does not stand in `tests_of_low/src/all.rt`"),
            ("`reads_a`", "`smirun`", "11: `smirun` does not stand in `tests_of_low/data/all.script`"),
            ("- Laws", "- Proofs", "5: its parts are Definition, Code, Proofs, Test, not Definition, Code, Laws, Test"),
        ):
            self.change(old, new)
            self.assertEqual(self.wrong(), [told])

    def test_laws_may_be_left_out(self) -> None:
        self.change("- Laws: `low` (`fronts`)\n", "")
        self.assertEqual(self.wrong(), [])
        self.change("- Code: `low` (`LONGEST`, `first` by `Front`; `second` by\n  `Rest` and `match`)\n", "")
        self.assertEqual(self.wrong(), ["5: its parts are Definition, Laws, Test, not Definition, Code, Laws, Test"])

    def test_another_function_of_the_file(self) -> None:
        for other in ("second", "third", "Fast::take", "Fast::new"):
            self.change("`first` by `Front`", f"`{other}` by `Front`")
            self.assertNotEqual(self.wrong(), [], other)
        self.change("`first` by `Front`", "`third` by `Front`")
        path = "crates/low/src/lib.rt"
        self.assertEqual(self.wrong(), [
            f"8: `third` has no `Front` in its contract or its lines ({path})",
            f"8: `first` has `Front` as `third` has, and is not named ({path})",
        ])

    def test_words_that_others_have_too(self) -> None:
        self.change("`first` by `Front`; `second` by\n  `Rest` and `match`", "`second` by `third`")
        told = "8: `Fast::take` has `third` as `second` has, and is not named (crates/low/src/lib.rt)"
        self.assertEqual(self.wrong(), [told])
        both = "`Fast::take` by `third`, `second` by `third`"
        self.change("`first` by `Front`; `second` by\n  `Rest` and `match`", both)
        self.assertEqual(self.wrong(), [])

    def test_a_function_without_words(self) -> None:
        self.change("`first` by `Front`", "`first`")
        path = "crates/low/src/lib.rt"
        self.assertEqual(self.wrong()[0], f"8: `first` has no `first` in its contract or its lines ({path})")
        self.change("`first` by `Front`", "`first` by `Front`, `third`")
        self.assertIn("8: `third` has no word after `by`, and is no name of the rule's Definition", self.wrong())

    def test_a_name_that_is_not_one_functions(self) -> None:
        self.change("`first` by `Front`", "`first` by `Front`, `take` by `third`")
        self.assertEqual(self.wrong(), ["8: `low` has `take` 2 times: it wants its type or its file before it"])
        self.change("`first` by `Front`", "`first` by `Front`, `first` by `Front`")
        self.assertEqual(self.wrong(), ["8: `first` is named twice"] * 2)

    def test_long_lines_of_pages(self) -> None:
        self.write("docs/OTHER.md", "x" * 120 + "\n" + "x" * 121 + "\n")
        self.assertEqual(self.wrong(), [])
        self.assertEqual(self.wrong("--lines"), ["docs/OTHER.md:2: 121 columns"])


class Promises(Where):
    def wrong(self, old: str = "", new: str = "") -> list[str]:
        self.write("docs/PROMISES.md", PROMISES)
        if old:
            self.replace("docs/PROMISES.md", old, new)
        status, lines = self.tell("promises")
        self.assertEqual(status, 1 if lines[:-1] else 0)
        self.assertTrue(lines[-1].endswith(f"{len(lines) - 1} wrong"), lines)
        return [line.removeprefix("docs/PROMISES.md:") for line in lines[:-1]]

    def test_the_page(self) -> None:
        self.assertEqual(self.wrong(), [])
        self.assertEqual(self.tell("promises")[1], ["4 calls, 3 clauses, 0 wrong"])

    def test_clauses_that_are_not_there(self) -> None:
        for old, new, told in (
            ("`short`", "`shorter`", "5: `first` has no clause `shorter`"),
            ("`front`, and", "`behind`, and", "5: `first` has no clause `behind`"),
            ("clause `front` of `first`", "clause `front`", "7: clause `front` follows no call"),
            ("clause `front` of `first`", "clause `front` of `third`", "7: `third` has no clause `front`"),
        ):
            self.assertEqual(self.wrong(old, new), [told])

    def test_calls_and_words_that_are_not_there(self) -> None:
        for old, new, told in (
            ("`Fast::new`", "`Fast::old`", "6: nothing is called `Fast::old`"),
            ("`third`; of", "`third_one`; of", "5: `first` has no clause `third_one`"),
            ("`Fast::new`", "`HasNone`", "6: nothing is called `HasNone`"),
            ("(`Front`,", "(`Back`,", "5: nothing is called `Back`"),
        ):
            self.assertEqual(self.wrong(old, new), [told])

    def test_the_crates_of_the_heading_come_first(self) -> None:
        self.assertEqual(self.wrong("(`low`)\n\n- It", "(`high`)\n\n- It")[0], "5: `first` has no clause `short`")

    def test_a_first_clause_is_no_call(self) -> None:
        self.assertEqual(self.wrong("clauses `short`", "clauses `third`"), ["5: `first` has no clause `third`"])


if __name__ == "__main__":
    unittest.main()
