"""The table of words: each key in each language, with the same places for values, and none missing."""
from __future__ import annotations

import json
import re
import unittest
from collections import Counter

from support import KIT, ROOT, join

from ice_recheck.records import Rule

TABLE = (KIT / "parts/words.json").read_text(encoding="utf-8")
WORDS = json.loads(TABLE)
PAGE = "\n".join(join.part(f"{name}.js") for name in join.PAGE)
CORE = "\n".join(join.part(f"{name}.js") for name in join.CORE)
HTML = join.part("kit.html")
PLACE = re.compile(r"\{([a-z]+)\}")
# Keys that are put together of a part in the script and one that is told: the first part, and how
# the key goes on.
TOLD = {
    "compare.is.": ("same", "other", "salt"),
    "compare.": ("front", "whole", "yes.says", "no.says"),
    "fact.": ("pay", "receive", "pay.note", "receive.note"),
    "fault.": ("50", "51", "61"),
    "is.": ("yes", "sofar", "no", "refused"),
    "rule.": tuple("order short exchange count parent few many prices verdict payment".split()),
    "sets.": ("all", "first", "among"),
    "state.": ("sure", "open", "behind"),
    "try.": ("first", "second", "first.yes", "first.no", "second.yes", "second.no", "lower", "upper"),
    "verdict.": ("accepted", "40", "41", "42", "43", "44", "46"),
    "because.": ("40", "41"),
    "head.": ("set", "costs", "least", "most", "settlement", "regret", "kept", "offered"),
    "node.": ("buy", "sell"),
}


def named() -> set[str]:
    """The keys that stand whole in the scripts and in the page."""
    found = set(re.findall(r'data-say="([^"]+)"', HTML))
    texts = set(re.findall(r'"([a-z]+(?:\.[a-z0-9]+)*)"', PAGE + CORE))
    found |= {text for text in texts if text in WORDS["en"] or "." in text}
    for keys in re.findall(r"legend\(([^)]*)\)", PAGE):
        legends = re.findall(r'"([a-z]+)"', keys)
        found |= {f"{head}.{key}" for key in legends for head in ("word", "mean")}
    return found


class Table(unittest.TestCase):
    """What stands in the table."""

    def test_no_key_stands_twice(self) -> None:
        for language in WORDS:
            start = TABLE.index(f'"{language}": {{')
            end = TABLE.index("\n}", start)
            keys = re.findall(r'^"([^"]+)":', TABLE[start:end].partition("\n")[2], re.MULTILINE)
            self.assertEqual([key for key, count in Counter(keys).items() if count > 1], [])
            self.assertEqual(len(keys), len(WORDS[language]))

    def test_each_key_in_each_language(self) -> None:
        self.assertEqual(list(WORDS), ["en", "de"])
        for language, words in WORDS.items():
            self.assertEqual(list(words), list(WORDS["en"]), language)
            for key, text in words.items():
                self.assertTrue(text.strip(), key)
                places = set(PLACE.findall(text))
                self.assertEqual(places, set(PLACE.findall(WORDS["en"][key])), (language, key))
                self.assertNotRegex(text, r"[<>&]|  |\{[^a-z]", key)
                # A link, a name or a file of this clone has no place in the kit.
                self.assertNotRegex(text, r"https?:|docs/|\.md", key)

    def test_each_word_that_is_said_is_there(self) -> None:
        wanted = named() | {head + tail for head, tails in TOLD.items() for tail in tails}
        self.assertEqual(sorted(wanted - set(WORDS["en"])), [])

    def test_each_word_that_is_there_is_said(self) -> None:
        said = named() | {head + tail for head, tails in TOLD.items() for tail in tails}
        glossary = {key for key in WORDS["en"] if key.startswith(("word.", "mean."))}
        self.assertEqual(sorted(set(WORDS["en"]) - said - glossary), [])
        for key in glossary:
            self.assertIn(key.replace("word.", "mean."), WORDS["en"])
            self.assertIn(key.replace("mean.", "word."), WORDS["en"])

    def test_each_rule_of_a_statement_has_words(self) -> None:
        # Those of a journal alone have none, since a statement can't fail them.
        rules = {rule.value for rule in Rule}
        self.assertLess(set(TOLD["rule."]), rules)
        source = (ROOT / "recheck/ice_recheck/statements.py").read_text()
        self.assertIn("Rule.PAYMENT", source)

    def test_glossary_as_in_the_document(self) -> None:
        document = (ROOT / "docs/bidding.md").read_text(encoding="utf-8")
        rows = re.findall(r"^\| ([^|]+) \| ([^|]+) \|$", document.partition("## The words")[2], re.MULTILINE)
        due = {word: mean for word, mean in rows if word != "Word"}
        words = WORDS["en"]
        own = {words[key]: words[key.replace("word.", "mean.")] for key in words if key.startswith("word.")}
        self.assertEqual(own, {word: mean.replace("'", "’") for word, mean in due.items()})


if __name__ == "__main__":
    unittest.main()
