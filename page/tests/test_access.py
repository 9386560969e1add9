"""Basics of accessibility, and that the page stands by itself."""
import math
import re
import unittest

from largest import largest_session
from support import HERE, SAMPLES, Element, Page, page_of

STYLES = (HERE.parent / "ice_page" / "page.css").read_text()
WORDS = ("ink", "soft", "buy", "sell", "miss", "good")
LEAST_CONTRAST = 4.5


def light(channel: float) -> float:
    """The relative luminance of a channel."""
    share = channel / 255
    return share / 12.92 if share <= 0.04045 else math.pow((share + 0.055) / 1.055, 2.4)


def luminance(colour: tuple[float, ...]) -> float:
    """The relative luminance of a colour."""
    return sum(weight * light(channel) for weight, channel in zip((0.2126, 0.7152, 0.0722), colour))


def contrast(one: tuple[float, ...], other: tuple[float, ...]) -> float:
    """The contrast ratio of two colours."""
    low, high = sorted((luminance(one), luminance(other)))
    return (high + 0.05) / (low + 0.05)


def palettes() -> list[dict[str, tuple[int, ...]]]:
    """The colours in light, in dark, and on paper, where all but some are those in light."""
    found: list[dict[str, tuple[int, ...]]] = []
    for block in re.findall(r":root \{([^}]*)\}", STYLES):
        pairs = re.findall(r"--(\w+): #([0-9a-f]{6})", block)
        light = found[0] if found else {}
        found.append({**light, **{name: tuple(bytes.fromhex(each)) for name, each in pairs}})
    return found


class Access(unittest.TestCase):
    """What readers of screens, of paper and of small letters need."""

    pages: list[tuple[str, Page]]

    @classmethod
    def setUpClass(cls) -> None:
        cls.pages = [(file.name, page_of(file.read_text())) for file in SAMPLES]
        cls.pages += [
            ("largest", page_of(largest_session())),
            ("alone", page_of(SAMPLES[0].read_text(), "--bidder", "Meridian")),
        ]

    def each(self, name: str) -> list[tuple[str, Page, Element]]:
        """Each element of a name in any page."""
        return [
            (file, page, element) for file, page in self.pages for element in page.root.all(name)
        ]

    def test_document(self) -> None:
        for file, page in self.pages:
            with self.subTest(file):
                (html,) = page.root.all("html")
                self.assertEqual(html.attributes["lang"], "en")
                self.assertEqual((len(page.root.all("main")), len(page.root.all("h1"))), (1, 1))
                self.assertTrue(page.root.all("head")[0].all("title")[0].text)

    def test_headings_skip_no_level(self) -> None:
        for file, page in self.pages:
            levels = [
                int(level) for level in re.findall("h([123])", " ".join(self.names(page.root)))
            ]
            self.assertEqual(levels[0], 1, file)
            self.assertTrue(
                all(after <= before + 1 for before, after in zip(levels, levels[1:])), file
            )

    def names(self, element: Element) -> list[str]:
        """The names of all elements in their order."""
        found = []
        for part in element.parts:
            if isinstance(part, Element):
                found += [part.name, *self.names(part)]
        return found

    def test_tables(self) -> None:
        self.assertTrue(self.each("table"))
        for file, _, table in self.each("table"):
            self.assertEqual(table.parts[0].name, "caption", file)
            self.assertTrue(table.parts[0].text)
            widths = {
                sum(int(cell.attributes.get("colspan", 1)) for cell in row.parts)
                for part in table.all("thead") + table.all("tbody")
                for row in part.all("tr")
            }
            self.assertEqual(len(widths), 1, file)
        for file, _, head in self.each("th"):
            self.assertIn(head.attributes["scope"], ("row", "col"), file)
            self.assertTrue(head.text, file)
        for file, _, body in self.each("tbody"):
            self.assertTrue(all(row.parts[0].name == "th" for row in body.all("tr")), file)

    def test_frames_that_scroll_are_reached_by_keys(self) -> None:
        for file, page in self.pages:
            for frame in page.root.all("div", "wide"):
                self.assertEqual(
                    (frame.attributes["tabindex"], frame.attributes["role"]), ("0", "region"), file
                )
                self.assertTrue(frame.attributes["aria-label"])

    def test_drawings_have_titles(self) -> None:
        self.assertTrue(self.each("svg"))
        for file, _, drawing in self.each("svg"):
            self.assertEqual(drawing.parts[0].name, "title", file)
            self.assertTrue(drawing.parts[0].text)
            self.assertEqual(drawing.attributes["aria-label"], drawing.parts[0].text)
            self.assertIn(drawing.attributes["role"], ("img", "group"))

    def test_numbers_of_drawings_are_finite(self) -> None:
        for file, _, drawing in self.each("svg"):
            for part in drawing.all("rect"):
                self.assertGreaterEqual(float(part.attributes["width"]), 0, file)
                self.assertGreaterEqual(float(part.attributes["height"]), 0, file)
            box = drawing.attributes["viewbox"].split()
            self.assertTrue(all(float(number) >= 0 for number in box), file)

    def test_contrast_in_light_and_dark(self) -> None:
        found = palettes()
        self.assertEqual(len(found), 3)
        self.assertEqual(found[2]["paper"], (255, 255, 255))
        for colours in found:
            for word in WORDS:
                for paper in ("paper", "tint"):
                    self.assertGreaterEqual(
                        contrast(colours[word], colours[paper]), LEAST_CONTRAST, (word, paper)
                    )
            for word in ("buy", "sell"):
                mixed = tuple(0.16 * a + 0.84 * b for a, b in zip(colours[word], colours["paper"]))
                self.assertGreaterEqual(contrast(colours[word], mixed), LEAST_CONTRAST, word)
                self.assertGreaterEqual(
                    contrast(colours["paper"], colours[word]), LEAST_CONTRAST, word
                )

    def test_colour_never_speaks_alone(self) -> None:
        for file, page in self.pages:
            for word, sign in (("buy", "+"), ("sell", "\u2212")):
                for cell in page.root.all("td", word):
                    self.assertTrue(cell.text.startswith(sign), file)

    def test_stands_by_itself(self) -> None:
        for file, page in self.pages:
            names = set(self.names(page.root))
            self.assertFalse(
                names & {"script", "link", "img", "iframe", "object", "form", "image", "use"},
                file,
            )
            marks = [each.attributes.get("id") for each in page.root.all("article")]
            self.assertEqual(len(set(marks)), len(marks), file)
            for link in page.root.all("a"):
                self.assertIn(link.attributes["href"].removeprefix("#"), marks, file)
        self.assertNotRegex(STYLES, r"url\(|@import|http")

    def test_classes_have_styles(self) -> None:
        used = {
            class_
            for _, page in self.pages
            for element in self.everything(page.root)
            for class_ in element.classes
        }
        plain = {"choose", "figure"}
        self.assertEqual({name for name in used if f".{name}" not in STYLES} - plain, set())

    def everything(self, element: Element) -> list[Element]:
        """All elements below one."""
        found = []
        for part in element.parts:
            if isinstance(part, Element):
                found += [part, *self.everything(part)]
        return found


if __name__ == "__main__":
    unittest.main()
