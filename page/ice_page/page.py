"""The whole page: one file of HTML with its styles and drawings, without scripts or links."""
from __future__ import annotations

from pathlib import Path

from . import numbers
from .answer import answer_section
from .certificates import certificates_section
from .course import course_section
from .fair import fair_section
from .markup import foreign, key, tag, text
from .own import bids_section, nets_section
from .rival_part import rival_section
from .trees import trees_section
from .tries import tries_part
from .view import View

STYLES = Path(__file__).with_name("page.css")
POLICY = "default-src 'none'; style-src 'unsafe-inline'"
UPRIGHT = "@page { size: A4 portrait }\n"


def footer(view: View) -> str:
    """What the page was made from. One bidder's page has no digest: it would tell of the others."""
    journal, settings = view.journal, view.journal.settings
    rules = ", ".join(
        [
            f"lower values weigh {settings.weight} %",
            f"cap {numbers.whole(settings.cap)}",
            f"closing regret {numbers.whole(settings.close_regret)}",
            f"improvement {numbers.whole(settings.improve)}",
            numbers.plural(settings.rounds, "round"),
            numbers.plural(settings.branches, "branch step"),
            *([numbers.plural(settings.derived, "derived good")] if settings.derived else []),
        ]
    )
    told = f"published digest of the journal: {tag('code', foreign(view.digest))}"
    told = told if view.digest else ""
    if view.alone:
        kind = "a statement" if journal.of_statement else f"kind {journal.kind}"
        return tag("footer", key(kind, told, rules, "of the other bidders nothing is shown"))
    answer, said = view.answer, ""
    if answer.asked and answer.text:
        said = f"{foreign(answer.asked)} read these bytes and said “{foreign(answer.text)}”"
    kind = f"kind {journal.kind}, version {journal.version}"
    source = f"{foreign(view.source)}, {kind}, {numbers.plural(journal.lines, 'line')}"
    digest = f"SHA-256 {tag('code', journal.digest)}"
    return tag("footer", key(source, digest, told, said, rules))


def whole_page(view: View) -> str:
    """The page as text."""
    head = (
        '<meta charset="utf-8">'
        f'<meta http-equiv="Content-Security-Policy" content="{POLICY}">'
        '<meta name="viewport" content="width=device-width, initial-scale=1">'
        + tag("title", text(view.title + view.whom))
        + tag("style", STYLES.read_text(encoding="utf-8") + (UPRIGHT if view.alone else ""))
    )
    sections = (
        answer_section(view),
        fair_section(view),
        nets_section(view),
        bids_section(view),
        course_section(view) + tries_part(view),
        rival_section(view),
        trees_section(view),
        certificates_section(view),
    )
    body = tag("main", "".join(tag("section", section) for section in sections if section))
    body = tag("body", body + footer(view), class_="alone" if view.alone else None)
    document = tag("html", tag("head", head) + body, lang="en")
    return f"<!DOCTYPE html>\n{document}\n"
