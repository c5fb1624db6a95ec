"""A page of HTML that needs nothing else: its style, tables, sections, bars and pictures."""
import pathlib
import re
from collections import namedtuple
from html import escape

STYLE = pathlib.Path(__file__).with_name("page.css").read_text()


class Cell(namedtuple("Cell", "text mark", defaults=[""])):
    def of(self, column):
        mark = f' class="{self.mark}"' if self.mark else ""
        return f'<td{mark} data-of="{escape(column)}"><span>{self.text}</span></td>'


def name_of(name):
    return f'<span class="name">{escape(name)}</span>'


def number(text):
    return f'<span class="number">{text}</span>'


def code(text):
    return f"<code>{escape(text)}</code>"


def soft(text):
    return f'<p class="soft">{text}</p>'


def listed(items):
    return f"<ul>{''.join(f'<li>{item}</li>' for item in items)}</ul>"


def table_of(head, rows):
    """A table; where the page is narrow, each cell has the word of its column beside it."""
    told = "".join(f"<th>{escape(word)}</th>" for word in head)
    lines = [f"<table><thead><tr>{told}</tr></thead><tbody>"]
    for row in rows:
        cells = [cell if isinstance(cell, Cell) else Cell(cell) for cell in row]
        lines.append("<tr>" + "".join(cell.of(word) for word, cell in zip(head, cells)) + "</tr>")
    return "\n".join([*lines, "</tbody></table>"])


def section(head, *lines):
    return "\n".join(["<section>", f"<h2>{escape(head)}</h2>", *filter(None, lines), "</section>"])


def banner(tone, lead, told):
    """A sentence at the front of the page, in the colour of yes, no or wide."""
    return f'<div class="verdict {tone}"><b>{lead}</b> {" ".join(told.split())}</div>'


def bars(shares, full, colours):
    """Shares of a core beside one another, each in its colour, and a mark where there is no more."""
    scale = max(1, sum(shares.values()))
    width = lambda share: f"{float(100 * share / scale):.3f}%"
    told = "".join(f'<i style="width:{width(share)};background:{colours[name]}"></i>' for name, share in shares.items())
    mark = f'<u style="left:calc({width(full)} - 2px)"></u>' if full < scale else ""
    return f'<div class="bar">{told}{mark}</div>'


def chips(texts, colours):
    """A name of each bar's colour, and a text."""
    told = "".join(f'<span><i style="background:{colours[name]}"></i>{name_of(name)}{text}</span>' for name, text in texts.items())
    return f'<div class="chips">{told or "nothing stands on it"}</div>'


def figure(svg, kind=""):
    """A picture without a size of its own, so that it takes that of the page."""
    sized = re.sub(r'(<svg [^>]*?) width="\d+" height="\d+"', r"\1", svg, count=1)
    return f'<figure class="{kind}">{sized}</figure>' if kind else f"<figure>{sized}</figure>"


def whole(title, head, parts):
    return "\n".join([
        "<!DOCTYPE html>",
        '<html lang="en"><head><meta charset="utf-8"><meta name="viewport" content="width=device-width, initial-scale=1">',
        f"<title>{escape(title)}</title><style>\n{STYLE}</style></head><body><main>",
        f"<h1>{escape(head)}</h1>",
        *filter(None, parts),
        "</main></body></html>",
        "",
    ])
