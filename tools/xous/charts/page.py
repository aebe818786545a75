"""A chart as one HTML file, without anything from elsewhere."""

import html as escapes
import pathlib
import string
from xml.etree import ElementTree

from .draw import HEAD, STEPS, STYLE, Drawing, clean, outer, text_of

TEMPLATE = pathlib.Path(__file__).resolve().parent / "page.html"


def picture(width, height, put):
    """An SVG of the page, filled by `put`."""
    element = outer(width, height, None)
    put(element)
    ElementTree.indent(element, " ")
    return text_of(element)


def html(chart, named, title):
    drawing = Drawing(chart, named)
    below = drawing.legend(ElementTree.Element("g"))
    return string.Template(TEMPLATE.read_text(encoding="utf-8")).substitute(
        title=escapes.escape(clean(title)),
        style=STYLE.strip(),
        head=picture(drawing.width, HEAD, drawing.head),
        steps=picture(float(STEPS), drawing.height + 10, drawing.steps),
        chart=picture(drawing.width, drawing.height + 10, drawing.body),
        legend=picture(drawing.width, below, drawing.legend),
    )
