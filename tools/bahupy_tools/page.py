"""The page of a transcript: one file, with its scripts, its styles and the transcript itself."""

from __future__ import annotations

import base64
import gzip
import json
import os

from jinja2 import Environment, FileSystemLoader
from markupsafe import Markup

from .charts import SECOND, Chart, Charts
from .errors import ToolError
from .tables import Table
from .transcript import Transcript

FOLDER = os.path.join(os.path.dirname(os.path.abspath(__file__)), "page")
LIBRARY = "/usr/share/javascript/dygraphs"
"""Where Debian's package libjs-dygraphs has its files."""


def page_of(transcript: Transcript, charts: Charts, tables: list[Table], name: str) -> bytes:
    """The octets of the page."""
    drawn = charts.all()
    environment = Environment(
        loader=FileSystemLoader(FOLDER), autoescape=True, trim_blocks=True, lstrip_blocks=True
    )
    content = {"charts": [columns(chart) for chart in drawn], "end": charts.end}
    text = environment.get_template("page.html").render(
        title=title(transcript, charts, name),
        subtitle=subtitle(transcript),
        charts=drawn,
        tables=tables,
        library=script(library("dygraph.min.js")),
        synchronizer=script(library("extras", "synchronizer.js")),
        library_css=script(library("dygraph.min.css")),
        page_css=script(own("page.css")),
        lines_js=script(own("lines.js")),
        charts_js=script(own("charts.js")),
        page_js=script(own("page.js")),
        packed_charts=Markup(packed(json.dumps(content, separators=(",", ":")))),
        packed_lines=Markup(packed("\n".join(transcript.lines))),
    )
    return text.encode("utf-8")


def title(transcript: Transcript, charts: Charts, name: str) -> str:
    """What the page shows."""
    ports = len(charts.states.names)
    what = f"{ports} port{'' if ports == 1 else 's'}, {charts.end / SECOND:,.3f} s"
    return f"Bahupy replay{f' of {name}' if name else ''}: {what}"


def subtitle(transcript: Transcript) -> str:
    """How much there is."""
    clocks = len(transcript.clocks)
    return (
        f"{len(transcript.events):,} events, {len(transcript.lines):,} lines, "
        f"{clocks} clock{'' if clocks == 1 else 's'}."
    )


def columns(chart: Chart) -> dict:
    """A chart as the page reads it."""
    return {
        "id": chart.id, "form": chart.form, "axis": chart.axis, "names": chart.names,
        "kinds": chart.kinds, "time": chart.time, "end": chart.end, "which": chart.which,
        "kind": [] if chart.form == "curves" else chart.kind,
        "value": [] if chart.form == "marks" else [rounded(value) for value in chart.value],
        "line": chart.line,
    }


def rounded(value: float | None) -> float | None:
    """A value as the page has it: no picture shows more of it."""
    return None if value is None else round(value, 3)


def packed(text: str) -> str:
    """A text, packed with gzip, in letters that a page can carry."""
    return base64.b64encode(gzip.compress(text.encode("utf-8"), 6, mtime=0)).decode("ascii")


def script(text: str) -> Markup:
    """A script or a style as it stands, which can't end its element."""
    return Markup(text.replace("</script", "<\\/script").replace("//# sourceMappingURL=", "// "))


def own(name: str) -> str:
    """A file of the page's folder."""
    with open(os.path.join(FOLDER, name), encoding="utf-8") as file:
        return file.read()


def library(*names: str) -> str:
    """A file of the library for charts."""
    try:
        with open(os.path.join(LIBRARY, *names), encoding="utf-8") as file:
            return file.read()
    except FileNotFoundError:
        raise ToolError("the package libjs-dygraphs is needed") from None
