"""The charts of a transcript as one PNG or SVG."""

from __future__ import annotations

import io
import math
from collections import Counter

import matplotlib

matplotlib.use("Agg")

from matplotlib import pyplot  # noqa: E402
from matplotlib.axes import Axes  # noqa: E402
from matplotlib.lines import Line2D  # noqa: E402
from matplotlib.patches import Patch  # noqa: E402
from matplotlib.ticker import FuncFormatter  # noqa: E402

from .charts import SECOND, Chart, Charts  # noqa: E402

SHAPES = {"dot": "o", "triangle": "^", "cross": "x"}
WIDTH = 13.0
CURVE_HEIGHT = 2.6
LANE_HEIGHT = 0.3
MOST_NUMBERS = 40
"""With more bars than this their numbers would cover each other."""

MOST_DOTS = 400
"""With more points than this a curve is drawn without dots."""


def picture_of(charts: Charts, name: str, form: str) -> bytes:
    """The octets of the picture."""
    drawn = charts.all()
    heights = [height_of(chart) for chart in drawn]
    # Texts of an SVG stay texts, and no random name makes two pictures of one run differ.
    settings = {"svg.fonttype": "none", "svg.hashsalt": "bahupy", "font.size": 9}
    with matplotlib.rc_context(settings):
        figure, places = pyplot.subplots(
            len(drawn), 1, figsize=(WIDTH, sum(heights) + 0.6), sharex=True, squeeze=False,
            gridspec_kw={"height_ratios": heights}, layout="constrained",
        )
        for chart, axes in zip(drawn, places[:, 0]):
            draw(chart, axes)
        places[-1, 0].set_xlabel("time in s, from tick 0 of the scenario")
        end = charts.end / SECOND
        places[-1, 0].set_xlim(-0.005 * end, 1.01 * end)
        figure.suptitle("Bahupy replay" + (f" of {name}" if name else ""))
        octets = io.BytesIO()
        metadata = {"Date": None} if form == "svg" else {}
        figure.savefig(octets, format=form, dpi=100, metadata=metadata)
        pyplot.close(figure)
    return octets.getvalue()


def height_of(chart: Chart) -> float:
    """How high a chart is, in inches."""
    return CURVE_HEIGHT if chart.form == "curves" else 0.9 + LANE_HEIGHT * len(chart.names)


def draw(chart: Chart, axes: Axes) -> None:
    """Draws one chart."""
    axes.set_title(chart.title, loc="left", fontsize=10)
    axes.tick_params(labelbottom=True)
    if chart.form == "curves":
        draw_curves(chart, axes)
        handles = None
    else:
        draw_bars(chart, axes) if chart.form == "bars" else draw_marks(chart, axes)
        axes.set_yticks(range(len(chart.names)), chart.names)
        axes.set_ylim(len(chart.names) - 0.5, -0.5)
        handles = [handle_of(chart.form, kind) for kind in chart.kinds]
    axes.legend(handles=handles, loc="upper left", bbox_to_anchor=(1.005, 1.02), frameon=False)


def draw_curves(chart: Chart, axes: Axes) -> None:
    """Draws the curves of a chart."""
    axes.set_ylabel(chart.axis)
    axes.yaxis.set_major_formatter(FuncFormatter(number_text))
    axes.grid(color="#e6e8ec")
    style = "steps-post" if chart.id == "frequencies" else "default"
    for number, name in enumerate(chart.names):
        places = [place for place, which in enumerate(chart.which) if which == number]
        axes.plot(
            [chart.time[place] / SECOND for place in places],
            [math.nan if chart.value[place] is None else chart.value[place] for place in places],
            label=name,
            color=chart.kinds[number][1],
            marker="." if len(places) <= MOST_DOTS else "",
            drawstyle=style,
        )


def number_text(value: float, _: int) -> str:
    """A number at an axis, without a power of ten."""
    text = f"{value:,.3f}"
    return text.rstrip("0").rstrip(".")


def draw_bars(chart: Chart, axes: Axes) -> None:
    """Draws the bars of a chart, those of one lane and colour together."""
    together: dict[tuple[int, int], list[tuple[float, float]]] = {}
    for place, time in enumerate(chart.time):
        length = (chart.end[place] - time) / SECOND
        key = (chart.which[place], chart.kind[place])
        together.setdefault(key, []).append((time / SECOND, length))
    for (lane, kind), spans in together.items():
        axes.broken_barh(spans, (lane - 0.38, 0.76), color=chart.kinds[kind][1], linewidth=0.5)
    if len(chart.time) <= MOST_NUMBERS:
        draw_numbers(chart, axes)


def draw_numbers(chart: Chart, axes: Axes) -> None:
    """Writes the generation of each bar that has one."""
    for place, time in enumerate(chart.time):
        if chart.value[place] >= 0 and chart.end[place] > time:
            axes.text(time / SECOND, chart.which[place], f" {chart.value[place]}",
                      va="center", color="white", clip_on=True, fontweight="bold")


def draw_marks(chart: Chart, axes: Axes) -> None:
    """Draws the marks of a chart, those of one kind together."""
    counts = Counter(chart.kind)
    # The rarer a kind, the later it is drawn, so that no refusal is covered.
    for number in sorted(range(len(chart.kinds)), key=lambda kind: -counts[kind]):
        _, colour, shape = chart.kinds[number]
        places = [place for place, kind in enumerate(chart.kind) if kind == number]
        # Each kind has a height of its own in its lane, so that none covers another.
        count = len(chart.kinds)
        down = (number - (count - 1) / 2) * min(0.2, 0.5 / count)
        axes.plot(
            [chart.time[place] / SECOND for place in places],
            [chart.which[place] + down for place in places],
            color=colour, marker=SHAPES[shape], markersize=5, linestyle="none",
            rasterized=len(places) > 5000,
        )


def handle_of(form: str, kind: tuple[str, str, str]) -> Patch | Line2D:
    """What a colour stands for, in the legend."""
    name, colour, shape = kind
    if form == "bars":
        return Patch(color=colour, label=name)
    return Line2D([], [], color=colour, marker=SHAPES[shape], linestyle="none", label=name)
