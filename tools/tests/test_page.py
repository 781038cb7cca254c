"""The page in a real browser."""

from __future__ import annotations

import time

import made
import pytest
from conftest import DATA, run
from selenium import webdriver
from selenium.webdriver import ActionChains
from selenium.webdriver.chrome.service import Service

PAGES = {
    "port-locks": lambda: (DATA / "port-locks.out").read_bytes(),
    "two-clocks": lambda: (DATA / "two-clocks.out").read_bytes(),
    "one port": lambda: made.transcript(300, 1).encode(),
    "13 ports": lambda: made.transcript(4000, 13, period=17).encode(),
    "longest": lambda: made.transcript(131_071, 2).encode(),
}

MIDDLE = """
const chart = page.charts.find((one) => one.data.id === arguments[0]);
const area = chart.graph.getArea();
const time = arguments[1] / 1e9;
chart.place.scrollIntoView({block: "start"});
const box = chart.place.getBoundingClientRect();
const y = chart.lanes ? chart.laneMiddle(area, arguments[2]) : chart.graph.toDomYCoord(chart.data.value[arguments[2]]);
return [Math.round(box.left + chart.graph.toDomXCoord(time)), Math.round(box.top + y)];
"""

COLOURED = """
return page.charts.map((chart) => {
  const seen = new Set();
  for (const canvas of chart.place.querySelectorAll("canvas")) {
    const octets = canvas.getContext("2d").getImageData(0, 0, canvas.width, canvas.height).data;
    for (let i = 0; i < octets.length; i += 4) {
      if (octets[i + 3] === 255) seen.add((octets[i] << 16) + (octets[i + 1] << 8) + octets[i + 2]);
    }
  }
  const wanted = new Set(chart.data.form === "curves"
    ? chart.data.which.map((which) => chart.data.kinds[which][1])
    : chart.data.kind.filter((_, i) => chart.data.form !== "bars" || chart.data.end[i] > chart.data.time[i])
      .map((kind) => chart.data.kinds[kind][1]));
  return [chart.data.id, [...wanted].filter((colour) => !seen.has(parseInt(colour.slice(1), 16)))];
});
"""


@pytest.fixture(scope="module")
def browser():
    """A browser without a window, whose console is kept."""
    options = webdriver.ChromeOptions()
    for word in ("--headless=new", "--no-sandbox", "--disable-gpu", "--disable-dev-shm-usage",
                 "--window-size=1400,1000"):
        options.add_argument(word)
    options.set_capability("goog:loggingPrefs", {"browser": "ALL"})
    driver = webdriver.Chrome(service=Service("/usr/bin/chromedriver"), options=options)
    yield driver
    driver.quit()


@pytest.fixture(scope="module")
def pages(tmp_path_factory):
    """Where the page of each transcript is; each is made once."""
    folder, made_of = tmp_path_factory.mktemp("pages"), {}

    def page(name: str):
        if name not in made_of:
            made_of[name] = folder / f"{name}.html"
            done = run("report", "-o", made_of[name], "--name", name, text=PAGES[name]())
            assert done.returncode == 0, done.stderr
        return made_of[name]

    return page


def opened(browser, pages, name: str) -> float:
    """Opens the page of a transcript, and gives how many seconds that took."""
    path = pages(name)
    browser.get_log("browser")
    began = time.monotonic()
    browser.get(path.as_uri())
    while browser.execute_script("return document.body.dataset.ready") != "yes":
        assert time.monotonic() - began < 60, browser.get_log("browser")
        time.sleep(0.05)
    return time.monotonic() - began


def click(browser, chart: str, moment: int, place: int) -> tuple[int, str]:
    """Clicks what is drawn there, and gives the line that it leads to."""
    x, y = browser.execute_script(MIDDLE, chart, moment, place)
    ActionChains(browser).move_by_offset(0, 0).perform()
    actions = ActionChains(browser)
    actions.w3c_actions.pointer_action.move_to_location(x, y)
    actions.w3c_actions.pointer_action.click()
    actions.perform()
    time.sleep(0.4)
    here = browser.find_elements("css selector", "#rows .here")
    assert len(here) == 1
    number = here[0].find_element("css selector", ".number").text
    return int(number), here[0].text[len(number):].strip()


@pytest.mark.parametrize("name", PAGES)
def test_all_is_drawn_and_nothing_complains(browser, pages, name):
    opened(browser, pages, name)
    assert browser.title.startswith(f"Bahupy replay of {name}: ")
    for chart, lacking in browser.execute_script(COLOURED):
        assert lacking == [], f"{chart} lacks colours"
    assert browser.get_log("browser") == []
    assert browser.execute_script("return performance.getEntriesByType('resource').length") == 0
    titles = browser.execute_script(
        "return page.charts.map((c) => [c.place.innerText.includes('time in s'),"
        " c.place.innerText.includes(c.data.axis)])")
    assert all(time_named and axis_named for time_named, axis_named in titles)
    assert browser.execute_script("return document.documentElement.scrollWidth <= innerWidth")


def test_a_click_leads_to_its_line(browser, pages):
    opened(browser, pages, "port-locks")
    lines = PAGES["port-locks"]().decode().splitlines()
    line, text = click(browser, "states", 7_200_000_000, 0)
    assert text == "state 1 UNCALIBRATED SLAVE" and lines[line - 1].strip() == text
    line, text = click(browser, "offsets", 5_500_000_000, 1)
    assert text.startswith("measure 1 0 -3276800000 ") and lines[line - 1].strip() == text
    line, text = click(browser, "adjustments", 5_500_000_000, 0)
    assert "report 5500000000 1 jump 50000 0 changed 2" in text
    line, text = click(browser, "steering", 4_000_000_000, 0)
    assert text == "order 0 1 1"
    parts = browser.find_elements("css selector", "#rows .part")
    assert [part.text.split(None, 1)[1] for part in parts][-3:] == [
        "state 1 LISTENING UNCALIBRATED", "parent 000a00.fffe.000001-1", "order 0 1 1"]


def test_a_table_leads_to_its_line(browser, pages):
    opened(browser, pages, "two-clocks")
    link = browser.find_element("css selector", "#asked a[data-line]")
    browser.execute_script("arguments[0].click()", link)
    assert "query 5000000000 GET PARENT_DATA_SET" in browser.find_element(
        "css selector", "#rows .here").text


def test_what_is_pointed_at_is_told(browser, pages):
    opened(browser, pages, "port-locks")
    x, y = browser.execute_script(MIDDLE, "offsets", 5_500_000_000, 1)
    actions = ActionChains(browser)
    actions.w3c_actions.pointer_action.move_to_location(x, y)
    actions.perform()
    tip = browser.find_element("id", "tip").text
    assert "port 1: -50,000 ns, at 5.500000000 s" in tip and "measure 1 0" in tip


def test_all_charts_zoom_together_and_fast(browser, pages):
    assert opened(browser, pages, "longest") < 60
    seconds = browser.execute_script("""
        const began = performance.now();
        page.charts[1].graph.updateOptions({dateWindow: [100, 160]});
        return (performance.now() - began) / 1000;""")
    assert seconds < 10
    windows = browser.execute_script("return page.charts.map((c) => c.graph.xAxisRange())")
    assert windows == [[100, 160]] * len(windows)
    line, text = click(browser, "announces", 130_000_000_000, 0)
    assert text.startswith("event ") and " port 1 frame 130000000000 0b" in text
    assert browser.get_log("browser") == []


def test_the_transcript_is_found_by_line_and_by_words(browser, pages):
    opened(browser, pages, "longest")
    count = browser.execute_script("return page.lines.lines.length")
    for line in (1, count // 2, count):
        browser.execute_script("page.lines.go(arguments[0])", line)
        time.sleep(0.2)
        number = browser.find_element("css selector", "#rows .here .number").text
        assert int(number) == line
    browser.execute_script("page.lines.find('superseded')")
    time.sleep(0.2)
    assert "superseded" in browser.find_element("css selector", "#rows .here").text


def test_a_drag_zooms_and_a_double_click_shows_all(browser, pages):
    opened(browser, pages, "port-locks")
    x, y = browser.execute_script(MIDDLE, "states", 2_000_000_000, 1)
    whole = browser.execute_script("return page.charts[0].graph.xAxisRange()")
    actions = ActionChains(browser)
    pointer = actions.w3c_actions.pointer_action
    pointer.move_to_location(x, y)
    pointer.pointer_down()
    # More down than across: in a chart of lanes that zooms into time all the same.
    pointer.move_to_location(x + 20, y + 60)
    pointer.move_to_location(x + 40, y + 100)
    pointer.pointer_up()
    actions.perform()
    time.sleep(0.3)
    windows = browser.execute_script("return page.charts.map((c) => c.graph.xAxisRange())")
    assert windows[0] == pytest.approx([2, 2.35], abs=0.15)
    assert all(window == windows[0] for window in windows)
    actions = ActionChains(browser)
    actions.w3c_actions.pointer_action.move_to_location(x, y).double_click()
    actions.perform()
    time.sleep(0.3)
    ranges = browser.execute_script(
        "return page.charts.map((c) => [c.lanes, c.graph.xAxisRange(), c.graph.yAxisRange(),"
        " c.data.names.length])")
    for lanes, window, values, count in ranges:
        assert window == pytest.approx(whole)
        assert not lanes or values == [0, count]
    assert browser.get_log("browser") == []
