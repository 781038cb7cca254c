"use strict";
// Unpacks what the page carries, draws the charts, and leads from them to the transcript.

async function unpacked(id) {
  const text = document.getElementById(id).textContent;
  const octets = Uint8Array.from(atob(text), (letter) => letter.charCodeAt(0));
  const stream = new Blob([octets]).stream().pipeThrough(new DecompressionStream("gzip"));
  return new Response(stream).text();
}

const page = {
  // How wide the names left of the charts are: the same for all, so that times stand below each other.
  margin: 90,
  lines: null,
  tip: document.getElementById("tip"),
  charts: [],
  joined: null,
  // From now on a zoom in time of one chart is one of all.
  join() {
    if (this.charts.length < 2) return;
    const graphs = this.charts.map((chart) => chart.graph);
    this.joined = Dygraph.synchronize(graphs, { range: false, selection: false });
  },
  showAll() {
    // Each chart is drawn once: joined, each would draw all others again.
    if (this.joined) this.joined.detach();
    for (const chart of this.charts) chart.showAll();
    this.join();
  },
  hideTip() { this.tip.style.display = "none"; },
  showTip(e, text, line) {
    const code = document.createElement("code");
    const said = this.lines.lines[line - 1] || "";
    code.textContent = `line ${line}: ${said.length > 150 ? said.slice(0, 150) + " .." : said}`;
    this.tip.replaceChildren(text, code);
    this.tip.style.display = "block";
    const left = Math.min(e.clientX + 14, window.innerWidth - this.tip.offsetWidth - 10);
    const above = e.clientY + 16 + this.tip.offsetHeight > window.innerHeight;
    this.tip.style.left = `${Math.max(4, left)}px`;
    this.tip.style.top = `${above ? e.clientY - this.tip.offsetHeight - 10 : e.clientY + 16}px`;
  },
};

async function begin() {
  const busy = document.getElementById("busy");
  if (typeof DecompressionStream === "undefined") {
    busy.textContent = "This browser can't unpack the page; one of 2023 or later can.";
    return;
  }
  const text = await unpacked("packed-lines");
  page.lines = new Lines(text.replace(/\n$/, "").split("\n"));
  const data = JSON.parse(await unpacked("packed-charts"));
  const named = data.charts.filter((chart) => chart.form !== "curves").flatMap((chart) => chart.names);
  page.margin = Math.min(300, Math.max(90, 14 + 7 * Math.max(...named.map((name) => name.length))));
  const charts = data.charts.map((chart) => new Chart(chart, data.end, page));
  document.body.addEventListener("click", (e) => {
    const line = e.target.dataset && e.target.tagName === "A" && Number(e.target.dataset.line);
    if (line) page.lines.go(line);
  });
  page.charts = charts;
  page.join();
  busy.remove();
  document.body.dataset.ready = "yes";
}

window.page = page;
begin();
