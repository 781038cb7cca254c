"use strict";
// The charts. Dygraphs has the axes, the zoom and the curves; bars and marks are drawn into its area.

const SECOND = 1e9;
const LANE = 24;
const TOP = 8;
const NEAR = 8;
// The number that dygraphs has for a zoom in time.
const ACROSS = 1;

function secondsText(nanoseconds) { return `${(nanoseconds / SECOND).toFixed(9)} s`; }

// The first place of a rising column whose value is not below another.
function placeOf(column, value) {
  let low = 0, high = column.length;
  while (low < high) {
    const middle = (low + high) >> 1;
    if (column[middle] < value) low = middle + 1; else high = middle;
  }
  return low;
}

class Chart {
  constructor(data, end, page) {
    this.data = data;
    this.end = end;
    this.page = page;
    this.section = document.getElementById(data.id);
    this.place = this.section.querySelector(".chart");
    this.legend();
    this.lanes = data.form !== "curves";
    this.graph = this.lanes ? this.drawLanes() : this.drawCurves();
    this.place.addEventListener("mousemove", (e) => this.hover(e));
    this.place.addEventListener("mouseleave", () => page.hideTip());
  }

  legend() {
    const box = this.section.querySelector(".legend");
    for (const [name, colour, shape] of this.data.kinds) {
      const entry = document.createElement("span");
      const canvas = document.createElement("canvas");
      canvas.width = 22; canvas.height = 12; canvas.className = "swatch";
      const context = canvas.getContext("2d");
      context.fillStyle = context.strokeStyle = colour;
      if (this.data.form === "marks") mark(context, 11, 6, shape);
      else if (shape === "line") { context.fillRect(0, 5, 22, 2); context.fillRect(9, 3, 5, 5); }
      else context.fillRect(0, 0, 22, 12);
      entry.append(canvas, name);
      box.append(entry);
    }
  }

  // The whole run, with a little room on both sides.
  whole() { return [-0.005 * this.end / SECOND, 1.01 * this.end / SECOND]; }

  showAll() {
    const valueRange = this.lanes ? [0, this.data.names.length] : null;
    this.graph.updateOptions({ dateWindow: this.whole(), valueRange });
  }

  // The library's mouse; its own double click would also show all values of a lane, which has none.
  mouse() { return { ...Dygraph.defaultInteractionModel, dblclick: () => this.page.showAll() }; }

  common() {
    return {
      dateWindow: this.whole(),
      interactionModel: this.mouse(),
      xlabel: "time in s",
      axisLabelFontSize: 12,
      labelsDiv: document.createElement("div"),
      legend: "always",
      digitsAfterDecimal: 9,
      xRangePad: 0,
      animatedZooms: false,
      highlightCircleSize: 0,
      gridLineColor: "#e6e8ec",
      axisLineColor: "#98a1ae",
      clickCallback: (e) => this.click(e),
    };
  }

  drawLanes() {
    const names = this.data.names;
    this.place.style.height = `${names.length * LANE + TOP + 52}px`;
    return new Dygraph(this.place, this.whole().map((time) => [time, 0]), {
      ...this.common(),
      labels: ["time", "lane"],
      strokeWidth: 0,
      valueRange: [0, names.length],
      ylabel: this.data.axis,
      axes: { x: { drawGrid: false }, y: { drawGrid: false, axisLabelWidth: this.page.margin,
        ticker: () => names.map((name, i) => ({ v: names.length - i - 0.5, label: name })) } },
      underlayCallback: (context, area, graph) => this.paint(context, area, graph),
      // A lane has no value to zoom into.
      interactionModel: { ...this.mouse(), mousedown: dragOnlyInTime },
    });
  }

  drawCurves() {
    const count = this.data.names.length;
    const rows = this.data.time.map((time, i) => {
      const row = new Array(count + 1).fill(null);
      row[0] = time / SECOND;
      row[1 + this.data.which[i]] = this.data.value[i] ?? NaN;
      return row;
    });
    this.place.style.height = "250px";
    return new Dygraph(this.place, rows, {
      ...this.common(),
      labels: ["time", ...this.data.names],
      colors: this.data.kinds.map((kind) => kind[1]),
      ylabel: this.data.axis,
      strokeWidth: 2,
      connectSeparatedPoints: true,
      stepPlot: this.data.id === "frequencies",
      includeZero: true,
      yRangePad: 10,
      plotter: [Dygraph.Plotters.linePlotter, dots],
      axes: { y: { axisLabelWidth: this.page.margin, axisLabelFormatter: (value) => value.toLocaleString("en") } },
    });
  }

  // The part of the columns that can be seen, with the bar that reaches into it from the left.
  seen(graph) {
    const [left, right] = graph.xAxisRange();
    const from = this.data.form === "bars" ? 0 : placeOf(this.data.time, left * SECOND);
    return [from, placeOf(this.data.time, right * SECOND + 1)];
  }

  paint(context, area, graph) {
    context.save();
    context.beginPath();
    context.rect(area.x, area.y, area.w, area.h);
    context.clip();
    const height = area.h / this.data.names.length;
    for (let lane = 1; lane < this.data.names.length; lane++) {
      context.fillStyle = "#eceef2";
      context.fillRect(area.x, area.y + lane * height, area.w, 1);
    }
    if (this.data.form === "bars") this.bars(context, graph, area, height);
    else this.marks(context, graph, area, height);
    context.restore();
  }

  bars(context, graph, area, height) {
    const [from, to] = this.seen(graph);
    for (let i = from; i < to; i++) {
      const x = graph.toDomXCoord(this.data.time[i] / SECOND);
      const top = area.y + this.data.which[i] * height;
      this.bar(context, graph, i, x, top, height, this.data.kinds[this.data.kind[i]][1]);
    }
  }

  marks(context, graph, area, height) {
    const [from, to] = this.seen(graph);
    // Marks of one kind on one pixel look like one, and a long run has very many.
    const spots = this.data.kinds.map(() => new Map());
    for (let i = from; i < to; i++) {
      const x = Math.round(graph.toDomXCoord(this.data.time[i] / SECOND));
      spots[this.data.kind[i]].set(x * this.data.names.length + this.data.which[i], [x, this.data.which[i]]);
    }
    // The rarer a kind, the later it is drawn, so that no refusal is covered.
    const order = spots.map((_, kind) => kind).sort((a, b) => spots[b].size - spots[a].size);
    for (const kind of order) {
      const [, colour, shape] = this.data.kinds[kind];
      context.fillStyle = context.strokeStyle = colour;
      const down = this.shift(kind);
      for (const [x, which] of spots[kind].values()) mark(context, x, area.y + (which + 0.5) * height + down, shape);
    }
  }

  bar(context, graph, i, x, top, height, colour) {
    const end = graph.toDomXCoord(this.data.end[i] / SECOND);
    const [low, high] = [Math.max(x, -10), Math.min(end, 1e5)];
    if (high < 0) return;
    context.fillStyle = colour;
    context.fillRect(low, top + 3, Math.max(high - low, 1), height - 6);
    context.fillStyle = "#ffffffaa";
    context.fillRect(x, top + 3, 1, height - 6);
    const name = this.data.kinds[this.data.kind[i]][0];
    const text = this.data.value[i] >= 0 ? `generation ${this.data.value[i]}: ${name}` : name;
    context.font = "12px sans-serif";
    const from = Math.max(low, graph.getArea().x);
    if (context.measureText(text).width + 8 < high - from) {
      context.fillStyle = isDark(colour) ? "#fff" : "#1c2430";
      context.fillText(text, from + 4, top + height / 2 + 4);
    }
  }

  // What is nearest to the pointer: its place in the columns, or -1.
  nearest(e) {
    const box = this.place.getBoundingClientRect();
    const [x, y] = [e.clientX - box.left, e.clientY - box.top];
    const area = this.graph.getArea();
    if (x < area.x || x > area.x + area.w || y < area.y || y > area.y + area.h) return -1;
    const [from, to] = this.seen(this.graph);
    if (this.data.form === "bars") return this.barAt(x, y, area, from, to);
    const time = this.graph.toDataXCoord(x) * SECOND;
    const reach = (this.lanes ? NEAR : 24) * (this.end / area.w) *
      ((this.graph.xAxisRange()[1] - this.graph.xAxisRange()[0]) * SECOND / this.end);
    let best = -1, least = Infinity;
    for (let i = placeOf(this.data.time, time - reach); i < to && this.data.time[i] <= time + reach; i++) {
      if (!this.lanes && this.data.value[i] === null) continue;
      const across = this.graph.toDomXCoord(this.data.time[i] / SECOND) - x;
      const down = this.lanes ? this.laneMiddle(area, i) - y : this.graph.toDomYCoord(this.data.value[i]) - y;
      if (this.lanes && Math.abs(down) > LANE / 2) continue;
      const far = Math.hypot(across, down);
      if (far < least) { least = far; best = i; }
    }
    return best >= from && (this.lanes || least < 40) ? best : -1;
  }

  // Each kind of marks has a height of its own in its lane, so that none covers another.
  shift(kind) {
    const count = this.data.kinds.length;
    return this.data.form === "marks" ? (kind - (count - 1) / 2) * Math.min(5, 12 / count) : 0;
  }

  laneMiddle(area, i) {
    return area.y + (this.data.which[i] + 0.5) * area.h / this.data.names.length + this.shift(this.data.kind[i]);
  }

  barAt(x, y, area, from, to) {
    const lane = Math.floor((y - area.y) / (area.h / this.data.names.length));
    const time = this.graph.toDataXCoord(x) * SECOND;
    for (let i = to - 1; i >= from; i--) {
      if (this.data.which[i] === lane && this.data.time[i] <= time && time <= this.data.end[i]) return i;
    }
    return -1;
  }

  hover(e) {
    const i = this.nearest(e);
    if (i < 0) { this.page.hideTip(); return; }
    const name = this.data.names[this.data.which[i]];
    const kind = this.data.form === "curves"
      ? `${this.data.value[i].toLocaleString("en", { maximumFractionDigits: 3 })} ${this.data.axis.split(" in ")[1]}`
      : this.data.kinds[this.data.kind[i]][0];
    const number = this.data.form === "bars" && this.data.value[i] >= 0 ? `, generation ${this.data.value[i]}` : "";
    const until = this.data.form === "bars" ? ` to ${secondsText(this.data.end[i])}` : "";
    this.page.showTip(e, `${name}: ${kind}${number}, at ${secondsText(this.data.time[i])}${until}`, this.data.line[i]);
  }

  click(e) {
    const i = this.nearest(e);
    if (i >= 0) this.page.lines.go(this.data.line[i]);
  }
}

// In a chart of lanes a drag up or down zooms into time too.
function dragOnlyInTime(event, graph, context) {
  const fixed = { get: () => ACROSS, set: () => {}, configurable: true };
  Object.defineProperty(context, "dragDirection", fixed);
  Dygraph.defaultInteractionModel.mousedown(event, graph, context);
}

function isDark(colour) {
  const [red, green, blue] = [1, 3, 5].map((at) => parseInt(colour.slice(at, at + 2), 16));
  return red * 0.3 + green * 0.6 + blue * 0.1 < 150;
}

function mark(context, x, y, shape) {
  context.beginPath();
  if (shape === "cross") {
    context.lineWidth = 2;
    context.moveTo(x - 4, y - 4); context.lineTo(x + 4, y + 4);
    context.moveTo(x - 4, y + 4); context.lineTo(x + 4, y - 4);
    context.stroke();
  } else if (shape === "triangle") {
    context.moveTo(x, y - 6); context.lineTo(x + 5, y + 4); context.lineTo(x - 5, y + 4);
    context.fill();
  } else {
    context.arc(x, y, 3.5, 0, 2 * Math.PI);
    context.fill();
  }
}

// The points of a curve, while they can be told apart.
function dots(e) {
  if (e.points.length > e.plotArea.w / 3) return;
  e.drawingContext.fillStyle = e.color;
  for (const point of e.points) {
    if (isNaN(point.canvasy) || point.yval === null) continue;
    e.drawingContext.beginPath();
    e.drawingContext.arc(point.canvasx, point.canvasy, 2.5, 0, 2 * Math.PI);
    e.drawingContext.fill();
  }
}
