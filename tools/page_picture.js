"use strict";
/* The picture of a run: its curves, and its map of the columns that are in view, of which it draws only what the window
   shows. It knows where each page, line and mark stands. */
const LEFT = 150, RIGHT = 24, PLOT = 96, ROW = 14, TALL = 900, LEAST_GROUP = 12, GAP = 3, HEADING = 18, AXIS = 20;
const BEYOND = 400, NEAR = 6, FONT = "11px system-ui, sans-serif";
/* Of each kind the colours of a page that is nearly empty, and of a full one. */
const COLOURS = {
  class: [[200, 222, 252], [8, 62, 140]],
  shared: [[200, 238, 200], [10, 96, 40]],
  bitfit: [[255, 224, 176], [176, 82, 0]],
  large: [[236, 186, 246], [92, 22, 132]],
};
const NO_DEED = [255, 255, 255], NO_MEMORY = [196, 196, 196], WENT_BACK = [120, 120, 120], EMPTY = [255, 246, 130];
const css = colour => `rgb(${colour.join()})`;
const GUARD = [240, 30, 140], REFUSAL = [208, 0, 0], WRONG = [0, 0, 0];
const CURVES = [["free on pages with memory", [226, 226, 226]], ["waste: room minus asked", [240, 160, 80]], ["asked for", [60, 120, 180]]];
const STRIP = [["phases", "phase", "#555"], ["ticks", "tick", "#287"], ["passes", "pass", "#36c"], ["guards", "guard", css(GUARD)]];
const [PAGE, HEAP, KIND, DEED, BACKED, BACKS, UNBACKED, UNBACKS, GUARDED, GUARDS, MOST, OUTCOMES, REPORT] = Array(13).keys();
const [LINE, COLUMN, OF_PAGE, IS_REFUSAL, TIMES, TEXT] = Array(6).keys();

const pixel = colour => new Uint32Array(Uint8Array.from([...colour, 255]).buffer)[0];
const within = (value, least, most) => Math.max(least, Math.min(most, value));
const spelled = number => number.toLocaleString("en");
const count = (number, one, more) => `${spelled(number)} ${number === 1 ? one : more || one + "s"}`;
const bytes = number => number < 1024 ? `${number} bytes` :
  number < 1 << 20 ? `${(number / 1024).toFixed(1)} KiB` : `${(number / (1 << 20)).toFixed(2)} MiB`;

async function unpacked(text) {
  const letters = atob(text), packed = new Uint8Array(letters.length);
  for (let at = 0; at < letters.length; at++) packed[at] = letters.charCodeAt(at);
  const stream = new Blob([packed]).stream().pipeThrough(new DecompressionStream("deflate"));
  return new Uint8Array(await new Response(stream).arrayBuffer());
}

/* A canvas of this size that is sharp on any screen, with nothing on it. */
function fresh(canvas, width, height) {
  const fine = devicePixelRatio || 1;
  [canvas.width, canvas.height] = [Math.round(width * fine), Math.round(height * fine)];
  [canvas.style.width, canvas.style.height] = [`${width}px`, `${height}px`];
  const context = canvas.getContext("2d");
  context.setTransform(fine, 0, 0, fine, 0, 0);
  context.font = FONT;
  return context;
}

function write(context, text, x, y, align = "left", colour = "#444") {
  context.textAlign = align;
  context.fillStyle = colour;
  context.fillText(text, x, y);
}

class Picture {
  constructor(section) {
    this.section = section;
    this.data = JSON.parse(section.querySelector("script").textContent);
    [this.head, this.map, this.figure] = ["head", "map", "figure"].map(name => section.querySelector(`.${name}`));
    [this.curves, this.canvas] = [this.head, this.map].map(part => part.querySelector("canvas"));
    this.view = { from: 0, to: this.data.columns };
    this.width = 0;
  }

  async load() {
    this.cells = await unpacked(this.data.cells);
    Object.assign(this.data, JSON.parse(new TextDecoder().decode(await unpacked(this.data.told))));
    const { data } = this;
    this.rowOf = new Map(data.pages.map((page, row) => [page[PAGE], row]));
    this.rowHeight = within(Math.floor(TALL / Math.max(1, data.pages.length)), 1, ROW);
    this.most = data.scale || Math.max(1, ...data.totals.map(each => each.reduce((most, value) => Math.max(most, value), 0)));
    this.tables = {};
  }

  /* Lines, columns and places. */

  lastLine(column) { return this.data.first - 1 + Math.floor((column + 1) * (this.data.last - this.data.first + 1) / this.data.columns); }
  firstLine(column) { return column ? this.lastLine(column - 1) + 1 : this.data.first; }
  columnOf(line) {
    const { first, last, columns } = this.data;
    return Math.floor(((within(line, first, last) - first + 1) * columns - 1) / (last - first + 1));
  }
  linesOf(column) {
    const first = this.firstLine(column), last = this.lastLine(column);
    return first === last ? `line ${spelled(last)}` : `lines ${spelled(first)} to ${spelled(last)}`;
  }
  x(column) { return LEFT + (column - this.view.from) * this.width / (this.view.to - this.view.from); }
  /* The column that a place shows: the last that ends within its point. */
  columnAt(x, points = this.width) {
    const { from, to } = this.view;
    return within(from + Math.ceil((x + 1) * (to - from) / points - 1e-9) - 1, from, to - 1);
  }

  /* Pages of one heap and kind stand together, under their heap; each group has its place in the picture. */
  place() {
    this.groups = [];
    this.headings = [];
    this.groupOf = new Uint16Array(this.data.pages.length);
    let y = 0;
    this.data.pages.forEach((page, row) => {
      const last = this.groups[this.groups.length - 1];
      if (last && last.heap === page[HEAP] && last.kind === page[KIND]) last.rows += 1;
      else this.groups.push({ heap: page[HEAP], kind: page[KIND], first: row, rows: 1 });
    });
    for (const group of this.groups) {
      const last = this.headings[this.headings.length - 1];
      if (!last || last.heap !== group.heap) {
        this.headings.push({ heap: group.heap, y });
        y += HEADING;
      }
      this.groupOf.fill(this.groups.indexOf(group), group.first, group.first + group.rows);
      const least = LEAST_GROUP / group.rows;
      group.height = Math.max(this.rowHeight, least < 1 ? least : Math.floor(least));
      group.y = y;
      group.end = y + Math.max(LEAST_GROUP, Math.ceil(group.rows * group.height));
      y = group.end + GAP;
      this.headings[this.headings.length - 1].end = y;
    }
    this.height = Math.max(y, 1);
    this.map.style.height = `${this.height}px`;
  }

  placeOfRow(row) {
    const group = this.groups[this.groupOf[row]];
    return group.y + (row - group.first + .5) * group.height;
  }

  nameOf(heap) { return `heap ${heap}${this.data.named[heap] ? `: ${this.data.named[heap]}` : ""}`; }

  draw() {
    this.place();
    this.drawHead();
    this.drawMap();
  }

  drawHead() {
    const { data, width } = this;
    this.strip = STRIP.filter(([name]) => data.strip[name][0]);
    this.isPageless = data.marks.some(mark => !mark[OF_PAGE]);
    this.stripTop = 6 + PLOT + AXIS;
    this.pagelessY = this.stripTop + this.strip.length * ROW + ROW / 2;
    const context = fresh(this.curves, LEFT + width + RIGHT, this.stripTop + (this.strip.length + this.isPageless) * ROW + 3);
    this.drawCurves(context);
    this.drawAxis(context);
    this.strip.forEach((told, at) => this.drawStrip(context, told, this.stripTop + at * ROW));
    if (this.isPageless) write(context, "marks of no page", LEFT - 8, this.pagelessY + 4, "right");
    this.drawMarks(context, mark => !mark[OF_PAGE]);
  }

  /* What is free on pages with memory, waste and what was asked for, the greatest of each point's columns. */
  drawCurves(context) {
    const { data, width, most } = this, bottom = 6 + PLOT, y = value => bottom - within(value / most, 0, 1) * PLOT;
    data.totals.forEach((total, which) => {
      context.fillStyle = css(CURVES[which][1]);
      for (let at = 0, next = this.view.from; at < width; at++) {
        const last = this.columnAt(at);
        let value = total[last];
        for (; next <= last; next++) value = Math.max(value, total[next]);
        context.fillRect(LEFT + at, y(value), 1, bottom - y(value));
      }
    });
    for (const part of [0, .5, 1]) {
      context.fillStyle = "#0003";
      context.fillRect(LEFT - 4, Math.round(y(part * most)), width + 4, 1);
      write(context, bytes(Math.round(part * most)), LEFT - 8, y(part * most) + 4, "right");
    }
    const { line } = data.peak, column = this.columnOf(line);
    if (line >= data.first && line <= data.last && column >= this.view.from && column < this.view.to)
      write(context, "▾ peak", within(this.x(column + .5) - 4, LEFT, LEFT + width - 36), y(data.peak.pages * 4096) + 8, "left", "#000");
  }

  drawAxis(context) {
    const { data, view, width } = this, first = this.firstLine(view.from), last = this.lastLine(view.to - 1);
    const rough = (last - first + 1) / 6, ten = 10 ** Math.floor(Math.log10(Math.max(rough, 1)));
    const step = [1, 2, 5, 10].map(each => each * ten).find(each => each >= rough), bottom = 6 + PLOT;
    context.fillStyle = "#888";
    context.fillRect(LEFT, bottom, width, 1);
    for (let line = Math.max(step, Math.ceil(first / step) * step); line <= last; line += step) {
      const x = this.x((line - data.first + 1) * data.columns / (data.last - data.first + 1));
      context.fillStyle = "#888";
      context.fillRect(Math.min(Math.round(x), LEFT + width) - 1, bottom, 1, 5);
      write(context, spelled(line), within(x, LEFT, LEFT + width - 10), bottom + 16, "center");
    }
    write(context, "line", LEFT - 36, bottom + 16, "right");
  }

  drawStrip(context, [name, one, colour], y) {
    const [number, columns] = this.data.strip[name], half = .5 * this.width / (this.view.to - this.view.from);
    write(context, count(number, one, name), LEFT - 8, y + 10, "right");
    context.fillStyle = colour;
    for (const column of columns)
      if (column >= this.view.from && column < this.view.to) context.fillRect(this.x(column) + half - .5, y + 1, 1, ROW - 4);
  }

  /* The part of the map that the window shows, and somewhat more. */
  drawMap(isWhole = false) {
    const from = this.map.getBoundingClientRect().top, under = Math.max(0, this.head.getBoundingClientRect().bottom - from);
    const top = isWhole ? 0 : within(Math.floor(-from - BEYOND), 0, this.height);
    const bottom = isWhole ? this.height : within(Math.ceil(innerHeight - from + BEYOND), 0, this.height);
    if (bottom <= top) return;
    const context = fresh(this.canvas, LEFT + this.width + RIGHT, bottom - top);
    this.canvas.style.top = `${top}px`;
    context.translate(0, -top);
    const points = Math.round(this.width * (devicePixelRatio || 1));
    const columns = Int32Array.from({ length: points }, (_, at) => this.columnAt(at, points));
    const begin = isWhole ? 0 : under;
    for (const group of this.groups)
      if (group.end > top && group.y < bottom) this.drawGroup(context, group, columns, top, bottom, begin);
    for (const heading of this.headings)
      if (heading.end > top && heading.y < bottom) this.drawHeading(context, heading, begin);
    this.drawMarks(context, mark => mark[OF_PAGE], top, bottom);
  }

  drawGroup(context, group, columns, top, bottom, begin) {
    const { data, cells, width } = this, { height, y } = group;
    const from = Math.max(0, Math.floor((top - y) / height)), to = Math.min(group.rows, Math.ceil((bottom - y) / height));
    const label = within(begin + HEADING, y, Math.max(y, group.end - LEAST_GROUP)) + 10;
    write(context, `${group.kind}${group.rows > 1 ? ` ×${spelled(group.rows)}` : ""}`, LEFT - 8, label, "right");
    if (to <= from) return;
    const lines = height < 1 ? Math.max(1, Math.round((to - from) * height)) : to - from;
    const image = new ImageData(columns.length, lines), pixels = new Uint32Array(image.data.buffer), table = this.tableOf(group.kind);
    for (let line = 0, at = 0; line < lines; line++) {
      const row = from + Math.floor((line + .5) * (to - from) / lines), base = (group.first + row) * data.columns;
      for (let point = 0; point < columns.length; point++) pixels[at++] = table[cells[base + columns[point]]];
    }
    const source = this.source ||= document.createElement("canvas");
    [source.width, source.height] = [image.width, image.height];
    source.getContext("2d").putImageData(image, 0, 0);
    context.imageSmoothingEnabled = false;
    context.drawImage(source, LEFT, y + from * height, width, (to - from) * height);
    context.strokeStyle = "#bbb";
    context.strokeRect(LEFT - .5, y - .5, width + 1, group.rows * height + 1);
  }

  /* A heap's name stays in sight as long as its pages are. */
  drawHeading(context, { heap, y, end }, begin) {
    const at = within(begin, y, Math.max(y, end - HEADING - GAP)), text = this.nameOf(heap);
    context.fillStyle = "#ffffffd8";
    context.fillRect(0, at, LEFT + this.width, HEADING - 2);
    context.font = `bold ${FONT}`;
    write(context, text, 4, at + 13, "left", "#222");
    context.font = FONT;
  }

  colourOf(kind, state) {
    const { noMemory, wentBack, guard, empty, steps } = this.data.states;
    if (state <= empty) return { 0: NO_DEED, [noMemory]: NO_MEMORY, [wentBack]: WENT_BACK, [guard]: GUARD, [empty]: EMPTY }[state];
    const [light, dark] = COLOURS[kind.split(" ")[0]], part = (state - empty - 1) / (steps - 1);
    return light.map((value, at) => Math.round(value + part * (dark[at] - value)));
  }

  tableOf(kind) {
    const states = this.data.states.empty + this.data.states.steps + 1;
    return this.tables[kind] ||= Uint32Array.from({ length: states }, (_, state) => pixel(this.colourOf(kind, state)));
  }

  placeOfMark(mark) {
    return [this.x(mark[COLUMN] + .5), mark[OF_PAGE] ? this.placeOfRow(this.rowOf.get(mark[OF_PAGE])) : this.pagelessY];
  }

  drawMarks(context, isHere, top = -Infinity, bottom = Infinity) {
    context.strokeStyle = "#fff";
    context.lineWidth = .7;
    for (const mark of this.data.marks) {
      if (!isHere(mark) || mark[COLUMN] < this.view.from || mark[COLUMN] >= this.view.to) continue;
      const [x, y] = this.placeOfMark(mark);
      if (y < top - NEAR || y > bottom + NEAR) continue;
      const shape = mark[IS_REFUSAL] ? `M${x} ${y - 5}l5 9h-10z` : `M${x - 4} ${y - 5}l4 4 4-4 1 1-4 4 4 4-1 1-4-4-4 4-1-1 4-4-4-4z`;
      const path = new Path2D(shape);
      context.fillStyle = css(mark[IS_REFUSAL] ? REFUSAL : WRONG);
      context.fill(path);
      context.stroke(path);
    }
    context.lineWidth = 1;
  }
}
