/* Shows each section of class `run`: its picture (page_picture.js), what stands around it, and what the pointer reads and
   does. A section is unpacked and drawn when it is shown first. */
const LEAST_WIDTH = 400, LEAST_ROW = 1 / 16, MOST_ROW = 56, LEAST_SHOWN = 8, MOST_TOLD = 4;

function made(parent, name, text, attributes = {}) {
  const element = Object.assign(document.createElement(name), attributes);
  if (text !== undefined) element.textContent = text;
  return parent.appendChild(element);
}

class RunMap extends Picture {
  /* To be called when the section has another size, which it has when it is shown, too. */
  async resize() {
    const width = Math.max(LEAST_WIDTH, this.figure.clientWidth - LEFT - RIGHT);
    if (!this.figure.clientWidth || width === this.width) return;
    this.width = width;
    await (this.loading ||= this.load());
    this.draw();
    this.section.dataset.drawn = document.documentElement.dataset.drawn = Math.round(performance.now());
  }

  async load() {
    await super.load();
    this.say();
    this.sayHeaps();
    this.sayColours();
    this.listen();
  }

  draw() {
    this.sayView();
    super.draw();
  }

  show(from, to) {
    const { columns } = this.data, least = Math.min(LEAST_SHOWN, columns);
    const number = within(Math.round(to - from), least, columns), first = within(Math.round(from), 0, columns - number);
    this.view = { from: first, to: first + number };
    this.draw();
  }

  zoom(factor, part = .5) {
    const { from, to } = this.view, number = (to - from) * factor;
    this.show(from + (to - from - number) * part, from + (to - from - number) * part + number);
  }

  /* Rows of less than a point: a point then shows one of several pages. */
  setRows(height) {
    this.rowHeight = within(height, LEAST_ROW, MOST_ROW);
    this.draw();
  }

  /* What stands around the picture. */

  say() {
    const { data, section } = this, { peak } = data, at = name => section.querySelector(name);
    at("h2").textContent = `Page map of ${data.name}`;
    const most = (which, what) => data.most[which][0] === [peak.pages * 4096, peak.room, peak.asked][which] ? "" :
      ` ${what} ${bytes(data.most[which][0])}, at line ${spelled(data.most[which][1])}.`;
    const told = !peak.line ? "No page had memory." :
      `Peak: ${count(peak.pages, "page")} with memory (${bytes(4096 * peak.pages)}) at line ${spelled(peak.line)}, ` +
      `${bytes(peak.room)} of it in blocks, for which ${bytes(peak.asked)} were asked.` +
      `${most(1, "Most in blocks:")}${most(2, "Most asked for:")}`;
    at(".summary").textContent = `${count(data.operations, "operation")} on a region of ${count(data.regionPages, "page")}; ` +
      `${data.transcript} has ${count(data.lines, "line")} before its report. ${told} At the end: ${data.total}.`;
    const notes = [], lines = data.last - data.first + 1, all = data.allMarks[0] + data.allMarks[1];
    if (lines < data.lines) notes.push(`Only lines ${spelled(data.first)} to ${spelled(data.last)} are drawn.`);
    if (lines > data.columns)
      notes.push(`Sampled: a column stands for ${(lines / data.columns).toFixed(1)} lines, and shows the pages after the last of them and the greatest totals.`);
    if (data.byActor)
      notes.push("The lines of a phase stand by thread, as `pas run` writes them; so a column within a phase is no moment, nor is a peak there.");
    const marked = data.marks.reduce((sum, mark) => sum + mark[TIMES], 0);
    if (all > data.marks.length)
      notes.push(`${count(data.marks.length, "mark")} for ${spelled(marked)} of ${count(all, "refusal or wrong free", "refusals and wrong frees")}.`);
    at(".notes").textContent = notes.join(" ");
  }

  sayHeaps() {
    const { data } = this, table = this.section.querySelector("table"), head = made(made(table, "thead"), "tr");
    this.section.querySelector(".heaps summary").textContent =
      `${count(data.heaps.length, "heap")}${data.peak.line ? `, at the peak in line ${spelled(data.peak.line)}` : ""}`;
    for (const text of ["heap", "what it is", "pages with a deed", "pages with memory", "blocks", "bytes in blocks", "bytes asked for"])
      made(head, "th", text, { className: /^heap|^what/.test(text) ? "text" : "" });
    const body = made(table, "tbody"), order = [...data.heaps].sort((one, other) => other[2] - one[2] || one[0] - other[0]);
    for (const [heap, deeds, pages, room, asked, blocks] of order) {
      const row = made(body, "tr"), link = made(made(row, "td", undefined, { className: "text" }), "button", `heap ${heap}`, { type: "button" });
      link.addEventListener("click", () => this.goTo(heap));
      made(row, "td", data.named[heap] || "", { className: "text" });
      for (const number of [deeds, pages, blocks, room, asked]) made(row, "td", spelled(number));
    }
  }

  goTo(heap) {
    const heading = this.headings.find(each => each.heap === heap);
    if (heading) scrollBy({ top: this.map.getBoundingClientRect().top + heading.y - this.head.offsetHeight });
  }

  sayColours() {
    const { data } = this, legend = this.head.querySelector(".legend"), [raised, due] = data.guards;
    const add = (text, background, more) => {
      const item = made(legend, "span");
      if (background) made(item, "i", undefined, { className: more || "" }).style.background = background;
      item.append(text);
      return item;
    };
    for (const [text, colour] of [...CURVES].reverse()) add(text, css(colour));
    add("no deed", css(NO_DEED));
    add("deed, no memory yet", css(NO_MEMORY));
    if (raised || due) add(`guard page: ${count(raised, "guard")} raised, ${spelled(due)} due`, css(GUARD)).className = "guards";
    add("memory, empty", css(EMPTY));
    for (const [kind, [light, dark]] of Object.entries(COLOURS))
      if (data.pages.some(page => page[KIND].startsWith(kind)))
        add(`${kind}, nearly empty to full`, `linear-gradient(to right, ${css(light)}, ${css(dark)})`, "range");
    add("memory went back", css(WENT_BACK));
    add(`▲ ${count(data.allMarks[0], "refusal")}`).style.color = css(REFUSAL);
    add(`✕ ${count(data.allMarks[1], "wrong free")}`).style.color = css(WRONG);
  }

  sayView() {
    const { data, view } = this, form = this.head.querySelector("form");
    const first = this.firstLine(view.from), last = this.lastLine(view.to - 1), isPart = view.to - view.from < data.columns;
    [form.elements.first.value, form.elements.last.value] = [first, last];
    const isCoarse = data.last - data.first + 1 > data.columns;
    form.querySelector("output").textContent = isPart && isCoarse ? `finer columns by --lines ${first}..${last}` :
      isPart ? "" : "drag over the picture to see a part of it";
  }

  /* What the pointer reads. */

  stateText(state) {
    const { noMemory, wentBack, guard, empty, steps } = this.data.states, part = state - empty;
    if (state <= empty)
      return { 0: "no deed yet", [noMemory]: "a deed, no memory yet", [wentBack]: "its memory went back to the system",
               [guard]: "without memory, beside a guarded block", [empty]: "memory, and no block" }[state];
    return part === steps ? `more than ${steps - 1}/${steps} full` : `at most ${part}/${steps} full`;
  }

  pageText(row, column) {
    const page = this.data.pages[row];
    const list = (lines, all) => lines.map(spelled).join(", ") + (all > lines.length ? ` and ${count(all - lines.length, "time")} more` : "");
    const told = (what, lines, all) => all ? `; ${what} at line ${list(lines, all)}` : "";
    return [`page ${page[PAGE]}, ${this.nameOf(page[HEAP])}, ${page[KIND]}`,
      `${this.linesOf(column)}${this.askingText(column)}: ${this.stateText(this.cells[row * this.data.columns + column])}`,
      `deed at line ${spelled(page[DEED])}${told("memory", page[BACKED], page[BACKS])}` +
      `${told("back to the system", page[UNBACKED], page[UNBACKS])}${told("a guard", page[GUARDED], page[GUARDS])}; ` +
      `at most ${bytes(page[MOST])} of blocks`,
      ...page[OUTCOMES] ? [`passes: ${page[OUTCOMES]}`] : [], `report: ${page[REPORT]}`];
  }

  askingText(column) {
    const line = this.data.asking[column];
    return line ? ` (the trace's requests up to line ${spelled(line)})` : "";
  }

  told(part, x, y) {
    if (x < LEFT || x >= LEFT + this.width) return "";
    const column = this.columnAt(Math.floor(x - LEFT)), isPageless = part === "head";
    const near = this.data.marks.filter(mark => {
      if (isPageless === Boolean(mark[OF_PAGE]) || mark[COLUMN] < this.view.from || mark[COLUMN] >= this.view.to) return false;
      const [atX, atY] = this.placeOfMark(mark);
      return Math.abs(atX - x) <= NEAR && Math.abs(atY - y) <= NEAR;
    });
    const texts = near.slice(0, MOST_TOLD).map(mark => `line ${mark[LINE]}: ${mark[TEXT]}${mark[TIMES] > 1 ? ` (and ${spelled(mark[TIMES] - 1)} more here)` : ""}`);
    if (near.length > MOST_TOLD) texts.push(`and ${count(near.length - MOST_TOLD, "mark")} more`);
    if (part === "head") {
      const [backed, room, asked] = this.data.totals.map(total => total[column]);
      return [`${this.linesOf(column)}${this.askingText(column)}: at most ${count(backed / 4096, "page")} with memory (${bytes(backed)}), ` +
        `${bytes(room)} in blocks, ${bytes(asked)} asked for`, ...texts].join("\n");
    }
    const group = this.groups.find(each => y >= each.y && y < each.y + each.rows * each.height);
    return [...group ? this.pageText(group.first + Math.floor((y - group.y) / group.height), column) : [], ...texts].join("\n");
  }

  listen() {
    const form = this.head.querySelector("form"), { figure } = this;
    const half = () => (this.view.to - this.view.from) / 2;
    const deeds = {
      in: () => this.zoom(.5), out: () => this.zoom(2), all: () => this.show(0, this.data.columns),
      left: () => this.show(this.view.from - half(), this.view.to - half()),
      right: () => this.show(this.view.from + half(), this.view.to + half()),
      taller: () => this.setRows(this.rowHeight * 2),
      lower: () => this.setRows(this.rowHeight > 1 ? Math.floor(this.rowHeight / 2) : this.rowHeight / 2),
    };
    form.addEventListener("click", event => deeds[event.target.dataset.do]?.());
    form.addEventListener("submit", event => {
      event.preventDefault();
      const [first, last] = ["first", "last"].map(name => Number(form.elements[name].value.replace(/\D/g, "")));
      if (first && last) this.show(this.columnOf(Math.min(first, last)), this.columnOf(Math.max(first, last)) + 1);
    });
    figure.addEventListener("wheel", event => {
      if (!event.ctrlKey) return;
      event.preventDefault();
      this.zoom(event.deltaY > 0 ? 1.25 : .8, within((this.spot(event).x - LEFT) / this.width, 0, 1));
    }, { passive: false });
    figure.addEventListener("pointermove", event => this.point(event));
    figure.addEventListener("pointerleave", () => this.point(null));
    figure.addEventListener("pointerdown", event => this.pick(event));
  }

  spot(event) {
    const part = this.head.contains(event.target) ? "head" : "map", box = (part === "head" ? this.curves : this.map).getBoundingClientRect();
    return { part, x: event.clientX - box.left, y: event.clientY - box.top };
  }

  point(event) {
    const { part, x, y } = event && event.target.tagName === "CANVAS" ? this.spot(event) : {};
    const text = part ? this.told(part, x, y) : "", isIn = x >= LEFT && x < LEFT + this.width;
    const [across, down] = ["across", "down"].map(name => this.figure.querySelector(`.${name}`));
    across.style.display = isIn && part === "map" ? "block" : "none";
    down.style.display = isIn ? "block" : "none";
    Object.assign(across.style, { top: `${y}px`, left: `${LEFT}px`, width: `${this.width}px` });
    down.style.left = `${x}px`;
    tip.textContent = text;
    tip.style.display = text ? "block" : "none";
    if (!text) return;
    const below = event.clientY + 18, isRoom = below + tip.offsetHeight < innerHeight;
    tip.style.left = `${Math.max(0, Math.min(event.clientX + 14, innerWidth - tip.offsetWidth - 8))}px`;
    tip.style.top = `${isRoom ? below : Math.max(0, event.clientY - tip.offsetHeight - 8)}px`;
  }

  /* Whoever draws the pointer along sees that part. */
  pick(event) {
    const begin = event.target.tagName === "CANVAS" && event.button === 0 && this.spot(event).x;
    if (!(begin >= LEFT && begin < LEFT + this.width)) return;
    const { figure } = this, picked = figure.querySelector(".picked"), { view, width } = this;
    const ends = at => [begin, within(at.clientX - figure.getBoundingClientRect().left, LEFT, LEFT + width)].sort((one, other) => one - other);
    const move = at => {
      const [left, right] = ends(at);
      Object.assign(picked.style, { display: "block", left: `${left}px`, width: `${right - left}px` });
    };
    const end = at => {
      figure.removeEventListener("pointermove", move);
      picked.style.display = "none";
      if (at.type !== "pointerup") return;
      const [left, right] = ends(at).map(x => view.from + (x - LEFT) * (view.to - view.from) / width);
      if ((right - left) * width / (view.to - view.from) >= NEAR) this.show(Math.floor(left), Math.ceil(right));
    };
    event.preventDefault();
    figure.setPointerCapture?.(event.pointerId);
    figure.addEventListener("pointermove", move);
    for (const name of ["pointerup", "pointercancel"]) figure.addEventListener(name, end, { once: true });
  }
}

const tip = made(document.body, "div", undefined, { id: "tip" });
const runs = [...document.querySelectorAll("section.run")].map(section => new RunMap(section));
const shown = () => runs.filter(run => run.groups && run.figure.clientWidth);
const observer = new ResizeObserver(entries => entries.forEach(({ target }) => {
  const run = runs.find(each => each.section === target);
  run.resize().catch(fault => { target.querySelector(".notes").textContent = `The picture couldn't be drawn: ${fault}`; });
}));
for (const run of runs) observer.observe(run.section);
let isWaiting = false;
addEventListener("scroll", () => {
  if (isWaiting) return;
  isWaiting = true;
  requestAnimationFrame(() => { isWaiting = false; shown().forEach(run => run.drawMap()); });
}, { capture: true, passive: true });
addEventListener("resize", () => shown().forEach(run => run.drawMap()));
addEventListener("beforeprint", () => shown().forEach(run => run.drawMap(true)));
addEventListener("afterprint", () => shown().forEach(run => run.drawMap()));
