"""The page maps in a real browser, for tests/page_map.py: what is drawn, what a pointer reads, and what each button does."""

import base64
import json
import sys

from browser import Browser
from logs import ROOT, check

sys.path.insert(0, str(ROOT / "tools"))
from page_section import page_of, section_of

SIZE = 1200, 1200
COLOURS = {"class": (8, 62, 140), "shared": (10, 96, 40), "bitfit": (176, 82, 0), "large": (92, 22, 132), "empty": (255, 246, 130), "went back": (120, 120, 120)}
GUARD = 240, 30, 140
LEAST_APART = 18
DRAWN = "document.documentElement.dataset.drawn"
TIP = "document.getElementById('tip').textContent"
VIEW = "[runs[0].view.from, runs[0].view.to]"
MAP = "(() => { const { x, y, width, height } = document.querySelector('.map').getBoundingClientRect(); return { x, y: y + scrollY, width, height, scale: 1 }; })()"
# Where the pages and the marks of the first run stand in the window, by page.
PLACES = """(() => {
  const [run] = runs, box = run.map.getBoundingClientRect(), places = {};
  run.data.pages.forEach((page, row) => { places[page[0]] = [box.left + LEFT + run.width * 0.4, box.top + run.placeOfRow(row)]; });
  return places;
})()"""
MARKS = """(() => {
  const [run] = runs, boxes = [run.curves, run.map].map(part => part.getBoundingClientRect());
  return run.data.marks.map(mark => {
    const [x, y] = run.placeOfMark(mark), box = boxes[mark[2] ? 1 : 0];
    return [mark[0], box.left + x, box.top + y];
  });
})()"""
# How many points of each colour a picture has, and the colours of some of its points.
POINTS_OF = """(async () => {
  const image = await createImageBitmap(await (await fetch("data:image/png;base64,%s")).blob()), colours = {};
  const context = Object.assign(document.createElement("canvas"), { width: image.width, height: image.height }).getContext("2d");
  context.drawImage(image, 0, 0);
  const points = context.getImageData(0, 0, image.width, image.height).data;
  for (let at = 0; at < points.length; at += 4) {
    const colour = points.slice(at, at + 3).join();
    colours[colour] = (colours[colour] || 0) + 1;
  }
  return [colours, %s.map(([x, y]) => [...context.getImageData(Math.floor(x), Math.floor(y), 1, 1).data].slice(0, 3))];
})()"""


class Page:
    """A page in the browser, of a case."""

    def __init__(self, browser, case):
        self.browser, self.case, self.data = browser, case, case.data
        self.seconds = browser.open(case.path, DRAWN)
        check(not browser.faults(), f"{case.name}: {browser.faults()}")

    def value(self, expression):
        return self.browser.value(expression)

    def click(self, what):
        self.value(f"document.querySelector('[data-do={what}]').click()")

    def tip_at(self, x, y):
        self.browser.point_at(x, y)
        return self.value(TIP)

    def points(self, places=(), clip=None):
        """The numbers of points by colour, and the colours of these places."""
        return self.value(POINTS_OF % (base64.b64encode(self.browser.picture(clip)).decode(), json.dumps(list(places))))

    def drag(self, begin, end, y):
        for kind, x in (("mousePressed", begin), ("mouseMoved", (begin + end) / 2), ("mouseMoved", end), ("mouseReleased", end)):
            self.browser.ask("Input.dispatchMouseEvent", type=kind, x=x, y=y, button="left", buttons=0 if kind == "mouseReleased" else 1, clickCount=1)


def point_at_pages(page, rows=None):
    """The pointer over a page tells its line of the report."""
    pages, places = page.data["pages"], page.value(PLACES)
    for row in rows or sorted({0, len(pages) // 2, len(pages) - 1} - {-1}):
        x, y = places[str(pages[row][0])]
        if y < SIZE[1] - 10:
            said = page.tip_at(x, y)
            check(f"page {pages[row][0]}, heap {pages[row][1]}" in said and f"report: {pages[row][-1]}" in said, f"{page.case.name}: page {pages[row][0]}: {said}")


def point_at_marks(page):
    """The pointer over a mark tells its line, if no more than four are as near."""
    for line, x, y in page.value(MARKS)[:6]:
        if y < SIZE[1] - 10:
            said = page.tip_at(x, y)
            check(f"line {line}: {page.case.lines[line - 1]}" in said or said.count("line ") > 3, f"{page.case.name}: the mark of line {line}: {said}")


def column_shown(view, at, width):
    """The column that a point of the picture shows: the last that ends within it."""
    begin, end = view
    return min(end - 1, begin - (-(at + 1) * (end - begin) // width) - 1)


def test_cells(page, what):
    """Points of the picture have the colours of what stands there."""
    view, width, left = page.value(VIEW), page.value("runs[0].width"), page.value("runs[0].map.getBoundingClientRect().left + LEFT")
    marks, head = [(x, y) for _, x, y in page.value(MARKS)], page.value("runs[0].head.getBoundingClientRect().bottom")
    places, points, wanted = page.value(PLACES), [], []
    for row, told in enumerate(page.data["pages"]):
        y = places[str(told[0])][1]
        for at in range(row % 7, width, width // 40):
            if head + 20 < y < SIZE[1] - 2 and not any(abs(x - left - at) < 9 and abs(mark - y) < 9 for x, mark in marks):
                points.append((left + at + .5, y))
                state = page.data["cells"][row * page.data["columns"] + column_shown(view, at, width)]
                wanted.append((told[2], state))
    colours = {each: page.value(f"runs[0].colourOf({json.dumps(each[0])}, {each[1]})") for each in set(wanted)}
    _, found = page.points(points)
    wrong = [(at, colour, each) for at, colour, each in zip(points, found, wanted) if colour != colours[each]]
    check(len(points) > 200 and not wrong, f"{what}: {len(wrong)} of {len(points)} points have another colour: {wrong[:3]}")


def test_zoom(page):
    """Buttons, fields, a wheel and a drawn pointer show a part of the columns, and what is drawn then is that part."""
    columns, view = page.data["columns"], lambda: page.value(VIEW)
    check(view() == [0, columns], f"not all at first: {view()}")
    page.click("in")
    check(view()[1] - view()[0] == round(columns / 2), f"in: {view()}")
    test_cells(page, "half of the columns")
    before = view()
    page.click("right")
    check(view()[0] == min(columns - (before[1] - before[0]), round(before[0] + (before[1] - before[0]) / 2)), f"right: {before}, {view()}")
    for _ in range(4):
        page.click("left")
    check(view() == [0, before[1] - before[0]], f"left: {view()}")
    for _ in range(20):
        page.click("in")
    check(view()[1] - view()[0] == min(8, columns), f"in and in: {view()}")
    test_cells(page, "eight columns")
    page.click("all")
    check(view() == [0, columns], f"all: {view()}")
    first, last = page.data["last"] // 3, page.data["last"] // 2
    page.value(f"(() => {{ const {{ elements }} = document.querySelector('.bar'); [elements.first.value, elements.last.value] = [{first}, {last}]; elements.first.form.requestSubmit(); }})()")
    wanted = [(line * columns - 1) // page.data["last"] + more for line, more in ((first, 0), (last, 1))]
    check(view() == wanted, f"lines {first} to {last}: {view()}, and not {wanted}")
    page.click("all")
    left, width = page.value("runs[0].map.getBoundingClientRect().left + LEFT"), page.value("runs[0].width")
    for part in ("curves", "map"):
        y = page.value(f"runs[0].{part}.getBoundingClientRect().top") + 30
        page.drag(left + width * .25, left + width * .5, y)
        wanted = [columns * .25, columns * .5]
        check(all(abs(one - other) <= 2 for one, other in zip(view(), wanted)), f"drawn over the {part}: {view()}, and not {wanted}")
        test_cells(page, f"a part drawn over the {part}")
        page.click("all")
    page.browser.ask("Input.dispatchMouseEvent", type="mouseWheel", x=left + width * .75, y=y, deltaX=0, deltaY=-120, modifiers=2)
    check(abs(view()[1] - view()[0] - .8 * columns) <= 1 and abs(view()[0] - .15 * columns) <= 2, f"the wheel: {view()}")
    page.click("all")


def test_rows(page):
    """Rows become taller and lower, down to several pages in a point; a pointer over one still tells its page."""
    number, height = len(page.data["pages"]), "runs[0].rowHeight"
    before, tall = page.value(height), page.value("runs[0].height")
    page.click("taller")
    check(page.value(height) == 2 * before and page.value("runs[0].height") > tall, f"taller rows than {before}: {page.value(height)}")
    test_cells(page, "taller rows")
    for _ in range(12):
        page.click("lower")
    check(page.value(height) == 1 / 16 and page.value("runs[0].height") < tall / 2, f"the lowest rows: {page.value(height)}, {page.value('runs[0].height')} of {tall}")
    point_at_pages(page, range(0, number, 17))
    groups = page.value("runs[0].groups.map(({ first, rows, y, height }) => [first, rows, y, height])")
    left, top, width = page.value("[runs[0].map.getBoundingClientRect().left + LEFT, runs[0].map.getBoundingClientRect().top, runs[0].width]")
    page.browser.point_at(1, 1)
    points, wanted, columns = [], [], page.data["columns"]
    marks = [(x, y) for _, x, y in page.value(MARKS)]
    for first, rows, y, each in groups:
        for at in range(0, width, 50):
            if rows * each > 4 and each < 1 and not any(abs(x - left - at) < 9 and abs(mark - top - y) < 14 for x, mark in marks):
                points.append((left + at + .5, top + y + 2.5))
                column = column_shown((0, columns), at, width)
                near = range(first + max(0, int(1 / each)), first + min(rows, int(4 / each) + 1))
                wanted.append({page.data["cells"][row * columns + column] for row in near})
    _, found = page.points(points)
    kinds = [page.data["pages"][first][2] for first, rows, _, each in groups if rows * each > 4 and each < 1]
    tables = {kind: page.value(f"Array.from({{ length: 21 }}, (_, state) => runs[0].colourOf({json.dumps(kind)}, state))") for kind in kinds}
    wrong = sum(not any(colour == table[state] for table in tables.values() for state in states) for colour, states in zip(found, wanted))
    check(len(points) > 20 and not wrong, f"the lowest rows: {wrong} of {len(points)} points have another colour")
    for _ in range(6):
        page.click("taller")
    check(page.value(height) == 4, f"taller again: {page.value(height)}")


def test_head(page):
    """The head stays where one scrolls, with the axis, the legend and the name of the heap below it; a heap of the table is gone to."""
    page.value("scrollTo(0, document.documentElement.scrollHeight)")
    box = "(() => { const { top, bottom } = runs[0].head.getBoundingClientRect(); return [top, bottom, innerHeight, scrollY]; })()"
    top, bottom, height, scrolled = page.value(box)
    check(abs(top) < 1 and bottom < height / 2 and scrolled > 100, f"the head at the end: {top} to {bottom} of {height}, {scrolled} scrolled")
    page.value("new Promise(done => requestAnimationFrame(() => requestAnimationFrame(done)))")
    drawn = page.value("(() => { const { top, bottom } = runs[0].canvas.getBoundingClientRect(); return [top, bottom]; })()")
    seen = page.value("runs[0].map.getBoundingClientRect().bottom")
    check(drawn[0] <= bottom and drawn[1] >= min(seen, height) - 1, f"of the map {drawn} is drawn, of {bottom} to {seen}")
    test_cells(page, "at the end")
    heap = page.data["heaps"][0][0]
    page.value(f"[...document.querySelectorAll('.heaps button')].find(each => each.textContent === 'heap {heap}').click()")
    at = page.value(f"runs[0].map.getBoundingClientRect().top + runs[0].headings.find(each => each.heap === {heap}).y")
    check(abs(at - page.value(box)[1]) < 3, f"heap {heap} stands at {at}, and not at {page.value(box)[1]}")
    page.value("dispatchEvent(new Event('beforeprint'))")
    whole = page.value("[runs[0].canvas.getBoundingClientRect().height, runs[0].height]")
    check(abs(whole[0] - whole[1]) < 1, f"printed: {whole}")
    page.value("dispatchEvent(new Event('afterprint')), scrollTo(0, 0)")


def test_words(page):
    """The summary, the table and the legend say what the data say; no colour has the name of another."""
    data, told = page.data, page.value("document.querySelector('.summary').textContent")
    peak = data["peak"]
    check(f"Peak: {peak['pages']:,} page{'s' * (peak['pages'] != 1)} with memory" in told and f"at line {peak['line']:,}," in told, f"the peak: {told}")
    rows = page.value("[...document.querySelectorAll('tbody tr')].map(row => [...row.cells].map(cell => cell.textContent))")
    wanted = [[f"heap {heap}", data["named"].get(str(heap), ""), *(f"{each:,}" for each in (deeds, pages, blocks, room, asked))]
              for heap, deeds, pages, room, asked, blocks in data["heaps"]]
    check(sorted(rows) == sorted(wanted) and [int(row[3].replace(",", "")) for row in rows] == sorted((heap[2] for heap in data["heaps"]), reverse=True), f"heaps: {rows}")
    legend = page.value("[...document.querySelectorAll('.legend span')].map(each => each.textContent)")
    kinds = {each[2].split()[0] for each in data["pages"]}
    check(len(set(legend)) == len(legend) and all(f"{kind}, nearly empty to full" in legend for kind in kinds), f"the legend: {legend}")
    raised, due = data["guards"]
    check(any(f"{raised} guards raised, {due} due" in each for each in legend) == (due > 0), f"the guards: {legend}")
    refusals = f"▲ {data['allMarks'][0]:,} refusal{'s' * (data['allMarks'][0] != 1)}"
    check(refusals in legend, f"{refusals}: {legend}")


def test_guards(page):
    """A pointer over a page beside a guarded block says so, and it has the colour of guards."""
    cells, columns = page.data["cells"], page.data["columns"]
    places, width, left = page.value(PLACES), page.value("runs[0].width"), page.value("runs[0].map.getBoundingClientRect().left + LEFT")
    seen = 0
    for row, told in enumerate(page.data["pages"]):
        y = places[str(told[0])][1]
        at = next((at for at in range(width) if cells[row * columns + column_shown((0, columns), at, width)] == 3), None)
        if at is not None and y < SIZE[1] - 10:
            said = page.tip_at(left + at + .5, y)
            check("beside a guarded block" in said and "a guard at line" in said and f"page {told[0]}," in said, f"a guard of page {told[0]}: {said}")
            seen += 1
    page.browser.point_at(1, 1)
    points = page.points(clip=page.value(MAP))[0].get(",".join(map(str, GUARD)), 0)
    check(seen > 5 and points > 1000, f"{seen} guards were pointed at, and {points} points have their colour")


def lightness(colour):
    """The place of a colour in the space Lab, where distances are about as one sees them."""
    linear = [part / 12.92 if part <= .04045 else ((part + .055) / 1.055) ** 2.4 for part in (each / 255 for each in colour)]
    sums = [sum(weight * part for weight, part in zip(weights, linear)) for weights in ((.4339, .3762, .1899), (.2126, .7152, .0722), (.0177, .1095, .8728))]
    x, y, z = (each ** (1 / 3) if each > .008856 else 7.787 * each + 16 / 116 for each in sums)
    return 116 * y - 16, 500 * (x - y), 200 * (y - z)


def test_colours(page):
    """The map's picture has the colours of all kinds, and each differs clearly from those that mean something else, nearly empty pages' too."""
    colours, _ = page.points(clip=page.value(MAP))
    for what, colour in COLOURS.items():
        points = colours.get(",".join(map(str, colour)), 0)
        check(points > 200, f"the map's picture has {points} points of the colour of {what}")
    kinds = page.value("COLOURS")
    ramps = {kind: [[light + (dark - light) * step / 15 for light, dark in zip(*ends)] for step in range(16)] for kind, ends in kinds.items()}
    ramps |= {name: [page.value(name)] for name in ("NO_DEED", "NO_MEMORY", "WENT_BACK", "EMPTY", "GUARD")}
    for one in ramps:
        for other in ramps:
            apart = min(sum((a - b) ** 2 for a, b in zip(lightness(first), lightness(second))) ** .5 for first in ramps[one] for second in ramps[other])
            check(one == other or apart >= LEAST_APART, f"{one} and {other} are only {apart:.0f} apart")
    return sum(colours.values())


def test_several(browser, room, cases):
    """Two runs on one page, with one scale for their curves; the second is hidden, and drawn when it is shown."""
    waves, moves = cases["waves"], cases["moves"]
    scale = 2 * waves.data["most"][0][0]
    sections = [section_of(case.trace, case.transcript, name=name, scale=scale) for case, name in ((waves, "first & <one>"), (moves, "other"))]
    check([(each.pages, each.lines, each.columns, each.most_memory) for each in sections]
          == [(len(case.data["pages"]), case.data["lines"], case.data["columns"], case.data["most"][0][0]) for case in (waves, moves)], f"{[each[1:] for each in sections]}")
    path = room / "several.html"
    path.write_text(page_of("Two & <both>", sections[0].markup + sections[1].markup.replace('class="run"', 'class="run" hidden')))
    browser.open(path, DRAWN)
    state = "[...document.querySelectorAll('section')].map(each => [each.dataset.drawn !== undefined, each.querySelector('h2').textContent])"
    check(browser.value(state) == [[True, "Page map of first & <one>"], [False, ""]] and browser.value("document.title") == "Two & <both>", f"of two: {browser.value(state)}")
    bottoms = "[...document.querySelectorAll('.curves')].map(each => { const { x, y } = each.getBoundingClientRect(); return [x + LEFT, y + 6 + PLOT]; })"
    page = Page.__new__(Page)
    page.browser, page.data, page.case = browser, waves.data, waves
    x, y = browser.value(bottoms)[0]
    memory, width = waves.data["totals"][0], browser.value("runs[0].width")
    places, wanted = [], []
    for at in range(0, width, 40):
        columns = range(column_shown((0, len(memory)), at - 1, width) + 1 if at else 0, column_shown((0, len(memory)), at, width) + 1)
        height = max(memory[column] for column in columns) / scale * 96
        places += [(x + at + .5, y - height - 4), (x + at + .5, y - height / 2)] if height > 12 and at > 60 else []
        wanted += [True, False] if height > 12 and at > 60 else []
    _, found = page.points(places)
    check(len(places) > 20 and [colour == [255, 255, 255] for colour in found] == wanted, f"the curves of a given scale: {found}")
    browser.value("document.querySelectorAll('section')[0].hidden = true, document.querySelectorAll('section')[1].hidden = false, 0")
    browser.value("new Promise(done => { const wait = () => document.querySelectorAll('section')[1].dataset.drawn ? done() : setTimeout(wait, 10); wait(); })")
    check(browser.value(state)[1] == [True, "Page map of other"] and not browser.faults(), f"the second: {browser.value(state)}, {browser.faults()}")


def test_pictures(program, room, cases, into):
    """Opens each page; points at its pages and marks; keeps the picture of the waves."""
    with Browser(program, *SIZE) as browser:
        for case in cases.values():
            page = Page(browser, case)
            point_at_pages(page)
            point_at_marks(page)
            test_words(page)
        print(f"{case.name}: {case.bytes / 1e6:.2f} MB, open in {page.seconds:.2f} seconds")
        page = Page(browser, cases["guarded"])
        test_guards(page)
        test_zoom(page)
        page = Page(browser, cases["waves"])
        browser.point_at(1, 1)
        test_cells(page, "all columns")
        points = test_colours(page)
        test_zoom(page)
        test_rows(page)
        test_head(page)
        test_several(browser, room, cases)
        if into:
            page = Page(browser, cases["waves"])
            point_at_pages(page, [len(page.data["pages"]) // 3])
            into.write_bytes(browser.picture())
    print(f"{len(cases)} pages in a real browser; a picture of {points:,} points" + (f"; the window's is kept as {into.name}" if into else ""))
