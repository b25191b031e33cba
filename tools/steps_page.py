"""The page of a trace: the program beside the chart, a line and a step lit. It needs no other file and no network."""
import json

from markup import Painter, document, element, escaped

STYLE = """
body { margin: 0; background: var(--page); color: var(--ink); font: 14px/1.4 sans-serif; height: 100vh; display: grid;
  grid: auto 1fr / minmax(300px, 38%) 1fr; }
header { grid-column: 1 / 3; display: flex; flex-wrap: wrap; gap: 4px 8px; align-items: center; padding: 6px 10px; min-width: 0;
  border-bottom: 1px solid var(--edge); background: var(--panel); }
h1 { font-size: 15px; margin: 0 8px 0 0; overflow-wrap: anywhere; }
button { font: inherit; min-width: 34px; padding: 2px 8px; }
input { flex: 0 1 200px; min-width: 90px; }
output { font: 13px monospace; overflow-wrap: anywhere; flex: 1 1 300px; min-height: 1.4em; }
.code, #chart { overflow: auto; min-height: 0; min-width: 0; }
.code { border-right: 1px solid var(--edge); padding: 6px 0; }
.code .line { white-space: pre-wrap; overflow-wrap: anywhere; width: auto; }
.code .here { background: var(--here); } .code .lit { background: var(--lit); }
.line[data-here]::after { content: "\\25c4  " attr(data-here); color: var(--link); font-weight: 600; padding-left: 1em; }
#heads { position: sticky; top: 0; background: var(--page); border-bottom: 1px solid var(--edge); z-index: 1; }
#heads, #body { width: max-content; }
svg { display: block; } g.row { cursor: pointer; } #stripe { fill: var(--lit); opacity: .6; }
g.row.lit text { text-decoration: underline; }
@media (max-width: 760px) { body { grid: auto 2fr 3fr / 1fr; } header { grid-column: 1; }
  .code { border-right: 0; border-bottom: 1px solid var(--edge); font-size: 12px; } }
@media (prefers-color-scheme: dark) { .head { fill: #dfe4ea; } .box { fill: #1d2733; } .axis { stroke: #444; }
  .row { fill: #a9b4c0; } .row.began, .row.ended { fill: #eef2f6; } .row.waits, .arrow, .waiting, .tip { fill: #ff7b86; }
  .arrow { stroke: #ff7b86; } .row.got { fill: #eef2f6; } }
"""
SCRIPT = """
const {names, steps} = JSON.parse(document.getElementById("steps").textContent);
const lines = [...document.querySelectorAll(".line")], rows = [...document.querySelectorAll("g.row")];
const said = document.querySelector("output"), slider = document.querySelector("input");
const code = document.querySelector(".code"), chart = document.getElementById("chart");
const stripe = document.createElementNS("http://www.w3.org/2000/svg", "rect");
stripe.id = "stripe"; stripe.setAttribute("width", "100%"); stripe.setAttribute("visibility", "hidden");
if (rows.length) rows[0].before(stripe);
let at = -1;
function show(piece, frame) {
  const inner = piece.getBoundingClientRect(), outer = frame.getBoundingClientRect(), head = frame === chart ? 60 : 20;
  if (inner.top < outer.top + head) frame.scrollTop += inner.top - outer.top - head;
  if (inner.bottom > outer.bottom - 20) frame.scrollTop += inner.bottom - outer.bottom + 20;
  if (frame === chart && inner.left < outer.left) frame.scrollLeft += inner.left - outer.left - 30;
  if (frame === chart && inner.right > outer.right) frame.scrollLeft += inner.right - outer.right + 30;
}
function places() {
  const found = new Map();
  steps.slice(0, at + 1).forEach(([thread, , line, text], step) => {
    found.set(thread, step < at && text.startsWith("ended") ? 0 : line);
  });
  return found;
}
function light(next) {
  at = Math.max(0, Math.min(steps.length - 1, next));
  if (!steps.length) return;
  const [thread, row, line, text] = steps[at];
  document.querySelectorAll(".lit, .here").forEach(piece => piece.classList.remove("lit", "here"));
  lines.forEach(piece => delete piece.dataset.here);
  for (const [who, where] of places()) {
    const piece = lines[where - 1];
    if (!piece) continue;
    piece.dataset.here = piece.dataset.here ? piece.dataset.here + ", " + names[who] : names[who];
    piece.classList.add(who === thread ? "lit" : "here");
    if (who === thread) show(piece, code);
  }
  stripe.setAttribute("visibility", rows[row] ? "visible" : "hidden");
  if (rows[row]) {
    const box = [...rows[row].querySelectorAll("text")].map(piece => piece.getBBox());
    stripe.setAttribute("y", box[0].y - 1);
    stripe.setAttribute("height", box[box.length - 1].y + box[box.length - 1].height + 2 - box[0].y);
    rows[row].classList.add("lit");
    show(rows[row].querySelector("text"), chart);
  }
  slider.value = at + 1;
  said.textContent = `step ${at + 1} of ${steps.length}: ${names[thread]} ${text}`;
}
const moves = {first: () => 0, back: () => at - 1, next: () => at + 1, last: () => steps.length - 1};
const keys = {
  ArrowRight: "next", ArrowDown: "next", j: "next", ArrowLeft: "back", ArrowUp: "back", k: "back", Home: "first", End: "last"
};
addEventListener("keydown", event => {
  const move = keys[event.key];
  if (move && !event.ctrlKey && !event.altKey && !event.metaKey) { light(moves[move]()); event.preventDefault(); }
});
document.querySelectorAll("button").forEach(button => button.addEventListener("click", () => light(moves[button.id]())));
slider.addEventListener("input", () => light(slider.value - 1));
rows.forEach((row, number) => row.addEventListener("click", () => light(steps.findIndex(step => step[1] === number))));
addEventListener("resize", () => light(at));
light(location.hash.slice(1) - 1 || 0);
"""
BUTTONS = [("first", "&#8676;", "Home"), ("back", "&#8592;", "Left"), ("next", "&#8594;", "Right"), ("last", "&#8677;", "End")]


def lines_of_steps(steps, declarations):
    """For each step the line of the program at which its thread is then, or 0: that of the statement of the last instruction
    that it ran in its section, or before one that of the section's name."""
    begun, current = {routine.name: routine.line for routine in declarations.routines}, {}
    for step in steps:
        if step.event == "began":
            current[step.thread] = begun.get(step.what.split("(")[0], 0)
        elif step.place:
            current[step.thread] = step.place.line
        yield current.pop(step.thread, 0) if step.event == "ended" else current.get(step.thread, 0)


def text_of_step(step, chart):
    """A step in words, as the trace has it, but with the name of the thread that is waited for."""
    if step.event == "waits":
        return f"waits {step.what} for {chart.name(step.holder)}"
    place = f"{step.place} " if step.place else ""
    return f"ended at {step.what}" if step.event == "ended" else f"{step.event} {place}{step.what}".rstrip()


def data_of(trace, chart, declarations):
    """What the script is told, as JSON in which no markup can begin."""
    rows = {number: at for at, row in enumerate(chart.rows) for number in row.numbers}
    lines = lines_of_steps(trace.steps, declarations)
    steps = [
        [step.thread, rows.get(number, -1), line, text_of_step(step, chart)]
        for number, (step, line) in enumerate(zip(trace.steps, lines))
    ]
    return json.dumps({"names": chart.names, "steps": steps}, separators=(",", ":")).replace("<", "\\u003c")


def page(name, source, declarations, trace, chart):
    """The page of a trace of the program of a source."""
    # No class has a colour here: those of the bars are of locks.
    lines = Painter(declarations, []).lines(source)
    code = [element("div", line, class_="line", data_line=number) for number, line in enumerate(lines, 1)]
    heads, height = chart.heads()
    drawn = element("div", chart.frame(height, heads), id="heads")
    drawn += element("div", chart.frame(chart.height, chart.body()), id="body")
    buttons = [element("button", sign, id=move, title=f"{move} step (key {key})") for move, sign, key in BUTTONS]
    slider = f'<input type="range" min="1" max="{max(1, len(trace.steps))}" value="1" aria-label="step">'
    head = element("header", element("h1", escaped(name)), *buttons, slider, element("output"))
    body = [head, element("div", "\n".join(code), class_="code"), element("div", drawn, id="chart")]
    data = element("script", data_of(trace, chart, declarations), id="steps", type="application/json")
    return document(name, STYLE, [*body, data, element("script", SCRIPT)])
