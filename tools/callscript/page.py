"""A run as one HTML page, with nothing beside it to load: the calls and answers, and the state after the chosen one."""
import html
import json
import re

from .terminal import shortened, tone

STYLE = """\
:root { color-scheme: light dark; --ink: #1b1f24; --paper: #fff; --soft: #5b6470; --line: #d5dae0; --mark: #e6effb;
  --good: #176639; --denied: #8a5200; --refused: #7a2c8f; --wrong: #b3121d; --new: #dff3e4; --gone: #fbe3e4; }
@media (prefers-color-scheme: dark) { :root { --ink: #e4e8ec; --paper: #15181c; --soft: #9aa4af; --line: #363d45;
  --mark: #223349; --good: #74d39a; --denied: #e8b667; --refused: #d6a1e6; --wrong: #ff8a8f; --new: #1d3a27;
  --gone: #45242a; } }
* { box-sizing: border-box; }
body { margin: 0; font: 15px/1.45 system-ui, "DejaVu Sans", sans-serif; color: var(--ink); background: var(--paper);
  height: 100vh; display: grid; grid-template-rows: auto minmax(0, 1fr) auto; }
header { padding: 12px 20px; border-bottom: 1px solid var(--line); max-height: 35vh; overflow: auto; }
h1 { margin: 0; font-size: 20px; }
header p { margin: 4px 0 0; color: var(--soft); max-width: 110ch; }
header .about { color: inherit; }
.wrong, .wrong a { color: var(--wrong); font-weight: 600; }
main { display: grid; grid-template-columns: minmax(0, 11fr) minmax(0, 9fr); }
ol { list-style: none; margin: 0; padding: 8px 0 24px; border-right: 1px solid var(--line); overflow: auto; }
li { scroll-margin: 80px; }
li a { display: grid; grid-template-columns: 4ch minmax(0, 1fr); gap: 0 12px; padding: 5px 16px 5px 12px;
  color: inherit; text-decoration: none; border-left: 4px solid transparent; }
li a:hover { background: var(--mark); }
li.chosen a { background: var(--mark); border-left-color: #2f6fc4; }
.number { color: var(--soft); text-align: right; grid-row: 1 / span 9; }
code, .words { font: 13px/1.45 ui-monospace, "DejaVu Sans Mono", monospace; overflow-wrap: anywhere; }
li a > * { grid-column: 2; } li a > .number { grid-column: 1; }
.word { font-weight: 700; }
.comment { font-style: italic; font-size: 13px; }
.good .word { color: var(--good); } .denied .word { color: var(--denied); }
.refused .word { color: var(--refused); } .wrong .word { color: var(--wrong); }
aside { overflow: auto; padding: 12px 20px 24px; }
h2 { margin: 0 0 4px; font-size: 16px; } h3 { margin: 14px 0 4px; font-size: 14px; color: var(--soft); }
aside p { margin: 0; color: var(--soft); }
.row { padding: 2px 8px; border-left: 3px solid var(--line); margin: 2px 0; }
.row b { font-weight: 650; margin-right: 8px; white-space: nowrap; }
.row.new { background: var(--new); border-color: var(--good); }
.row.gone { background: var(--gone); border-color: var(--wrong); text-decoration: line-through; }
.memory .words { white-space: pre-wrap; }
.memory b { display: inline-block; min-width: 5ch; text-align: right; }
.name { color: var(--soft); }
footer { padding: 6px 20px; border-top: 1px solid var(--line); color: var(--soft); font-size: 13px; }
@media (max-width: 800px) { main { grid-template-columns: 1fr; grid-template-rows: 3fr 2fr; }
  ol { border-right: 0; border-bottom: 2px solid var(--line); } }
@media (max-height: 560px) { body { height: auto; display: block; } header { max-height: none; }
  ol, aside { max-height: 80vh; } }
@media print { body { height: auto; display: block; } ol, aside { overflow: visible; } }
"""

# The states are lists of sections, each a title and the numbers of its rows in `rows`; state 0 is the new target's.
# The chosen call is the one in the address, as #call-3.
PROGRAM = """\
const calls = document.querySelectorAll("ol li");
const state = document.getElementById("state");
const after = document.getElementById("after");
let chosen = 0;
document.getElementById("hint").textContent = "Choose a call, or go on with the arrow keys, Home and End.";
function minus(these, those) {
  const left = those.slice();
  return these.filter(row => { const at = left.indexOf(row); if (at >= 0) left.splice(at, 1); return at < 0; });
}
function element(kind, name, inner) {
  const made = document.createElement(kind);
  made.className = name;
  made.innerHTML = inner;
  return made;
}
function label(row) { return rows[row].split("</b>")[0]; }
function kindOf(title) { return titles[title].replace(/:.*/, ""); }
function choose(number) {
  chosen = Math.max(0, Math.min(calls.length - 1, number));
  calls.forEach((call, i) => {
    call.classList.toggle("chosen", i === chosen);
    call.firstChild.toggleAttribute("aria-current", i === chosen);
  });
  calls[chosen].scrollIntoView({ block: "nearest" });
  after.textContent = chosen > 0 ? "After call " + (chosen - 1) : "A new target";
  const before = chosen > 0 ? states[chosen - 1] : states[0];
  const sections = states[chosen].slice();
  const place = section => sections.findIndex(other => kindOf(other[0]) === kindOf(section[0]));
  before.forEach((section, i) => {
    // A section that is gone keeps its place: in front of the next that is not.
    const next = before.slice(i).find(other => place(other) >= 0);
    if (next !== section) sections.splice(next ? place(next) : sections.length, 0, [section[0], []]);
  });
  state.replaceChildren();
  for (const [title, now] of sections) {
    const same = before.find(section => kindOf(section[0]) === kindOf(title));
    const was = same ? same[1] : [];
    const fresh = minus(now, was);
    state.append(element("h3", "", titles[title]));
    const shown = element("div", kindOf(title).startsWith("memory") ? "memory" : "", "");
    const labels = fresh.map(label);
    const left = minus(was, now).filter(row => !labels.includes(label(row)));
    for (const row of left) shown.append(element("div", "row gone", rows[row]));
    for (const row of now) {
      const at = fresh.indexOf(row);
      if (at >= 0) fresh.splice(at, 1);
      shown.append(element("div", at >= 0 ? "row new" : "row", rows[row]));
    }
    if (!shown.children.length) shown.append(element("p", "", "none"));
    state.append(shown);
  }
}
function follow() {
  const found = location.hash.match(/^#call-([0-9]+)$/);
  choose(found ? Number(found[1]) + 1 : 0);
}
addEventListener("hashchange", follow);
addEventListener("keydown", event => {
  const held = event.ctrlKey || event.altKey || event.metaKey || event.shiftKey;
  if (held || state.parentNode.contains(event.target)) return;
  const last = calls.length - 1;
  const steps = { ArrowDown: chosen + 1, j: chosen + 1, ArrowUp: chosen - 1, k: chosen - 1, Home: 0, End: last };
  const to = steps[event.key];
  if (to === undefined) return;
  event.preventDefault();
  const next = Math.max(0, Math.min(last, to));
  history.replaceState(null, "", next > 0 ? "#call-" + (next - 1) : "#new");
  choose(next);
});
follow();
"""


def page(run, name):
    """The page of a run of the script of this name."""
    calls = ['<li id="new"><a href="#new"><span class="number"></span><span>a new target</span></a></li>']
    calls += [call_item(step) for step in run.steps]
    data = tables([run.before] + [step.after for step in run.steps])
    return f"""\
<!DOCTYPE html>
<html lang="en">
<head>
<meta charset="utf-8">
<meta name="viewport" content="width=device-width, initial-scale=1">
<title>{html.escape(name)}: a run on the reference target</title>
<style>
{STYLE}</style>
</head>
<body>
<header>
{heading(run, name)}
</header>
<main>
<ol tabindex="0" aria-label="calls and answers">
{chr(10).join(calls)}
</ol>
<aside tabindex="0" aria-label="the state">
<h2 id="after" aria-live="polite"></h2>
<noscript>The state after each call is shown by a script, which does not run here.</noscript>
<div id="state"></div>
</aside>
</main>
<footer>The answers are the printout's. The lists, headers, queue and bytes are worked out from the calls and the
answers alone, to be looked at; they are not part of the printout. A row that came or changed with the chosen call is
green, one that left with it is struck out. Of an entry, bytes=0..8 are the bytes 0 to 7.</footer>
<script>
{data}{PROGRAM}</script>
</body>
</html>
"""


def heading(run, name):
    """What the script is about, and what is wrong with the run as a whole."""
    count = len(run.steps)
    title, *about = [line for line in run.script.about if line] or [name]
    lines = [f"<h1>{html.escape(title)}</h1>"]
    if about:
        lines.append(f'<p class="about">{html.escape(" ".join(about))}</p>')
    size = f"memory {run.script.memory} bytes, {count} call{'s' * (count != 1)}"
    lines.append(f'<p>{html.escape(name)}: {size}. <span id="hint"></span></p>')
    for line in run.summary:
        said = re.sub(r"call ([0-9]+)$", r'<a href="#call-\1">call \1</a>', html.escape(line))
        lines.append(f'<p class="wrong">{said}</p>')
    if run.agreement:
        lines.append(f"<p>{html.escape(run.agreement)}</p>")
    return "\n".join(lines)


def call_item(step):
    """A call in the list: its number, its text, its answer, and what there is to say of it."""
    word, _blank, rest = shortened(step.said).partition(" ")
    parts = [
        f'<span class="number">{step.number}</span>',
        f"<code>{words(shortened(step.call))}</code>",
        *([f'<span class="comment">{html.escape(step.comment)}</span>'] if step.comment else []),
        f'<span class="words {tone(step.answer)}"><span class="word">{html.escape(word)}</span> {words(rest)}</span>',
    ]
    if step.card is not None:
        parts.append(f'<span class="words wrong">the card: {html.escape(shortened(step.card))}</span>')
    parts += [f'<span class="words wrong">{html.escape(shortened(note))}</span>' for note in step.notes]
    return f'<li id="call-{step.number}"><a href="#call-{step.number}">{"".join(parts)}</a></li>'


def words(text):
    """Words, with the names of fields set back from their values."""

    def word(one):
        name, equals, value = one.partition("=")
        if equals and name.replace("_", "").isalpha():
            return f'<span class="name">{html.escape(name)}=</span>{html.escape(value)}'
        return html.escape(one)

    return " ".join(map(word, text.split(" ")))


def tables(states):
    """The states as the page's program has them: each title and each row once, and their numbers."""
    titles, rows = {}, {}

    def number_in(table, text):
        return table.setdefault(text, len(table))

    numbered = [
        [
            [number_in(titles, html.escape(title)), [number_in(rows, row_html(row)) for row in found]]
            for title, found in sections
        ]
        for sections in states
    ]
    # A "<" in the data cannot end the program that it stands in.
    return "".join(
        f"const {name} = {json.dumps(value, separators=(',', ':'))};\n".replace("<", "\\u003c")
        for name, value in (("titles", list(titles)), ("rows", list(rows)), ("states", numbered))
    )


def row_html(row):
    return f'<b>{html.escape(row.label)}</b><span class="words">{words(row.words)}</span>'
