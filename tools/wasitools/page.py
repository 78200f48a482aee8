"""A telling as one page of HTML, which needs no other file and no network."""

from __future__ import annotations

from html import escape
from typing import Iterator, List

from .telling import CallWords, Cause, Changed, Dump, Telling, Touched, TreeLine, count, dump_text, some_calls

STYLE = """
:root { color-scheme: light dark; --back: #fbfaf7; --card: #ffffff; --ink: #1f2328; --soft: #5f6872; --line: #dcd9d0;
  --good: #1a6b3c; --bad: #a3341f; --end: #7a4a00; --new: #e3f3e6; --changed: #fdf1d2; --gone: #fbe4df;
  --link: #0b57a4; }
@media (prefers-color-scheme: dark) {
  :root { --back: #15181c; --card: #1d2126; --ink: #e4e7ea; --soft: #9aa4ae; --line: #343a41;
    --good: #7bd19a; --bad: #f2937f; --end: #e5b566; --new: #1c3a28; --changed: #40351a; --gone: #452420;
    --link: #8bbcf5; } }
* { box-sizing: border-box; }
body { margin: 0 auto; max-width: 84rem; padding: 1.2rem clamp(.7rem, 3vw, 2rem) 4rem; background: var(--back);
  color: var(--ink); font: 15px/1.5 system-ui, sans-serif; }
h1 { font-size: 1.35rem; margin: 0; overflow-wrap: anywhere; }
h2 { font-size: 1.05rem; margin: 2rem 0 .5rem; }
h3 { font-size: .95rem; margin: 1rem 0 .4rem; font-weight: 600; }
p.sum { margin: .3rem 0 0; color: var(--soft); }
a { color: var(--link); text-decoration: none; } a:hover { text-decoration: underline; }
code, pre, .mono { font-family: ui-monospace, "DejaVu Sans Mono", monospace; font-size: .86em; }
.box { background: var(--card); border: 1px solid var(--line); border-radius: 8px; overflow-x: auto; }
pre { margin: 0; padding: .6rem .8rem; line-height: 1.45; width: max-content; min-width: 100%; }
.two { display: grid; grid-template-columns: minmax(0, 1fr); gap: 1rem; }
@media (min-width: 62rem) { .two { grid-template-columns: minmax(0, 2fr) minmax(0, 3fr); } }
dl { display: grid; grid-template-columns: max-content minmax(0, 1fr); gap: .2rem 1rem; margin: 0;
  padding: .6rem .8rem; }
dt { color: var(--soft); } dd { margin: 0; overflow-wrap: anywhere; }
.call { display: grid; grid-template-columns: 3.2rem minmax(0, 3fr) minmax(0, 2fr); gap: .2rem .8rem;
  padding: .55rem .8rem; border-top: 1px solid var(--line); }
.call:first-child { border-top: 0; } .call:target { background: var(--changed); }
.call > * { overflow-wrap: anywhere; } .call .num { color: var(--soft); text-align: right; }
.call .args { color: var(--soft); } .call .args b { color: var(--ink); font-weight: 500; }
.call .args span { display: inline-block; max-width: 100%; margin-right: .9rem; }
.ok { color: var(--good); } .refused { color: var(--bad); } .end { color: var(--end); } .none { color: var(--soft); }
.call ul { margin: .2rem 0 0; padding: 0; list-style: none; } .call li { color: var(--soft); }
.call li.change { color: var(--ink); background: var(--changed); border-radius: 4px; padding: 0 .35rem;
  margin-top: .15rem; }
.row { display: block; padding: 0 .8rem; margin: 0 -.8rem; } .row i { font-style: normal; color: var(--soft); }
.new { background: var(--new); } .changed { background: var(--changed); } .gone { background: var(--gone); }
.legend span { border-radius: 4px; padding: 0 .4rem; margin-right: .5rem; }
.legend { font-size: .85rem; margin: .3rem 0; }
footer { margin-top: 2.5rem; color: var(--soft); font-size: .85rem; }
@media (max-width: 44rem) { .call { grid-template-columns: 2.2rem minmax(0, 1fr); } .call .answer { grid-column: 2; } }
"""
STATES = {"ok": "=", "refused": "!", "end": "#", "none": "."}
MARKS = {"+": "new", "*": "changed", "-": "gone"}


def broken(words: str) -> str:
    """Words that may be broken between the names of a set."""
    return escape(words).replace("|", "|<wbr>")


def link(call: int) -> str:
    return f'<a href="#call-{call}">{call}</a>'


def linked(calls: List[int]) -> str:
    told, others = some_calls(calls)
    return f"{'call' if len(calls) == 1 else 'calls'} {', '.join(map(link, told))}{others}"


def caused(causes: List[Cause]) -> str:
    return "; ".join(f"{escape(word)} by {linked(calls)}" for word, calls in causes)


def call_rows(call: CallWords) -> Iterator[str]:
    anchor = f' id="call-{call.number}"' if call.number else ""
    guest = "" if call.guest is None else f"guest {call.guest} "
    yield f'<div class="call"{anchor}><div class="num">{call.number or ""}</div><div>{guest}<code>{call.name}</code>'
    arguments = "".join(f"<span>{escape(name)} <b>{broken(words)}</b></span>" for name, words in call.arguments)
    yield f'<div class="args mono">{arguments}</div></div>' if arguments else "</div>"
    yield f'<div class="answer"><span class="{call.state}">{STATES[call.state]} {broken(call.answer)}</span>'
    items = [f"<li>{escape(detail)}</li>" for detail in call.details]
    items += [f'<li class="change">{escape(change)}</li>' for change in call.changes]
    yield (f'<ul class="mono">{"".join(items)}</ul>' if items else "") + "</div></div>"


def tree_box(lines: List[TreeLine]) -> Iterator[str]:
    wide = max(len(str(line.node)) for line in lines)
    yield '<div class="box"><pre>'
    for line in lines:
        kind = f" {MARKS[line.mark]}" if line.mark in MARKS else ""
        words = f"<i>{line.mark} {line.node:{wide}} {line.bits}  {line.branch}</i>{escape(line.name)}"
        words += f"  [{caused(line.causes)}]" if line.causes else ""
        words += f"  <i>{escape(line.words)}</i>" if line.words else ""
        yield f'<span class="row{kind}">{words}</span>'
    yield "</pre></div>"


def dump_box(dump: Dump) -> Iterator[str]:
    yield f"<h3>Memory {escape(dump.title)}</h3><div class=\"box\"><pre>"
    for line in dump.lines:
        kind = " changed" if line.calls else ""
        calls = f"  {linked(line.calls)}" if line.calls else ""
        yield f'<span class="row{kind}">{escape(dump_text(line))}{calls}</span>'
    if dump.left_out:
        yield f'<span class="row"><i>and {count(dump.left_out, "line")} more</i></span>'
    yield "</pre></div>"


def output_box(name: str, data: bytes) -> Iterator[str]:
    yield f"<h3>{escape(name.capitalize())}, {count(len(data), 'byte')}</h3>"
    if data:
        text = data.decode(errors="replace")
        shown = "".join(mark if mark.isprintable() or mark in "\t\n" else f"\\x{ord(mark):02x}" for mark in text)
        yield f'<div class="box"><pre>{escape(shown)}</pre></div>'


def touched_box(touched: Touched) -> Iterator[str]:
    if touched.through:
        yield f"<h3>Through {escape(touched.through)}{'' if touched.nodes else ': nothing'}</h3>"
    if touched.nodes or not touched.through:
        yield '<div class="box"><dl>'
        yield from (f"<dt>{node}</dt><dd class=\"mono\">{escape(path)}</dd>" for node, path in touched.nodes)
        yield "</dl></div>"


def changed_box(changed: Changed) -> Iterator[str]:
    yield f'<h2>Trial</h2><p class="sum">{escape(changed.summary)}</p><div class="box"><dl>'
    for node, words in changed.nodes:
        yield f'<dt class="mono">{escape(node)}</dt><dd class="mono">{escape(words)}</dd>'
    yield "</dl></div>"


def body_of(telling: Telling) -> Iterator[str]:
    yield f'<h1>{escape(telling.title)}</h1><p class="sum">{escape(telling.summary)}</p>'
    if telling.given:
        yield '<h2>Given</h2><div class="box"><dl>'
        yield from (f"<dt>{escape(name)}</dt><dd class=\"mono\">{escape(words)}</dd>" for name, words in telling.given)
        yield "</dl></div>"
    yield '<h2>Tree</h2><p class="legend"><span class="new">+ new</span><span class="changed">* changed</span>'
    yield '<span class="gone">- gone</span> number, bits, name, what it has</p>'
    yield '<div class="two"><div><h3>Before</h3>'
    yield from tree_box(telling.before)
    yield "</div><div><h3>After</h3>"
    yield from tree_box(telling.after)
    yield "</div></div>"
    if telling.changed:
        yield from changed_box(telling.changed)
    yield '<h2>Calls</h2><div class="box">'
    for call in telling.calls:
        yield from call_rows(call)
    yield "</div><h2>Output</h2>"
    for name, data in telling.outputs:
        yield from output_box(name, data)
    if telling.dumps:
        yield "<h2>Memory</h2>"
    for dump in telling.dumps:
        yield from dump_box(dump)
    if telling.touched:
        yield "<h2>Touched</h2>"
    for touched in telling.touched:
        yield from touched_box(touched)
    yield "<footer>Told of a script and its report by a tool that nothing is proved of.</footer>"


def page_of(telling: Telling) -> str:
    head = '<!doctype html>\n<html lang="en"><head><meta charset="utf-8">'
    head += '<meta name="viewport" content="width=device-width, initial-scale=1">'
    head += f"<title>{escape(telling.title)}</title><style>{STYLE}</style></head><body>"
    # (in a <pre> lines are joined as they are, since its rows are blocks)
    return head + "".join(body_of(telling)) + "</body></html>\n"
