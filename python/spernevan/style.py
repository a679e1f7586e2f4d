"""The style of the page: light and dark, on a screen and on paper."""

STYLE = """
:root {
  color-scheme: light dark;
  --back: #ffffff; --panel: #f5f6f8; --text: #1b1f24; --dim: #57606a; --line: #cfd6dd;
  --yes: #17693a; --no: #a8253f;
  --k0: #0b5cad; --k1: #a3400a; --k2: #17693a; --k3: #86308c; --k4: #7d5600; --k5: #a8253f;
}
@media (prefers-color-scheme: dark) {
  :root {
    --back: #14171a; --panel: #1d2125; --text: #e7e9ec; --dim: #a2acb6; --line: #3b434b;
    --yes: #6bcb8f; --no: #f48ba5;
    --k0: #74b6f5; --k1: #f3a26c; --k2: #6bcb8f; --k3: #d8a0de; --k4: #dfba55; --k5: #f48ba5;
  }
}
* { box-sizing: border-box; }
body {
  margin: 0 auto; padding: 1.5rem; max-width: 160rem; background: var(--back); color: var(--text);
  font: 1rem/1.45 system-ui, "Segoe UI", "Helvetica Neue", Arial, sans-serif;
}
h1 { font-size: 1.7rem; margin: 0 0 .3rem; overflow-wrap: anywhere; }
h2 { font-size: 1.3rem; margin: 2.6rem 0 .6rem; padding-top: .6rem; border-top: 2px solid var(--line); }
h3 { font-size: 1.02rem; margin: 1.4rem 0 .4rem; }
p { max-width: 50rem; margin: .4rem 0; }
a { color: var(--k0); }
a:focus-visible, summary:focus-visible { outline: 2px solid var(--k0); outline-offset: 2px; }
table { border-collapse: collapse; }
caption { text-align: left; font-weight: 600; }
th { font-weight: 600; text-align: left; }
th, td { padding: .3rem .6rem; vertical-align: middle; }
.scroll { overflow-x: auto; }
.plain th, .plain td { border: 1px solid var(--line); }
.plain thead th { background: var(--panel); }
.plain td.number { text-align: right; font-variant-numeric: tabular-nums; }
.matrix caption { white-space: nowrap; font-weight: 400; padding: .2rem 0; }
.matrix td { text-align: center; min-width: 4.2rem; }
.yes { color: var(--yes); } .no, .no a { color: var(--no); } .none { color: var(--dim); }
.same { background: var(--panel); }
var, .var { font-style: italic; }
.dim, .any { color: var(--dim); }
code, pre { font: .9rem/1.5 ui-monospace, "SFMono-Regular", Menlo, Consolas, monospace; }
pre { overflow-x: auto; background: var(--panel); padding: .7rem .9rem; margin: .3rem 0; }
details { margin: .8rem 0; } summary { cursor: pointer; color: var(--dim); }
dl { margin: .8rem 0; } dt { font-weight: 600; margin-top: .5rem; } dd { margin: 0; overflow-wrap: anywhere; }
section { container: forms / inline-size; }
.form { border: 1px solid var(--line); margin: .6rem 0; }
.form caption { height: 2rem; line-height: 2rem; }
.form thead tr { height: 2rem; background: var(--panel); }
.form thead th { padding-top: 0; padding-bottom: 0; font-size: .75rem; color: var(--dim); font-weight: 500; }
.form tbody tr { height: 3rem; border-top: 1px solid var(--line); }
.form tbody th, .form tbody td { padding: .15rem .6rem; line-height: 1.25; }
.form .name { display: block; font-size: .7rem; font-weight: 400; color: var(--dim); line-height: 1.1; }
.form .goes, .form tbody th:first-child, .plain tbody th { white-space: nowrap; }
.form .head { background: var(--panel); }
.form .dropped td, .form .dropped th { color: var(--dim); }
.form .dropped .var, .form .dropped .constant { text-decoration: line-through; text-decoration-thickness: 1px; }
.form .kept td.entry { color: var(--text); }
.form .dropped th:first-child { border-left: .25rem dashed var(--line); }
.form .kept th:first-child { border-left: .25rem solid currentColor; }
.lines { display: none; }
.short-lines { display: block; max-width: 100%; margin: .4rem 0; }
.short-lines text { font-size: 13px; fill: currentColor; }
.k0 { color: var(--k0); } .k1 { color: var(--k1); } .k2 { color: var(--k2); }
.k3 { color: var(--k3); } .k4 { color: var(--k4); } .k5 { color: var(--k5); }
svg path { fill: none; stroke: currentColor; stroke-width: 2; }
svg .end { fill: currentColor; stroke: none; }
svg .loose { stroke-dasharray: 5 4; }
.tables { display: flex; flex-wrap: wrap; gap: .8rem 1.6rem; align-items: flex-start; }
.tables th, .tables td { border: 1px solid var(--line); padding: .2rem .6rem; }
.tables thead th { background: var(--panel); font-weight: 500; font-size: .85rem; }
@media print {
  :root {
    color-scheme: light; font-size: 11px;
    --back: #ffffff; --panel: #f2f3f5; --text: #000000; --dim: #444b52; --line: #aab2ba;
    --yes: #17693a; --no: #a8253f;
    --k0: #0b5cad; --k1: #a3400a; --k2: #17693a; --k3: #86308c; --k4: #7d5600; --k5: #a8253f;
  }
  body { padding: 0; max-width: none; }
  a { color: inherit; text-decoration: none; }
  h2, h3 { break-after: avoid; }
  .form, .plain, .tables table, .example, svg, tr, dt, dd { break-inside: avoid; }
  dt { break-after: avoid; }
  .scroll { overflow: visible; }
  .form tbody th, .form tbody td.entry { overflow-wrap: anywhere; }
  details, nav { display: none; }
  * { print-color-adjust: exact; -webkit-print-color-adjust: exact; }
}
"""

# The two forms beside each other, where the section is as wide as they are.
BESIDE = """@container forms (min-width: {width:.1f}rem) {{
  #{at} .forms {{ display: grid; grid-template-columns: max-content {between}rem max-content; align-items: start; }}
  #{at} .form tbody th, #{at} .form tbody td {{ white-space: nowrap; }}
  #{at} .form {{ margin: 0; }}
  #{at} .short-lines {{ display: none; }}
  #{at} .lines {{ display: block; width: {between}rem; height: {height}rem; margin-top: {above}rem; }}
}}
"""
