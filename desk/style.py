"""How the page looks, on a screen of any width and on paper. It needs no font, picture or script from elsewhere."""
from desk.diagram import COLOURS, INK, MUTED, PAPER, TINTS

RULE = "#d4d4d4"
STYLE = f"""
:root {{ color-scheme: light; }}
* {{ box-sizing: border-box; }}
body {{ margin: 0 auto; padding: 2rem 2rem 3rem; max-width: 78rem; background: {PAPER}; color: {INK};
  font: 1rem/1.5 system-ui, -apple-system, "Segoe UI", Roboto, "Liberation Sans", "DejaVu Sans", Arial, sans-serif;
  font-variant-numeric: tabular-nums; overflow-wrap: anywhere; }}
h1 {{ margin: 0; font-size: 1.75rem; line-height: 1.25; font-weight: 600; }}
h2 {{ margin: 2.5rem 0 .75rem; padding-bottom: .3rem; border-bottom: 1px solid {RULE}; font-size: 1.2rem; line-height: 1.3;
  font-weight: 600; }}
p, ul, dl {{ margin: .5rem 0; max-width: 46rem; }}
ul {{ padding-left: 1.25rem; }}
ul.heed {{ padding: 0; list-style: none; max-width: none; }}
ul.heed li {{ margin: .15rem 0; padding-left: 1.5em; text-indent: -1.5em; }}
.kind, .note, footer {{ color: {MUTED}; }}
.note, footer, dl {{ font-size: .875rem; }}
footer {{ margin-top: 2.5rem; padding-top: .75rem; border-top: 1px solid {RULE}; }}
.whole {{ margin: 1.25rem 0 .5rem; padding: .5rem .9rem; border-left: .35rem solid {COLOURS["W"]}; font-size: 1.15rem;
  font-weight: 600; max-width: none; }}
.whole.over {{ border-color: {COLOURS["O"]}; background: {TINTS["O"]}; }}
.whole.close {{ border-left-style: dashed; border-color: {COLOURS["C"]}; background: {TINTS["C"]}; }}
dl {{ display: grid; grid-template-columns: max-content 1fr; gap: .35rem 1rem; }}
dt {{ font-weight: 600; }}
dd {{ margin: 0; }}
pre {{ margin: .75rem 0; padding: .75rem .9rem; border: 1px solid {RULE}; overflow-x: auto; overflow-wrap: normal;
  font: .875rem/1.4 ui-monospace, "Liberation Mono", "DejaVu Sans Mono", Consolas, monospace; }}
.scroll {{ margin: .75rem 0 1.5rem; overflow-x: auto; }}
.diagram {{ margin: .75rem 0; overflow: auto; border: 1px solid {RULE}; }}
.large .diagram {{ max-height: 90vh; }}
.part {{ display: none; }}
.diagram > svg {{ display: block; width: 100%; max-width: var(--wide); min-width: calc(var(--wide) * .8); height: auto; margin: 0 auto; }}
table {{ border-collapse: collapse; font-size: .875rem; line-height: 1.35; overflow-wrap: normal; }}
caption {{ padding: 0 0 .4rem; text-align: left; font-weight: 600; }}
th, td {{ padding: .3rem .6rem; border-bottom: 1px solid {RULE}; text-align: right; vertical-align: top; white-space: nowrap; }}
thead th {{ vertical-align: bottom; border-bottom: 1.5px solid {INK}; font-weight: 600; white-space: normal; }}
tbody th {{ font-weight: 400; }}
tbody th[scope="row"] {{ position: sticky; left: 0; background: {PAPER}; }}
th.left, td.left {{ text-align: left; white-space: normal; }}
td.left:last-child {{ min-width: 13em; }}
td bdi, th bdi {{ white-space: nowrap; }}
td bdi.long, th bdi.long {{ display: inline-block; width: 14rem; white-space: normal; overflow-wrap: anywhere; }}
.kept, thead th.kept {{ white-space: nowrap; }}
tr.over td, tr.over th {{ background: {TINTS["O"]}; }}
tr.close td, tr.close th {{ background: {TINTS["C"]}; }}
tr.over .words {{ color: {COLOURS["O"]}; font-weight: 600; }}
tr.close .words {{ color: {COLOURS["C"]}; font-weight: 600; }}
.words {{ display: inline-block; min-width: 11rem; }}
.badge {{ width: 1.15em; height: 1.15em; margin-right: .35em; vertical-align: -.22em; }}
@media (max-width: 40rem) {{
  body {{ padding: 1.25rem 1rem 2rem; }}
  h1 {{ font-size: 1.4rem; }}
  dl {{ display: block; }}
  dd {{ margin-bottom: .5rem; }}
  th, td {{ padding: .3rem .45rem; }}
  td bdi.long, th bdi.long {{ width: 10rem; }}
}}
@page {{ size: A4 portrait; margin: 14mm 12mm; }}
@page across {{ size: A4 landscape; }}
@media print {{
  * {{ -webkit-print-color-adjust: exact; print-color-adjust: exact; }}
  html {{ font-size: 10pt; }}
  body {{ padding: 0; max-width: none; line-height: 1.4; }}
  h2 {{ margin-top: 1.25rem; break-after: avoid; }}
  .whole {{ margin: .75rem 0 .25rem; }}
  p, ul, dl {{ max-width: none; }}
  .across {{ page: across; }}
  .scroll, .diagram {{ overflow: visible; border: 0; }}
  .diagram > svg {{ min-width: 0; max-width: min(100%, var(--wide)); max-height: 210mm; break-inside: avoid; }}
  .sheet {{ break-before: page; }}
  .sheet .diagram > svg, .part > svg {{ max-height: 245mm; }}
  .large .diagram {{ max-height: none; }}
  .large .diagram > svg {{ max-height: 165mm; }}
  .part {{ display: block; break-before: page; }}
  .part > p {{ margin: 0 0 4mm; }}
  .part > svg {{ display: block; width: 100%; height: auto; }}
  table {{ font-size: 8.5pt; line-height: 1.3; }}
  caption {{ break-after: avoid; }}
  .short {{ break-inside: avoid; }}
  tbody tr:first-child {{ break-before: avoid; }}
  thead {{ display: table-header-group; }}
  tr {{ break-inside: avoid; }}
  th, td {{ padding: 2pt 5pt; }}
  td bdi.long, th bdi.long {{ width: 10rem; }}
  tbody th[scope="row"] {{ position: static; }}
  pre {{ white-space: pre-wrap; font-size: 8.5pt; }}
}}
"""
