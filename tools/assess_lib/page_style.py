"""The style sheet of the pages. Each text has a contrast of at least 4.5 to 1 with what is behind it."""

INK = "#1a1a1a"
PAPER = "#ffffff"
COLOURS: dict[str, tuple[str, str]] = {
    "clean": ("#0b4f1f", "#e3f4e6"),
    "left": ("#6b3a00", "#fff0d9"),
    "refused": ("#7a1010", "#fde8e6"),
    "fact": ("#1f3d66", "#e7effa"),
    "quiet": ("#4a4a4a", "#f2f2f2"),
}
"""The ink and the paper of the marks, by their names."""

INTERVALS = ["#dfeaf8", "#fbe9c8", "#dff1dc", "#f6dfe6", "#e8e1f5", "#d9f0f0", "#f3ead9", "#e6e9ec"]
"""The papers of intervals, one after the other and again."""

DECIDING = "#a1260d"
TWICE = "#5b2a86"

_FIXED = """
*{box-sizing:border-box}
body{margin:0;font:16px/1.5 system-ui,"Segoe UI","DejaVu Sans",sans-serif;color:INK;background:PAPER}
main,header,footer,nav{max-width:76rem;margin:0 auto;padding:0 1rem}
h1{font-size:1.7rem;margin:1rem 0 .3rem;overflow-wrap:anywhere}
h2{font-size:1.35rem;margin:2.2rem 0 .5rem;border-bottom:2px solid INK;padding-bottom:.2rem}
h3{font-size:1.1rem;margin:1.6rem 0 .4rem}
a{color:#0b3f8a}
a:focus-visible,summary:focus-visible,div:focus-visible{outline:3px solid #0b3f8a;outline-offset:2px}
code,pre,.mono{font-family:"DejaVu Sans Mono",ui-monospace,Consolas,monospace;font-size:.9em}
pre{margin:.3rem 0;padding:.6rem;background:#f7f7f7;overflow:auto;border:1px solid #ddd}
dl.head{display:grid;grid-template-columns:max-content 1fr;gap:.15rem 1rem;margin:.5rem 0 1rem}
dl.head dt{font-weight:600}dl.head dd{margin:0;min-width:0;overflow-wrap:anywhere}.head .mark{white-space:normal}
.wide{overflow-x:auto;margin:.4rem 0 1rem}
table{border-collapse:collapse}caption{text-align:left}
th,td{border:1px solid #c9c9c9;padding:.2rem .5rem;text-align:left;vertical-align:top}
thead th{background:#f2f2f2}
tbody th{font-weight:600}
table.source td,table.source th{border:0;border-bottom:1px solid #ececec;padding:.05rem .5rem;white-space:nowrap}
table.source tbody th{font-weight:400;color:#4a4a4a;text-align:right}
table.source td.text{white-space:pre}
table.source tr:target,table.source tr:has(:target){background:#fff7b0}
tr.unreachable{background:#ececec}tr.stuck{background:#fff0d9}
table.matrix td,table.matrix thead th+th{text-align:center}
.mark{display:inline-block;border-radius:.25rem;padding:0 .4rem;margin:0 .2rem .1rem 0;font-size:.82em;white-space:nowrap}
.sentence{border-left:6px solid;padding:.4rem .8rem;margin:.6rem 0}
.sentence p{margin:.2rem 0}
summary{cursor:pointer;padding:.15rem 0}
details{margin:.3rem 0}
td ul{margin:0;padding-left:1.1rem}
table.index tbody th{min-width:9rem;max-width:24rem;overflow-wrap:anywhere}table.index td:nth-child(2){min-width:15rem}
table.rows td:nth-child(3),table.rows td:nth-child(4){min-width:9rem}table.rows td:nth-child(6){min-width:14rem}
details>div,details>ol,details>ul,details>table,details>p{margin-left:.8rem}
.unseen{position:absolute;width:1px;height:1px;overflow:hidden;clip-path:inset(50%);white-space:nowrap}
.figure svg{display:block;height:auto}
.figure{overflow:auto;max-height:75rem;border:1px solid #ddd;padding:.4rem;margin:.4rem 0}
figure{margin:.5rem 0}
ul.legend{list-style:none;display:flex;flex-wrap:wrap;gap:.2rem 1rem;padding:0;font-size:.9em}
.swatch{display:inline-block;width:1.6em;height:1em;border:1px solid INK;vertical-align:-.1em;margin-right:.35em}
.skip{position:absolute;left:-99rem}.skip:focus{left:1rem}
@media (max-width:40rem){dl.head{grid-template-columns:1fr}dl.head dd{margin-bottom:.4rem}
body{font-size:15px}main,header,footer,nav{padding:0 .6rem}}
@media print{.wide,.figure{overflow:visible;max-height:none}}
"""


def style_sheet() -> str:
    """The whole style sheet."""
    marks = "".join(f".{name}{{color:{ink};background:{paper}}}" for name, (ink, paper) in COLOURS.items())
    swatches = "".join(f".interval{number}{{background:{colour}}}" for number, colour in enumerate(INTERVALS))
    return _FIXED.replace("INK", INK).replace("PAPER", PAPER) + marks + swatches + f".deciding{{border:3px solid {DECIDING}}}.twice{{border:3px solid {TWICE}}}"
