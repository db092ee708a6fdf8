"""Draws README's chart from docs/SPEED.md, with the colours of light and of dark pages."""

import re

LANGUAGES = ("Rust", "C", "Python", "JavaScript")
PANELS = {"reading": ("read", 92), "printing": ("print", 366)}
LONGEST, TOP, STEP, HEIGHT = 124, 32, 42, 226
FONT = "ui-monospace, SFMono-Regular, Menlo, Consolas, 'DejaVu Sans Mono', monospace"
SIZE = f'width="640" height="{HEIGHT}" viewBox="0 0 640 {HEIGHT}"'
SVG = f"""<svg xmlns="http://www.w3.org/2000/svg" {SIZE} role="img">
<title>Nanoseconds to read and to print a duration</title>
<style>
    :root {{{{ --ink: #1f2328; --soft: #59636e; --ours: #0969da; --theirs: #afb8c1; }}}}
    @media (prefers-color-scheme: dark) {{{{
        :root {{{{ --ink: #e6edf3; --soft: #9198a1; --ours: #4493f8; --theirs: #656c76; }}}}
    }}}}
    text {{{{ font: 12px {FONT}; fill: var(--soft); }}}}
    .title {{{{ font-weight: 600; fill: var(--ink); }}}}
    .label {{{{ text-anchor: end; fill: var(--ink); }}}}
    .ours {{{{ fill: var(--ours); }}}}
    .theirs {{{{ fill: var(--theirs); }}}}
</style>
{{body}}
</svg>
"""


def rows_of(text, head):
    """The names and nanoseconds of the rows of a table."""
    table = text.partition(f"\n| {head} |")[2].partition("\n\n")[0]
    return re.findall(r"^\| (.+?) \| ([\d.]+) \|", table, re.M)


def bar(kind, left, top, width, said):
    return (
        f'<rect class="{kind}" x="{left}" y="{top}" width="{width:.1f}" height="14"/>\n'
        f'<text x="{left + width + 6:.1f}" y="{top + 11}">{said}</text>'
    )


def draw(text, path):
    """Draws a pair of bars for each language: for this library, and for the one in the next row."""
    bottom = TOP + STEP * len(LANGUAGES) + 4
    body = [
        f'<text class="label" x="84" y="{TOP + 18 + STEP * place}">{language}</text>'
        for place, language in enumerate(LANGUAGES)
    ]
    for head, (title, left) in PANELS.items():
        body.append(f'<text class="title" x="{left}" y="18">{title}: nanoseconds</text>')
        rows = rows_of(text, head)
        for place, language in enumerate(LANGUAGES):
            at = next(at for at, row in enumerate(rows) if row[0].startswith(f"{language}:"))
            (_, ours), (label, theirs) = rows[at : at + 2]
            name = re.match(r"`?(\w+)", label)[1]
            pair = (("ours", ours, ours), ("theirs", theirs, f"{name} {theirs}"))
            for side, (kind, figure, said) in enumerate(pair):
                width = LONGEST * float(figure) / max(float(ours), float(theirs))
                body.append(bar(kind, left, TOP + STEP * place + 16 * side, width, said))
    body.append(bar("ours", 92, bottom + 6, 22, "duration_str"))
    body.append(bar("theirs", 238, bottom + 6, 22, "the library that is named"))
    body.append(f'<text x="520" y="{bottom + 17}">less is better</text>')
    path.write_text(SVG.format(body="\n".join(body)), encoding="utf-8")
