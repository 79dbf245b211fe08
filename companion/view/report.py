"""The report of a campaign as a page of HTML: the counts, outcomes by step, and a map by class of registers."""
import html

COLOURS = {"same": "#9bc", "reported": "#4a4", "exception": "#c93", "windowed": "#fd6", "silent": "#d00"}
STYLE = "body{font:14px sans-serif;margin:2em}td,th{padding:2px 8px}td.n{text-align:right}.map td{width:22px;height:20px;padding:0}"
# The bars are so many pixels high, and there are at most so many.
HEIGHT, MOST_BARS = 160, 96


def bars(parts, counts):
    """Ranges joined so that there are at most so many bars: the first step of each, and its counts."""
    each = -(-len(parts) // MOST_BARS) or 1
    for k in range(0, len(parts), each):
        yield parts[k][0], parts[min(k + each, len(parts)) - 1][1], [sum(column) for column in zip(*counts[k:k + each])]


def drawing(parts, counts):
    """Outcomes by step as stacked bars."""
    drawn, joined = [], list(bars(parts, counts))
    width = max(3, 900 // max(1, len(joined)))
    for place, (first, last, row) in enumerate(joined):
        height, whole = HEIGHT, sum(row) or 1
        for (name, colour), number in zip(COLOURS.items(), row):
            part = HEIGHT * number / whole
            height -= part
            if number:
                drawn.append(f'<rect x="{place * width}" y="{height:.2f}" width="{width - 1}" height="{part:.2f}" fill="{colour}">'
                             f"<title>steps {first} to {last}: {name} {number}</title></rect>")
    return f'<svg width="{width * len(joined)}" height="{HEIGHT}">' + "".join(drawn) + "</svg>"


def cell(outcomes):
    """A cell of the map: one strip for each flip."""
    strips = "".join(f'<div style="height:{20 / len(outcomes):.1f}px;background:{COLOURS[one]}"></div>' for one in sorted(outcomes))
    return f'<td title="{", ".join(outcomes)}">{strips}</td>'


def sample_map(cells):
    """The map by class of registers and steps."""
    if not cells:
        return "<p>No flips were sampled by class of registers.</p>"
    starts = sorted({start for _, start in cells})
    rows = []
    for name in dict.fromkeys(name for name, _ in cells):
        rows.append(f"<tr><th>{name}</th>" + "".join(cell(cells[name, start]) for start in starts) + "</tr>")
    return f'<table class="map">{"".join(rows)}<tr><th>from step</th><td>{starts[0]}</td>' + "<td></td>" * (len(starts) - 2) + f"<td>{starts[-1]}</td></tr></table>"


def page(asked, steps, parts, counts, total, silent_lines, cells):
    """The whole page."""
    rows = "".join(f'<tr><td style="background:{COLOURS[name]}">{name}</td><td class="n">{number}</td></tr>' for name, number in zip(COLOURS, total))
    return "\n".join([
        '<!DOCTYPE html>', f'<html lang="en"><head><meta charset="utf-8"><title>campaign</title><style>{STYLE}</style></head><body>',
        "<p>hardview campaign: a help, which proves nothing; hardcc tried the faults</p>",
        f"<h1>{html.escape(asked.image)} on {html.escape(asked.input)}</h1>",
        f"<p>One bit of each register from 1 to 31 was inverted at each step from {asked.first} up to {asked.last}, in a run of its own of {steps} steps.</p>",
        f"<table>{rows}</table>", "<h2>Outcomes by step</h2>", drawing(parts, counts),
        "<h2>By class of registers</h2><p>A sample, drawn always the same, by hardcc fault.</p>", sample_map(cells),
        "<h2>Silent</h2>", "<pre>" + html.escape("\n".join(silent_lines) or "none") + "</pre>", "</body></html>", ""])
