"""Bars as a picture (SVG): a row for each workload, a bar for each tool, each as long as its part of the row's longest."""
from xml.sax.saxutils import escape

COLOURS = {"ours": "#1b6ca8", "bmake": "#c98a2b", "make": "#8a8a8a", "ninja": "#6a9a58"}
BAR, GAP, LEFT, WIDTH, RIGHT = 11, 14, 170, 420, 130


def picture(title, rows, text_of):
    """The picture of rows: each the name of a workload, and of each tool a number, which text_of writes."""
    lines, y = [], 60
    for name, numbers in rows:
        longest = max(numbers.values())
        lines.append(f'<text x="{LEFT - 10}" y="{y + BAR * len(numbers) / 2 + 4}" text-anchor="end">{escape(name)}</text>')
        for tool, number in numbers.items():
            width = WIDTH * number / longest
            lines.append(f'<rect x="{LEFT}" y="{y}" width="{width:.1f}" height="{BAR - 2}" fill="{COLOURS[tool]}"/>')
            lines.append(f'<text x="{LEFT + width + 6:.1f}" y="{y + BAR - 3}" class="small">{escape(text_of(number))}</text>')
            y += BAR
        y += GAP
    keys, x = [], LEFT
    for tool, colour in COLOURS.items():
        name = {"ours": "this bmake", "bmake": "Debian's bmake", "make": "GNU make"}.get(tool, tool)
        keys.append(f'<rect x="{x}" y="34" width="10" height="10" fill="{colour}"/>')
        keys.append(f'<text x="{x + 14}" y="43">{name}</text>')
        x += 30 + 8 * len(name)
    style = "text{font:12px sans-serif;fill:#222}.small{font-size:9px}.head{font-size:14px;font-weight:bold}"
    size = f'width="{LEFT + WIDTH + RIGHT}" height="{y}"'
    return "\n".join([
        f'<svg xmlns="http://www.w3.org/2000/svg" {size}>', f"<style>{style}</style>",
        '<rect width="100%" height="100%" fill="white"/>', f'<text x="10" y="22" class="head">{escape(title)}</text>',
        *keys, *lines, "</svg>", ""])
