"""draw(sizes, ratios, costs): the plot of docs/BENCHMARKS.md as SVG. ratios: (what, the Rust's time over ours at each size or None); costs: (what, [(MB, seconds)])."""
import math

COLORS = ["#9ecae1", "#4292c6", "#084594"]
LINES = ["#1b9e77", "#d95f02", "#7570b3", "#e7298a", "#66a61e", "#a6761d", "#666666"]


def text(x, y, s, anchor="start", size=12, more=""):
    s = s.replace("&", "&amp;").replace("<", "&lt;")
    return f'<text x="{x:.1f}" y="{y:.1f}" font-size="{size}" text-anchor="{anchor}"{more}>{s}</text>'


def line(x1, y1, x2, y2, color="#ccc", more=""):
    return f'<line x1="{x1:.1f}" y1="{y1:.1f}" x2="{x2:.1f}" y2="{y2:.1f}" stroke="{color}"{more}/>'


def bars(sizes, ratios, top, out):
    left, width, row = 190, 620, 40
    most = math.ceil(max(r for _, rs in ratios for r in rs if r) + 0.5)
    bottom = top + row * len(ratios)
    out.append(text(20, top - 34, "The Rust's time over ours (longer is faster), by number of records", size=15))
    for i, s in enumerate(sizes):
        out.append(f'<rect x="{left + i * 130}" y="{top - 24}" width="11" height="11" fill="{COLORS[i]}"/>')
        out.append(text(left + 16 + i * 130, top - 14, s))
    for v in range(most + 1):
        x = left + width * v / most
        out.append(line(x, top, x, bottom, "#333" if v == 1 else "#ddd"))
        out.append(text(x, bottom + 15, str(v), "middle"))
    for i, (what, rs) in enumerate(ratios):
        y = top + row * i
        out.append(text(left - 8, y + 24, what, "end"))
        for j, r in enumerate(rs):
            if r:
                out.append(f'<rect x="{left}" y="{y + 4 + j * 11}" width="{width * r / most:.1f}" height="10" fill="{COLORS[j]}"/>')
                out.append(text(left + width * r / most + 4, y + 13 + j * 11, f"{r:.1f}", size=9))
    return bottom + 30


def curves(costs, top, out):
    left, width, height = 70, 480, 300
    xs = [mb for mb, _ in costs[0][1]]
    lo = math.floor(math.log10(min(s for _, c in costs for _, s in c)))
    hi = math.ceil(math.log10(max(s for _, c in costs for _, s in c)))
    px = lambda mb: left + width * math.log2(mb / xs[0]) / math.log2(xs[-1] / xs[0])
    py = lambda s: top + height - height * (math.log10(s) - lo) / (hi - lo)
    out.append(text(20, top - 14, "Iteration of hostile files: seconds against MB, both scales logarithmic (grey: growth as the size)", size=15))
    for e in range(lo, hi + 1):
        out.append(line(left, py(10 ** e), left + width, py(10 ** e), "#ddd"))
        out.append(text(left - 6, py(10 ** e) + 4, f"1e{e}", "end"))
    for mb in xs:
        out.append(line(px(mb), top, px(mb), top + height, "#ddd"))
        out.append(text(px(mb), top + height + 15, f"{mb} MB", "middle"))
    for e in range(lo, hi):
        a, b = 10 ** e * 2, 10 ** e * 2 * xs[-1] / xs[0]
        if b <= 10 ** hi:
            out.append(line(px(xs[0]), py(a), px(xs[-1]), py(b), "#bbb", ' stroke-dasharray="3 3"'))
    for i, (what, c) in enumerate(costs):
        points = " ".join(f"{px(mb):.1f},{py(s):.1f}" for mb, s in c)
        out.append(f'<polyline points="{points}" fill="none" stroke="{LINES[i]}" stroke-width="2"/>')
        out.append(line(left + width + 20, top + 14 + 22 * i, left + width + 40, top + 14 + 22 * i, LINES[i], ' stroke-width="2"'))
        out.append(text(left + width + 46, top + 18 + 22 * i, what))
    return top + height + 30


def draw(sizes, ratios, costs):
    out = []
    y = bars(sizes, ratios, 60, out)
    y = curves(costs, y + 30, out)
    head = f'<svg xmlns="http://www.w3.org/2000/svg" width="880" height="{y:.0f}" viewBox="0 0 880 {y:.0f}" font-family="sans-serif">'
    return "\n".join([head, f'<rect width="880" height="{y:.0f}" fill="white"/>'] + out + ["</svg>"]) + "\n"
