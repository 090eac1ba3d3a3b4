"""The pictures of docs/plots: the plane cut into cells, each coloured by the worst error, by modulus, of the calls that fell into it. Imported by tables.py."""
import math
import struct

COLUMNS, ROWS = 50, 36
CELL = 8
# of the labels under an axis: a digit with the room beside it, and the height of a row
DIGIT, ROW = 7, 12
# in units of 2^-52; the tables of docs/ACCURACY.md count what is above the two that have a name
FAR_OFF, IN_A_THOUSAND = 4096, 2**52 / 1000
CLASSES = [4, 16, 64, 256, 1024, FAR_OFF, IN_A_THOUSAND, math.inf]
COLOURS = ["#e3eef9", "#b7d4ea", "#7db8da", "#4594c7", "#1c6bb0", "#08478d", "#f59f00", "#c92a2a"]
ZERO = "#d0d0d0"


def number(word):
    return struct.unpack(">d", bytes.fromhex(word))[0]


def power(exponent):
    return "2" + str(exponent).translate(str.maketrans("-0123456789", "⁻⁰¹²³⁴⁵⁶⁷⁸⁹"))


def class_of(error):
    return next(i for i, limit in enumerate(CLASSES) if error <= limit)


def modulus_of(f):
    return math.hypot(number(f[5]), number(f[6]))


def real_part_of(f):
    return number(f[5])


def cells(calls, across, upward, place=modulus_of):
    """The colour of each cell that some call reached, by its place from left to right and its order; a refused call colours nothing."""
    worst, zero = {}, set()
    for f in calls:
        if f[7] != "0":
            continue
        x, y = across(place(f)), upward(number(f[4]))
        if not (0 <= x < 1 and 0 <= y < 1):
            continue
        cell = (int(x * COLUMNS), int(y * ROWS))
        if f[22] == "z":
            zero.add(cell)
        elif f[22] not in "-un":
            worst[cell] = max(worst.get(cell, 0.0), float(f[22].split("/")[0]))
    colours = {cell: ZERO for cell in zero}
    colours.update({cell: COLOURS[class_of(e)] for cell, e in worst.items()})
    return colours


def label_rows(ticks, width):
    """The row of each label under an axis, 0 or 1: the second one where it would touch the label before it."""
    rows, end = [], -math.inf
    for at, label in ticks:
        half = DIGIT * len(label) / 2
        rows.append(0 if at * width - half > end else 1)
        end = at * width + half if rows[-1] == 0 else end
    return rows


def panel(left, top, title, colours, x_ticks, y_ticks, x_name, y_name):
    width, height = COLUMNS * CELL, ROWS * CELL
    out = [f'<text x="{left + width / 2}" y="{top - 10}" text-anchor="middle" font-size="13">{title}</text>']
    for colour in sorted(set(colours.values())):
        path = "".join(f"M{left + x * CELL} {top + height - (y + 1) * CELL}h{CELL}v{CELL}h-{CELL}z" for (x, y), c in sorted(colours.items()) if c == colour)
        out.append(f'<path fill="{colour}" d="{path}"/>')
    out.append(f'<rect x="{left}" y="{top}" width="{width}" height="{height}" fill="none" stroke="#555"/>')
    rows = label_rows(x_ticks, width)
    for (at, label), row in zip(x_ticks, rows):
        x = left + at * width
        out.append(f'<path stroke="#555" d="M{x:.1f} {top + height}v{4 + ROW * row}"/><text x="{x:.1f}" y="{top + height + 16 + ROW * row}" text-anchor="middle">{label}</text>')
    for at, label in y_ticks:
        y = top + height - at * height
        out.append(f'<path stroke="#555" d="M{left} {y:.1f}h-4"/><text x="{left - 7}" y="{y + 4:.1f}" text-anchor="end">{label}</text>')
    out.append(f'<text x="{left + width / 2}" y="{top + height + 34 + ROW * max(rows)}" text-anchor="middle">{x_name}</text>')
    out.append(f'<text x="{left - 42}" y="{top + height / 2}" text-anchor="middle" transform="rotate(-90 {left - 42} {top + height / 2})">{y_name}</text>')
    return out


def key(left, top):
    labels = [f"to {limit:,}" for limit in CLASSES[:-2]] + ["to 1 in 1,000", "more", "set to zero"]
    out = [f'<text x="{left}" y="{top + 11}">worst error of a cell, in units of {power(-52)}:</text>']
    x = left + 225
    for colour, label in zip(COLOURS + [ZERO], labels):
        out.append(f'<rect x="{x}" y="{top}" width="14" height="14" fill="{colour}" stroke="#999" stroke-width="0.5"/><text x="{x + 19}" y="{top + 11}">{label}</text>')
        x += 34 + 6 * len(label)
    return out


def write(path, title, panels, x_ticks, y_ticks, x_name):
    width, height = 2 * COLUMNS * CELL + 200, ROWS * CELL + 130
    out = [f'<svg xmlns="http://www.w3.org/2000/svg" viewBox="0 0 {width} {height}" font-family="sans-serif" font-size="11" fill="#222">', f"<title>{title}</title>", f'<rect width="{width}" height="{height}" fill="#fff"/>']
    for place, (name, colours) in enumerate(panels):
        out += panel(65 + place * (COLUMNS * CELL + 75), 34, name, colours, x_ticks, y_ticks, x_name, "order")
    out += key(65, height - 28)
    open(path, "w").write("\n".join(out + ["</svg>\n"]))


def write_pictures(pictures):
    exponent = lambda m: (math.log2(m) + 10) / 25 if m > 0 else -1
    root = lambda v: math.sqrt(v / 1000)
    write(
        "docs/plots/k.svg",
        "Error of K, scaled, n = 1",
        [("K scaled, im ≥ 0", cells(pictures["picture_k_up"], exponent, root)), ("K scaled, im &lt; 0", cells(pictures["picture_k_down"], exponent, root))],
        [((e + 10) / 25, power(e)) for e in (-10, -5, 1, 5, 10, 15)],
        [(root(v), str(v)) for v in (0, 10, 50, 100, 200, 400, 700, 1000)],
        "|z|, logarithmic; white: refused, the answer is above the largest f64",
    )
    write(
        "docs/plots/i.svg",
        "Error of I, unscaled, n = 1",
        [("I unscaled, directions all over the half plane", cells(pictures["picture_i_any"], lambda m: m / 38, lambda v: v / 360)), ("I unscaled, imaginary axis", cells(pictures["picture_i_imaginary_axis"], lambda m: m / 38, lambda v: v / 360))],
        [(m / 38, str(m)) for m in (0, 10, 20, 30, 38)],
        [(v / 360, str(v)) for v in (0, 50, 100, 150, 200, 250, 300, 350)],
        "|z|; white: refused, the argument is too large for the series",
    )
    across, upward = lambda re: (re - 660) / 450, lambda v: v / 1000
    write(
        "docs/plots/k_climb.svg",
        "Error of plain K where e^-re underflows, n = 1",
        [(f"K unscaled, {words}", cells(pictures[f"picture_k_climb_{name}"], across, upward, real_part_of)) for name, words in (("real_axis", "im = 0"), ("off_the_axis", "|im| to 600"))],
        [(across(re), str(re)) for re in (665, 701, 800, 900, 1000, 1073, 1101)],
        [(upward(v), str(v)) for v in range(0, 1001, 200)],
        "re; white: refused, no two neighbouring orders on scale",
    )
