#!/usr/bin/env python3
"""Turn the tables of VECTORS.md into deliveries and the lines a program has to print for them.

It judges nothing: verdict, segment, node and prices are taken from the tables as they stand. It adds up byte places
(a segment ends at each `'` that is not released, the next one begins behind the line breaks that follow it; or a mark
like `{a}` stands at the place) and puts the lines together in document 01's print.

places.py FOLDER writes FOLDER/stdin, FOLDER/sheetcheck.stdout (M, P and E lines); the same of "Interval pairs" in FOLDER/pairs,
of "Interval pairs" with CR LF after UNA and each segment in FOLDER/pairs_lines, and of "Line breaks" in FOLDER/lines; and for
each of the other deliveries FOLDER/other/NN.edi and NN.out, and FOLDER/strict/NN.edi and NN.out where a table has strict lines for it; the same of
"Service characters" in FOLDER/una and FOLDER/strict_una, and of "Service characters handed in", with the five characters as NN.characters, in
FOLDER/handed and FOLDER/strict_handed.
"""
import pathlib
import re
import sys

BREAKS = b"\r\n"


def byte(hit):
    return {"r": "\r", "n": "\n"}.get(hit[1]) or chr(int(hit[1][1:], 16))


def raw(cell):
    """The bytes of a cell: backquotes off, `\\xNN`, `\\r` and `\\n` read as that byte, `(k times)` behind it repeats it."""
    text, _, times = cell.partition("` (")
    text = re.sub(r"\\(x[0-9A-F]{2}|r|n)", byte, text.strip("`"))
    return text.encode("latin-1") * int(times.removesuffix(" times)") or 1)


def table(part):
    """The cells of every row below a table's head."""
    rows = [[cell.strip() for cell in line.split("|")[1:-1]] for line in part.splitlines() if line.startswith("|")]
    return [row for row in rows if row[0] != "No" and not row[0].startswith("-")]


def ends(text):
    """The places after the terminators of a text."""
    places, released = [], False
    for place, value in enumerate(text):
        if not released and value == ord("'"):
            places.append(place + 1)
        released = not released and value == ord("?")
    return places


def past_breaks(text, place):
    while text[place:place + 1] and text[place] in BREAKS:
        place += 1
    return place


def begins(text):
    """Where the segments of a text begin, and behind the last one."""
    return [0] + [past_breaks(text, place) for place in ends(text)]


def with_breaks(text):
    """The text with CR LF behind each segment; UNA ends with `'` too."""
    parts = [text[start:end] for start, end in zip([0] + ends(text), ends(text) + [len(text)])]
    return b"\r\n".join(parts)


def prices(cell):
    """The P lines of a cell: entries parted by `; `, `(k times)` repeats one."""
    lines = []
    for entry in filter(None, cell.split("; ")):
        text, _, times = entry.partition(" (")
        lines += [b"P " + raw(text)] * int(times.removesuffix(" times)") or 1)
    return lines


def one_delivery(rows, lay_out):
    """The delivery and its lines; each row's bytes are laid out first."""
    delivery, lines, messages, accepted, outside = b"", [], 0, 0, 0
    for kind, cell, verdict, segment, node, priced, _ in rows:
        text, start = lay_out(raw(cell)), len(delivery)
        delivery += text
        if kind == "front":
            continue
        if kind == "outside":
            outside += 1
            continue
        messages += 1
        assert int(kind) == messages, kind
        place = start + (ends(text)[-1] if verdict in ("0", "24") else begins(text)[int(segment) - 1])
        lines.append(f"M {messages} {start} {verdict} {segment} {place} {node}".encode())
        if verdict == "0":
            accepted += 1
            lines += prices(priced)
    lines.append(f"E {messages} {accepted} {outside}".encode())
    return delivery, lines


def marked(cell):
    """The bytes of a delivery without its marks, and the place of each mark."""
    places = {}
    text = raw(cell)
    while hit := re.search(rb"\{([a-z])\}", text):
        places[hit[1].decode()] = hit.start()
        text = text[:hit.start()] + text[hit.end():]
    return text, places


def printed(cell, places):
    """The lines of a cell, with the place for each mark."""
    return [raw(re.sub(r"\{([a-z])\}", lambda hit: str(places[hit[1]]), line)) for line in re.findall("`[^`]*`", cell)]


def write(delivery_path, lines_path, delivery, lines):
    delivery_path.parent.mkdir(parents=True, exist_ok=True)
    delivery_path.write_bytes(delivery)
    lines_path.write_bytes(b"".join(line + b"\n" for line in lines))


def write_delivery(folder, part, lay_out=lambda text: text):
    """The delivery of a section."""
    delivery, lines = one_delivery(table(part), lay_out)
    assert len(delivery) <= 65536, "more than the programs read"
    write(folder / "stdin", folder / "sheetcheck.stdout", delivery, lines)


def write_other(folder, number, cell, lines):
    """A delivery that is a row of its own."""
    delivery, places = marked(cell)
    stem = folder / number.zfill(2)
    write(stem.with_suffix(".edi"), stem.with_suffix(".out"), delivery, printed(lines, places))


def write_both(folders, rows):
    """Deliveries with the lines of the usual reading and those of the strict one, if there are any."""
    for number, cell, *readings, _ in rows:
        for folder, lines in zip(folders, readings):
            if lines:
                write_other(folder, number, cell, lines)


def main():
    text = (pathlib.Path(__file__).parent / "VECTORS.md").read_text(encoding="ascii")
    sections = {part.partition("\n")[0]: part for part in text.split("\n## ")}
    folder = pathlib.Path(sys.argv[1])
    write_delivery(folder, sections["One delivery"])
    write_delivery(folder / "pairs", sections["Interval pairs"])
    write_delivery(folder / "pairs_lines", sections["Interval pairs"], with_breaks)
    write_delivery(folder / "lines", sections["Line breaks"])
    for number, cell, lines, _ in table(sections["Other deliveries"]):
        write_other(folder / "other", number, cell, lines)
    write_both([folder / "other", folder / "strict"], table(sections["Line breaks in both readings"]))
    write_both([folder / "una", folder / "strict_una"], table(sections["Service characters"]))
    handed = table(sections["Service characters handed in"])
    both = [folder / "handed", folder / "strict_handed"]
    write_both(both, [[number, *rest] for number, _, *rest in handed])
    for place in both:
        for number, characters, *_ in handed:
            (place / number.zfill(2)).with_suffix(".characters").write_bytes(raw(characters))


main()
