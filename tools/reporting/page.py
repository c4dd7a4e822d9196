"""A report as one page of HTML, with the picture inside. The page is well formed XML too, and needs no other file."""
from xml.sax.saxutils import escape

from drawing.picture import picture
from reporting.words import heading, tables

STYLE = """body{font:14px/1.45 'Helvetica Neue',Helvetica,Arial,'DejaVu Sans',sans-serif;color:#22272e;background:#fff;
max-width:1040px;margin:24px auto;padding:0 16px}
h1{font-size:22px;margin:0 0 4px}h2{font-size:16px;margin:28px 0 6px}p{margin:2px 0;color:#57606a}
.scroll{overflow-x:auto}table{border-collapse:collapse;font-variant-numeric:tabular-nums}
th,td{padding:3px 12px 3px 0;text-align:left;vertical-align:top;border-bottom:1px solid #e8eaed}
th{font-weight:600;color:#57606a;white-space:nowrap}.number{text-align:right;white-space:nowrap}
.last{font-family:ui-monospace,'DejaVu Sans Mono',monospace;font-size:13px}svg{max-width:100%;height:auto;margin-top:16px}"""


def clean(text):
    """A text without characters that XML does not have."""
    return escape("".join(char if char >= " " and char not in "\ufffe\uffff" else " " for char in text))


def table_html(table, has_code):
    """A table of the page."""
    kinds = ["number" if at in table.numbers else "last" if has_code and at == len(table.columns) - 1 else ""
             for at in range(len(table.columns))]
    marks = [f' class="{kind}"' if kind else "" for kind in kinds]
    yield f'<h2>{clean(table.name)}</h2>\n<div class="scroll"><table>'
    yield "<tr>" + "".join(f"<th{mark}>{clean(name)}</th>" for mark, name in zip(marks, table.columns)) + "</tr>"
    for row in table.rows:
        yield "<tr>" + "".join(f"<td{mark}>{clean(cell)}</td>" for mark, cell in zip(marks, row)) + "</tr>"
    yield "</table></div>"
    if table.note:
        yield f"<p>{clean(table.note)}</p>"


def page(facts):
    """The page, part by part."""
    first, *told = heading(facts)
    spots = [(facts.run.point(place.segment), str(number)) for number, place in enumerate(facts.slow, 1)]
    yield (f'<!DOCTYPE html>\n<html lang="en"><head><meta charset="utf-8"/><title>{clean(facts.name)}</title>'
           f'<meta name="viewport" content="width=device-width"/><style>{STYLE}</style></head><body>')
    yield f"<h1>{clean(first)}</h1>"
    yield from (f"<p>{clean(line)}</p>" for line in told)
    yield "\n".join(picture(facts.run, facts.name, by_speed=True, numbered=spots))
    for table in tables(facts):
        yield from table_html(table, table.columns[-1] in ("text", "most at line"))
    yield "</body></html>"
