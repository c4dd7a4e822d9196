"""The whole picture of a run."""
from xml.sax.saxutils import escape

from drawing.frames import LEFT, LINE, STYLE, WIDTH, counted, number_text, text_at, time_text
from drawing.speed import HEIGHT, draw_speed, way_length
from drawing.views import Marked, draw_dots, draw_faces, draw_marked, draw_signs, draw_way, marked_of, shown_limits, views_of
from drawing.way import Way
from texts.run import AT_FEED

TOP, SPEED_GAP, BOTTOM = 92, 84, 52
MOST_LETTERS = 136   # of a line of the heading


def summary(run):
    """Lines on the whole run: what it is, from where to where, and with a job what is cut."""
    track, limits = run.track, run.limits()
    scale = " \u00d7 ".join(f"{s:g}" for s in (run.scales if len(set(run.scales)) > 1 else run.scales[:1]))
    lines = [" \u00b7 ".join([time_text(run.seconds), f"{way_length(run):,.1f} mm of path", counted(track.events, "event"),
                             counted(track.heads, "segment"), counted(track.stops, "stop"), f"{scale} steps per mm"])]
    lines.append(" \u00b7 ".join(f"{axis} {number_text(low, 0.001)} to {number_text(high, 0.001)}"
                                for axis, (low, high) in zip("XYZ", limits)) + " mm of the machine")
    return lines + ([cutting_text(run)] if run.job and len(track) else [])


def cutting_text(run):
    """How long was cut, how much of it at the feed, and by which settings."""
    rapids, cuts, jogs = run.seconds_by_kind()
    told = [f"cutting {time_text(cuts)}, {100 * run.share_at_feed():.0f} % of it at {100 * AT_FEED:.0f} % of its feed or more"
            if cuts else "nothing is cut", f"rapids {time_text(rapids)}"]
    told += [f"jogs {time_text(jogs)}"] if jogs else []
    told += [f"waits {time_text(run.waits)}"] if run.waits else []
    return " \u00b7 ".join(told + settings_text(run.job, run.track.lines[0]))


def settings_text(job, line):
    """Deviation and accelerations, where the job sets them before this line."""
    told = []
    if (deviation := job.value_before(line, 11)) is not None:
        told.append(f"$11={deviation:g}")
    accelerations = [job.value_before(line, number) for number in (120, 121, 122)]
    if any(value is not None for value in accelerations):
        values = ["\u2013" if value is None else f"{value:g}" for value in accelerations]
        told.append(f"$120 to $122 {', '.join(values)} mm/s\u00b2")
    return told


def refused_text(run):
    """What ended the run and what was refused, in one line, or nothing: as many refused lines as it has room for."""
    refused, text = run.refused(), ""
    if run.console and run.console.alarm:
        line, number = run.console.alarm
        text = f"line {line} ended the run by ALARM:{number}" + "; " * bool(refused)
    text += f"{counted(len(refused), 'line')} refused: " if refused else ""
    for at, (line, number) in enumerate(refused):
        told = (", " if at else "") + f"{line} (error:{number})"
        if len(text) + len(told) > MOST_LETTERS:
            return text + ", \u2026"
        text += told
    return text


def heading(run, title):
    """The title and what is said of the whole run, and how high that is."""
    told, refused = summary(run), refused_text(run)
    out = [text_at(LEFT, 38, title, "title")]
    out += [text_at(LEFT, 60 + LINE * at, line, "faded") for at, line in enumerate(told)]
    if refused:
        out.append(text_at(LEFT, 60 + LINE * len(told), refused, "refused"))
    return out, LINE * (len(told) + bool(refused))


def picture(run, title, by_speed=False, over_time=True, numbered=()):
    """The picture as SVG, line by line; places in mm may be numbered."""
    body, height = heading(run, title)
    views = views_of(shown_limits(run), TOP - LINE + height)
    above, side = views
    left = views[0].frame.right + 22 if views[0].frame.right >= side.frame.right else side.frame.right + 22
    if len(run.track):
        way = Way(run, by_speed)
        for view in views:
            body += view.draw()
        body += draw_faces(run, side) + draw_way(way, views) + draw_dots(way, above)
        all_marked = marked_of(run) + [Marked(point, text, "number") for point, text in numbered]
        body += way.scale.draw(left, above.frame) + draw_signs(run, way, left, above.frame, all_marked)
        body += draw_marked(all_marked, above, True) + draw_marked(all_marked, side, False)
        bottom = max(view.frame.bottom for view in views)
        body += draw_speed(run, bottom + SPEED_GAP, over_time)
        bottom += SPEED_GAP + HEIGHT + BOTTOM
    else:
        bottom = TOP + height + 40
        body.append(text_at(LEFT, TOP + height, "No move has a step, so there is no path to draw.", "faded"))
    return [f'<svg xmlns="http://www.w3.org/2000/svg" xmlns:xlink="http://www.w3.org/1999/xlink" '
            f'viewBox="0 0 {WIDTH} {bottom:.0f}" width="{WIDTH}" height="{bottom:.0f}">',
            f"<style>{STYLE}</style>", f"<title>{escape(title)}</title>",
            f'<rect width="{WIDTH}" height="{bottom:.0f}" fill="#fff"/>', *body, "</svg>"]
