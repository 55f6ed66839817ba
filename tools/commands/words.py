"""Verdicts and refusals in words.

    NAMES       document 01's word for each refusal
    verdict     the verdict of a monitor
    refused     a refusal that is not of the table's rules, and what to do
"""

NAMES = {
    1: "wrong measure",
    2: "long table",
    3: "cut short",
    4: "loose number",
    5: "off scale",
    6: "left over",
    7: "wrong reference",
    8: "too many hands",
    9: "too many openings",
    10: "disturbed",
    11: "strange event",
    12: "counter full",
    13: "crowded",
}


def many(number, one, more=None):
    return f"{number} {one if number == 1 else more or one + 's'}"


def running(drawing, monitor):
    """What was taken, and what may come next."""
    permitted = drawing.listed(monitor.offer(), "nothing: the run is at its end")
    return f"running after {many(monitor.taken(), 'event')}; permitted next: {permitted}"


def failed(drawing, place, event, permitted):
    """The event at a place, counted from 1, that was not permitted."""
    if place == 0:
        return "failed at 0: this drawing permits no run at all"
    listed = drawing.listed(permitted)
    return f"failed at event {place}: {drawing.name(event)} came; permitted: {listed}"


def refused(drawing, refusal, event, slots, before):
    """Refusals 10 to 13: at which event, counted from 1, and what to do."""
    at = before + refusal.place + 1
    head = f"refused {refusal.number} ({NAMES[refusal.number]})"
    if refusal.number == 11:
        last = drawing.assembled.drawing.size - 1
        return f"{head} at event {at}: {event} is not in the alphabet, whose events are 0 to {last}"
    if refusal.number == 13:
        where = f"at event {at}, {drawing.name(event)}" if event is not None else "at the start"
        return f"{head} {where}: more residuals than {many(slots, 'slot')}; lend more, or draw fewer open branches"
    return f"{head} at event {at}"
