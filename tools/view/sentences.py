"""What steps and answers say, in sentences, and how a step is marked."""

# What a step does, by its access; of an exchange by whether it was won.
SENTENCES = {
    "load": "loads {place} and finds: {found}",
    "store": "stores into {place}: {offered}",
    "max": "raises {place} to at least {offered}; it finds {found}",
    "won": "exchanges {place}, which is as expected ({found}), for: {offered}",
    "lost": "would exchange {place} for {offered}, but finds {found}: nothing is changed",
}
SHORT = {
    "load": "{place}: {found}", "store": "{place} ← {offered}", "max": "{place} ↑ {offered}",
    "won": "{place}: {found} → {offered}", "lost": "{place}: {found}, not exchanged",
}
REFUSALS = {
    "busy": "busy, seat {0} holds it", "stale": "stale, it was written at time {0}, after the snapshot", "setfull": "the write set is full",
    "logfull": "the log is full", "again": "again, seat {0} made time {1} first", "end": "it is the last time",
}
HOLDERS = {
    "mark": "held by the mark of seat {0} with time {1}", "above": "held under a newer version of object {0}, of seat {1}",
    "fresh": "not dead before time {0}", "end": "it is the last time",
}


def answer_text(call, answer):
    """What a call answers, in words."""
    match call.name:
        case "enter":
            return f"a section at time {answer[0]}"
        case "lock" | "commit" if answer[0] in REFUSALS:
            return REFUSALS[answer[0]].format(*answer[1:])
        case "commit":
            return f"done, time {answer[1]}"
        case "tidy":
            said = f"freed {answer[0]}, live {answer[1]}"
            return said + (f", {HOLDERS[answer[2]].format(*answer[3:])}" if len(answer) > 2 else "")
    return " ".join(answer)


def is_refusal(event):
    return event.sort == "answer" and event.call.name in ("lock", "commit") and event.answer[0] in REFUSALS


def tag_of(event):
    """What a mark in the lanes says of a step, or nothing."""
    made = event.made
    if event.won is False:
        return "stamped" if made.kind == "stamp" else "lost"
    match made.kind:
        case "stamp":
            return "helped" if made.place.of != event.seat else ""
        case "name_commit":
            return "commit"
        case "name_rest":
            return "rest"
        case "store_master":
            return "back"
        case "cut_head":
            return "cut"
        case "store_free":
            return "freed"
    return ""
