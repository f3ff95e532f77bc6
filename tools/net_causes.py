"""Finds in a plan of a network's schedule what breaks its form, for tools/explain.

It judges nothing: the program has said that the form is broken. What is looked for here is the first key or order that
is not as docs/network.md has it, in the order of the keys there.
"""
from causes import keys_wrong, outside, shown
from nets import MOST_EVENTS, NEEDED, NUMBERS, OF_PLANS, OF_SCENARIOS, OPTIONAL, has_keys


def net_cause(value):
    """What is wrong with the form of a plan, in words; nothing if that is not found."""
    if has_keys(value, OF_SCENARIOS, OF_PLANS):
        return "the plan has the keys of a scenario, which tiger run takes"
    found = keys_wrong("the plan", value, NEEDED, OPTIONAL)
    for key, bounds in NUMBERS.items():
        if not found and key in value:
            found = outside(key, value[key], *bounds)
    return found or events_cause(value)


def events_cause(value):
    """What is wrong with the orders of a plan whose numbers are good."""
    events, asks, latest = value["events"], 0, 0
    if not isinstance(events, list):
        return f"events is {shown(events)}, and must be an array"
    if len(events) > MOST_EVENTS:
        return f"events has {len(events)} elements, and may have at most {MOST_EVENTS}"
    for number, event in enumerate(events):
        found = event_cause(value, event, asks, latest)
        if found:
            return f"events[{number}] is {shown(event)}: {found}"
        asks, latest = asks + ("at" in event), event["step"]
    return ""


def event_cause(value, event, asks, latest):
    """What is wrong with an order, given how many asks stand before it and in which step the order before it is."""
    if isinstance(event, dict) and "stop" in event and ("at" in event or "rate" in event):
        return "it has stop, and at or rate, and must be either an ask or a stop"
    is_stop = isinstance(event, dict) and "stop" in event
    found = keys_wrong("it", event, ("step", "stop") if is_stop else ("step", "at", "rate"))
    found = found or outside("its step", event["step"], 0, value["steps"] - 1)
    if not found and event["step"] < latest:
        found = f"its step is below that of the order before it, {latest}"
    if found or not is_stop:
        return (found or outside("its at", event["at"], 0, value["cubs"] * value["quanta"] - 1)
                or outside("its rate", event["rate"], 1, value["capacity"]))
    return outside("its stop", event["stop"], 0, asks - 1) if asks else "nothing was asked for before it"
