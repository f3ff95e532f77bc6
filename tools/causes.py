"""Finds in a scenario what breaks the rule that the program names, for tools/explain.

It judges nothing: the program has said which rule is broken, and in which element. What is looked for here is the key,
its value and what it may be.
"""
import json
import math

from nets import OF_PLANS, OF_SCENARIOS, has_keys
from scenarios import (BEHIND, KEYS, MOST_AFTER, MOST_BEATS, MOST_DEATHS, MOST_EVENTS, MOST_FAULTS, MOST_FILES, MOST_PRODUCT,
                       MOST_STARTS, RANGES, Raw, text_of)

NEEDED, OPTIONAL = ("plan", "beats", "links", "files", "events"), ("offsets", "deaths", "read_faults")
NAME_MOST = 200  # bytes of a file's name
MOST = {8: MOST_FILES, 9: MOST_EVENTS, 11: MOST_DEATHS, 12: MOST_FAULTS}  # elements of an array, by rule
ARRAYS = {7: "offsets", 8: "files", 9: "events", 11: "deaths", 12: "read_faults"}
SHOWN = 60  # characters of a value that are shown


def shown(value):
    """A value in ASCII, and of a long one the beginning."""
    text = text_of(value)
    return text if len(text) <= SHOWN else text[:SHOWN] + ".."


def value_of(content):
    """The value of a scenario's bytes; what is no number for the scenario stays as it is written."""
    return json.loads(content.decode(), parse_int=whole, parse_float=Raw)


def whole(digits):
    """A number in digits alone; what has a sign is none for the scenario."""
    return Raw(digits) if digits.startswith("-") else int(digits)


def outside(name, value, low, high):
    """What is wrong with a number that must be within bounds; nothing if it is."""
    if type(value) is not int:
        return f"{name} is {shown(value)}, which is no whole number in digits alone"
    return "" if low <= value <= high else f"{name} is {value}, and must be from {low} to {high}"


def keys_wrong(name, value, needed, optional=()):
    """What is wrong with the keys of an object; nothing if they are the needed ones and perhaps optional ones."""
    if not isinstance(value, dict):
        return f"{name} is {shown(value)}, and must be an object"
    missing = [key for key in needed if key not in value]
    other = [key for key in value if key not in (*needed, *optional)]
    found = [f"has no key {', '.join(missing)}"] if missing else []
    if other:
        keys = "keys" if len(other) > 1 else "key"
        found.append(f"has the {keys} {', '.join(map(shown, other))}, which no such object has")
    return f"{name} {' and '.join(found)}" if found else ""


def no_json(content):
    """Where the bytes of a scenario stop to be JSON, in words."""
    try:
        text = content.decode()
        if not text.strip():
            return "nothing stands there"
        if text.startswith("\ufeff"):
            return "a byte order mark stands at the beginning"
        value = json.loads(text, parse_constant=unknown_word, parse_float=finite)
        json.dumps(value, ensure_ascii=False).encode()
    except UnicodeDecodeError as error:
        return f"byte {error.start}, counted from 0, is not part of a text in UTF-8"
    except UnicodeEncodeError:
        return "there is an escape that is half of a character alone, from \\ud800 to \\udfff"
    except json.JSONDecodeError as error:
        return f"reading ends at line {error.lineno}, column {error.colno}: {error.msg}"
    except RecursionError:
        return "too many brackets stand within brackets"
    except ValueError as error:
        return str(error)
    return "nothing is wrong by Python's reader; serde_json takes at most 127 brackets within brackets"


def finite(digits):
    """A number with a fraction or an exponent, if it is not too large."""
    if math.isinf(float(digits)):
        raise ValueError(f"{shown(digits)} is too large a number")
    return float(digits)


def unknown_word(word):
    """Refuses the words that Python's reader takes for numbers, as NaN."""
    raise ValueError(f"{word} is no value of JSON")


def cause(rule, item, value):
    """What breaks a rule from 2 to 12, or rule 14 or 15, in the value of a scenario, in words; nothing if it is not found."""
    if rule == 2 and has_keys(value, OF_PLANS, OF_SCENARIOS):
        return "the keys are those of a network's plan, which tiger net takes"
    if rule == 2:
        return keys_wrong("the scenario", value, NEEDED, OPTIONAL)
    if rule == 3:
        return plan_cause(value["plan"], item)
    if rule == 5:
        return beats_cause(value["beats"], value["plan"]["cubs"])
    if rule == 6:
        return links_cause(value["links"], value["plan"]["delay"])
    if rule == 10:
        return visits_cause(value)
    if rule == 14:
        return f"deaths[0] is {shown(value['deaths'][0])}"
    if rule == 15:
        return parts_cause(value["plan"])
    return element_cause(rule, item, value) if rule in ARRAYS else ""


def plan_cause(plan, item):
    """What is wrong with a key of the plan."""
    if 1 <= item <= len(KEYS) and isinstance(plan, dict) and KEYS[item - 1] in plan:
        return outside(KEYS[item - 1], plan[KEYS[item - 1]], *RANGES[item - 1])
    return keys_wrong("plan", plan, KEYS)


def beats_cause(beats, cubs):
    """What is wrong with the number of beats."""
    product = f"beats \u00b7 cubs is {beats} \u00b7 {cubs}, and may be at most {MOST_PRODUCT}"
    return outside("beats", beats, 1, MOST_BEATS) or f"{product}: at most {MOST_PRODUCT // cubs} beats"


def links_cause(links, delay):
    """What is wrong with the links."""
    if isinstance(links, dict) and len(links) == 1:
        if "fixed" in links:
            return outside("fixed", links["fixed"], 1, delay)
        if "drawn" in links:
            return outside("drawn", links["drawn"], 0, (1 << 64) - 1)
    return f'links is {shown(links)}, and must be {{"fixed":k}} or {{"drawn":x}}'


def visits_cause(value):
    """How many blocks might be due."""
    plan, beats = value["plan"], value["beats"]
    starts = sum("start" in event for event in value["events"])
    return (f"there are {starts} starts, and floor({beats} \u00b7 {plan['beat']} / {plan['play']}) + 1 is "
            f"{beats * plan['beat'] // plan['play'] + 1}")


def parts_cause(plan):
    """How many parts a block has, and how many bytes make one."""
    block, parts = plan["block"], plan["pieces"] + 1
    each = "byte" if block == 1 else f"{block} bytes"
    return f"block is {block}, so a file has a block for each {each}, and pieces is {plan['pieces']}: {parts} parts each"


def mend_of_array(rule, value):
    """How to mend what is no array, or one that is too long or too short; nothing if an element is to be mended."""
    array, cubs = value[ARRAYS[rule]], value["plan"]["cubs"]
    least, most = (cubs + 1, cubs + 1) if rule == 7 else (int(rule == 8), MOST[rule])
    if not isinstance(array, list):
        return f"write {ARRAYS[rule]} as an array"
    if least <= len(array) <= most:
        return ""
    return f"give {ARRAYS[rule]} {f'{least} to {most}' if least < most else most} elements"


def element_cause(rule, item, value):
    """What is wrong with an array, or with the element that the program names."""
    name = ARRAYS[rule]
    array, cubs = value[name], value["plan"]["cubs"]
    if not isinstance(array, list):
        return f"{name} is {shown(array)}, and must be an array"
    if item >= len(array) or rule == 7 and len(array) != cubs + 1:
        most = f"must have {cubs + 1}" if rule == 7 else f"may have {int(rule == 8)} to {MOST[rule]}"
        return f"{name} has {len(array)} elements, and {most}"
    if rule in MOST and len(array) > MOST[rule]:
        return f"{name} has {len(array)} elements, and may have at most {MOST[rule]}"
    found = {7: offset_cause, 8: file_cause, 9: event_cause, 11: death_cause, 12: fault_cause}[rule](value, item)
    return f"{name}[{item}] is {shown(array[item])}: {found}" if found else ""


def offset_cause(value, item):
    """What is wrong with an offset."""
    return outside("it", value["offsets"][item], 0, value["plan"]["skew"])


def disks_of(value):
    """How many disks there are."""
    return value["plan"]["cubs"] * value["plan"]["disks"]


def file_cause(value, item):
    """What is wrong with a file."""
    file = value["files"][item]
    found = keys_wrong("it", file, ("name", "disk"))
    if not found and type(file["name"]) is not str:
        found = "its name is no text"
    length = 0 if found else len(file["name"].encode("utf-8", "replace"))
    if not found and not 1 <= length <= NAME_MOST:
        found = f"its name has {length} bytes, and must have 1 to {NAME_MOST}"
    return found or outside("its disk", file["disk"], 0, disks_of(value) - 1)


def event_cause(value, item):
    """What is wrong with an event."""
    events = value["events"]
    event, before = events[item], events[:item]
    if isinstance(event, dict) and "start" in event and "stop" in event:
        return "it has start and stop, and must have one of them"
    what = "stop" if isinstance(event, dict) and "stop" in event else "start"
    found = keys_wrong("it", event, ("beat", what)) or outside("its beat", event["beat"], 0, value["beats"] - 1)
    if not found and before and event["beat"] < before[-1]["beat"]:
        found = f"its beat is below that of the event before it, {before[-1]['beat']}"
    started = sum("start" in other for other in before)
    if found or what == "start":
        found = found or outside("its start", event["start"], 0, len(value["files"]) - 1)
        return found or (f"it is the start after the first {started}, and there may be {MOST_STARTS}"
                         if started >= MOST_STARTS else "")
    if started == 0:
        return "nothing was started before it"
    return outside("its stop", event["stop"], 0, started - 1)


def death_cause(value, item):
    """What is wrong with a death, by itself or with one before it."""
    deaths, cubs = value["deaths"], value["plan"]["cubs"]
    death = deaths[item]
    found = (keys_wrong("it", death, ("cub", "beat"), ("after", "back"))
             or outside("its cub", death["cub"], 0, cubs - 1) or outside("its beat", death["beat"], 0, value["beats"] - 1)
             or "after" in death and outside("its after", death["after"], 0, MOST_AFTER)
             or "back" in death and return_cause(death, value["beats"] - 1) or "")
    for number, other in enumerate([] if found else deaths[:item]):
        apart = (death["cub"] - other["cub"]) % cubs
        if apart == 0:
            return f"deaths[{number}] has the same cub"
        if apart in (1, cubs - 1):
            return f"its cub is a neighbour of cub {other['cub']}, that of deaths[{number}]"
    return found


def return_cause(death, last):
    """What is wrong with a return in a run with this last beat."""
    first = death["beat"] + BEHIND
    if first > last:
        return f"its back would have to be {first} at least, and the last beat of the run is {last}"
    return outside("its back", death["back"], first, last)


def fault_cause(value, item):
    """What is wrong with a read fault."""
    fault = value["read_faults"][item]
    found = (keys_wrong("it", fault, ("disk", "from", "until"))
             or outside("its disk", fault["disk"], 0, disks_of(value) - 1)
             or outside("its until", fault["until"], 0, value["beats"])
             or outside("its from", fault["from"], 0, value["beats"]))
    if not found and fault["from"] >= fault["until"]:
        found = f"its from is {fault['from']}, and must be below its until, {fault['until']}"
    return found
