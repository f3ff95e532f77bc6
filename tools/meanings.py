"""What each exit status means, and what each rule of a scenario and of a network's plan asks for, for tools/explain.

The texts are those of the tables in docs/formats.md, and tools/check-program compares the two.
"""

STATUSES = {  # what happened
    0: "all was read, run and written",
    2: "the words are none of `run SCENARIO WORKERS`, `make NUMBER`, `journal SCENARIO WORKERS`, "
       "`spare SCENARIO WORKERS`, `net PLAN`, `disks SCENARIO IMAGE`, `disks SCENARIO IMAGE --force`, `check SCENARIO` and "
       "`audit TEXT`, or a number has a leading zero or is out of its range",
    3: "a file is not there",
    4: "a file cannot be read, for any other cause",
    5: "the scenario breaks a rule",
    6: "a write failed",
    7: "there was no memory",
    8: "a file is longer than may be",
    9: "the run that a text of journals keeps breaks a clause, and none of a lower number",
    10: "what `audit` read is the text of no run",
    11: "the image of `disks` could not be opened, written or read",
    12: "what `disks` read of a part of the image has another SHA-256 than what it had stored there",
    13: "the plan of a network's schedule breaks a rule",
    14: "the image of `disks` exists, and `--force` is not among the words; it was left as it was",
    70: "`./tiger` could not build the program",
    71: "`./tiger --unproved` has no answer",
}

RULES = {  # what is wrong, and how to mend it
    1: ("`serde_json` refuses the bytes: they are no JSON, or no UTF-8, or something stands behind the value",
        "write one JSON value: look for a bracket or quotation mark that is missing, a comma too many, a byte order "
        "mark at the beginning"),
    2: ("the value is no object, a needed key is missing, or another key stands there",
        "write the five needed keys `plan`, `beats`, `links`, `files` and `events`, and no others but `offsets`, "
        "`deaths` and `read_faults`"),
    3: ("`plan` is no object, or one of its keys is missing, out of its range or no number, or it has another key",
        "give each of the 18 keys a number in its range, and take another key out"),
    4: ("a condition of the plan is false", "see the next table"),
    5: ("`beats` is out of its range, or `beats` \u00b7 `cubs` is above 2000000",
        "run 1 to 100000 beats; if the product is too large, fewer beats or fewer cubs"),
    6: ("`links` is not of its form", 'write `{"fixed":1}`; a fixed delay is at most `delay`'),
    7: ("`offsets` is not of its form",
        "write one number for each cub and one more, each at most `skew`; or leave the key out"),
    8: ("`files` is not of its form",
        "give each file a name of 1 to 200 bytes (a letter may have several) and a disk that is there"),
    9: ("`events` is not of its form",
        "see that its beat is below `beats` and not below the one before, that its file is there or its instance was "
        "started before, and that it is not the 2001st start"),
    10: ("the number of starts, times floor(`beats` \u00b7 `beat` / `play`) + 1, is above 400000: this is how many "
         "blocks might be due", "start fewer viewers, or run fewer beats"),
    11: ("`deaths` is not of its form",
         "let each cub die once, within the run, after at most 1000 messages of its last beat if `after` says so, come "
         "back within the run and two beats behind its death at the earliest if `back` says so, and no two neighbours: "
         "the pieces of a dead cub's blocks lie with the cubs behind it"),
    12: ("`read_faults` is not of its form",
         "see that the disk is there, that `from` is below `until`, and that `until` is at most `beats`"),
    13: ("a file has no bytes", "name a file that is not empty"),
    14: ("the scenario lets a cub die; `spare` alone asks this, behind rule 12", "take the deaths out, or use `run`"),
    15: ("the disks of the scenario have more parts than 4000000, each block once whole and each of its pieces once; "
         "`disks` alone asks this", "make `block` larger or `pieces` fewer, or name shorter files"),
}

NET_RULES = {  # what is wrong with a network's plan, and how to mend it
    1: (RULES[1][0], RULES[1][1]),
    2: ("the value is not in the form of a plan: a key is missing, another one stands there, or a value is out of its "
        "range",
        "give each key a value as network.md has it, and see that the steps of the orders never fall and that a stop "
        "names an instance that was asked for before it"),
}

CONDITIONS = {  # rule 4 by its item: what may be at most what, and how to mend it
    1: ("`window_b`", "`window_a`, which must be above it", "a larger `window_a`"),
    2: ("`window_a` + `skew` + `beat`", "`play`", "a smaller `window_a` or a larger `play`"),
    3: ("`beat` + 2 \u00b7 longest way + `skew`", "`read_lead`", "a larger `read_lead`"),
    4: ("`read_lead` + `skew` + longest way + `beat`", "`window_b`", "a larger `window_b`"),
    5: ("`window_a` + 2 \u00b7 `play` + `skew`", "`min_lead`", "a larger `min_lead`"),
    6: ("`min_lead` + `batch` \u00b7 `beat`", "`max_lead`", "a larger `max_lead` or a smaller `batch`"),
    7: ("`max_lead` + 4 \u00b7 `play`", "`cubs` \u00b7 `play`", "a smaller `max_lead` or more `cubs`"),
    8: ("(`cubs` + 4) \u00b7 longest way", "`play`", "a smaller `delay` or `beat`, or a larger `play`"),
    9: ("`pieces` \u00b7 (`beat` + longest way + `skew`)", "`play`", "fewer `pieces` or a larger `play`"),
    10: ("`pieces` + 2", "`cubs`", "fewer `pieces` or more `cubs`"),
    11: ("`heart` \u00b7 `beat` + longest way + `skew`", "`deadman`", "a smaller `heart` or a larger `deadman`"),
    12: ("2 \u00b7 `play` + `skew`", "`hold`", "a larger `hold`"),
}

CLAUSES = {  # what `audit` asks of a run, in this order
    1: "what each node got was sent to it, comes in order and in time, and what was sent in time was got",
    2: "each reading is what its node's clock shows in that beat, beats and readings never fall along a journal, no entry "
       "is of a beat behind the last one, each death and each return is as the text's first lines have it, and no two cubs "
       "side by side die",
    3: "the controller does what the orders say, each once and in time",
    4: "a slot is put only if it is free, by its cub, in its window, and for a start that was asked for",
    5: "each record of each cub's view is part of the schedule at each moment; what a cub takes came from one of the two "
       "cubs before it or by its own put, and not too soon; and each viewer state that it sends is of a record that it has",
    6: "who was stopped does not come back",
    7: "what leaves for the viewers at a visit of a slot is of one instance, each block and each piece of it is asked of a "
       "disk once at most, and a piece only after the death of the block's cub",
    8: "a cub that is believed dead has died",
    9: "a read that failed met a fault of its disk",
    10: "each settled block of each viewer came whole or in pieces, or has an excuse, and nothing else came",
    11: "the blocks of a viewer come in order",
    12: "no start that waits is passed over",
}
