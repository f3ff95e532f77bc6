"""Programs that are not `tiger`, and some that are `tiger` but for one thing of `disks`, for tools/disk_checks.py: each
is a shell's program, and has the words `disks NAME IMAGE`, and perhaps `--force`, as $1 to $4."""
import os
import shlex

STAND_INS = {  # programs that are not this one; none stands for no file
    "missing": None, "true": "exit 0", "crashes": "ulimit -c 0; kill -SEGV $$", "hangs": "exec sleep 600",
    "other": "echo 'disk 0 parts 0 bytes 0'", "all words": "echo 'tiger: words' >&2; exit 1"}

# What is wrong, and by which text; TIGER stands for the program, and END for the end with its status. Then the checks
# that must notice it: their names, or STORED for each that compares what is stored, SOME for some of these, REFUSED for
# each of a scenario that is refused, and MANY for those that are refused for their parts.
WRONGS = (
    ("adds a byte to the image", 'TIGER "$@"; status=$?; [ $status != 0 ] || printf x >>"$3"; END', "STORED, is over"),
    ("loses the last byte", 'TIGER "$@"; status=$?; [ $status != 0 ] || truncate -s -1 "$3"; END', "SOME, is over"),
    ("changes the last byte",
     'TIGER "$@"; status=$?; [ $status != 0 ] || { truncate -s -1 "$3"; printf "\\033" >>"$3"; }; END',
     "the example by hand, examples/dead-cub.json, is over, is twice, is named so"),
    ("leaves no image", 'TIGER "$@"; status=$?; [ $status != 0 ] || rm -f "$3"; END', "SOME, is over"),
    ("writes no lines", 'TIGER "$@" >/dev/null', "SOME, is over"),
    ("writes the lines twice", 'TIGER "$@"; status=$?; rm -f "$3"; TIGER "$@" >&1; END', "SOME"),
    ("loses a line", 'TIGER "$@" | grep -v "^disk 6 "', "STORED"),
    ("says something besides", 'TIGER "$@"; status=$?; echo >&2; END', "SOME, is left, no device, no scenario"),
    ("always writes over", '[ $# != 3 ] || set -- "$@" --force; TIGER "$@"', "is left, its own input, is twice"),
    ("never writes over", 'TIGER "$1" "$2" "$3"', "is twice, is over, is damaged"),
    ("writes over a link to nothing", '[ $# != 3 ] || [ -e "$3" ] || set -- "$@" --force; TIGER "$@"', "is left"),
    ("touches what it leaves", 'TIGER "$@"; status=$?; [ $status != 14 ] || echo >>"$3"; END',
     "is left, its own input, is twice"),
    ("leaves what stood behind",
     '[ ! -f "$3" ] || mv "$3" old; TIGER "$@"; status=$?; [ ! -f old ] || dd if="$3" of=old conv=notrunc status=none; '
     '[ ! -f old ] || mv old "$3"; END', "is over"),
    ("takes --force for no name", '[ "$3" != --force ] || { echo "tiger: words" >&2; exit 2; }; TIGER "$@"',
     "is named so"),
    ("has another status for the device", 'TIGER "$@"; status=$?; [ $status != 11 ] || status=6; END',
     "no device, is secret"),
    ("writes a line for the device", 'TIGER "$@"; status=$?; [ $status != 11 ] || echo "disk 0 parts 0 bytes 0"; END',
     "no device"),
    ("leaves something of a fault", 'TIGER "$@"; status=$?; [ $status != 11 ] || echo >left; END', "no device"),
    ("names no disk", 'TIGER "$@" 2>&1 | sed "s/disk [0-9]* at/disk 0 at/" >&2; exit 12', "is damaged"),
    ("names no place", 'TIGER "$@" 2>&1 | sed "s/at [0-9]*/at 0/" >&2; exit 12', "is damaged"),
    ("makes an image first", 'touch "$3"; TIGER "$@"', "REFUSED, no scenario"),
    ("makes an image at last", 'TIGER "$@"; status=$?; touch "$3"; END', "REFUSED, no scenario"),
    ("cuts what is to be written over", '[ $# != 4 ] || : >"$3"; TIGER "$@"', "REFUSED, no scenario"),
    ("looks for the image first",
     '[ $# != 3 ] || [ ! -e "$3" ] || { echo "tiger: image exists" >&2; exit 14; }; TIGER "$@"', "REFUSED"),
    ("takes a word too many", '[ $# -lt 5 ] || set -- "$1" "$2" "$3" "$4"; TIGER "$@"', "wrong words"),
    ("takes another word", '[ $# != 4 ] || set -- "$1" "$2" "$3" --force; TIGER "$@"', "wrong words"),
    ("counts other parts", 'TIGER "$@" 2>&1 | sed "s/left [0-9]*/left 4000001/" >&2; exit 5', "MANY"),
    ("has another rule", 'TIGER "$@" 2>&1 | sed "s/rule 15/rule 14/" >&2; exit 5', "MANY"),
    ("refuses as many as may be", 'echo "tiger: scenario rule 15 item 0 left 4000000 right 4000000" >&2; exit 5',
     "as many"),
    ("loses the image with the lines", 'TIGER "$@"; status=$?; [ $status != 6 ] || rm -f "$3"; END', "cannot write"),
    ("cuts the image too", 'TIGER "$@"; status=$?; [ $status != 6 ] || truncate -s 9 "$3"; END', "cannot write"),
    ("never fails to write", 'TIGER "$@" 2>/dev/null || exit 0', "cannot write"),
)


def put(path, text):
    """Writes a program, if there is a text of it; its path."""
    if text is not None:
        with open(path, "w", encoding="utf-8") as file:
            file.write(f"#!/bin/sh\n{text}\n")
        os.chmod(path, 0o755)
    return path


def wrongs(tiger, groups):
    """What is wrong, the text of such a program, and the names of the checks that must notice it."""
    for what, text, names in WRONGS:
        found = [name for word in names.split(", ") for name in groups.get(word, [word])]
        yield what, text.replace("TIGER", shlex.quote(tiger)).replace("END", "exit $status"), found
