# Whether the program is built from what stands here: functions for `tiger` and tools/build, to be called at the
# repository's top.
#
# Beside the program stands a record of what it was built from: a checksum of its sources, one of the program itself,
# the kit's line, the file of `rt`, and then the size and times of each source and of the program. If the sizes and
# times are those of the record, nothing has changed: the time of a file's last change of state, which is one of them,
# cannot be set back. If they differ, as after `touch` or in a copy, the checksums decide.

PROGRAM=crates/tiger_main/out/tiger_main
RECORD=$PROGRAM.built-from
also=

# Does with each source, and with the program too if $also names it, what the arguments, find's words, say. Editors' own
# files beside the sources do not count.
sources() {
    command -p find crates.txt HANDLES $also crates/*/src crates/*/specs crates/*/proofs -type f ! -name '.*' \
        \( -name '*.rt' -o -name '*.antt' -o -path crates.txt -o -path HANDLES -o -path "$PROGRAM" \) "$@" 2>/dev/null
}

# The name, size and times of each source and of the program.
listing() {
    also=$PROGRAM sources -printf '%p %s %T@ %C@\n'
}

# The checksum of all sources, with their names.
sources_sum() {
    sources -print0 | LC_ALL=C command -p sort -z | PATH=$PATH:/usr/bin:/bin command -p xargs -0 sha256sum |
        command -p sha256sum
}

# The checksum of the program.
program_sum() {
    command -p sha256sum <"$PROGRAM"
}

# The file of `rt`, with its size and time; nothing if it is not on the path.
rt_file() {
    rt=$(command -v rt) && command -p stat -L -c '%n %s %.Y' -- "$rt"
}

# Replaces the record by these lines, if it can be written.
write_record() {
    { printf '%s\n' "$@" >"$RECORD.$$" && command -p mv -f "$RECORD.$$" "$RECORD"; } 2>/dev/null
}

# Whether the program is built from what stands here, and by the kit that is on the path, if one is. A record whose
# times alone differ is renewed.
is_built() {
    [ -x "$PROGRAM" ] && [ -r "$RECORD" ] || return 1
    { read -r of_sources && read -r of_program && read -r kit && read -r file && kept=$(command -p cat); } <"$RECORD"
    found=$(listing) rt_found=$(rt_file) is_renewed=
    if [ "$found" != "$kept" ]; then
        [ "$of_sources" = "$(sources_sum)" ] && [ "$of_program" = "$(program_sum)" ] || return 1
        is_renewed=yes
    fi
    if [ "$rt_found" ] && [ "$rt_found" != "$file" ]; then
        [ "$kit" = "$(rt version 2>/dev/null)" ] || return 1
        file=$rt_found is_renewed=yes
    fi
    [ -z "$is_renewed" ] || write_record "$of_sources" "$of_program" "$kit" "$file" "$found" || :
}

# Writes down that the program was built from the sources with this checksum. The status is 1 if they have another by
# now, and 2 if it cannot be written.
record() {
    found=$(listing)
    if [ "$1" != "$(sources_sum)" ]; then
        echo "tiger: the sources changed while the program was built from them" >&2
        return 1
    fi
    write_record "$1" "$(program_sum)" "$(rt version)" "$(rt_file)" "$found" || return 2
}
