# Read by motion, build and .ci/run, which set `top` to the folder of the repository: where the proved
# program stands, and whether it was made from the sources as they are now. Contents tell that, and no times:
# the mark beside the program holds the sum of the sources and the sum of the program, and is written last.

crate=$top/crates/motion
program=$crate/out/motion
mark=$crate/out/motion.made

# The lines of crates.txt for the crates that the program is made from, lower crates first.
lines_of_program() {
    awk '
        { sub(/#.*/, "") }
        /:/ { split($0, part, ":"); split(part[1], head, " "); uses[head[1]] = part[2]; line[head[1]] = $0 }
        END { take("motion") }
        function take(name, words, count, i) {
            if (name in taken || !(name in uses)) return
            taken[name] = 1
            count = split(uses[name], words, " ")
            for (i = 1; i <= count; i++) take(words[i])
            print line[name]
        }
    ' "$top/crates.txt"
}

# Their names, one a line.
crates_of_program() {
    lines_of_program | sed 's/[: ].*//'
}

# One sum of all that the program is made from: these lines, and each source with its name.
sum_of_sources() (
    cd -- "$top" || exit 1
    {
        lines_of_program
        find $(crates_of_program | sed 's,.*,crates/&/src crates/&/specs crates/&/proofs,') -type f \
            -exec sha256sum -- {} + 2>/dev/null | LC_ALL=C sort
    } | sha256sum | cut -c1-64
)

sum_of_program() {
    sha256sum <"$program" | cut -c1-64
}

is_current() {
    [ -x "$program" ] && [ -f "$mark" ] && [ "$(cat -- "$mark")" = "$(sum_of_sources) $(sum_of_program)" ]
}

# Marks the program as made from the sources of that sum.
mark_program() { # SUM
    [ "${#1}" -eq 64 ] || return 1
    printf '%s %s\n' "$1" "$(sum_of_program)" >"$mark.new" && mv -f -- "$mark.new" "$mark"
}
