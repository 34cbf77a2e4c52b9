# shellcheck shell=sh disable=SC2154
# What bin/grainlantern and bin/mrtgrep share: when a program is built, and how that is told. They set `name`, `root`, `program` and `wrong`, the exit
# status where it can't be built.

target=$root/target
stamp=$target/$name.stamp
log=$target/$name.log

fail() {
    printf '%s: %s\n' "$name" "$*" >&2
    exit "$wrong"
}

# Whether the program is there and none of these files has changed since it was built, or come or gone. What rt makes of a crate is no source.
is_built() {
    [ -x "$program" ] && [ -f "$stamp" ] && [ -z "$(changed "$@" | head -n 1)" ]
}

changed() {
    find "$@" -name out -prune -o \( -type f -o -path '*/src*' -o -path '*/specs*' -o -path '*/proofs*' \) -newer "$stamp" -print
}

needs() {
    command -v "$1" >/dev/null || fail "the program has to be built, and $2 '$1' is not on PATH"
}

# How many crates are proved for one, itself among them.
crates_for() {
    awk -F: -v wanted="$1" '
        function add(crate, names, count, i) {
            if (!(crate in needs) || crate in added) return
            added[crate]
            total++
            count = split(needs[crate], names, " ")
            for (i = 1; i <= count; i++) add(names[i])
        }
        { sub(/ .*/, "", $1); needs[$1] = $2 }
        END { add(wanted); print total + 0 }' "$root/crates.txt"
}

# Writes the log, and tells each crate that is proved anew and how many there can be.
told() {
    all=$(crates_for "$1")
    while IFS= read -r line; do
        printf '%s\n' "$line"
        case $line in
        # what has not changed goes by too quickly to be told
        'crate '*': modules '*' checked=0') ;;
        'crate '*': modules '*)
            crate=${line#crate }
            printf '%s: checked %s, of %s crates at most\n' "$name" "${crate%%:*}" "$all" >&2
            ;;
        esac
    done >>"$log"
}

# Proves a crate and builds it by a verb of rt, and then runs a command. Standard input holds the records and standard output the lines, so
# neither has them.
build() {
    crate=$1
    verb=$2
    shift 2
    printf '%s: proving and building the program; this takes minutes at first (log: %s)\n' "$name" "$log" >&2
    mkdir -p "$target" || fail "cannot make $target"
    # a source that changes during the build is newer than this
    : >"$stamp.new"
    : >"$log"
    # the new stamp is moved once all is built: what is left of a pipe's exit status is the last command's
    (cd "$root/crates/$crate" && rt "$verb" && cd "$root" && "$@" && mv "$stamp.new" "$stamp") </dev/null 2>&1 | told "$crate"
    [ ! -f "$stamp.new" ] || {
        tail -n 20 "$log" >&2
        fail "the build failed; $log has it all"
    }
}
