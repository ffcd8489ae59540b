# What ./syndex and ./syndex_lab have in common: which program there is, how one is made, and how it is run. They set
# `top`, the repository, `name`, the program, and `build`, what proves it, read this file, say in `show_help` what their
# help is, and call `start`.
export PYTHONDONTWRITEBYTECODE=1
proved=$top/crates/$name/out/$name
unproved=$proved-unproved

# The crates that the program stands on, and its own. In crates.txt each crate comes after these.
crates() {
    sed 's/#.*//' "$top/crates.txt" | awk -v name="$name" '
        NF { split($0, half, ":"); split(half[1], words); crates[++last] = words[1]; below[words[1]] = half[2] }
        END {
            needed[name]
            for (at = last; at; at--) if (crates[at] in needed) {
                print crates[at]
                count = split(below[crates[at]], words)
                for (place = 1; place <= count; place++) needed[words[place]]
            }
        }'
}

# Whether this file is there and no file of those crates that is named so is newer.
is_newer_than() {
    [ -x "$1" ] && [ ! "$top/crates.txt" -nt "$1" ] && [ -z "$(cd "$top/crates" &&
        find $(crates) -name out -prune -o -type f -name "$2" -newer "$1" -print -quit)" ]
}

# Definitions and proofs make no difference to an unproved program.
is_proved() {
    is_newer_than "$proved" '*.rt' && is_newer_than "$proved" '*.antt'
}

is_made() {
    is_newer_than "$unproved" '*.rt'
}

# Reports which program the next command will run.
report_program() {
    if is_proved; then
        echo "The program is proved and built: $proved"
    elif is_made; then
        echo "An unproved program is built: $unproved"
        echo "$build proves and builds the program."
    else
        echo "The program is not built. The first command makes an unproved one of the sources, which takes some minutes."
        echo "$build proves and builds the program."
    fi
}

# Runs the program with the words given. If there is none, an unproved one is made first.
run_program() {
    if is_proved; then
        exec "$proved" "$@"
    fi
    if ! is_made; then
        echo "$name: not built" >&2
        "$top/build" --quick --program "$name" >&2 || exit 1
    fi
    echo "$name: this is an unproved program; $build proves and builds it" >&2
    exec "$unproved" "$@"
}

# What a script does with its words: its own ones are help and explain, the others are the program's.
start() {
    case ${1-} in
    '') show_help >&2; exit 2 ;;
    help | --help | -h) show_help; exit 0 ;;
    explain) shift; exec python3 "$top/tools/explain.py" "$@" ;;
    esac
    case ${2-} in
    --help | -h) show_help; exit 0 ;;
    esac
    run_program "$@"
}
