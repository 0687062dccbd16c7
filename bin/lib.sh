# Sourced by the scripts of bin/. Each of them sets
#   name      its name, which is also that of its program and of the program's crate
#   input     what its usage calls the file that is read
#   kind      what that file holds
#   result    what standard output gets
#   verb      what is done with the input
#   about     what its usage says of it
# and calls `filter "$@"`: the program runs over the file that is named, or over standard input. Where it is not built, or older than its source, it
# is proved and built first; progress goes to standard error. Standard output gets nothing but what the program writes.
# Exit status: 0 that is complete; 1 it is not, and standard error says why; 2 wrong arguments, or the program could not be built.
# shellcheck shell=sh disable=SC2154,SC2034 # a script that sources this one sets the names above, and can read those below
top=$(dirname "$(dirname "$(readlink -f "$0")")")
program=$top/crates/$name/out/$name
most=1 operands="one file of $kind" # how many operands there are at most; a script that takes more says so once this is sourced

say() { echo "$name: $1" >&2; }

# ---- Arguments

usage() { echo "usage: bin/$name [--catalogue FILE] [--] [$input] >listing.tsv"; } # a script with other operands has its own

help() {
    usage
    cat <<END

$about

  --catalogue FILE  calendars of your own by name: on each line a name, a tab,
                    and the day number on which the calendar switches. Where
                    there is no such file, there are none.
  --help            this text

Exit status: 0 the $result is complete; 1 it is not, and standard error says
why; 2 wrong arguments, or the program could not be built.
END
}

wrong() {
    say "$1; bin/$name --help says how it is called"
    exit 2
}

# The operands are `file` and, for a script that takes two, `text`.
operand() {
    files=$((files + 1))
    if [ "$files" = 1 ]; then file=$1; else text=$1; fi
}

# After an operand, what begins with a dash can be another.
can_be_operand() { [ "$files" -gt 0 ] && [ "$files" -lt "$most" ]; }

# Sets `catalogue`, the operands, and in `files` how many they are.
read_arguments() {
    catalogue='' file='' text='' files=0
    while [ $# -gt 0 ]; do
        case $1 in
            --help) help; exit 0 ;;
            --catalogue) [ $# -gt 1 ] || wrong '--catalogue needs a file'; catalogue=$2; shift ;;
            --) shift; break ;;
            -?*) can_be_operand || wrong "unknown option $1"; operand "$1" ;;
            *) operand "$1" ;;
        esac
        shift
    done
    for one in "$@"; do operand "$one"; done
    [ "$files" -le "$most" ] || wrong "more than $operands"
}

# ---- Building the program

# How many crates it needs: its own, and those named after it in crates.txt, and so on.
needed() {
    awk -F '[: ]+' -v want="$name" '
        /^[a-z]/ { for (i = 2; i <= NF; i++) uses[$1] = uses[$1] " " $i; ours[$1] = 1 }
        function add(name, list, n, i) {
            if (!(name in ours) || (name in seen)) return
            seen[name] = 1
            count++
            n = split(uses[name], list, " ")
            for (i = 1; i <= n; i++) add(list[i])
        }
        END { add(want); print count }' "$top/crates.txt"
}

# A line for each crate that is proved now; where one fails, all that was said. The program is run on empty input once it is built.
build() {
    { (cd "$top/crates/$name" && rt run </dev/null >/dev/null) 2>&1; echo "ended $?"; } | awk -v name="$name" -v all="$(needed)" '
        /^ended / { if ($2) printf "%s", said; exit $2 }
        /^crate [a-z_0-9]+:/ { crate = substr($2, 1, length($2) - 1) }
        /^logic=proved/ { printf "%s: %d of %d: %s\n", name, ++done, all, crate; fflush() }
        { said = said $0 "\n" }'
}

# What is made lies in the folders out/ of the crates.
is_old() {
    [ ! -x "$program" ] || [ "$top/crates.txt" -nt "$program" ] ||
        [ -n "$(find "$top/crates" -mindepth 2 -name out -prune -o -newer "$program" -print | head -n 1)" ]
}

# One run builds; others that are started meanwhile, of this program or another, wait for it.
build_if_old() {
    is_old || return 0
    mkdir -p "$top/target" && exec 9>"$top/target/build.lock" && flock 9 || exit 2
    if is_old; then
        say 'on first use every part of the program is proved correct before it is built; this takes some minutes'
        build >&2 || exit 2
        touch "$program"
    fi
    exec 9>&-
}

# ---- Running it

# The program in place of the shell that calls this. Programs are made for x86-64 and for the C library of the toolchain, which has a loader of its
# own; on another machine an emulator runs them.
run() { # ARGUMENTS
    tools=$(dirname "$(dirname "$(readlink -f "$(command -v rt)")")")/toolchain
    loader=$tools/lib/ld-linux-x86-64.so.2
    set -- "$program" "$@"
    [ -e "$loader" ] && set -- "$loader" --library-path "$tools/lib" "$@"
    [ "$(uname -m)" = x86_64 ] || set -- qemu-x86_64 "$@"
    exec "$@"
}

filter() {
    read_arguments "$@"
    build_if_old
    if [ "$files" = 1 ]; then
        if ! (exec <"$file") 2>/dev/null; then
            say "$file could not be opened; nothing is $verb"
            exit 1
        fi
        exec <"$file"
    fi
    if ! (exec 3>&1) 2>/dev/null; then
        say "standard output is closed; nothing is $verb"
        exit 1
    fi

    # A write to a pipe that nobody reads, or past the limit of a file's size, is to fail and to be told, and not to end the program without a word.
    trap '' PIPE XFSZ
    exec 3>&1
    said=$(run ${catalogue:+"$catalogue"} 2>&1 >&3 3>&-)
    status=$?
    if [ -n "$said" ]; then
        printf '%s\n' "$said" >&2
        exit 1
    fi
    if [ "$status" -ne 0 ]; then
        say "the program was stopped (status $status); the $result is not complete"
        exit 1
    fi
}
