# What the scripts of this repository share: what is built already, one build at a time, a program's help out of its source.
# It is sourced by bash, and leaves the repository's folder in `top`.
# shellcheck shell=bash
top=$(dirname "$(dirname "$(readlink -f "${BASH_SOURCE[0]}")")")
library=$top/target/staticlib/libswap.a
export LC_ALL=C

# The crates that a crate rests on, and itself at the end, by crates.txt.
closure() { # NAME
    awk -v name="$1" '
        function visit(n,    part, k, count) {
            if (n in seen || !(n in needs)) return
            seen[n] = 1
            count = split(needs[n], part, " ")
            for (k = 1; k <= count; k++) visit(part[k])
            print n
        }
        { sub(/#.*/, ""); at = index($0, ":"); if (at) { split(substr($0, 1, at - 1), head, " "); needs[head[1]] = substr($0, at + 1) } }
        END { visit(name) }' "$top/crates.txt"
}

# The words that build a file, and its sources by name and content, as one number; what rt keeps beside a crate's sources is none.
sum_of() { # WORDS SOURCE..
    (cd "$top" && echo "$1" && find "${@:2}" -name out -prune -o -type f -print0 | sort -z | xargs -0 sha256sum) | sha256sum
}

# Whether the file stands as it was built, by these words and from these sources as they are now. Times don't matter.
is_built() { # FILE WORDS SOURCE..
    [ -f "$1" ] && [ -f "$1.sum" ] && [ "$(sum_of "${@:2}" && sha256sum <"$1")" = "$(cat "$1.sum")" ]
}

# Notes the sum of what a file was built from, as it was before the building began, and the file's own.
mark_built() { # FILE SUM
    { echo "$2" && sha256sum <"$1"; } >"$1.sum"
}

# Runs a command while no other run builds in this checkout.
alone() { # COMMAND..
    (
        if ! flock -n 9; then
            echo "Another run builds in this checkout; waiting for it." >&2
            flock 9
        fi
        "$@"
    ) 9<"$top/crates.txt"
}

# Compiles a C program over the library, where it is not built from these sources with these flags already.
compile() { # PROGRAM SOURCE.. -- FLAG..
    local program=$1 sources=() flags made
    shift
    while [ "$1" != -- ]; do
        sources+=("$1")
        shift
    done
    shift
    flags=(-std=c11 -Wall -Wextra -Wpedantic -Werror "$@")
    made=("$program" "gcc ${flags[*]} ${sources[*]}" "$library" include examples)
    is_built "${made[@]}" || alone link
}

# The same, where no other run builds: under another name until it is whole.
link() {
    local unfinished sum
    if is_built "${made[@]}"; then return; fi # by the run that was waited for
    sum=$(sum_of "${made[@]:1}")
    mkdir -p "$(dirname "$program")" && unfinished=$(mktemp "$program.XXXXXX") || return
    if env -i PATH="$PATH" LC_ALL=C gcc "${flags[@]}" -Iinclude "${sources[@]}" "$library" -o "$unfinished"; then
        chmod 755 "$unfinished" && mv "$unfinished" "$program" && mark_built "$program" "$sum"
    else
        rm -f "$unfinished"
        return 1
    fi
}

# Prints a program's help out of its source, where nothing is built yet; ends the script where it does not get out. NAME is the string's,
# by default that of each usage, help or manual.
help_of() { # FILE [NAME]
    local text name=${2:-'.*(usage|help|manual)'}
    text=$(sed -nE "/^(static )?const char ${name}\\[\\] =/,/;\$/s/^[^\"]*\"(.*)\\\\n\"[,;]?\$/\\1/p" "$top/$1") || exit 1
    if ! printf '%s\n' "$text" 2>/dev/null; then
        echo "${0##*/}: output: cannot be written" >&2
        exit 1
    fi
}

# Whether help is asked for.
asks_help() { # ARGUMENT..
    local argument
    for argument in "$@"; do
        if [ "$argument" = --help ]; then return 0; fi
    done
    return 1
}
