# Copies of the repository, and edits of them: shared by the scripts that try something wrong (tests/edits/run, tests/rules/run, tests/cases/run). Sourced by bash.
#
#   copy FROM TO                    TO gets the crates of FROM, without what rt made of them
#   apply EDIT FOLDER               carries out an edit on the files below FOLDER
#   each COMMAND..                  COMMAND with each line of standard input behind it, as many at a time as there are processors, at most four
#
# An edit is a line on what it does, then `file:`, `old:` and `new:`, each with one line of text, as rt's must-fail edits are. Its files are named from the
# folder that it is applied to.
# shellcheck shell=bash

jobs=${RT_JOBS:-$(nproc)}
[ "$jobs" -le 4 ] || jobs=4

# What rt made is not needed: a check begins with what others on this machine kept of the same crates.
copy() { # FROM TO
    mkdir -p "$2"
    tar -C "$1" --exclude='crates/*/out' -cf - crates crates.txt | tar -C "$2" -xf -
}

# Replaces the one place of FILE that has OLD by NEW.
replace() { # FILE OLD NEW
    OLD=$2 NEW=$3 awk '
        { text = text $0 "\n" }
        END {
            old = ENVIRON["OLD"]; at = index(text, old)
            if (old == "" || !at || index(substr(text, at + length(old)), old)) exit 3
            printf "%s%s%s", substr(text, 1, at - 1), ENVIRON["NEW"], substr(text, at + length(old))
        }' "$1" >"$1.edited" 2>/dev/null && mv "$1.edited" "$1"
}

# Fails if an `old:` text is not there once, or if there is nothing to replace.
apply() { # EDIT FOLDER
    local line file='' old='' pairs=0
    while IFS= read -r line || [ -n "$line" ]; do
        case $line in
        'file: '*)
            file=${line#file: }
            case $file in *..*) return 1 ;; esac
            ;;
        'old: '*) old=${line#old: } ;;
        'new: '*)
            replace "$2/$file" "$old" "${line#new: }" || return 1
            pairs=$((pairs + 1))
            ;;
        esac
    done <"$1"
    [ "$pairs" -gt 0 ]
}

each() { # COMMAND..
    local word running=0 failed=0
    while IFS= read -r word; do
        if [ "$running" -ge "$jobs" ]; then
            wait -n || failed=1
            running=$((running - 1))
        fi
        "$@" "$word" </dev/null &
        running=$((running + 1))
    done
    while [ "$running" -gt 0 ]; do
        wait -n || failed=1
        running=$((running - 1))
    done
    return "$failed"
}
