# What the scripts of the programs share. `program NAME ARGUMENT..` runs the program NAME on a file or on standard input; it is proved and built first, if it is not yet.
# It expects the repository's folder in `root` and a function `usage` that prints how the script is called, and ends with a status:
#   0  the input was read to its end
#   1  something in it was refused or malformed
#   2  the script was called wrongly, or reading, writing or building failed
# The exit status of a program says nothing of what it read, so what it says on standard error is made into one: nothing behind its name is 0, `NAME: at ..` at last is 1, anything else is 2, and so
# is a program that was killed.
# shellcheck shell=sh

# complain MESSAGE: why the status is 2
complain() {
    printf '%s: %s\n' "$name" "$1" >&2 || :
    exit 2
}

has_rt() {
    command -v rt >/dev/null || complain "the toolchain's command rt is not on the path (README, \"The toolchain\")"
}

# Whether anything that the program is made of was written after it. What rt makes in a crate's out/ is none of that.
changed() {
    [ -n "$(find "$root/crates.txt" -newer "$built" -print -quit)" ] ||
        [ -n "$(find "$root/crates" -mindepth 2 -name out -prune -o -newer "$built" -print -quit)" ]
}

# The program is proved and built, unless nothing has changed since it was. That each crate is proved goes to standard error as rt says it; all that rt says is kept, and
# shown if it does not end well. What rt has built it also runs: here on nothing, and what the program prints then goes nowhere.
build() {
    [ -x "$built" ] && ! changed && return
    has_rt
    printf '%s: proving and building the program; this takes some minutes, once\n' "$name" >&2
    crate='' ended=0
    {
        cd "$root/crates/$name" && rt run </dev/null 2>&1 >/dev/null || ended=$?
        printf 'rt run: %s\n' "$ended"
    } | while IFS= read -r line; do
        printf '%s\n' "$line" >>"$told"
        case $line in
        'crate '*': '*) crate=${line#crate } ;;
        'logic=proved '*) printf '%s: %s proved\n' "$name" "${crate%%:*}" >&2 ;;
        esac
    done
    if [ "$(tail -n 1 "$told")" != 'rt run: 0' ] || [ ! -x "$built" ]; then
        cat "$told" >&2
        complain 'the program could not be proved and built'
    fi
    touch "$built"
}

# stopped SIGNAL: the program ends with its script
stopped() {
    [ -z "$child" ] || kill "$child" 2>/dev/null || :
    rm -f "$told"
    trap - EXIT "$1"
    kill -s "$1" $$
}

program() { # NAME ARGUMENT..
    name=$1
    shift
    built=$root/crates/$name/out/$name
    case ${1-} in
    --help | -h)
        usage || exit 2
        exit 0
        ;;
    --) shift ;;
    -?*) complain "$1 is no option; $0 --help tells how it is called" ;;
    esac
    [ $# -le 1 ] || complain "one file at most; $0 --help tells how it is called"
    file=${1--}
    if [ "$file" != - ]; then
        [ -e "$file" ] || complain "$file: there is no such file"
        [ ! -d "$file" ] || complain "$file: that is a directory"
        [ -r "$file" ] || complain "$file: it may not be read"
    else
        { :; } 2>/dev/null 3<&0 || complain 'standard input is closed'
    fi
    { :; } 2>/dev/null 3>&1 || complain 'standard output is closed'

    child=''
    told=$(mktemp) || complain 'there is no place for a temporary file'
    trap 'rm -f "$told"' EXIT
    for signal in HUP INT TERM; do
        # shellcheck disable=SC2064
        trap "stopped $signal" "$signal"
    done
    build

    # Programs are for x86-64. On another processor an emulator has to run them, which a toolchain for that processor may have; that of today runs on x86-64 alone and has none.
    set -- "$built"
    machine=$(uname -m)
    if [ "$machine" != x86_64 ]; then
        has_rt
        kit=$(dirname "$(rt doc)")/on/$machine/toolchain
        [ -x "$kit/bin/qemu-x86_64" ] || complain "the program is for x86-64, and the toolchain has no emulator for $machine"
        set -- "$kit/bin/qemu-x86_64" "$kit/lib/ld-linux-x86-64.so.2" --library-path "$kit/lib" "$built"
    fi

    # What is printed goes straight to standard output; what is said on standard error is kept, shown, and made into the status. The program runs beside the script, so that a
    # signal to the script reaches it; a shell takes standard input away from what runs beside it, so that is handed over by another name.
    if [ "$file" = - ]; then
        exec 3<&0
        "$@" <&3 3<&- 2>"$told" &
    else
        "$@" <"$file" 2>"$told" &
    fi
    child=$!
    died=0
    wait "$child" || died=$?
    cat "$told" >&2 || :
    [ "$died" = 0 ] || exit 2
    case $(grep "^$name: " "$told" | tail -n 1) in
    '') exit 0 ;;
    "$name: at "*) exit 1 ;;
    *) exit 2 ;;
    esac
}
