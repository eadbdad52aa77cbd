# Builds C programs over the proved archive and runs them. Sourced in the repository's root by tests/c/run, examples/run and bench/run.
# shellcheck shell=sh
#
#   build plain NAME SOURCE...     target/c/NAME from these files and the archive, optimized
#   build checked NAME SOURCE...   the same, with the sanitizers that there are
#   execute NAME [ARGUMENT...]     runs it
#   alone NAME SOURCE...           target/c/NAME by gcc for this processor, without the archive, with MODEL_ALONE and all sanitizers
#
# The archive is for x86-64. There gcc compiles and links, and checked means addresses and undefined behaviour. On another processor gcc
# checks and preprocesses, and the toolchain's own compiler, linker, C library and emulator do the rest; they have no sanitizer runtime, so
# there checked means undefined behaviour alone, which traps. The toolchain of today runs on x86-64 alone and has no emulator.

archive=target/staticlib/libam9519a.a
out=target/c
strict='-std=c11 -O2 -Wall -Wextra -Wpedantic -Wconversion -Werror -Iinclude -Itests/c'
sanitizers='-g -fsanitize=address,undefined -fno-sanitize-recover=all'
# No program here allocates, and the search for leaks at a program's end can take seconds.
export ASAN_OPTIONS=detect_leaks=0

mkdir -p "$out"
# The archive is made anew where there is none, or where a crate has changed since; what rt makes in a crate's out/ is no change.
if [ ! -f "$archive" ] || [ -n "$(find crates.txt -newer "$archive" -print -quit)" ] ||
    [ -n "$(find crates -mindepth 2 -name out -prune -o -newer "$archive" -print -quit)" ]; then
    scripts/archive >"$out/staticlib.log" 2>&1 || {
        cat "$out/staticlib.log"
        exit 1
    }
fi

machine=$(uname -m)
if [ "$machine" != x86_64 ]; then
    kit=$(dirname "$(rt doc)")/on/$machine/toolchain
    lib=$kit/lib
    [ -x "$kit/bin/qemu-x86_64" ] || {
        echo "the archive is for x86-64, and the toolchain has no emulator for $machine"
        exit 1
    }
fi

build() { # plain|checked NAME SOURCE...
    checks='' traps=''
    if [ "$1" = checked ]; then
        checks=$sanitizers
        traps='-fsanitize=undefined -fsanitize-trap=undefined'
    fi
    program=$out/$2
    shift 2
    # shellcheck disable=SC2086
    if [ "$machine" = x86_64 ]; then
        gcc $strict $checks -o "$program" "$@" "$archive"
    else
        for source; do
            object=$program.$(basename "$source" .c)
            gcc $strict -fsyntax-only "$source"
            gcc $strict -E -P -o "$object.i" "$source"
            "$kit/bin/clang" --target=x86_64-linux-gnu -x cpp-output -w -O2 $traps -fPIC -c -o "$object.o" "$object.i"
            shift
            set -- "$@" "$object.o"
        done
        "$kit/bin/ld.lld" -pie --dynamic-linker /lib64/ld-linux-x86-64.so.2 -o "$program" "$lib/Scrt1.o" "$lib/crti.o" "$lib/crtbeginS.o" \
            "$@" "$archive" "$lib/libc.so.6" "$lib/libc_nonshared.a" "$lib/libgcc.a" "$lib/crtendS.o" "$lib/crtn.o"
    fi
}

execute() { # NAME [ARGUMENT...]
    program=$out/$1
    shift
    if [ "$machine" = x86_64 ]; then
        "$program" "$@"
    else
        "$kit/bin/qemu-x86_64" "$lib/ld-linux-x86-64.so.2" --library-path "$lib" "$program" "$@"
    fi
}

alone() { # NAME SOURCE...
    program=$out/$1
    shift
    # shellcheck disable=SC2086
    gcc $strict $sanitizers -DMODEL_ALONE -o "$program" "$@"
}
