# shellcheck shell=bash
# For the other scripts in bin/: finds which program and library belong to the sources that are checked out. Each script
# sets `top`, the repository's folder, before it reads this file.

# NAME..: prints these crates and those of the repository that they use, in the order of crates.txt.
crates_below() {
    awk -v wanted=" $* " '
        { sub(/#.*/, ""); name = $1; sub(/:$/, "", name) }
        name != "" { names[++count] = name; sub(/^[^:]*:/, ""); uses[name] = $0 }
        END {
            do {
                grew = 0
                for (i = 1; i <= count; i++) {
                    if (!(names[i] in seen) && index(wanted, " " names[i] " ")) {
                        seen[names[i]] = grew = 1
                        wanted = wanted uses[names[i]] " "
                    }
                }
            } while (grew)
            for (i = 1; i <= count; i++) if (names[i] in seen) printf "%s ", names[i]
        }' "$top/crates.txt"
}

# FILE..: prints one digest of all sources in these files and folders, by name and contents.
digest_files() {
    (
        set -o pipefail
        find "$@" -type f \( -name '*.rt' -o -name '*.antt' -o -name inst.h \) -print0 | sort -z |
            tar --create --null --no-recursion --hard-dereference --files-from=- --format=ustar \
                --mtime=@0 --mode=a=r --owner=0 --group=0 --numeric-owner --file=- | b2sum --length=256
    ) || echo failed
}

# KIT CRATES..: prints one digest of everything that a build of these crates reads: the kit's line, the crates' lines in
# crates.txt, and their files. Two halves of the files are read in parallel. Fails if a file can't be read.
digest_sources() {
    local kit=$1 name rest part lines='' files=() digests half
    shift
    (
        cd -- "$top" || exit
        export LC_ALL=C
        unset -v TAR_OPTIONS
        while read -r name rest; do
            [[ " $* " != *" ${name%:} "* ]] || lines+="$name $rest"$'\n'
        done < crates.txt
        for name in "$@"; do
            for part in src specs proofs inst.h; do
                [ ! -e "crates/$name/$part" ] || files+=("crates/$name/$part")
            done
        done
        half=$((${#files[@]} / 2))
        digests=$(cat <(digest_files "${files[@]:0:half}") <(digest_files "${files[@]:half}"))
        [[ $digests =~ ^[0-9a-f]{64}\ \ -$'\n'[0-9a-f]{64}\ \ -$ ]] || exit 1
        printf '%s\n' "$kit" "$lines" "$digests" | b2sum --length=256 | cut -d ' ' -f 1
    )
}

# SCRIPT: prints the digest of the sources of the program and the library, without the kit's line. Ends the script if a
# file can't be read.
digest_here() {
    # shellcheck disable=SC2046
    digest_sources '' $(crates_below inst_main inst_c) || cannot_compare "$1"
}

# SCRIPT: ends the script.
cannot_compare() {
    echo "$1: the sources can't be read, for the reason above, so nothing was run" >&2
    exit 1
}

# SCRIPT: returns whether release/ was made from the sources that are checked out, and no build was asked for.
is_released() {
    local kit crates digest found
    [ -z "${INST_FROM_SOURCE-}" ] && [ -r "$top/release/SOURCES" ] || return 1
    { read -r _ kit && read -r _ crates && read -r _ digest; } < "$top/release/SOURCES" || return 1
    # shellcheck disable=SC2086
    found=$(digest_sources "$kit" $crates) || cannot_compare "$1"
    [ "$found" = "$digest" ]
}

# NAME: returns whether the file of release/ has the digest in SHA256SUMS.
is_intact() {
    (cd -- "$top/release" && grep " $1\$" SHA256SUMS | sha256sum --check --strict --status)
}

# SCRIPT NAME..: ends the script if one of these files of release/ has another digest than in SHA256SUMS.
require_intact() {
    local script=$1 name
    shift
    for name in "$@"; do
        if ! is_intact "$name" 2> /dev/null; then
            echo "$script: release/$name is damaged or missing:" \
                "restore it by git -C '$top' checkout -- release, or set INST_FROM_SOURCE=1" >&2
            exit 1
        fi
    done
}

# Prints the line of the kit whose `rt` is on the PATH, or nothing if it can't find it. `rt version` prints the same as
# the file next to it, but takes a quarter of a second.
kit_line() {
    local file
    file=$(readlink -f -- "$(command -v rt)")
    cat -- "${file%/*}/../KIT-ID" 2> /dev/null || rt version 2> /dev/null || :
}

# SCRIPT FOLDER: returns whether the folder has the result of a build here, from the present sources and by the present
# kit. The folder's files `sources` and `kit` say what it was built from.
is_built() {
    local kit='' built_by found
    [ -s "$2/sources" ] && [ -e "$2/kit" ] || return 1
    # Without a kit, or with one that can't be identified, the result is used as it is.
    if command -v rt > /dev/null; then
        kit=$(kit_line)
    fi
    built_by=$(< "$2/kit")
    if [ -n "$kit" ] && [ -n "$built_by" ] && [ "$kit" != "$built_by" ]; then
        return 1
    fi
    found=$(digest_here "$1") || exit 1
    [ "$found" = "$(< "$2/sources")" ]
}

# BEGAN FOLDER: notes in the folder of a build's result what it was built from. BEGAN is a file with the digest of the
# sources as the build began; if they have changed since, the next start builds again.
note_built() {
    : > "$2/sources"
    if [ "$(digest_here build)" = "$(< "$1")" ]; then
        cp -- "$1" "$2/sources"
    fi
    if ! rt version > "$2/kit"; then
        : > "$2/kit"
        echo "build: 'rt version' failed, so a start won't notice when the kit changes" >&2
    fi
}

# SCRIPT: sets `program` to the program to run; fails if it has to be built first.
find_program() {
    program=$top/crates/inst_main/out/program/inst_main
    if is_released "$1" && [ -e "$top/release/inst_main" ]; then
        require_intact "$1" inst_main
        program=$top/release/inst_main
    else
        is_built "$1" "${program%/*}"
    fi
}

# Prints which tools link a shared library here: the C compiler, its linker and the C library.
linker() {
    local compiler=${CC:-cc}
    {
        "$compiler" --version | head -n 1
        "$compiler" -Wl,--version 2> /dev/null | head -n 1
        ldd --version | head -n 1
    } 2> /dev/null | paste -s -d ';'
}

# SCRIPT [COMMAND..]: ends the script if a command that a build needs is missing.
require_build() {
    local script=$1 command
    shift
    for command in rt python3 "$@"; do
        if ! command -v "$command" > /dev/null; then
            echo "$script: a build from the sources takes the command '$command', which isn't on the PATH" \
                "(README.md, \"Work on it\")" >&2
            exit 1
        fi
    done
}
