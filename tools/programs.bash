# What ./close-sheet, ./park-sheet and ./resume-sheet share. Each sets `usage` first, and `options` where it takes any.
set -euo pipefail
root=$(cd "$(dirname "${BASH_SOURCE[0]}")/.." && pwd)
self=$(basename "$0")
made=$(mktemp -d)
job='' shown='' marks=() names='' report=''
# On ^C too: rt's process group is ended, since what rt starts would go on.
leave() {
    [[ -z $shown ]] || echo >&2
    [[ -z $job ]] || kill -- "-$job" 2>/dev/null || true
    rm -rf "$made" "${marks[@]}"
}
trap leave EXIT
fail() {
    echo "$self: $1" >&2
    exit 1
}
misused() {
    echo "usage: $usage" >&2
    exit 2
}
# Sorts the words into options, which set the variable of their name, and `files`.
sort_words() { # [WORD]..
    local word
    files=()
    for word; do
        case $word in
        --help) print_help ;;
        --names | --report)
            [[ " $options " == *" $word "* ]] || misused
            printf -v "${word#--}" yes
            ;;
        --*)
            [[ -e $word ]] || misused
            files+=("$word")
            ;;
        *) files+=("$word") ;;
        esac
    done
    [[ -z $names || -z $report ]] || misused
}
# The comment at the head of the command.
print_help() {
    local line
    while IFS= read -r line && [[ $line == \#* ]]; do
        [[ $line == \#!* ]] || printf '%s\n' "${line#\# }"
    done <"$0"
    exit 0
}
readable() { # FILE
    [[ -e $1 ]] || fail "$1: no such file"
    [[ ! -d $1 ]] || fail "$1: a directory, not a file"
    [[ -r $1 ]] || fail "$1: it cannot be read"
}
# Proves and builds programs where that is missing, which takes minutes once, and says on standard error how far it is; the first
# one is `program`. Where nothing is newer than the last time the toolchain is not asked; where it is missing, what is built is run.
build() { # PROGRAM..
    local name rt ready=$root/target/ready
    program=$root/target/bin/$1
    if rt=$(command -v rt); then
        rt=$(readlink -f "$rt")
        is_ready "$@" || prove "$@"
        return
    fi
    for name; do
        [[ -x $root/target/bin/$name ]] || fail "$root/target/bin/$name is not built, and rt, which builds it, is not found"
    done
}
# Whether the programs are there, and nothing that they are made from is newer. target/ready/PROGRAM has the time just before the
# check that built it began, so that an edit during the check is newer. Its lines are the toolchain that checked and the crates.
is_ready() { # PROGRAM..
    local name crate kept found newer=()
    local -A sources=(["$rt"]=1 ["$root/crates.txt"]=1)
    for name; do
        [[ -x $root/target/bin/$name && -r $ready/$name ]] || return 1
        mapfile -t kept <"$ready/$name"
        [[ ${kept[0]:-} == "$rt" ]] && ((${#kept[@]} > 1)) || return 1
        newer+=(-o -cnewer "$ready/$name")
        for crate in "${kept[@]:1}"; do sources[$root/crates/$crate]=1; done
    done
    # By the time at which a file was last written or renamed, which no copy keeps. A folder is newer once a file was added or
    # removed. No program is made from must-fail/, and out/ is what rt keeps.
    found=$(find "${!sources[@]}" \( -name must-fail -o -name out \) -prune -o \( "${newer[@]:1}" \) -print -quit 2>/dev/null) && [[ -z $found ]]
}
# The programs, and every crate that they are built on, in `crates`. What crates.txt has no line for is of the toolchain.
find_crates() { # PROGRAM..
    local line name listed=() todo=("$@")
    local -A needs=() wanted=()
    crates=()
    [[ -r $root/crates.txt ]] || return 0
    while IFS= read -r line; do
        line=${line%%#*}
        [[ $line == *:* ]] || continue
        name=${line%%:*} name=${name//[[:space:]]/}
        needs[$name]=${line#*:}
        listed+=("$name")
    done <"$root/crates.txt"
    while ((${#todo[@]})); do
        name=${todo[-1]}
        unset 'todo[-1]'
        [[ -v needs[$name] && ! -v wanted[$name] ]] || continue
        wanted[$name]=1
        for name in ${needs[$name]}; do
            [[ -v wanted[$name] ]] || todo+=("$name")
        done
    done
    for name in "${listed[@]}"; do
        [[ ! -v wanted[$name] ]] || crates+=("$name")
    done
}
prove() { # PROGRAM..
    local name all log=$root/target/$self.log out line='' began=$SECONDS at=0 latest='' is_built=1 crates=()
    local -A waiting=()
    printf -v all '%s, ' "$@"
    all=${all%, }
    mkdir -p "$ready" "${log%/*}"
    # The folders of what rt keeps are there before the marks, so that no crate's folder is newer.
    find_crates "$@"
    ((${#crates[@]} == 0)) || (cd "$root/crates" && mkdir -p "${crates[@]/%//out}")
    for name; do
        [[ -x $root/target/bin/$name ]] || is_built=''
        rm -f "$ready/$name"
        marks+=("$ready/$name.$$")
        find_crates "$name"
        printf '%s\n' "$rt" "${crates[@]}" >"$ready/$name.$$"
    done
    find_crates "$@"
    for name in "${crates[@]}"; do waiting[$name]=1; done
    if [[ -n $is_built ]]; then
        echo "$self: looking whether $all is as the sources are; what has changed is proved again, which can take minutes" >&2
    else
        echo "$self: proving and building $all first; this happens once and takes minutes" >&2
    fi
    : >"$log"
    # With its own process group it can be ended whole.
    set -m
    make_programs "$@" >>"$log" 2>&1 </dev/null &
    job=$!
    set +m
    exec {out}<"$log"
    while kill -0 "$job" 2>/dev/null; do
        sleep 0.2
        follow
    done
    follow
    exec {out}<&-
    end_line
    wait "$job" || is_built=no
    job=''
    if [[ $is_built == no ]]; then
        tail -5 "$log" >&2
        (($# == 1)) || fail "$all are not all proved; target/$self.log says why"
        fail "$1 is not proved; target/$self.log says why"
    fi
    for name; do
        mv -f "$ready/$name.$$" "$ready/$name"
    done
    marks=()
    echo "$self: proved and built $all ($(spent))" >&2
}
# `rt run` proves a program and what it is built on, builds it and runs it, here on no input: that it came to run it says that it
# is proved and built.
make_programs() { # PROGRAM..
    local name log=$made/rt.log
    mkdir -p "$root/target/bin"
    for name; do
        (cd "$root/crates/$name" && rt run) 2>&1 | tee "$log" || true
        grep -q "^rt: running out/$name" "$log" || return 1
        rm -f "$root/target/bin/$name"
        cp "$root/crates/$name/out/$name" "$root/target/bin/$name"
    done
}
# Looks which crates rt has come to, and says so: on a terminal on one line, with the time, else on a line for each crate. rt
# prints a line of a crate when that is proved or was found proved.
follow() {
    local part
    while IFS= read -r part <&"$out"; do
        line+=$part
        [[ ! $line =~ ^(crate|library)\ ([[:alnum:]_]+): ]] || reach "${BASH_REMATCH[2]}"
        line=''
    done
    line+=$part
    if [[ -t 2 ]] && ((${#crates[@]})); then
        show_line "$self: proving crate $((at ? at : 1)) of ${#crates[@]}${latest:+, $latest} ($(spent) so far)"
    fi
}
reach() { # CRATE
    [[ -v waiting[$1] ]] || return 0
    unset "waiting[$1]"
    at=$((at + 1)) latest=$1
    [[ -t 2 ]] || echo "$self: proving crate $at of ${#crates[@]}, $1 ($(spent) so far)" >&2
}
# Writes over the line before, and over what it had more.
show_line() { # TEXT
    [[ $1 != "$shown" ]] || return 0
    printf '\r%-*s' "${#shown}" "$1" >&2
    shown=$1
}
end_line() {
    [[ -z $shown ]] || echo >&2
    shown=''
}
spent() {
    local seconds=$((SECONDS - began))
    ((seconds < 60)) || printf '%d min ' $((seconds / 60))
    printf '%d s' $((seconds % 60))
}
# The sheet, or the one that a text describes (.txt, tools/README.md), becomes standard input. Where names are asked for, a name
# that is not declared is left to the program, which refuses its record. A text that goes on from a parked file numbers its elements
# after those of the file.
open_sheet() { # SHEET [PARKED]
    exec <"$1"
    if [[ -n $names ]]; then
        # The names are read from it as well, and it may be a pipe.
        given=$made/given.sheet
        [[ $1 != *.txt ]] || given=$made/given.txt
        cat >"$given"
        exec <"$given"
    fi
    if [[ $1 == *.txt ]]; then
        "$root/tools/sheet" assemble ${names:+--undeclared} ${2:+"--parked=$2"} - -o "$made/sheet"
        exec <"$made/sheet"
    fi
}
# Runs the program, and prints its lines. The language has no exit status: the last line tells whether the sheet was run to its end.
print_lines() { # SHEET [ARG]..
    local sheet=$1
    shift
    if [[ -n $names ]]; then
        "$program" "$@" | tee "$made/lines" | "$root/tools/names" ${1:+"--parked=$1"} -- "$given"
    else
        "$program" "$@" | tee "$made/lines"
    fi || fail "$sheet: the program failed"
    [[ $(tail -n 1 "$made/lines") =~ ^(end|refused)\  ]] || fail "$sheet: the sheet was not run to its end"
}
