# shellcheck shell=bash
# What the scripts share: they look for the tools that they need, and show where a run of rt is. Sourced, from the repository's root.

# Names each tool that is missing or does not start, with what it is for, and stops if there is one.
# usage: need TOOL 'what it is for' [TOOL 'what it is for' ..]
need() {
    local asked missing=0
    while [ $# -gt 0 ]; do
        asked=--version
        [ "$1" != rt ] || asked=version
        if ! "$1" "$asked" >/dev/null 2>&1; then
            echo "$0: missing: $1, $2" >&2
            missing=1
        fi
        shift 2
    done
    [ "$missing" = 0 ] || exit 2
}

# Proves a crate and those below it, over what earlier runs kept, and runs the program or builds the library: rt VERB in its folder, without input. FILE
# gets all that rt says; it prints a line for each crate that is proved now, and where one is not, what the prover said first, and stops.
prove() { # VERB CRATE FILE
    local line crate=
    mkdir -p "${3%/*}"
    if ! (cd "crates/$2" && rt "$1" 2>&1 </dev/null) | tee "$3" | while IFS= read -r line; do
        case $line in
        'crate '*': modules loaded='*) crate=${line#crate } ;;
        'logic=proved '*) echo "${0##*/}: ${crate%%:*} proved" >&2 ;;
        esac
    done; then
        grep -m 8 -e ': error' -e 'no proof' -e 'not proved' "$3" | cut -c 1-600 >&2 || tail -n 8 "$3" >&2
        echo "${0##*/}: not proved; all that rt said is in $3" >&2
        exit 1
    fi
}

# Reads what rt ci prints: appends all of it to FILE, and prints a short line for each crate, edit and program as it ends.
# usage: rt ci 2>&1 | progress TOTAL FILE
progress() {
    local total=$1 file=$2 ended=0 line text
    mkdir -p "${file%/*}"
    while IFS= read -r line || [ -n "$line" ]; do
        printf '%s\n' "$line" >>"$file"
        text=${line#rt: }
        case $line in
        'rt: FAILED:'* | 'rt: '*': its tests are proved') continue ;;
        'rt: must-fail '*': refused'*) text="${text%%: refused*} refused" ;;
        'rt: must-fail '*) ;;
        'rt: '*' is kept: '*) text="${text%% *} proved by an earlier run" ;;
        'rt: '*' proved') ;;
        'rt: '*' ran, and wrote '* | 'rt: '*' ran (built by '*)
            echo "${text%%, and wrote*}"
            continue
            ;;
        'rt: '*' NOT PROVED'*) ;;
        *) continue ;;
        esac
        ended=$((ended + 1))
        printf '[%d/%d] %s\n' "$ended" "$total" "$text"
    done
}
