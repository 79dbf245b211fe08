#!/bin/bash
# Tries the wrong bodies and wrong statements of the crates that are named, or of all that have some: those right in
# must-fail/, which the gate tries too, and those in must-fail/more/, which it leaves alone (they end in .edit.md, since `rt ci`
# takes each .edit for one that it should try). The prover must refuse each.
#
#   tests/edits.sh [CRATE..]
#
# It works on a copy of the repository, in which all edits of a crate stand right in must-fail/. Each crate is checked as it
# stands, since the edits of a crate that isn't proved say nothing; then its edits are tried by `rt must-fail`. A line tells
# of each edit: refused, NOT REFUSED, BAD EDIT (it can't be applied, or what it makes can't be read) or NOT TRIED; where it
# wasn't refused, what was said stands below. The last line counts them. The status is 0 where all were refused, else 1, and
# 2 where a crate has no edits or two of one name.
set -euo pipefail
shopt -s nullglob

top=$(cd "$(dirname "${BASH_SOURCE[0]}")/.." && pwd)
room=$(mktemp -d)
trap 'rm -rf "$room"' EXIT
refused=0
all=0

# Sets the waiting edits of a crate beside the others.
gather() {
    local folder=$room/crates/$1/must-fail edit name
    for edit in "$folder"/more/*; do
        name=$(basename "${edit%.md}" .edit)
        if [[ -e $folder/$name.edit ]]; then
            echo "$1: two edits are named $name" >&2
            exit 2
        fi
        mv "$edit" "$folder/$name.edit"
    done
    rm -rf "$folder/more"
}

# Tries the edits of a crate; what is said goes into the file `said` of the room.
try() {
    : >"$room/said"
    if (cd "$room/crates/$1" && rt check) >"$room/check" 2>&1; then
        (cd "$room" && rt must-fail "$1") >"$room/said" 2>&1 || true
    else
        echo "$1: it is not proved as it stands, so its edits aren't tried; the end of what its check said:"
        tail -n 5 "$room/check"
    fi
}

# Prints a line for each edit of a crate, and counts them.
tell() {
    local edit name said kind
    for edit in "$room/crates/$1/must-fail"/*.edit; do
        name=$(basename "$edit" .edit)
        said=$(grep -m 1 -F "must-fail $1/$name.edit: " "$room/said" || true)
        case $said in
        *.edit:\ refused,*) kind=refused ;;
        *.edit:\ NOT\ REFUSED*) kind="NOT REFUSED" ;;
        *.edit:\ BAD\ EDIT*) kind="BAD EDIT" ;;
        *) kind="NOT TRIED" ;;
        esac
        echo "$1 $name: $kind"
        all=$((all + 1))
        if [[ $kind == refused ]]; then refused=$((refused + 1)); else echo "    ${said:-nothing was said of it}"; fi
    done
}

tar -C "$top" --exclude='crates/*/out' -cf - HANDLES crates.txt crates | tar -C "$room" -xf -
mapfile -t crates < <(cd "$top/crates" && printf '%s\n' */must-fail/*.edit */must-fail/more/* | cut -d/ -f1 | sort -u)
[[ $# -eq 0 ]] || crates=("$@")
for crate in "${crates[@]}"; do
    gather "$crate"
    if [[ -z $(echo "$room/crates/$crate/must-fail"/*.edit) ]]; then
        echo "$crate: no crate with edits" >&2
        exit 2
    fi
    try "$crate"
    tell "$crate"
done
echo "$refused of $all edits refused"
[[ $refused -eq $all ]]
