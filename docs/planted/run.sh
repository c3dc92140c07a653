#!/usr/bin/env bash
# Plants wrong definitions, one at a time, in a scratch copy of the crate `rules`, and says what refuses each: the must-fail edits of
# the crate, which the gate tries too, and those of faults.txt, which it does not. First the known answers and the cases are asked
# alone: they compute, so a refusal there is never one of a proof's text. What passes them is then tried with all laws. `run.sh`
# tries all, `run.sh LABEL..` some. A line for each: label | in words | verdict | statements that are no longer proved | why it is
# equal, where it is. Some five seconds each where the answers refuse, fifteen where the laws have to.
set -euo pipefail
here=$(cd "$(dirname "$0")" && pwd)
root=$(cd "$here/../.." && pwd)
work=$(mktemp -d)
trap 'rm -rf "$work"' EXIT

# the parts of a scratch crate `rules`: with its laws, or without them and with the cases, which are a crate of their own in the tree
lay() { # NAME
    local crate=$work/$1/crates/rules
    rm -rf "$crate"/{src,specs,proofs}
    mkdir -p "$crate"
    cp -R "$root/crates/rules/src" "$root/crates/rules/specs" "$crate/"
    if [ "$1" = laws ]; then
        cp -R "$root/crates/rules/proofs" "$crate/"
    else
        cp "$root/crates/answers/specs/Cases.antt" "$crate/specs/"
        echo 'pub mod Cases' >>"$crate/specs/Lib.antt"
    fi
    echo rules: >"$work/$1/crates.txt"
}
lay answers
lay laws

# applies an edit, in the form of a must-fail edit, to a scratch crate
apply() { # EDIT CRATE
    local file='' old='' line new
    while IFS= read -r line; do
        case $line in
        'file: '*) file=$2/${line#file: } ;;
        'old: '*) old=${line#old: } ;;
        'new:'*)
            new=${line#new:}
            [ -e "$file" ] || continue
            OLD=$old NEW=${new# } awk '{ text = text $0 "\n" } END { at = index(text, ENVIRON["OLD"]); if (!at) exit 1
                printf "%s%s%s", substr(text, 1, at - 1), ENVIRON["NEW"], substr(text, at + length(ENVIRON["OLD"])) }' \
                "$file" >"$work/edited" || { echo "not in $file: $old" >&2; exit 1; }
            cp "$work/edited" "$file"
            ;;
        esac
    done <"$1"
}

# the statements that are not proved with an edit, without those that only cite one of them; nothing where all are
refusers() { # EDIT NAME
    local crate=$work/$2/crates/rules
    apply "$1" "$crate"
    (cd "$crate" && rt check) >"$work/$2.log" 2>&1 || true
    lay "$2"
    if grep -q '^logic=not-proved' "$work/$2.log"; then
        { grep -vE 'was not admitted|is not admitted' "$work/$2.log" || true; } |
            sed -nE 's/^[^ ]*\/(specs|proofs)\/([A-Za-z]+)\.antt:[0-9]+:[0-9]+: error: `([^`]+)`.*/\2 \3/p' | sort -u | tr '\n' ';'
    elif ! grep -q '^logic=proved' "$work/$2.log"; then
        echo "no verdict"
    fi
}

# an edit of the crate, and a block of the file: the first line of a block is its label
mkdir "$work/edits"
for edit in "$root"/crates/rules/must-fail/*.edit; do
    label=$(basename "$edit" .edit)
    cp "$edit" "$work/edits/$label"
    echo "$label" >>"$work/labels"
done
awk -v into="$work/edits" 'BEGIN { RS = ""; FS = "\n" }
    { first = 1; while (first <= NF && $first ~ /^#/) first++ }
    first <= NF { file = into "/" $first; for (i = first + 1; i <= NF; i++) print $i >file; close(file); print $first }' \
    "$here/faults.txt" >>"$work/labels"
for scratch in answers laws; do (cd "$work/$scratch/crates/rules" && rt check) >"$work/log" 2>&1 && grep -q '^logic=proved' "$work/log"; done
while read -r label; do
    if [ $# -gt 0 ]; then case " $* " in *" $label "*) ;; *) continue ;; esac fi
    edit=$work/edits/$label
    by=$(refusers "$edit" answers)
    [ -n "$by" ] || by=$(refusers "$edit" laws)
    equal=$(sed -n 's/^equal: //p' "$edit")
    case $by in '') verdict='still proved' ;; 'no verdict') verdict='no verdict' by='' ;; *) verdict=refused ;; esac
    echo "$label | $(head -1 "$edit") | $verdict | $by | $equal"
done <"$work/labels"
