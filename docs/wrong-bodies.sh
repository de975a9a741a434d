#!/usr/bin/env bash
# Writes docs/WRONG_BODIES.md: every edit that the prover has to refuse, by crate, from crates/*/must-fail/*.edit.
# With --check it writes nothing, and fails where the page is not what it would write.
# An edit may open with a line that says what is wrong; where it does not, its change is shown.
# The page ends with how many edits each function and definition has, which is printed too.
set -eu
export LC_ALL=C # one order of files everywhere
cd "$(dirname "$0")/.."

# The edit's label, what is wrong, and the file that it changes, as one row.
row() { # FILE
    sed 's/|/\\|/g' "$1" | awk -v label="$(basename "$1" .edit)" '
        function plain(text) {
            gsub(/^[ \t]+|[ \t]+$/, "", text)
            return text
        }
        NR == 1 && !/^file:/ { said = $0 }
        /^file:/ { file = plain(substr($0, 6)) }
        /^old:/ && old == "" { old = plain(substr($0, 5)) }
        /^new:/ && new == "" { new = plain(substr($0, 5)) }
        END {
            if (said == "") said = "`` " old " `` becomes `` " new " ``"
            printf "| %s | %s | %s |\n", label, plain(said), file
        }'
}

# The function or the definition that an edit changes: the last to begin at or before the line that holds its last old text.
place() { # FILE
    file=$(dirname "$(dirname "$1")")/$(sed -n 's/^file: *//p' "$1" | head -n 1)
    old=$(sed -n 's/^old: //p' "$1" | tail -n 1) awk '
        /^impl / { within = $2 "::" }
        /^}/ { within = "" }
        /^ *(pub )?(extern "C" )?fn / { name = $0; sub(/^.*fn /, "", name); sub(/[^a-z0-9_].*/, "", name); name = within name }
        FILENAME ~ /antt$/ && /^[^ ]/ && !/^(use|--|unfolding|module) / {
            name = $0
            while (sub(/^(abbrev|unfoldable|pub|record|data) /, "", name)) { }
            sub(/ .*/, "", name)
        }
        index($0, ENVIRON["old"]) { print name == "" ? "its constants" : name; exit }' "$file"
}

page() {
    echo "# Wrong bodies and wrong definitions"
    echo
    echo "Every edit below is tried by \`./test\`: it is made in a copy of its crate, and the prover must refuse the copy because a fact no longer holds. This page is made by \`docs/wrong-bodies.sh\`."
    for folder in crates/*/must-fail; do
        crate=$(basename "$(dirname "$folder")")
        edits=("$folder"/*.edit)
        echo
        echo "## $crate (${#edits[@]})"
        echo
        echo "| edit | what is wrong | in |"
        echo "|---|---|---|"
        for edit in "${edits[@]}"; do
            row "$edit"
        done
    done
    echo
    echo "## How many each has"
    echo
    echo "A public call has two at least, in its own crate and in those below that do its work; another function one, or two where its promise has two halves. So a new edit goes where there is none yet."
    echo
    echo "| crate | functions and definitions |"
    echo "|---|---|"
    for folder in crates/*/must-fail; do
        crate=$(basename "$(dirname "$folder")")
        counted=$(for edit in "$folder"/*.edit; do place "$edit"; done | sort | uniq -c | awk '{ n = $1; sub(/^ *[0-9]+ /, ""); printf "%s`%s` %d", sep, $0, n; sep = ", " }')
        echo "| $crate | $counted |"
    done
    echo
    all=(crates/*/must-fail/*.edit)
    echo "${#all[@]} in all."
}

if [ "${1:-}" = --check ]; then
    page | cmp -s - docs/WRONG_BODIES.md || {
        echo "docs/WRONG_BODIES.md is old: run docs/wrong-bodies.sh" >&2
        exit 1
    }
else
    page >docs/WRONG_BODIES.md
    sed -n '/^## How many each has/,$p' docs/WRONG_BODIES.md
fi
