#!/bin/sh
# figures.sh: lines of each crate's code, definitions, laws and proofs of functions, and how many must-fail edits it has.
set -eu
cd "$(dirname "$0")/.."

lines() {
    find "$@" -type f 2> /dev/null -exec cat {} + | wc -l
}

echo "| Crate | Code | Specs | Laws | Proofs | Edits |"
echo "|---|---|---|---|---|---|"
sed -n 's/^\([a-z_]*\)\( staticlib\)\{0,1\}:.*/\1/p' crates.txt | while read -r name; do
    folder=crates/$name
    edits=$(find "$folder" -path "$folder/must-fail/*.edit" | wc -l)
    echo "| $name | $(lines "$folder/src") | $(lines "$folder/specs") | $(lines "$folder/proofs" -maxdepth 1)" \
        "| $(lines "$folder/proofs" -mindepth 2) | $edits |"
done
