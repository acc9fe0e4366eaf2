#!/bin/sh
# Runs NuSMV on the stored texts: the worked example, and the examples of locks. Where NuSMV is not
# installed it says so and runs nothing. It fails if NuSMV does not take a text.
cd "$(dirname "$0")/.." || exit 1
if ! command -v NuSMV > /dev/null; then
    echo "NuSMV is not installed here: no text was run."
    exit 0
fi
work=$(mktemp -d) || exit 1
trap 'rm -rf "$work"' EXIT
cp crates/model/stdout "$work/worked.smv"
cp examples/*.smv "$work/"
for text in "$work"/*.smv; do
    echo "== $(basename "$text")"
    NuSMV "$text" > "$work/out" 2>&1 || { cat "$work/out"; exit 1; }
    grep -E '^-- specification' "$work/out" || { cat "$work/out"; exit 1; }
done
