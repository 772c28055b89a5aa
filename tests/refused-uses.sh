#!/usr/bin/env bash
# Two uses of a job that the compiler refuses: each text of docs/refused is proved without its marked line, and with that
# line it is refused under the name that the text gives. Prints the advice for each. The work is done on a copy of the crates
# outside the checkout, without their edits; what checks on this machine kept of the crates below is not proved again.
set -u -o pipefail
cd "$(dirname "$0")/.." || exit 2
work=$(mktemp -d) || exit 2
trap 'rm -rf "$work"' EXIT
crate=misuse
tar -cf - --exclude='crates/*/out' --exclude='crates/*/must-fail' crates crates.txt | tar -xf - -C "$work" || exit 2
echo "$crate: words grade limit runs sweep job setpoint" >>"$work/crates.txt"
mkdir -p "$work/crates/$crate/src"

status=0
complain() { echo "refused-uses: $1"; status=1; }
check() { (cd "$work/crates/$crate" && rt check) >"$work/log" 2>&1; }

for text in docs/refused/*.rt.txt; do
    use=$(basename "$text" .rt.txt)
    advice=$(sed -n 's|^// advice: ||p' "$text")
    name=$(sed -n 's|^// refused as: ||p' "$text")
    [ -n "$advice" ] && [ -n "$name" ] && [ "$(grep -c '// refused$' "$text")" = 1 ] || { complain "$text lacks its advice, its error or its mark"; continue; }
    source=$work/crates/$crate/src/lib.rt
    sed '/\/\/ refused$/d' "$text" >"$source"
    check || { complain "$use is not proved without its marked line"; tail -n 20 "$work/log"; continue; }
    cp "$text" "$source"
    if check; then
        complain "$use is not refused"
    elif ! grep -qF "src/lib.rt:$(grep -n '// refused$' "$text" | cut -d: -f1):" "$work/log" || ! grep -qF "error[$name]" "$work/log"; then
        complain "$use is refused, and not as $name at its marked line"
        tail -n 20 "$work/log"
    else
        echo "$use: refused ($name): $advice"
    fi
done
exit $status
