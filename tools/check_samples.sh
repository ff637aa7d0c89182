#!/usr/bin/env bash
# Looks at the codes of the sample contracts with the tools of wabt, where they are on the machine: wasm-validate
# takes each code, and wasm2wat's text has as many functions, imports and exports as the table says. Run it after
# rt ci.
set -eu

for tool in wasm-validate wasm2wat; do
    if ! command -v "$tool" >/dev/null; then
        echo "check_samples: $tool is not on this machine, so nothing was looked at (the package is wabt)"
        exit 0
    fi
done

top=$(cd "$(dirname "$0")/.." && pwd)
crate=$top/crates/sample_codes
program=$crate/out/sample_codes
work=$(mktemp -d)
trap 'rm -rf "$work"' EXIT

newer() {
    find "$top/crates" "$top/crates.txt" -name out -prune -o -type f -newer "$program" -print -quit
}

if [ ! -x "$program" ] || [ -n "$(newer)" ]; then
    (cd "$crate" && rt run -- echo) >"$work/log" 2>&1 || {
        cat "$work/log"
        exit 1
    }
fi

# how often an item of this sort stands in a text; an import's own function doesn't count
items() {
    grep -c "^  ($1 " "$2" || true
}

failed=0
expect() {
    local name=$1 wanted="$2 functions, $3 imports, $4 exports" found
    "$program" "$name" >"$work/$name.wasm"
    if ! wasm-validate "$work/$name.wasm" || ! wasm2wat "$work/$name.wasm" -o "$work/$name.wat"; then
        echo "check_samples: $name is refused"
        failed=1
        return
    fi
    found="$(items func "$work/$name.wat") functions, $(items import "$work/$name.wat") imports"
    found="$found, $(items export "$work/$name.wat") exports"
    if [ "$found" = "$wanted" ]; then
        echo "check_samples: $name is valid, with $found"
    else
        echo "check_samples: $name has $found, and not $wanted"
        failed=1
    fi
}

#      sample functions imports exports
expect echo   9         0       9
expect spin   9         0       9
expect keeper 9         1       9
expect common 9         15      9
expect sign   9         15      9
exit "$failed"
