#!/usr/bin/env bash
# tools/build.sh NAME..: proves and builds, from any folder, what is named: a program into target/bin/NAME, and `engine` as the
# library that C links, target/staticlib/libengine.a (crate engine_c). What was proved before is not proved again.
set -euo pipefail
cd "$(dirname "$0")/.."
usage="usage: tools/build.sh NAME.. (a program of crates.txt, or engine for the library for C)"
[ $# -gt 0 ] || { echo "$usage" >&2; exit 2; }
[ "$1" != --help ] || { echo "$usage"; exit; }
for name; do
    [ "$name" = engine ] || [ -f "crates/$name/src/main.rt" ] || { echo "tools/build.sh: $name is no program" >&2; exit 2; }
done
command -v rt >/dev/null || { echo "tools/build.sh: rt, the Rattle kit's command, is not on the path" >&2; exit 2; }

# Names each crate as it is proved.
proved() {
    sed -un 's/^crate \([a-z_0-9]*\): .*/proved: \1/p' >&2
}

# Runs a command in a crate's folder; what else it prints is shown only if it fails.
within() { # CRATE COMMAND..
    local said
    said=$(mktemp)
    (cd "crates/$1" && shift && "$@") 2>&1 </dev/null | tee "$said" | proved || { cat "$said" >&2; rm -f "$said"; return 1; }
    rm -f "$said"
}

echo "tools/build.sh: proving what $* needs; the first time this takes some 20 minutes" >&2

for name; do
    if [ "$name" = engine ]; then
        within engine_c rt lib
        install -D -m 644 crates/engine_c/out/libengine_c.a target/staticlib/libengine.a
        echo "target/staticlib/libengine.a"
    else
        within "$name" rt run
        install -D -m 755 "crates/$name/out/$name" "target/bin/$name"
        echo "target/bin/$name"
    fi
done
