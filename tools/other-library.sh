#!/usr/bin/env bash
# A library that is not that of crates/, for tests. Sourced in the repository's folder with `work` set to a folder under target/, this empties it, copies
# the crates' sources to a folder outside the checkout, where no check of it finds them, and gives
#   $copy                 that folder, which is gone when the script ends
#   change FILE OLD NEW   in a file of the copy, where OLD stands once
#   call_it VERSION       the version that the library of the copy gives; $version is that of crates/
# tools/archive/module.sh then compiles the copy, without its proofs.
set -eu
version=$(sed -n 's/^#define MYRKOSTI_VERSION //p' include/myrkosti.h)
rm -rf "$work" "${copy:-}"
mkdir -p "$work"
copy=$(mktemp -d)
trap 'rm -rf "$copy"' EXIT
for source in crates/*/src; do
    mkdir -p "$copy/${source%/src}"
    cp -r "$source" "$copy/$source"
done
cp crates.txt "$copy/"

change() {
    local file=$copy/crates/$1
    [ "$(grep -cF -- "$2" "$file")" = 1 ] || { echo "$1: not one place for: $2" >&2; exit 1; }
    python3 - "$file" "$2" "$3" << 'END'
import pathlib, sys
file, old, new = sys.argv[1:]
path = pathlib.Path(file)
path.write_text(path.read_text().replace(old, new))
END
}
call_it() { change myrkosti/src/lib.rt "    $version" "    $1"; }
