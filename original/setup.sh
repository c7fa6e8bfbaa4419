#!/bin/sh
# Lays out the original crate so that it builds offline: its published text, byte for byte, and stand-ins (shim-src, vendor) for what that text
# lacks. Nothing of the text is kept in this repository.
# usage: setup.sh [FOLDER of the text, with src/ in it; default: docs/src of the shared folder beside the repository]
set -eu
here=$(cd "$(dirname "$0")" && pwd)
from=${1:-$here/../../shared/docs/src}
[ -d "$from/src" ] || { echo "setup.sh: no folder $from/src: name the folder that holds the crate's src/" >&2; exit 2; }
rm -rf "$here/rustbus/src"
mkdir -p "$here/rustbus/src"
cp -r "$here/rustbus/shim-src/." "$here/rustbus/src/"
(cd "$from/src" && find . -name '*.rs') | while read -r f; do
    if [ -e "$here/rustbus/shim-src/$f" ]; then echo "a stand-in shadows the text: $f" >&2; exit 1; fi
    mkdir -p "$here/rustbus/src/$(dirname "$f")"
    cp "$from/src/$f" "$here/rustbus/src/$f"
    chmod u+w "$here/rustbus/src/$f"
    cmp "$from/src/$f" "$here/rustbus/src/$f"
done
