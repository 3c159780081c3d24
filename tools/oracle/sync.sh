#!/bin/sh
# Lays the original files out among the stand-ins, byte for byte.
# usage: ./sync.sh TREE   TREE holds altrios-core/src/...
set -eu
tree=$(cd "$1" && pwd)
cd "$(dirname "$0")"
n=0
for f in $(cd "$tree" && find altrios-core -name '*.rs'); do
    mkdir -p "$(dirname "$f")"
    cmp -s "$tree/$f" "$f" || cp -f "$tree/$f" "$f"
    n=$((n + 1))
done
(cd "$tree" && find altrios-core -name '*.rs' -exec sha256sum {} +) | sort -k2 >original.sha256
echo "$n original files in place, byte for byte"
