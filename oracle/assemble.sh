#!/bin/sh
# assemble.sh OUT: puts the sources of the crate pdb 0.8.0 and of the oracle together in the folder OUT: the crate's published files, byte for
# byte, from published/, the stand-ins and the command line from here, and scroll and fallible-iterator, to OUT/vendor, from Debian's packages
# librust-scroll-dev and librust-fallible-iterator-dev: those that are installed, or else fetched ones (scripts/x86-64 fetched).
set -eu
here=$(cd "$(dirname "$0")" && pwd -P)
top=$(dirname "$here")
published=$here/published
[ $# -eq 1 ] || { echo "usage: assemble.sh OUT" >&2; exit 2; }
mkdir -p "$1" && out=$(cd "$1" && pwd -P)
cp -R "$here/Cargo.toml" "$here/cli" "$here/pdb" "$here/sheet.py" "$out/"
(cd "$published" && find . -name '*.rs') | while read -r f; do
    case $f in
    ./modi/c13.rs) to=modi/c13_published.rs ;;
    ./msf/mod.rs) to=msf/mod_published.rs ;;
    *) to=$f ;;
    esac
    mkdir -p "$(dirname "$out/pdb/src/$to")"
    cp "$published/$f" "$out/pdb/src/$to"
done
registry=/usr/share/cargo/registry
dpkg -L librust-scroll-dev librust-fallible-iterator-dev >/dev/null 2>&1 || registry=$("$top/scripts/x86-64" fetched)/root$registry
rm -rf "$out/vendor"
mkdir -p "$out/vendor"
for p in scroll fallible-iterator; do
    cp -RL "$registry/$p"-[0-9]* "$out/vendor/"
done
