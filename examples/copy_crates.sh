#!/bin/sh
# Copies crates into a repository of your own, with their dependencies and their lines of crates.txt.
#
# Usage: examples/copy_crates.sh FOLDER CRATE ..
#
# FOLDER is the top of the repository. Crates that it has already stay as they are.
set -eu
here=$(cd "$(dirname "$0")/.." && pwd)
folder=$1
shift
mkdir -p "$folder/crates"
touch "$folder/crates.txt"

# Adds the dependencies of all crates, until there is no new one.
wanted=" $* "
while :; do
    before=$wanted
    for name in $wanted; do
        for other in $(sed -n "s/^$name\( [a-z]*\)*://p" "$here/crates.txt"); do
            case $wanted in *" $other "*) ;; *) [ ! -d "$here/crates/$other" ] || wanted="$wanted$other " ;; esac
        done
    done
    [ "$wanted" != "$before" ] || break
done

for name in $wanted; do
    [ ! -d "$folder/crates/$name" ] || continue
    mkdir "$folder/crates/$name"
    for part in src specs proofs; do
        [ ! -d "$here/crates/$name/$part" ] || cp -R "$here/crates/$name/$part" "$folder/crates/$name/"
    done
    grep "^$name[ :]" "$here/crates.txt" >>"$folder/crates.txt"
done
