#!/bin/bash
# Makes the packages: three Debian packages, a Python wheel, a tarball, and their SHA-256 checksums.
#
# Usage: packaging/build.sh OUT
#
# The programs and the library are proved and built first, or taken from the folder LIMBERLIME_BUILT
# (packaging/built.sh). The version is that of include/limberlime.h. Two runs over the same commit and the same programs
# make the same bytes. File times are those of the commit, or SOURCE_DATE_EPOCH.
set -euo pipefail
needed="binutils dpkg-dev gcc git libc6-dev make python3"
# shellcheck disable=SC2086
dpkg -s $needed >/dev/null 2>&1 || apt-get install -y --no-install-recommends $needed

umask 022
export LC_ALL=C.UTF-8 TZ=UTC PYTHONDONTWRITEBYTECODE=1
packaging=$(cd "$(dirname "$0")" && pwd)
top=$(dirname "$packaging")
mkdir -p "$1"
out=$(cd "$1" && pwd)
work=$(mktemp -d)
trap 'rm -rf "$work"' EXIT

SOURCE_DATE_EPOCH=${SOURCE_DATE_EPOCH:-$(git -C "$top" log -1 --format=%ct)}
export SOURCE_DATE_EPOCH
triplet=x86_64-linux-gnu
make_library() {
    make --no-print-directory -s -C "$top/bindings" OUT="$work/library" PDB_C="$work/built/libpdb_c.a" \
        MEMORY="$work/built/liblibc_c.a" "$@"
}
version=$(make_library version)
soname=$(make_library soname)
library=liblimberlime${soname#liblimberlime.so.}

# Stops if a version differs from the header's.
same_version() {
    [ "$2" = "$version" ] && return
    echo "build.sh: include/limberlime.h has the version $version, and $1 has $2" >&2
    exit 1
}

# Prints the version that the library returns.
library_version() {
    printf '#include <stdio.h>\n#include "limberlime.h"\nint main(void) {\n%s\n%s\n}\n' \
        'int64_t v = limberlime_version();' \
        'printf("%d.%d.%d\n", (int)(v / 1000000), (int)(v / 1000 % 1000), (int)(v % 1000));' >"$work/version.c"
    gcc -I "$top/include" -o "$work/version" "$work/version.c" "$work/library/liblimberlime.a"
    "$work/version"
}

# Prints the newest glibc version that any of the files needs.
glibc_of() {
    objdump -T "$@" | grep -o 'GLIBC_[0-9.]*' | cut -d _ -f 2 | sort -V | tail -n 1
}

same_version CHANGELOG.md "$("$packaging/changelog.py" version)"
same_version bindings/rust/Cargo.toml "$(sed -n 's/^version = "\(.*\)"/\1/p' "$top/bindings/rust/Cargo.toml")"
"$packaging/built.sh" "$work/built" pdb_symbolizer pdb_report libpdb_c.a liblibc_c.a
same_version pdb_symbolizer "$("$work/built/pdb_symbolizer" --version | cut -d ' ' -f 2)"
strip --strip-unneeded "$work/built/pdb_symbolizer" "$work/built/pdb_report"
make_library liblimberlime.so
same_version "the library" "$(library_version)"
strip --strip-debug --enable-deterministic-archives "$work/library/liblimberlime.a"
strip --strip-unneeded "$work/library/liblimberlime.so"
glibc=$(glibc_of "$work"/built/pdb_* "$work/library/liblimberlime.so")

# Installs the programs with their man pages and completions below a prefix.
install_programs() {
    install -d "$1/bin" "$1/share/man/man1" "$1/share/bash-completion/completions" "$1/share/zsh/vendor-completions" \
        "$1/share/fish/vendor_completions.d"
    install -m 755 "$work/built/pdb_symbolizer" "$work/built/pdb_report" "$1/bin"
    install -m 644 "$work/pages/pdb_symbolizer.1" "$work/pages/pdb_report.1" "$1/share/man/man1"
    for program in pdb_symbolizer pdb_report; do
        install -m 644 "$work/pages/$program.bash" "$1/share/bash-completion/completions/$program"
    done
    install -m 644 "$work/pages/pdb_symbolizer.zsh" "$1/share/zsh/vendor-completions/_pdb_symbolizer"
    install -m 644 "$work/pages/pdb_symbolizer.fish" "$1/share/fish/vendor_completions.d"
}

# Sets all file times below a folder to the commit's.
set_times() {
    find "$1" -exec touch -h -d "@$SOURCE_DATE_EPOCH" {} +
}

# Makes a Debian package of the files below $work/NAME, with the control file in $packaging/files.
debian_package() {
    root=$work/$1
    doc=$root/usr/share/doc/$1
    install -d "$doc" "$root/DEBIAN"
    cp "$work/copyright" "$doc/copyright"
    gzip -9nc "$work/changelog" >"$doc/changelog.gz"
    {
        sed -e "s/@GLIBC@/$glibc/" -e "s/@VERSION@/$version/" -e "s/@LIBRARY@/$library/" "$packaging/files/$2.control" |
            sed '/^Description:/,$d'
        printf 'Version: %s\nArchitecture: amd64\nPriority: optional\nMaintainer: %s\nInstalled-Size: %s\n' "$version" \
            "Limberlime maintainers <maintainers@users.noreply.limberlime.example>" \
            "$(du -k --apparent-size -s "$root" | cut -f 1)"
        sed -n '/^Description:/,$p' "$packaging/files/$2.control"
    } >"$root/DEBIAN/control"
    (cd "$root" && find usr -type f | sort | xargs md5sum) >"$root/DEBIAN/md5sums"
    chmod 644 "$root"/DEBIAN/*
    set_times "$root"
    DPKG_DEB_THREADS_MAX=1 dpkg-deb --root-owner-group -Zxz --build "$root" "$out/$1_${version}_amd64.deb" >/dev/null
}

install -d "$work/pages"
date=$(date -d "@$SOURCE_DATE_EPOCH" +%Y-%m-%d)
"$packaging/pages.py" "$work/built/pdb_symbolizer" "$packaging/files/pdb_symbolizer.1" "$version" "$date" "$work/pages"
sed -e "s/@VERSION@/$version/" -e "s/@DATE@/$date/" "$packaging/files/pdb_report.1" >"$work/pages/pdb_report.1"
cp "$packaging/files/pdb_report.bash" "$work/pages"
"$packaging/changelog.py" debian "$(date -R -d "@$SOURCE_DATE_EPOCH")" >"$work/changelog"
sed -e '1,/^$/d' -e 's/^$/./' -e 's/^/ /' "$top/LICENSE-MIT" >"$work/mit"
sed -e "/@MIT@/{r $work/mit" -e 'd}' "$packaging/files/copyright" >"$work/copyright"

rm -f "$out"/*limberlime*
install_programs "$work/limberlime/usr"
gzip -9n "$work"/limberlime/usr/share/man/man1/*.1
debian_package limberlime limberlime
make_library install-shared DESTDIR="$work/$library" PREFIX=/usr LIBDIR=lib/$triplet
install -d "$work/$library/DEBIAN"
echo "liblimberlime ${soname#liblimberlime.so.} $library (>= $version)" >"$work/$library/DEBIAN/shlibs"
echo 'activate-noawait ldconfig' >"$work/$library/DEBIAN/triggers"
debian_package "$library" liblimberlime
make_library install-development DESTDIR="$work/liblimberlime-dev" PREFIX=/usr LIBDIR=lib/$triplet
debian_package liblimberlime-dev liblimberlime-dev

platform=manylinux_$(glibc_of "$work/library/liblimberlime.so" | tr . _)_x86_64
"$top/bindings/python/make_wheel.py" "$out" "$work/library/liblimberlime.so" "$platform" >/dev/null

# The tarball has everything except the wheel, in one folder. Its files for pkg-config and CMake work wherever it is
# unpacked.
name=limberlime-$version-x86_64-linux
install_programs "$work/$name"
make_library install DESTDIR="$work" PREFIX="/$name" PC_PREFIX='$${pcfiledir}/../..'
cp "$top/LICENSE-APACHE" "$top/LICENSE-MIT" "$top/CHANGELOG.md" "$work/$name"
set_times "$work/$name"
tar -C "$work" --sort=name --owner=0 --group=0 --numeric-owner -cf - "$name" | gzip -9n >"$out/$name.tar.gz"

(cd "$out" && sha256sum ./*limberlime*[!S] | sed 's|\./||' >"$work/SHA256SUMS")
mv "$work/SHA256SUMS" "$out"
echo "limberlime $version, for glibc $glibc or later:"
(cd "$out" && ls -s --block-size=1K ./*limberlime* SHA256SUMS)
