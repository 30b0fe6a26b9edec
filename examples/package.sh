#!/bin/sh
# Makes a Debian package and a tar file of the proved program: program, man page, completions, header, libraries and the Python
# module, with SHA256SUMS. Two runs on one commit make the same bytes.
#
#     examples/package.sh [FOLDER]        (examples/out/package if left out)
#
# It builds the program by `rt run` (which proves all of it) and the library by `rt lib`, where that has not been done.
set -eu
cd "$(dirname "$0")/.."
out=${1:-examples/out/package}
kit=$(dirname "$(dirname "$(readlink -f "$(command -v rt)")")")
version=$(sed -n 's/^const VERSION: &str = "\([0-9.]*\).*/\1/p' crates/sgt_command_line/src/commands.rt)
SOURCE_DATE_EPOCH=$(git log -1 --format=%ct)
export SOURCE_DATE_EPOCH
TZ=UTC
LC_ALL=C
export TZ LC_ALL
umask 022

(cd crates/sgt && rt run < stdin > /dev/null)
(cd crates/sgt_c && rt lib > /dev/null)

name=sgt_${version}_amd64
room=$(mktemp -d)
trap 'rm -rf "$room"' EXIT
root=$room/$name
lib=usr/lib/x86_64-linux-gnu

# put MODE FILE PLACE
put() { install -D -m "$1" "$2" "$root/$3"; }

put 755 crates/sgt/out/sgt usr/bin/sgt
mkdir -p "$root/usr/share/man/man1" "$root/$lib"
gzip -9n < docs/sgt.1 > "$root/usr/share/man/man1/sgt.1.gz"
put 644 docs/sgt.bash usr/share/bash-completion/completions/sgt
[ ! -f docs/sgt.zsh ] || put 644 docs/sgt.zsh usr/share/zsh/vendor-completions/_sgt
[ ! -f docs/sgt.fish ] || put 644 docs/sgt.fish usr/share/fish/vendor_completions.d/sgt.fish
put 644 crates/sgt_c/sgt.h usr/include/sgt.h
put 644 examples/python/sgt.py usr/lib/python3/dist-packages/sgt.py
printf 'CREATE %s\nADDLIB crates/sgt_c/out/libsgt_c.a\nADDLIB %s/c/liblibc_c.a\nSAVE\nEND\n' "$room/libsgt.a" "$kit" | ar -M
objcopy --enable-deterministic-archives "$room/libsgt.a"
echo '{ global: sgt_*; local: *; };' > "$room/sgt.map"
(cd "$room" && gcc -shared -Wl,--build-id=none -Wl,--version-script=sgt.map -Wl,--gc-sections -Wl,--whole-archive libsgt.a \
    -Wl,--no-whole-archive -o libsgt.so)
put 644 "$room/libsgt.a" "$lib/libsgt.a"
put 644 "$room/libsgt.so" "$lib/libsgt.so"
for page in README.md CHANGELOG.md docs/*.md; do put 644 "$page" "usr/share/doc/sgt/$(basename "$page")"; done

(cd "$room" && find "$name" -exec touch -hcd "@$SOURCE_DATE_EPOCH" {} +)
mkdir -p "$out"
rm -f "$out/$name.tar.gz" "$out/$name.deb"
(cd "$room" && tar --sort=name --mtime="@$SOURCE_DATE_EPOCH" --owner=0 --group=0 --numeric-owner --format=gnu -cf - "$name") | gzip -9n > "$out/$name.tar.gz"

mkdir "$root/DEBIAN"
cat > "$root/DEBIAN/control" <<END
Package: sgt
Version: $version
Architecture: amd64
Maintainer: nobody named
Depends: libc6
Section: database
Priority: optional
Description: judges whether transactions were serializable, by proved code
 Audits the logs of certified runs, judges histories of databases, certifies
 transactions by serialization graph testing.
END
(cd "$root" && find usr -type f | sort | xargs md5sum) > "$root/DEBIAN/md5sums"
find "$root" -exec touch -hcd "@$SOURCE_DATE_EPOCH" {} +
dpkg-deb --root-owner-group -Zgzip --build "$root" "$out/$name.deb" > /dev/null
(cd "$out" && sha256sum "$name.deb" "$name.tar.gz" > SHA256SUMS && cat SHA256SUMS)
