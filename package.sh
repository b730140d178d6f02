#!/bin/bash
# Makes what is installed of the built program, in the folder out/: a Debian package, a tar file, and the file SHA256SUMS of both.
#
#     ./package.sh [PROGRAM]        PROGRAM is the path of ftd, or that of the build of this repository
#
# They have the program, its manual page, completions for bash, zsh and fish, the pages, and the holidays. The page and the completions are made of what
# the program's help says, and the version is the one that it prints. The same program and the same commit give the same bytes: each file has the
# time SOURCE_DATE_EPOCH, or that of the commit. It needs Python 3, dpkg-deb, readelf and, without SOURCE_DATE_EPOCH, git. package/try.sh tries what it made.
set -euo pipefail
umask 022
program=$(realpath "${1:-$(dirname "$0")/crates/ftd/out/ftd}")
cd "$(dirname "$0")"
[ -x "$program" ] || { echo "no program $program: first run ./build.py or the test command" >&2; exit 1; }

export SOURCE_DATE_EPOCH=${SOURCE_DATE_EPOCH:-$(git log -1 --format=%ct)}
day=$(date -u -d "@$SOURCE_DATE_EPOCH" +%F)
version=$("$program" --version)
version=${version#ftd }
room=$(mktemp -d)
trap 'rm -r "$room"' EXIT

# puts all files below a folder: the first word; the second is where the pages are told to be, and the third the folder of zsh's completions
put() {
    local share=$1/share docs=$1/share/doc/ftd it
    install -D -m 755 "$program" "$1/bin/ftd"
    mkdir -p "$share/man/man1" "$share/bash-completion/completions" "$share/zsh/$3" "$share/fish/vendor_completions.d" "$docs/docs/pictures" "$docs/examples/holidays"
    python3 package/manual.py "$program" "$2" "$day" | gzip -9n > "$share/man/man1/ftd.1.gz"
    python3 package/completions.py "$program" bash > "$share/bash-completion/completions/ftd"
    python3 package/completions.py "$program" zsh > "$share/zsh/$3/_ftd"
    python3 package/completions.py "$program" fish > "$share/fish/vendor_completions.d/ftd.fish"
    install -m 644 README.md CHANGELOG.md "$docs"
    install -m 644 docs/*.md docs/openapi.json "$docs/docs"
    install -m 644 docs/pictures/* "$docs/docs/pictures"
    install -m 644 examples/holidays/* "$docs/examples/holidays"
    python3 package/debian.py copyright "$program" > "$docs/copyright"
}

# gives each file below a folder the one time
set_times() {
    find "$1" -exec touch -h -d "@$SOURCE_DATE_EPOCH" {} +
}

mkdir -p out
deb=ftd_${version}_amd64.deb
tree=$room/deb
put "$tree/usr" /usr/share/doc/ftd vendor-completions
python3 package/debian.py changelog "$program" | gzip -9n > "$tree/usr/share/doc/ftd/changelog.gz"
mkdir "$tree/DEBIAN"
python3 package/debian.py control "$program" "$tree" > "$tree/DEBIAN/control"
(cd "$tree" && find usr -type f -print0 | LC_ALL=C sort -z | xargs -0 md5sum > DEBIAN/md5sums)
set_times "$tree"
dpkg-deb --root-owner-group --threads-max=1 -Zxz --build "$tree" "out/$deb" > /dev/null

tar=ftd-$version-linux-x86_64.tar.gz
put "$room/ftd-$version" share/doc/ftd site-functions
set_times "$room/ftd-$version"
tar --sort=name --format=gnu --owner=0 --group=0 --numeric-owner -C "$room" -cf - "ftd-$version" | gzip -9n > "out/$tar"

(cd out && sha256sum "$deb" "$tar" > SHA256SUMS && cat SHA256SUMS)
