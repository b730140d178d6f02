#!/bin/bash
# Tries what ./package.sh made, by the commands of docs/INSTALL.md:
#
#     package/try.sh [FOLDER [SYSTEM]]      FOLDER has what was made, out/ if none is given; SYSTEM is a folder with a clean Debian, which debootstrap makes if none is given
#
# - groff, man and mandoc find no fault in the manual page, and lintian none in the package but those that are named below.
# - On a clean system of its own, in a folder below /tmp, the package is installed, and then the tar file is unpacked in the home of a user who is not root: the sums are
#   right, ftd --version and man -w ftd work, and each command of docs/TUTORIAL.md prints what stands below it there.
# - bash, zsh and fish complete as the program's help says (package/try_completions.py).
# - After the removal each file of the system is as before, and none has ftd in its name, but the user's own.
# It needs root, Python 3, and Debian's groff, man-db, mandoc, lintian, zsh, fish and debootstrap. If debootstrap can't make a system, as without a network, dpkg puts
# the package into an empty folder, and takes it out again: nothing may be left, and the program runs there.
set -euo pipefail
made=$(realpath "${1:-$(dirname "$0")/../out}")
system=${2:+$(realpath "$2")}
cd "$(dirname "$0")/.."
room=$(mktemp -d)
trap 'rm -rf "$room"' EXIT
root=$room/system
deb=$(awk '/\.deb$/ { print $2 }' "$made/SHA256SUMS")
tar=$(awk '/\.tar\.gz$/ { print $2 }' "$made/SHA256SUMS")
# What lintian has to say: no copyright until the owner chooses a license; and the program is installed as it was built.
expected="copyright-without-copyright-notice unstripped-binary-or-object statically-linked-binary"

fail() {
    echo "failed: $*" >&2
    exit 1
}

# the commands of a block of docs/INSTALL.md: the heading, and the number of the block below it
block() {
    awk -v heading="## $1" -v number="$2" '
        /^## / { below = $0 == heading }
        /^```/ { on = /^```sh/; count += on && below; next }
        below && on && count == number' docs/INSTALL.md | grep . || fail "docs/INSTALL.md has no block $2 below $1"
}

look_at_page() {
    local page=$room/ftd.1 said
    dpkg-deb --fsys-tarfile "$made/$deb" | tar -xO ./usr/share/man/man1/ftd.1.gz | gunzip > "$page"
    said=$( (man --warnings -l "$page" > /dev/null; groff -man -ww -z "$page"; mandoc -T lint "$page") 2>&1) || true
    [ -z "$said" ] || fail "the manual page: $said"
    echo "manual page: nothing found by man, groff and mandoc"
}

look_at_package() {
    local said tags it
    said=$(lintian --fail-on none "$made/$deb" 2> /dev/null)
    tags=$(awk '/^[EW]: / { print $3 }' <<< "$said" | sort -u)
    for it in $tags; do
        [[ " $expected " == *" $it "* ]] || fail "lintian: $said"
    done
    echo "lintian: $(echo $tags)"
}

# runs commands in the system: as the user, in a shell of a login, or as root
as_user() {
    chroot "$root" su - clerk -c "$1"
}
as_root() {
    chroot "$root" bash -c "sudo() { \"\$@\"; }; export DEBIAN_FRONTEND=noninteractive; cd /srv/download; $1"
}

# what is there, but what Debian's own tools write down, and what the user has; temporary files are the tools' too
files() {
    (cd "$root" && find . -xdev \( -path ./proc -o -path ./sys -o -path ./home -o -path ./tmp -o -path ./var/cache -o -path ./var/log -o -path ./var/lib/apt \
        -o -path ./var/lib/dpkg \) -prune -o -printf '%p %s %m\n' | LC_ALL=C sort)
}

try_tutorial() {
    as_user "mkdir payroll && cp -r $1/examples payroll"
    chroot "$root" su - clerk -c "cd payroll && bash /srv/download/commands" > "$room/printed" 2>&1 || true
    diff "$room/printed" "$room/wanted" || fail "the tutorial prints something else"
    [ "$(as_user 'stat -c %U payroll/office.db')" = clerk ] || fail "the desk's file is not the user's"
    as_user "rm -r payroll"
}

try_package() {
    local before
    before=$(files)
    as_root "$(block Download 1)" > /dev/null
    as_root "$(block 'The package' 1)" > "$room/said" 2>&1 || fail "$(cat "$room/said")"
    [[ "$(as_user 'ftd --version')" == "ftd "* ]] || fail "ftd --version"
    [ "$(as_user 'man -w ftd')" = /usr/share/man/man1/ftd.1.gz ] || fail "man -w ftd"
    as_user "$(block 'The first commands' 1)" | grep -qx done || fail "the first commands"
    as_user "rm -r payroll"
    try_tutorial /usr/share/doc/ftd
    python3 package/try_completions.py "$root/usr/bin/ftd" "$root/usr"
    as_root "yes | $(block 'The package' 2)" > "$room/said" 2>&1 || fail "$(cat "$room/said")"
    diff <(echo "$before") <(files) || fail "the removal does not leave the files as they were"
    [ -z "$(find "$root" -xdev -path "$root/srv/download" -prune -o -name '*ftd*' -print)" ] || fail "left: $(find "$root" -xdev -name '*ftd*')"
    echo "package: installed, tried with $(grep -c grep "$room/commands") commands of the tutorial, removed: nothing is left"
}

try_tar() {
    local before
    before=$(files)
    as_user "cd /srv/download && $(block 'The tar file' 1)"
    [[ "$(as_user 'ftd --version')" == "ftd "* ]] || fail "ftd --version"
    [ "$(as_user 'man -w ftd')" = /home/clerk/.local/share/man/man1/ftd.1.gz ] || fail "man -w ftd"
    try_tutorial .local/share/doc/ftd
    python3 package/try_completions.py "$root/home/clerk/.local/bin/ftd" "$root/home/clerk/.local"
    as_user "$(block 'The tar file' 3)"
    [ -z "$(find "$root/home" -name '*ftd*')" ] || fail "left: $(find "$root/home" -name '*ftd*')"
    [ -z "$(find "$root/home" -type f -path '*/.local/*')" ] || fail "left: $(find "$root/home" -type f -path '*/.local/*')"
    diff <(echo "$before") <(files) || fail "the tar file changed the system"
    echo "tar file: unpacked, tried, removed: no file is left"
}

try_empty_folder() {
    mkdir -p "$root/var/lib/dpkg/"{info,updates}
    touch "$root/var/lib/dpkg/status"
    dpkg --root="$root" --force-depends -i "$made/$deb" > /dev/null
    [[ "$("$root/usr/bin/ftd" --version)" == "ftd "* ]] || fail "ftd --version"
    dpkg --root="$root" -P ftd > /dev/null
    [ -z "$(find "$root" -path "$root/var" -prune -o -type f -print)" ] || fail "left: $(find "$root" -path "$root/var" -prune -o -type f -print)"
    echo "package: put into an empty folder, and taken out: nothing is left"
}

(cd "$made" && sha256sum --quiet --check SHA256SUMS)
look_at_page
look_at_package
if [ -n "$system" ]; then
    cp -a "$system" "$root"
elif ! debootstrap --variant=minbase --include=man-db bookworm "$root" > "$room/log" 2>&1; then
    rm -rf "$root"
    try_empty_folder
    exit
fi
chroot "$root" useradd -m -s /bin/bash clerk
mkdir "$root/srv/download"
python3 package/tutorial.py "$room"
cp "$made/$deb" "$made/$tar" "$made/SHA256SUMS" "$room/commands" "$root/srv/download"
try_package
try_tar
