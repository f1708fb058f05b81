#!/bin/sh
# Makes a Debian package of the proved program, with dpkg-deb alone.
#
#   tools/package.sh [--program FILE] [--to FOLDER]
#
# It writes pulse-rw_VERSION_ARCHITECTURE.deb into the folder, the working folder at first, and says where. The program is the one
# that ./pulse_rw has built from these very sources. With `--program` it is another, of which nothing says that it is proved; then
# the version ends with +unproved. The package has the program, its man page, a systemd user unit, completion for bash, the tools, the
# documents and the examples, and no script that runs when it is installed or removed.
set -eu
top=$(cd "$(dirname "$0")/.." && pwd)
say() { echo "package.sh: $*" >&2; }
usage() { sed -n '2,/^set/{/^set/d;s/^# \{0,1\}//;p}' "$0"; }

program='' to=. proved='and each of its functions is proved.'
while [ $# -gt 0 ]; do
    case $1 in
    --program | --to)
        [ $# -gt 1 ] || { usage >&2; exit 2; }
        if [ "$1" = --to ]; then to=$2; else program=$2; fi
        shift 2
        ;;
    --help) usage; exit 0 ;;
    *) usage >&2; exit 2 ;;
    esac
done

version=$(cat "$top/VERSION")
if [ -n "$program" ]; then
    version=$version+unproved
    proved='and nothing says that this build of it is proved.'
elif "$top/tools/built.sh" is "$("$top/tools/sources.sh")"; then
    program=$top/crates/pulse_rw/out/pulse_rw
else
    say "$top/crates/pulse_rw/out/pulse_rw isn't there, or isn't built from these sources: run ./pulse_rw once, which proves and builds it"
    exit 1
fi
[ -e "$program" ] || { say "$program: there is no such file"; exit 1; }
[ -f "$program" ] || { say "$program: it is no program"; exit 1; }
[ -d "$to" ] || { say "$to: there is no such folder"; exit 1; }
command -v dpkg-deb >/dev/null || { say "the command dpkg-deb isn't there"; exit 1; }

room=$(mktemp -d)
trap 'rm -rf "$room"' EXIT
root=$room/root
share=$root/usr/share/pulse_rw
doc=$root/usr/share/doc/pulse-rw
umask 022
mkdir -p "$root/DEBIAN" "$root/usr/bin" "$root/usr/lib/pulse_rw" "$root/usr/lib/systemd/user" "$root/usr/share/man/man1" \
    "$root/usr/share/bash-completion/completions" "$share/tools" "$doc/docs" "$doc/examples"

# put FROM PLACE MODE
put() { cp "$1" "$2" && chmod "$3" "$2"; }

put "$program" "$root/usr/lib/pulse_rw/pulse_rw" 755
sed "s/@VERSION@/$version/" "$top/package/pulse_rw.sh" >"$root/usr/bin/pulse_rw"
chmod 755 "$root/usr/bin/pulse_rw"
ln -s ../share/pulse_rw/tools/px "$root/usr/bin/pulse_rw-px"
put "$top/package/pulse_rw.service" "$root/usr/lib/systemd/user/pulse_rw.service" 644
sed "s/@VERSION@/$version/" "$top/man/pulse_rw.1" | gzip -9n >"$root/usr/share/man/man1/pulse_rw.1.gz"
put "$top/package/completion.bash" "$root/usr/share/bash-completion/completions/pulse_rw" 644
put "$top/package/help.txt" "$share/help.txt" 644

# the tools that sessions, outputs and headers are made and shown with, and the modules that these want
python3 -B "$top/tools/needed.py" session output header px | while read -r name; do
    mode=644
    head -c 2 "$top/tools/$name" | grep -q '#!' && mode=755
    put "$top/tools/$name" "$share/tools/$name" "$mode"
    # nothing is written beside them, also where root runs them
    sed -i '1s,^#!/usr/bin/env python3$,#!/usr/bin/python3 -B,' "$share/tools/$name"
done

for name in README.md HACKING.md CHANGELOG.md; do
    [ ! -f "$top/$name" ] || put "$top/$name" "$doc/$name" 644
done
for path in "$top"/docs/*.md "$top"/docs/*.svg; do put "$path" "$doc/docs/${path##*/}" 644; done
for path in "$top"/examples/*.prs "$top"/examples/*.txt; do put "$path" "$doc/examples/${path##*/}" 644; done
cat >"$doc/copyright" <<'END'
No licence was chosen for pulse_rw yet. So nobody but its authors may pass it on or change it: what the law
allows without a licence is all that is allowed.
END

cat >"$root/DEBIAN/control" <<END
Package: pulse-rw
Version: $version
Architecture: $(dpkg --print-architecture)
Maintainer: pulse_rw <pulse_rw@localhost>
Section: sound
Priority: optional
Installed-Size: $(du -k -s --apparent-size "$root/usr" | cut -f 1)
Depends: libc6, python3
Recommends: pulseaudio-utils
Suggests: alsa-utils
Description: PulseAudio sound server whose promises are proved
 A server for clients of PulseAudio's native protocol, in its versions 13 to 18,
 on a local socket; and the replay of recorded sessions. It is written in Rattle,
 Rust with contracts, $proved
END
(cd "$root" && find usr -type f | LC_ALL=C sort | xargs -d '\n' md5sum) >"$root/DEBIAN/md5sums"
chmod 644 "$root/DEBIAN/control" "$root/DEBIAN/md5sums"

name=pulse-rw_${version}_$(dpkg --print-architecture).deb
SOURCE_DATE_EPOCH=${SOURCE_DATE_EPOCH:-$(git -C "$top" log -1 --format=%ct 2>/dev/null || echo 0)} \
    dpkg-deb --root-owner-group --build "$root" "$to/$name" >/dev/null 2>"$room/said" || { say "$to/$name: $(tail -n 1 "$room/said")"; exit 1; }
echo "$to/$name"
