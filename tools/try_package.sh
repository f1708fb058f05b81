#!/bin/bash
# Tries a package in a clean root: installs it, runs all that it brings, and removes it without a trace.
#
#   tools/try_package.sh FILE.deb
#
# The root is a folder with the files of the packages that the package depends on, as they are installed on this machine, and with a
# database of dpkg that knows these alone; all is run in it by chroot, so it wants root, or `unshare` for users. What is tried: dpkg -i;
# --version and --help; a replay, its WAV and its picture; the man page and the completion; the lines of the systemd user unit, started as
# systemd would start them (no systemd runs there), with clients at its socket: the one of conformance/client.py, and paplay where it is
# installed; and dpkg -P, after which the root has the files that it had. It ends with status 0 where all of that is as it should be.
set -euo pipefail
top=$(cd "$(dirname "$0")/.." && pwd)
say() { echo "try_package.sh: $*"; }
fail() { echo "try_package.sh: $*" >&2; exit 1; }

[ $# -eq 1 ] || { sed -n '2,/^set/{/^set/d;s/^# \{0,1\}//;p}' "$0" >&2; exit 2; }
package=$(realpath "$1")
[ -f "$package" ] || fail "$1: there is no such file"
if [ "$(id -u)" -ne 0 ]; then exec unshare --map-root-user --mount "$0" "$package"; fi
for command in dpkg-deb dpkg-query chroot python3; do command -v "$command" >/dev/null || fail "the command $command isn't there"; done

room=$(mktemp -d /tmp/try_package.XXXXXX)
root=$room/root
server=
# shellcheck disable=SC2317
end() {
    [ -z "$server" ] || kill "$server" 2>/dev/null || true
    rm -rf "$room"
}
trap end EXIT

# ---- the root: what a package depends on, down to the bottom
closure() {
    dpkg-query -W -f '${db:Status-Abbrev}\t${Package}\t${Pre-Depends}, ${Depends}\t${Provides}\n' | awk -F '\t' -v wanted="$1" '
        $1 ~ /^ii/ {
            needs[$2] = $3
            provided = split($4, list, /, */)
            for (i = 1; i <= provided; i++) { split(list[i], word, /[ (:]/); if (!(word[1] in by)) by[word[1]] = $2 }
        }
        function want(name) {
            if (!(name in needs) && name in by) name = by[name]
            if (!(name in needs) || name in seen) return name in seen
            seen[name] = 1
            queue[++last] = name
            return 1
        }
        END {
            count = split(wanted, list, /[ ,]+/)
            for (i = 1; i <= count; i++) if (!want(list[i])) { print "missing " list[i]; exit }
            for (next_one = 1; next_one <= last; next_one++) {
                count = split(needs[queue[next_one]], list, /, */)
                for (i = 1; i <= count; i++) {
                    ways = split(list[i], way, / *\| */)
                    for (j = 1; j <= ways; j++) { split(way[j], word, /[ (:]/); if (word[1] == "" || want(word[1])) break }
                }
            }
            for (i = 1; i <= last; i++) print queue[i]
        }'
}

mkdir -p "$root"/{usr/bin,usr/sbin,usr/lib,usr/lib64,dev,tmp,root,etc,home/anna,run/user/1000,var/lib/dpkg/info,var/lib/dpkg/updates,var/log}
for name in bin sbin lib lib64; do ln -s "usr/$name" "$root/$name"; done
depends=$(dpkg-deb -f "$package" Depends)
closure "dash dpkg coreutils diffutils libc-bin $depends" >"$room/packages"
! grep -q '^missing' "$room/packages" || fail "$(cat "$room/packages"): it isn't installed on this machine"
while read -r name; do
    dpkg-query -L "$name" | while read -r path; do [ ! -f "$path" ] && [ ! -L "$path" ] || echo "${path#/}"; done
    dpkg-query -s "$name" >>"$root/var/lib/dpkg/status"
    echo >>"$root/var/lib/dpkg/status"
done <"$room/packages" | grep -v '^usr/share/\(doc\|man\|locale\|info\|lintian\)/' | LC_ALL=C sort -u >"$room/files"
tar -C / -c -T "$room/files" 2>/dev/null | tar -C "$root" --no-same-owner -x
: >"$root/dev/null"
chmod 666 "$root/dev/null"
printf 'root:x:0:0::/root:/bin/sh\nanna:x:1000:1000::/home/anna:/bin/sh\n' >"$root/etc/passwd"
while read -r name; do dpkg-query -L "$name" >"$root/var/lib/dpkg/info/$name.list"; done <"$room/packages"
inside() { chroot "$root" /usr/bin/env -i PATH=/usr/sbin:/usr/bin HOME=/home/anna XDG_RUNTIME_DIR=/run/user/1000 LANG=C.UTF-8 "$@"; }
listed() {
    cd "$root"
    find . \( -path ./var/lib/dpkg -o -path ./var/log \) -prune -o -type f -print0 | LC_ALL=C sort -z | xargs -0 sha256sum
    find . \( -path ./var/lib/dpkg -o -path ./var/log \) -prune -o ! -type f -printf '%p %y %l\n' | LC_ALL=C sort
}
inside dpkg --version >/dev/null || fail "the root doesn't run"
say "a root of $(wc -l <"$room/packages") packages"

# ---- it is installed
(listed) >"$room/before"
cp "$package" "$root/tmp/it.deb"
inside dpkg -i /tmp/it.deb >"$room/said" 2>&1 || { cat "$room/said" >&2; fail "dpkg -i"; }
rm "$root/tmp/it.deb"
inside dpkg --verify pulse-rw >"$room/said" 2>&1 || fail "dpkg --verify: $(cat "$room/said")"
[ ! -s "$room/said" ] || fail "dpkg --verify: $(cat "$room/said")"
say "installed: $(inside dpkg-query -W pulse-rw)"

# ---- what it says of itself
version=$(dpkg-deb -f "$package" Version)
[ "$(inside pulse_rw --version)" = "pulse_rw $version" ] || fail "--version says: $(inside pulse_rw --version)"
inside pulse_rw --help | grep -q 'serve OPTIONS' || fail "--help"
inside pulse_rw other 2>"$room/said" && fail "other words have status 0"
grep -q '^pulse_rw: usage: ' "$room/said" || fail "other words: $(cat "$room/said")"
gzip -dc "$root/usr/share/man/man1/pulse_rw.1.gz" >"$room/page"
if command -v groff >/dev/null; then
    [ -z "$(groff -man -Tutf8 -ww "$room/page" 2>&1 >/dev/null)" ] || fail "the man page has faults"
fi
grep -q "pulse_rw $version" "$room/page" || fail "the man page has another version"
# shellcheck disable=SC2016
completed=$(bash -c 'source "$1"; COMP_WORDS=(pulse_rw serve --h); COMP_CWORD=2; _pulse_rw; echo "${COMPREPLY[*]}"' _ "$root/usr/share/bash-completion/completions/pulse_rw")
[ "$completed" = "--header --history" ] || fail "the completion of serve --h is: $completed"
say "its version, help, man page and completion"

# ---- a replay, and the tools
examples=/usr/share/doc/pulse-rw/examples
inside pulse_rw replay <"$root$examples/two_clients.prs" >"$room/out" || fail "a replay ends with $?"
cp "$room/out" "$root/tmp/out"
inside pulse_rw-px output wav /tmp/out --session "$examples/two_clients.prs" --sink out >"$room/wav"
[ "$(head -c 4 "$room/wav")" = RIFF ] || fail "px output wav gives no WAV file"
inside pulse_rw-px picture /tmp/out --session "$examples/two_clients.prs" | cmp - "$root/usr/share/doc/pulse-rw/docs/two_clients.svg" || fail "px picture gives another picture than docs/"
inside pulse_rw-px session make "$examples/two_clients.txt" | cmp - "$root$examples/two_clients.prs" || fail "px session make gives another session than examples/"
inside pulse_rw-px session show "$examples/auth.prs" | grep -q '^auth ' || fail "px session show"
rm "$root/tmp/out"
say "a replay, its WAV file, its picture, and a session from text"

# ---- serving, by the lines of the unit
unit=$root/usr/lib/systemd/user/pulse_rw.service
if command -v systemd-analyze >/dev/null; then
    # where the program is to be found is another question than how the unit is written
    XDG_RUNTIME_DIR=$room systemd-analyze --user verify "$unit" 2>&1 | grep 'pulse_rw.service' | grep -v 'is not executable\|pulse_rw(1)' >"$room/said" || true
    [ ! -s "$room/said" ] || fail "the unit: $(cat "$room/said")"
fi
line_of() { sed -n "s,^$1=,,p" "$unit" | sed "s,%h,/home/anna,g; s,%t,/run/user/1000,g"; }
inside sh -c "umask 077; $(line_of ExecStartPre)" 2>"$room/said" || fail "the unit's first line: $(cat "$room/said")"
home=$root/home/anna/.local/share/pulse_rw
[ -s "$home/desk.hdr" ] || fail "the unit makes no header"
[ "$(readlink "$home/out.raw")" = /dev/null ] || fail "the unit's sink is no link to /dev/null"
# here what the sink plays is looked at
rm "$home/out.raw"
inside sh -c "umask 077; exec $(line_of ExecStart)" >/dev/null 2>"$room/server" &
server=$!
socket=$root/run/user/1000/pulse_rw.sock
for _ in $(seq 100); do [ ! -S "$socket" ] || break; sleep 0.1; done
[ -S "$socket" ] || fail "no socket: $(cat "$room/server")"
cookie=$root/home/anna/.config/pulse/cookie
# played FILE: waits until the sink's file has all of a sound; the last frames come after the answer to DRAIN
played() {
    python3 - "$1" "$home/out.raw" <<'END'
import sys, time
with open(sys.argv[1], "rb") as file:
    sound = file.read()
for _ in range(100):
    with open(sys.argv[2], "rb") as file:
        if sound in file.read():
            sys.exit(0)
    time.sleep(0.1)
sys.exit(1)
END
}
python3 -B - "$top" "$socket" "$cookie" "$room/tone.raw" "$room/song.raw" <<'END' || fail "the client of conformance/client.py isn't played"
import sys
top, socket, cookie, tone_file, song_file = sys.argv[1:]
sys.path[:0] = [f"{top}/conformance", f"{top}/tools"]
import client
from served import tone
client.RATE = 44_100
for path, pitch in ((tone_file, 440), (song_file, 660)):
    with open(path, "wb") as file:
        file.write(tone(4_410, 2, pitch))
with open(cookie, "rb") as file, open(tone_file, "rb") as sound, client.Client(socket, 30) as it:
    it.enter(file.read())
    it.play("out", sound.read())
END
played "$room/tone.raw" || fail "the sink's file hasn't the sound of the client of conformance/client.py"
say "a server by the unit's lines, and a client that was played to its last frame"
if command -v paplay >/dev/null; then
    PULSE_SERVER=unix:$socket PULSE_COOKIE=$cookie HOME=$room timeout 30 paplay --raw --rate=44100 --channels=2 --format=s16le "$room/song.raw" || fail "paplay ends with $?"
    played "$room/song.raw" || fail "the sink's file hasn't what paplay sent"
    say "paplay, too"
fi
kill "$server"
wait "$server" 2>/dev/null || true
server=
[ ! -s "$room/server" ] || fail "the server said: $(cat "$room/server")"

# ---- it is removed
rm -rf "$root/home/anna" "$root/run/user/1000"
mkdir "$root/home/anna" "$root/run/user/1000"
: >"$root/dev/null"
inside dpkg -P pulse-rw >"$room/said" 2>&1 || { cat "$room/said" >&2; fail "dpkg -P"; }
(listed) >"$room/after"
diff "$room/before" "$room/after" >"$room/said" || fail "it leaves a trace: $(cat "$room/said")"
! grep -q '^Package: pulse-rw$' "$root/var/lib/dpkg/status" || fail "dpkg still knows it"
say "removed without a trace"
