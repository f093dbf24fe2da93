#!/bin/sh
# Installs telegate, as root, once ./build has made it; --help says where things go.
set -eu

tell_help() {
    cat <<'HELP'
Installs telegate once ./build has made it, which takes a second, or takes it away again.

    sudo packaging/install.sh                   into /usr/local, /etc and systemd's folder
    sudo packaging/install.sh --remove          takes it away again, but for /etc/telegate
    DESTDIR=/tmp/image packaging/install.sh     the same under another root, for a package

  PREFIX/bin/telegate                   the program (PREFIX is /usr/local)
  PREFIX/share/doc/telegate/            the documents, the licences and the examples; BUILD says whether
                                        the program is proved, and of which commit it is
  PREFIX/share/man/man1/telegate.1      the man page, and shell completions
  PREFIX/lib/systemd/system/            telegate.service for one line, telegate@.service for several
  /etc/telegate/gateway.toml            settings to begin with
  /etc/telegate/site.toml               what belongs to this site: who may connect, names, the status port
  /etc/telegate/telegate.env            more words of `telegate run`: that file's name

It never writes over what stands in /etc, so a second call is an upgrade: it leaves what an operator
wrote. It starts nothing, and restarts nothing. TELEGATE_PROGRAM is another file to be installed
than the one that ./build made. The exit status is 0 if all is installed, 1 if not, and 2 for wrong
words.
HELP
}

case $#,${1-} in
    0, | 1,--remove) ;;
    1,--help | 1,-h)
        tell_help
        exit 0
        ;;
    *)
        echo "install.sh: it takes --remove or --help, one at most, and not: $*" >&2
        exit 2
        ;;
esac
here=$(cd "$(dirname "$0")/.." && pwd)
prefix=${PREFIX:-/usr/local}
root=${DESTDIR:-}
program=${TELEGATE_PROGRAM:-$here/crates/telegate/out/telegate}
share=$root$prefix/share
units=$root$prefix/lib/systemd/system

# A file of the repository, and where it goes.
put() {
    install -D -m "$1" "$here/$2" "$3"
}

# The same, only where nothing stands there yet.
put_once() {
    [ -e "$3" ] || put "$1" "$2" "$3"
}

# A unit for the program where it is installed; the second argument changes it further.
put_unit() {
    install -d "$units"
    sed -e "s|/usr/local/|$prefix/|g" -e "$2" "$here/packaging/telegate.service" >"$units/$1"
    chmod 644 "$units/$1"
}

if [ "${1:-}" = --remove ]; then
    rm -f "$root$prefix/bin/telegate" "$units/telegate.service" "$units/telegate@.service" \
        "$share/man/man1/telegate.1" "$share/bash-completion/completions/telegate" \
        "$share/zsh/site-functions/_telegate" "$share/fish/vendor_completions.d/telegate.fish"
    rm -rf "$share/doc/telegate"
    exit 0
fi

[ -x "$program" ] || { echo "install.sh: no program: run ./build first" >&2; exit 1; }
install -D -m 755 "$program" "$root$prefix/bin/telegate"
(cd "$here" && find ./*.md LICENSE-* docs examples -type f) | sed 's|^\./||' | while read -r file; do
    put 644 "$file" "$share/doc/telegate/$file"
done
build=$("$here/tools/origin" "$program" | head -n 1)
echo "$build" >"$share/doc/telegate/BUILD"
chmod 644 "$share/doc/telegate/BUILD"
put 644 packaging/README.md "$share/doc/telegate/packaging/README.md"
put 644 packaging/telegate.1 "$share/man/man1/telegate.1"
put 644 packaging/telegate.bash "$share/bash-completion/completions/telegate"
put 644 packaging/telegate.zsh "$share/zsh/site-functions/_telegate"
put 644 packaging/telegate.fish "$share/fish/vendor_completions.d/telegate.fish"
put_unit telegate.service ''
# One instance a line, each with folders and a user of its own: telegate@north reads
# /etc/telegate/north/ and keeps its state in /var/lib/telegate-north/.
put_unit telegate@.service 's|/etc/telegate/|/etc/telegate/%i/|g; s|^Description=.*|&, line %i|
s|/var/lib/telegate|&-%i|; s|^StateDirectory=.*|&-%i|; s|^RuntimeDirectory=.*|&-%i|
s|^SyslogIdentifier=.*|&-%i|; s|^DynamicUser=yes|&\nUser=telegate-%i|'
put_once 644 examples/full.toml "$root/etc/telegate/gateway.toml"
put_once 644 packaging/site.toml "$root/etc/telegate/site.toml"
put_once 644 packaging/telegate.env "$root/etc/telegate/telegate.env"
# A unit of an earlier version stood where an operator's own belong, and would hide the new one.
earlier=$root/etc/systemd/system/telegate.service
[ ! -e "$earlier" ] || echo "note: $earlier stands in front of $prefix/lib/systemd/system/telegate.service"

echo "installed: $prefix/bin/telegate ($build)"
echo "next: edit /etc/telegate/gateway.toml (telegate check judges it) and /etc/telegate/site.toml,"
echo "name the two peers by systemctl edit telegate (IPAddressAllow), then"
echo "systemctl daemon-reload && systemctl enable --now telegate; after an upgrade, with files judged first,"
echo "systemctl daemon-reload && systemctl try-reload-or-restart telegate 'telegate@*'"
