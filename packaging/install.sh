#!/bin/sh
# Installs the programs, their pages, units, completions and examples, or takes away what that put there:
#
#     packaging/install.sh install|uninstall [PROGRAM..]
#
# or puts a first configuration into the folder of the configuration files. A file that is there already stays as it is:
#
#     packaging/install.sh configure
#
# The environment gives PREFIX (/usr/local), DESTDIR (a folder that stands for the root), CONFDIR (/etc/nut, the folder of
# the configuration files, which is named in units, and written to by 'configure' alone), BIN (bin, the folder of the built
# programs) and PART (server or client, where only what belongs to that package is meant). Without a PROGRAM all those of
# BIN are meant.
set -eu
unset CDPATH
cd "$(dirname "$0")/.."
. packaging/configure.sh

PREFIX=${PREFIX-/usr/local}
DESTDIR=${DESTDIR-}
CONFDIR=${CONFDIR-/etc/nut}
BIN=${BIN-bin}
PART=${PART-}

what=${1-}
root=$DESTDIR$PREFIX

# The names of the files in a folder, without those of folders.
files_of() {
    find "$1" -maxdepth 1 -type f -printf '%f\n' | sort
}

case $what in
    install | uninstall) shift ;;
    configure)
        GROUP=
        if [ -z "$DESTDIR" ]; then
            # which looks for a relative path in the directories of sysusers.d alone
            systemd-sysusers "$PWD/packaging/mulgefa.sysusers"
            GROUP=nut
        fi
        first_configuration examples "$DESTDIR$CONFDIR" $(files_of examples)
        exit
        ;;
    *)
        echo "usage: $0 install|uninstall [PROGRAM..] | configure" >&2
        exit 2
        ;;
esac

if [ $# -eq 0 ]; then
    set -- $(find "$BIN" -maxdepth 1 -type f -perm -u+x -printf '%f\n' | sort)
    if [ $# -eq 0 ]; then
        echo "$0: $BIN: no programs are there" >&2
        exit 1
    fi
fi

# part_of TARGET: the package that a file belongs to, by its name. What both packages need is the client's, since the server's
# wants it, and so is the page of ups.conf, which says how all files are read.
part_of() {
    case $1 in
        share/mulgefa/rooms/* | share/mulgefa/schedules/* | share/mulgefa/nutroom_modules/*)
            echo client
            return
            ;;
    esac
    case ${1##*/} in
        upsd | upsd.* | *-upsd.service | ups.conf) echo server ;;
        dummy-ups | dummy-ups.* | *-dummy-ups@.service | su700.dev | *nut-drivers*) echo server ;;
        *) echo client ;;
    esac
}

# put MODE FILE TARGET: the one list of what is installed is that of its calls.
put() {
    if [ -n "$PART" ] && [ "$PART" != "$(part_of "$3")" ]; then
        return
    fi
    case $what in
        install) install -C -D -m "$1" "$2" "$root/$3" ;;
        uninstall) rm -f "$root/$3" ;;
    esac
}

# put_filled FILE TARGET: a file that names paths.
put_filled() {
    sed -e "s|@PREFIX@|$PREFIX|g" -e "s|@CONFDIR@|$CONFDIR|g" "$1" > "$filled"
    put 644 "$filled" "$2"
}

# Where a program goes, as NUT has it: a driver isn't for people, and a server not for everyone. The folder of NUT's drivers
# is left to NUT, whose dummy-ups may stand beside this one.
folder_of() {
    case $1 in
        upsd | upsmon) echo sbin ;;
        dummy-ups) echo lib/mulgefa ;;
        *) echo bin ;;
    esac
}

if [ "$what" = install ]; then
    for program in "$@"; do
        if [ ! -e "$BIN/$program" ]; then
            echo "$BIN/$program isn't built yet: 'make' builds it" >&2
            exit 1
        fi
    done
    if [ ! -e "$BIN/third-party-notices" ]; then
        echo "$BIN/third-party-notices isn't there: 'make notices' makes it" >&2
        exit 1
    fi
fi

filled=$(mktemp)
trap 'rm -f "$filled"' EXIT
trap 'exit 1' HUP INT PIPE TERM

for program in "$@"; do
    put 755 "$BIN/$program" "$(folder_of "$program")/$program"
    for unit in "packaging/mulgefa-$program.service" "packaging/mulgefa-$program@.service"; do
        if [ -e "$unit" ]; then
            put_filled "$unit" "lib/systemd/system/${unit##*/}"
        fi
    done
    if [ -e "man/$program.8" ]; then
        put 644 "man/$program.8" "share/man/man8/$program.8"
    fi
    if grep -q "^complete .* $program\$" packaging/completions.bash; then
        put 644 packaging/completions.bash "share/bash-completion/completions/$program"
    fi
done
put 755 tools/nutroom bin/nutroom
for module in tools/nutroom_modules/*.py; do
    put 644 "$module" "share/mulgefa/nutroom_modules/${module##*/}"
done
put 644 man/nutroom.8 share/man/man8/nutroom.8
put 644 packaging/completions.bash share/bash-completion/completions/nutroom
put 755 packaging/until-ready lib/mulgefa/until-ready
put_filled packaging/nut-drivers.conf lib/mulgefa/nut-drivers.conf
sed -e "s|@PREFIX@|$PREFIX|g" packaging/upsmon-apart > "$filled"
put 755 "$filled" lib/mulgefa/upsmon-apart
put 755 packaging/mulgefa-check sbin/mulgefa-check
put 644 man/mulgefa-check.8 share/man/man8/mulgefa-check.8
for page in man/*.5; do
    put 644 "$page" "share/man/man5/${page##*/}"
done
for page in man/*.7; do
    put 644 "$page" "share/man/man7/${page##*/}"
done
put 644 "$BIN/third-party-notices" share/mulgefa/third-party-notices
put 644 docs/from-nut.md share/mulgefa/from-nut.md
put 644 docs/room.md share/mulgefa/room.md
put 644 docs/room.svg share/mulgefa/room.svg
# Everybody may read the examples, so they are installed without passwords.
for example in $(files_of examples); do
    without_passwords "examples/$example" > "$filled"
    put 644 "$filled" "share/mulgefa/examples/$example"
done
# The passwords of rooms that are played let nobody in anywhere.
for schedule in $(files_of examples/schedules); do
    put 644 "examples/schedules/$schedule" "share/mulgefa/schedules/$schedule"
done
rooms=
for room in examples/rooms/*; do
    rooms="$rooms share/mulgefa/rooms/${room##*/}"
    for file in $(files_of "$room"); do
        put 644 "$room/$file" "share/mulgefa/rooms/${room##*/}/$file"
    done
done
put 644 packaging/mulgefa.sysusers lib/sysusers.d/mulgefa.conf
# What packages alone need: their first configuration, and NUT's drivers as a package beside them.
if [ -n "$PART" ]; then
    put 644 packaging/configure.sh share/mulgefa/configure.sh
    put 755 packaging/mulgefa-nut-drivers sbin/mulgefa-nut-drivers
    put 644 man/mulgefa-nut-drivers.8 share/man/man8/mulgefa-nut-drivers.8
fi

# Folders that nothing else uses go too, once they are empty.
if [ "$what" = uninstall ]; then
    for folder in share/mulgefa/examples share/mulgefa/schedules $rooms share/mulgefa/rooms share/mulgefa/nutroom_modules \
        share/mulgefa lib/mulgefa; do
        rmdir "$root/$folder" 2> /dev/null || true
    done
fi
