# Makes a first configuration out of the examples, for install.sh and for the packages, which read this file:
#
#     first_configuration EXAMPLES FOLDER FILE..
#
# A file that is there already stays as it is, which is told. GROUP is the group of the server's user, who may read all
# but upsmon.conf; without it the files stay the caller's. MADE is a file to which the path of each file is added once that
# is complete. A failure ends the shell (set -e) and leaves complete files alone, so that a second call makes the others.

# without_passwords [-f SCRIPT] FILE: an example as everybody may read it, which a script of sed may change further. A user
# without a password has no access.
without_passwords() {
    sed -e 's/^\( *\)password = .*/\1# password = ../' -e 's/^\(MONITOR .* monuser \)m1 /\1PASSWORD /' "$@"
}

# A password that nobody can guess.
new_password() {
    letters=$(LC_ALL=C tr -dc a-z0-9 < /dev/urandom | head -c 20)
    # the status is that of head, which takes what it gets
    [ "${#letters}" -eq 20 ]
    printf '%s\n' "$letters"
}

# first_changed FILE COMMAND: the first line that this command of sed changes, as it changes it.
first_changed() {
    sed -n -e "$2" -e 't found' -e d -e ':found' -e p -e q "$1"
}

# password_of_monitor FOLDER: the one that an earlier call gave to server or monitor, else a new one.
password_of_monitor() {
    known=
    if [ -f "$1/upsd.users" ]; then
        known=$(first_changed "$1/upsd.users" '/^\[monuser\]/,/^\[/ s/^ *password = \([a-z0-9]\{20\}\)$/\1/')
    fi
    if [ -z "$known" ] && [ -f "$1/upsmon.conf" ]; then
        known=$(first_changed "$1/upsmon.conf" 's/^MONITOR su700@localhost 1 monuser \([a-z0-9]\{20\}\) primary$/\1/')
    fi
    if [ -z "$known" ]; then
        known=$(new_password)
    fi
    printf '%s\n' "$known"
}

# passwords FOLDER: what gives each user of the examples a password, for sed. It goes through a file, since others see
# command lines.
passwords() {
    monuser=$(password_of_monitor "$1")
    admin=$(new_password)
    guest=$(new_password)
    cat << END
/^\[admin\]/,/^\[/ s/^\( *\)# password = \.\.\$/\1password = $admin/
/^\[monuser\]/,/^\[/ s/^\( *\)# password = \.\.\$/\1password = $monuser/
/^\[guest\]/,/^\[/ s/^\( *\)# password = \.\.\$/\1password = $guest/
s/^\(MONITOR .* monuser \)PASSWORD /\1$monuser /
END
}

# open_to_server FILE MODE
open_to_server() {
    if [ -n "${GROUP-}" ]; then
        chgrp "$GROUP" "$1"
    fi
    chmod "$2" "$1"
}

# is_there FILE: also where it is a link to nothing.
is_there() {
    [ -e "$1" ] || [ -L "$1" ]
}

# The caller's files are those that are under their names: a folder or a file takes its own once nothing more is to be done.
first_configuration() (
    examples=$1
    folder=${2%/}
    shift 2
    script=
    new=
    trap 'rm -rf ${script:+"$script"} ${new:+"$new"}' EXIT
    trap 'exit 1' HUP INT PIPE TERM
    umask 077
    if [ ! -d "$folder" ]; then
        (umask 022 && install -d "$(dirname "$folder")")
        new=$(mktemp -d "$folder.new.XXXXXX")
        open_to_server "$new" 750
        mv -T "$new" "$folder"
        new=
    fi
    script=$(mktemp)
    passwords "$folder" > "$script"
    for name in "$@"; do
        if is_there "$folder/$name"; then
            echo "$folder/$name is there already and stays as it is"
            continue
        fi
        new=$(mktemp "$folder/.new.XXXXXX")
        without_passwords -f "$script" "$examples/$name" > "$new"
        if [ "$name" != upsmon.conf ]; then
            open_to_server "$new" 640
        fi
        # unlike mv, this refuses a name that somebody has taken meanwhile
        ln -T "$new" "$folder/$name"
        if [ -n "${MADE-}" ]; then
            printf '%s\n' "$folder/$name" >> "$MADE"
        fi
        rm "$new"
        new=
    done
)
