#!/bin/sh
# Makes what people install out of built programs, with the same bytes each time:
#
#     packaging/packages.sh deb      Debian packages mulgefa-server and mulgefa-client, by dpkg-deb
#     packaging/packages.sh tar      an archive that is unpacked anywhere, with the script that installs it
#
# The environment gives BIN (bin, the folder of the built programs), TO (dist, where the packages go), and, outside a git
# repository, SOURCE_DATE_EPOCH, which is else the time of the last commit. The version is that of the programs, and then
# that time.
set -eu
unset CDPATH
cd "$(dirname "$0")/.."

BIN=${BIN-bin}
TO=${TO-dist}
if [ -z "${SOURCE_DATE_EPOCH-}" ] && ! SOURCE_DATE_EPOCH=$(git log -1 --format=%ct); then
    echo 'SOURCE_DATE_EPOCH is missing, in seconds: git has no last commit' >&2
    exit 1
fi
export SOURCE_DATE_EPOCH LC_ALL=C TZ=UTC
umask 022

version=$(sed -n 's/^pub const VERSION: &str = "(Mulgefa) \([0-9.]*\) .*/\1/p' crates/nut_program/src/version.rt)
if [ -z "$version" ]; then
    echo 'crates/nut_program/src/version.rt has no version' >&2
    exit 1
fi
version=$version+$(date -u -d "@$SOURCE_DATE_EPOCH" +%Y%m%d.%H%M%S)
maintainer='Mulgefa maintainers <maintainers@users.noreply.mulgefa.example>'
architecture=$(dpkg --print-architecture 2> /dev/null || uname -m)
server='upsd dummy-ups'
client='upsmon upsc upsrw upscmd'
# nutsim is included if it was built
if [ -e "$BIN/nutsim" ]; then
    client="$client nutsim"
fi

# needs NAME PACKAGE: a program of the system.
needs() {
    if ! command -v "$1" > /dev/null; then
        echo "$1 is missing (Debian's package $2)" >&2
        exit 1
    fi
}

work=$(mktemp -d)
trap 'rm -rf "$work"' EXIT
trap 'exit 1' HUP INT PIPE TERM

# dated FOLDER: everything below it has the one time.
dated() {
    find "$1" -exec touch -h -d "@$SOURCE_DATE_EPOCH" {} +
}

# The programs as they are shipped: without the names of their functions, which the machine doesn't read.
ship_programs() {
    install -d "$work/programs"
    for program in $server $client; do
        if [ ! -e "$BIN/$program" ]; then
            echo "$BIN/$program isn't built yet: 'make' builds it" >&2
            exit 1
        fi
        install -m 755 "$BIN/$program" "$work/programs/$program"
        if is_machine_code "$work/programs/$program"; then
            needs strip binutils
            strip --strip-unneeded --remove-section=.comment "$work/programs/$program"
        fi
    done
    if [ ! -e "$BIN/third-party-notices" ]; then
        echo "$BIN/third-party-notices isn't there: 'make notices' makes it" >&2
        exit 1
    fi
    install -m 644 "$BIN/third-party-notices" "$work/programs/third-party-notices"
}

is_machine_code() {
    [ "$(head -c 4 "$1" | tail -c 3)" = ELF ]
}

# libraries_of PROGRAM..: what the dynamic linker needs of them, as Depends says it.
libraries_of() {
    coded=
    for program in "$@"; do
        if is_machine_code "$work/programs/$program"; then
            coded="$coded programs/$program"
        fi
    done
    if [ -n "$coded" ]; then
        needs dpkg-shlibdeps dpkg-dev
        install -d "$work/debian"
        printf 'Source: mulgefa\n\nPackage: mulgefa\nArchitecture: any\n' > "$work/debian/control"
        # it warns of much that does no harm, so what it says is shown only if it fails
        if ! (cd "$work" && dpkg-shlibdeps --ignore-missing-info -O $coded > libraries 2> complaints); then
            cat "$work/complaints" >&2
            exit 1
        fi
        sed -n 's/^shlibs:Depends=//p' "$work/libraries"
    fi
}

# filled FILE TARGET: a file of packaging/deb with what differs from package to package.
filled() {
    sed -e "s|@PACKAGE@|$package|g" -e "s|@VERSION@|$version|g" -e "s|@ARCHITECTURE@|$architecture|g" \
        -e "s|@MAINTAINER@|$maintainer|g" -e "s|@LIBRARIES@|${libraries:+, $libraries}|g" -e "s|@SIZE@|${size-}|g" \
        -e "s|@UNIT@|$UNIT|g" -e "s|@UNITS@|$UNITS|g" -e "s|@PROGRAM@|$PROGRAM|g" -e "s|@FILES@|$FILES|g" \
        -e "s|@MODES@|$MODES|g" -e "s|@WITHOUT@|$WITHOUT|g" -e "s|@NUTS@|$nuts|g" \
        -e "s|@DATE@|$(date -u -R -d "@$SOURCE_DATE_EPOCH")|g" "packaging/deb/$1" > "$2"
}

# built FILE: mulgefa-check says which package or archive it is of.
built() {
    sed -i "s/^build=\$/build=$version/" "$1"
}

# make_deb PART PROGRAM..
make_deb() {
    package=mulgefa-$1
    tree=$work/$package
    . "packaging/deb/$package.names"
    shift
    PREFIX=/usr DESTDIR=$tree BIN=$work/programs PART=${package#mulgefa-} CONFDIR=/etc/nut sh packaging/install.sh install "$@"
    if [ -e "$tree/usr/sbin/mulgefa-check" ]; then
        built "$tree/usr/sbin/mulgefa-check"
    fi
    # Debian 12 has units here, and NUT's names for what stands in place of NUT's units.
    install -d "$tree/lib/systemd"
    mv "$tree/usr/lib/systemd/system" "$tree/lib/systemd/system"
    rmdir "$tree/usr/lib/systemd"
    nuts=
    while read -r of name unit; do
        if [ "$of" = "$package" ]; then
            nuts="$nuts $name"
            ln -s "$unit" "$tree/lib/systemd/system/$name"
            sed -i '/^Conflicts=nut-\(server\|monitor\)\.service$/d' "$tree/lib/systemd/system/$unit"
        fi
    done < packaging/deb/names-of-units
    find "$tree/usr/share/man" -type f -exec gzip -9n {} +
    libraries=$(libraries_of "$@")
    doc=$tree/usr/share/doc/$package
    install -d "$doc"
    install -m 644 packaging/deb/copyright "$doc/copyright"
    filled changelog "$doc/changelog"
    gzip -9n "$doc/changelog"
    size=$(find "$tree" -type f -printf '%s\n' | awk '{ sum += int(($1 + 1023) / 1024) } END { print sum }')
    install -d "$tree/DEBIAN"
    filled "$package.control" "$tree/DEBIAN/control"
    for script in postinst prerm postrm; do
        filled "$script" "$tree/DEBIAN/$script"
        chmod 755 "$tree/DEBIAN/$script"
    done
    echo "interest-noawait $package" > "$tree/DEBIAN/triggers"
    (cd "$tree" && find . -path ./DEBIAN -prune -o -type f -printf '%P\n' | sort | xargs -d '\n' md5sum) > "$work/md5sums"
    install -m 644 "$work/md5sums" "$tree/DEBIAN/md5sums"
    chmod -R u=rwX,go=rX "$tree"
    dated "$tree"
    dpkg-deb --root-owner-group -Zxz --threads-max=1 --build "$tree" "$TO/${package}_${version}_$architecture.deb" > /dev/null
    echo "$TO/${package}_${version}_$architecture.deb"
}

make_tar() {
    name=mulgefa-$version-$architecture
    tree=$work/$name
    install -d "$tree/bin" "$tree/packaging"
    for program in $server $client; do
        install -m 755 "$work/programs/$program" "$tree/bin/$program"
    done
    install -m 644 "$work/programs/third-party-notices" "$tree/bin/third-party-notices"
    for file in install.sh configure.sh completions.bash mulgefa-check mulgefa-nut-drivers until-ready upsmon-apart mulgefa.sysusers \
        mulgefa-upsd.service mulgefa-upsmon.service mulgefa-dummy-ups@.service nut-drivers.conf; do
        install -m 644 "packaging/$file" "$tree/packaging/$file"
    done
    built "$tree/packaging/mulgefa-check"
    (cd "$tree/packaging" && chmod 755 install.sh mulgefa-check mulgefa-nut-drivers until-ready upsmon-apart)
    cp -R man examples CHANGELOG.md SECURITY.md "$tree/"
    install -m 644 packaging/archive.md "$tree/README.md"
    install -D -m 755 tools/nutroom "$tree/tools/nutroom"
    install -d "$tree/tools/nutroom_modules"
    install -m 644 tools/nutroom_modules/*.py "$tree/tools/nutroom_modules/"
    install -d "$tree/docs"
    install -m 644 docs/from-nut.md docs/room.md docs/room.svg "$tree/docs/"
    chmod -R u=rwX,go=rX "$tree"
    dated "$tree"
    tar --sort=name --owner=0 --group=0 --numeric-owner --format=gnu -C "$work" -cf "$work/$name.tar" "$name"
    gzip -9n < "$work/$name.tar" > "$TO/$name.tar.gz"
    echo "$TO/$name.tar.gz"
}

case ${1-} in
    deb | tar) ;;
    *)
        echo "usage: $0 deb|tar" >&2
        exit 2
        ;;
esac
install -d "$TO"
ship_programs
case $1 in
    deb)
        make_deb server $server
        make_deb client $client
        ;;
    tar) make_tar ;;
esac
