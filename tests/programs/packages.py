"""Makes Debian packages and the archive, checks their contents, and installs them in a fresh Debian.

    python3 -m tests.programs.packages [--root FOLDER] [PROGRAM..]

A script is used in place of a program that isn't given. The fresh Debian is made by debootstrap, which needs root and a
network, or is a copy of FOLDER, in which debootstrap made one with systemd."""

import hashlib
import os
import re
import shutil
import stat
import subprocess
import sys
import tarfile
import tempfile

from tests.programs import install
from tests.support.debian_root import fresh_root, run
from tests.support.harness import (
    ROOT, VERSION, Missing, built_without_proof, ensure, expect, needed, read, read_bytes, run_tests, write,
)

PACKAGES = ("mulgefa-client", "mulgefa-server")
# the files of each section of the manual, and the examples, that belong to the server
SERVERS = ("upsd", "dummy-ups", "ups.conf", "upsd.conf", "upsd.users", "su700.dev", "nut-drivers.conf")
NAMES_OF_UNITS = {"nut-server.service": "mulgefa-upsd.service", "nut-monitor.service": "mulgefa-upsmon.service", "nut-client.service": "mulgefa-upsmon.service"}

# what a fresh Debian changes by itself while packages are installed and removed
UNSTEADY = re.compile(r"var/(lib/(dpkg|apt|systemd/deb-systemd-helper)|cache|log)/|etc/(passwd|group|shadow|gshadow)-?$|root/|tmp/|run/|proc/|sys/|dev/|etc/\.pwd\.lock")


def package_of(path):
    """Returns the package that an installed file belongs to."""
    name = os.path.basename(path)
    # the page says how all files are read
    if path.startswith(("share/mulgefa/rooms/", "share/mulgefa/schedules/")) or name == "ups.conf.5":
        return "mulgefa-client"
    for of in SERVERS:
        if name in (of, f"{of}.5", f"{of}.8") or name in (f"mulgefa-{of}.service", f"mulgefa-{of}@.service"):
            return "mulgefa-server"
    return "mulgefa-client"


def in_package(path):
    """Returns the place in a package of a file that is installed at this path below PREFIX."""
    if path.startswith("lib/systemd/"):
        return path
    return f"usr/{path}.gz" if path.startswith("share/man/") else f"usr/{path}"


def wanted_files(package):
    """Returns the contents of a package, with modes; links have none."""
    files = {in_package(path): mode for path, mode in install.wanted_files().items() if package_of(path) == package}
    files.update({f"usr/share/doc/{package}/{name}": 0o644 for name in ("changelog.gz", "copyright")})
    if package == "mulgefa-server":
        files.update({"usr/sbin/mulgefa-nut-drivers": 0o755, "usr/share/man/man8/mulgefa-nut-drivers.8.gz": 0o644, "lib/systemd/system/nut-server.service": None})
    else:
        files.update({"usr/share/mulgefa/configure.sh": 0o644, "lib/systemd/system/nut-monitor.service": None, "lib/systemd/system/nut-client.service": None})
    return files


def state_of(folder):
    """Returns the state of each file below a folder, except for those that change by themselves."""
    state = {}
    for at, folders, names in os.walk(folder):
        for name in names + [it + "/" for it in folders]:
            path = os.path.join(at, name)
            shown = os.path.relpath(path, folder) + ("/" if name.endswith("/") else "")
            if UNSTEADY.match(shown):
                continue
            found = os.lstat(path)
            digest = ""
            if stat.S_ISREG(found.st_mode):
                digest = hashlib.sha256(read_bytes(path)).hexdigest()
            state[shown] = (found.st_mode, found.st_uid, found.st_gid, digest)
    return state


def files_in(path, *wanted):
    """Returns the entries of a package, each with its bytes if its name is wanted, and without the others if any is."""
    with subprocess.Popen(["dpkg-deb", "--fsys-tarfile", path], stdout=subprocess.PIPE) as process:
        with tarfile.open(fileobj=process.stdout, mode="r|") as tar:
            return {it: tar.extractfile(it).read().decode() if wanted else None for it in tar if not wanted or it.name in wanted}


class Packages:
    """Built programs or scripts in place of them, and the packages that are made from them."""

    def __init__(self, built, folder):
        self.folder = folder
        self.bin = os.path.join(folder, "bin")
        self.built = install.put_programs(built, self.bin)
        self.counted = 0
        # a commit during the tests must not make another version
        status, said = run(["git", "log", "-1", "--format=%ct"], cwd=ROOT)
        self.epoch = said.strip() if status == 0 else "1"

    def make(self, *words, env=(), umask=0o022):
        """Returns what 'make' printed, which has to end with status 0."""
        before = os.umask(umask)
        try:
            done = subprocess.run(
                ["make", "-s", *words, f"BIN={self.bin}"], cwd=ROOT, env={**install.outside_make(), "SOURCE_DATE_EPOCH": self.epoch, **dict(env)}, stdin=subprocess.DEVNULL,
                stdout=subprocess.PIPE, stderr=subprocess.STDOUT, text=True, timeout=600,
            )
        finally:
            os.umask(before)
        ensure(done.returncode == 0, f"make {' '.join(words)} ends with status {done.returncode}: {done.stdout}")
        return done.stdout

    def made(self, what, **options):
        """Returns the files that 'make deb' or 'make tar' makes in a folder of their own, by their names without the
        version."""
        self.counted += 1
        to = os.path.join(self.folder, f"dist{self.counted}")
        said = self.make(what, f"TO={to}", **options)
        found = {re.match("mulgefa(-[a-z]+)?", os.path.basename(path))[0]: path for path in said.split()}
        expect(sorted(os.listdir(to)), sorted(os.path.basename(it) for it in found.values()), "what is in the folder")
        return found


class Tests:
    def __init__(self, packages, saved):
        self.packages = packages
        self.saved = saved
        self.debs = {}

    def all_debs(self):
        if not self.debs:
            needed("dpkg-deb", "dpkg")
            self.debs = self.packages.made("deb")
        return self.debs

    def fresh(self, name):
        """Returns a fresh Debian with the packages in /root."""
        folder = os.path.join(self.packages.folder, name)
        if self.saved is None:
            self.saved = fresh_root(os.path.join(self.packages.folder, "saved")).folder
        root = fresh_root(folder, self.saved)
        for path in self.all_debs().values():
            shutil.copy(path, root.path("/root"))
        return root

    def test_same_bytes_twice(self):
        needed("dpkg-deb", "dpkg")
        first = {**self.all_debs(), **self.packages.made("tar")}
        for name in os.listdir(self.packages.bin):
            os.utime(os.path.join(self.packages.bin, name), (1, 1))
        blank = os.path.join(self.packages.folder, "a folder")
        os.mkdir(blank)
        again = {"umask": 0o077, "env": {"TZ": "Asia/Tokyo", "LC_ALL": "C.UTF-8", "TMPDIR": blank}}
        second = {**self.packages.made("deb", **again), **self.packages.made("tar", **again)}
        expect(sorted(first), ["mulgefa", *PACKAGES], "what is made")
        for name, path in first.items():
            expect(read_bytes(path) == read_bytes(second[name]), True, f"{name} is the same")
            expect(os.path.basename(path), os.path.basename(second[name]), "its name")

    def test_files(self):
        for name, path in self.all_debs().items():
            entries = list(files_in(path))
            for entry in entries:
                expect((entry.uid, entry.gid, entry.uname, entry.gname), (0, 0, "root", "root"), f"{name}: the owner of {entry.name}")
                if entry.isdir():
                    expect(entry.mode, 0o755, f"{name}: the mode of {entry.name}")
                ensure(not entry.name.startswith("./etc"), f"{name} has {entry.name}")
            found = {it.name[2:]: None if it.issym() else it.mode for it in entries if not it.isdir()}
            expect(found, wanted_files(name), f"{name}: files and modes")
            links = {os.path.basename(it.name): it.linkname for it in entries if it.issym()}
            expect(links, {link: unit for link, unit in NAMES_OF_UNITS.items() if f"lib/systemd/system/{link}" in found}, f"{name}: links")

    def test_fields(self):
        for name, path in self.all_debs().items():
            nuts = name.replace("mulgefa", "nut")
            _, said = run(["dpkg-deb", "--field", path])
            fields = dict(re.findall(r"^(\S+): (.*)$", said, re.MULTILINE))
            for field in ("Conflicts", "Provides"):
                ensure(nuts in fields[field].split(", "), f"{name}: {field}: {fields[field]}")
            # otherwise dpkg would remove NUT's package after unpacking this one, and the same files with it: its /sbin/upsd is
            # our /usr/sbin/upsd
            ensure("nut" not in fields.get("Replaces", ""), f"{name} replaces files of NUT")
            # a program is built with the system's C library
            if any(package_of(f"bin/{program}") == name for program in self.packages.built):
                ensure("libc6" in fields["Depends"], f"{name}: Depends: {fields['Depends']}")
        _, depends = run(["dpkg-deb", "--field", self.all_debs()["mulgefa-server"], "Depends"])
        _, version = run(["dpkg-deb", "--field", self.all_debs()["mulgefa-client"], "Version"])
        ensure(f"mulgefa-client (= {version.strip()})" in depends, f"the server wants this client: {depends}")
        ensure(re.fullmatch(re.escape(VERSION) + r"\+\d{8}\.\d{6}\n", version), f"the version of the programs, and the time of the commit: {version}")
        (check,) = files_in(self.all_debs()["mulgefa-client"], "./usr/sbin/mulgefa-check").values()
        ensure(f"\nbuild={version}" in check, "mulgefa-check of the package says its version")

    def test_libraries_that_cannot_be_told(self):
        """If it can't be told what the programs need, no package is made, and what went wrong is shown."""
        for program, package in (("dpkg-deb", "dpkg"), ("dpkg-shlibdeps", "dpkg-dev"), ("strip", "binutils")):
            needed(program, package)
        folder, stand_in, to = (os.path.join(self.packages.folder, it) for it in ("machine-code", "stand-in", "nowhere"))
        write(os.path.join(folder, "third-party-notices"), "")
        for program in install.programs():
            shutil.copy(needed("true", "coreutils"), os.path.join(folder, program))
        write(os.path.join(stand_in, "dpkg-shlibdeps"), "#!/bin/sh\necho cannot find a library >&2\nexit 2\n", 0o755)
        env = {**os.environ, "PATH": f"{stand_in}:{os.environ['PATH']}", "BIN": folder, "TO": to, "SOURCE_DATE_EPOCH": self.packages.epoch}
        status, said = run(["sh", os.path.join(ROOT, "packaging/packages.sh"), "deb"], env=env)
        expect((status, said, os.listdir(to)), (1, "cannot find a library\n", []), "what is said and made")

    def test_units_in_packages(self):
        """NUT's names must not be both another name of a unit and what it excludes."""
        for name, path in self.all_debs().items():
            tree = os.path.join(self.packages.folder, f"tree-{name}")
            run(["dpkg-deb", "-x", path, tree])
            for unit in os.listdir(os.path.join(tree, "lib/systemd/system")):
                text = read(os.path.join(tree, "lib/systemd/system", unit))
                excluded = re.findall(r"^Conflicts=(.*)$", text, re.MULTILINE)
                expect([it for it in excluded if it in NAMES_OF_UNITS], [], f"{unit} excludes itself")
                calls = "system-service|privileged|resources|module|debug|cpu-emulation|obsolete"
                ensure("@" not in re.sub(f"@%i|ups@|@({calls})", "", text), f"{unit}: a place left open")

    def test_lintian(self):
        lintian = needed("lintian", "lintian")
        for name, path in self.all_debs().items():
            status, said = run([lintian, "--fail-on", "error", "--tag-display-limit", "0", path], timeout=600)
            expect((status, re.findall("^E: .*$", said, re.MULTILINE)), (0, []), f"{name}: what lintian says: {said}")

    def test_archive(self):
        """The archive installs what 'make install-built' does, and uninstalls it again."""
        archive = self.packages.made("tar")["mulgefa"]
        folder = os.path.join(self.packages.folder, "archive")
        os.mkdir(folder)
        subprocess.run(["tar", "-xf", archive, "-C", folder], check=True, timeout=60)
        (top,) = os.listdir(folder)
        expect(f"{top}.tar.gz", os.path.basename(archive), "its folder")
        page = read(os.path.join(folder, top, "README.md"))
        named = re.findall(r"`([a-z]+(?:/[a-z.-]+)?|docs/\S+|[A-Z]+[.]md)(?: [a-z]+)?`", page)
        ensure({"packaging/mulgefa-check", "packaging/mulgefa-nut-drivers", "docs/from-nut.md"} <= set(named), f"what its README names: {named}")
        expect([it for it in named if not os.path.exists(os.path.join(folder, top, it))], [], "what its README names and it lacks")
        wanted = os.path.join(self.packages.folder, "wanted")
        self.packages.make("install-built", f"DESTDIR={wanted}", "PREFIX=/opt/mulgefa")
        found = os.path.join(self.packages.folder, "found")
        script = os.path.join(folder, top, "packaging/install.sh")
        env = {**os.environ, "DESTDIR": found, "PREFIX": "/opt/mulgefa"}
        expect(run([script, "install"], env=env, cwd="/"), (0, ""), "its script")
        build = re.fullmatch(r"mulgefa-(.*\d)-[^-]+", top)[1]
        for place, said in ((wanted, "of a clone, where 'git log -1' shows the commit"), (found, build)):
            check = os.path.join(place, "opt/mulgefa/sbin/mulgefa-check")
            expect(run([check, "--version"]), (0, f"mulgefa-check (Mulgefa) {said}\n"), "the build")
            # but for that line it is the same
            write(check, re.sub("^build=.*$", "build=", read(check), count=1, flags=re.MULTILINE))
        shown = [{path: (it[0], it[3]) for path, it in state_of(folder).items() if not path.endswith("/")} for folder in (wanted, found)]
        for states in shown:
            for path in list(states):
                # programs are shipped without the names of their functions
                if os.path.basename(path) in install.programs():
                    states[path] = states[path][0]
        expect(shown[1], shown[0], "what is installed")
        expect(run([script, "configure"], env={**env, "CONFDIR": "/etc/nut"}, cwd="/"), (0, ""), "a first configuration")
        expect(sorted(os.listdir(os.path.join(found, "etc/nut"))), sorted(install.EXAMPLES), "its files")
        expect(run([script, "uninstall"], env=env, cwd="/"), (0, ""), "its script")
        expect([it for it in install.files_below(found) if not it.startswith("etc/nut/")], [], "what is left")

    def test_archive_configures_a_system(self):
        """The archive's first configuration, not below DESTDIR: it makes the user nut, who reads the server's files."""
        root = self.fresh("configured")
        shutil.copy(self.packages.made("tar")["mulgefa"], root.path("/root"))
        root.do("tar -xf mulgefa-*.tar.gz && mulgefa-*/packaging/install.sh configure")
        modes = root.do("stat -c '%U %G %a' /etc/nut /etc/nut/upsd.users /etc/nut/upsmon.conf")
        expect(modes, "root nut 750\nroot nut 640\nroot root 600\n", "who reads the files")

    def test_fresh_system(self):
        """Installed, changed by hand, upgraded, removed and purged; only the user nut is left."""
        root = self.fresh("fresh")
        before = state_of(root.folder)
        root.do("dpkg -i /root/mulgefa-*.deb")
        expect(root.do("dpkg --verify mulgefa-client mulgefa-server"), "", "files that differ")
        nut = root.do("id -u nut").strip()
        for name in install.EXAMPLES:
            found = os.stat(root.path(f"/etc/nut/{name}"))
            group = 0 if name == "upsmon.conf" else int(root.do("id -g nut"))
            mode = 0o600 if name == "upsmon.conf" else 0o640
            expect((stat.S_IMODE(found.st_mode), found.st_uid, found.st_gid), (mode, 0, group), f"the mode of {name}")
        users, monitor = install.passwords_in(root.path("/etc/nut"))
        expect(users["monuser"], monitor, "the passwords fit")
        expect(len(set(users.values())), 3, "no two are the same")

        root.write("/etc/nut/ups.conf", "[mine]\n")
        root.write("/etc/nut/other", "mine\n")
        kept = root.nut_files()
        later = self.packages.made("deb", env={"SOURCE_DATE_EPOCH": "4000000000"})
        for path in later.values():
            shutil.copy(path, root.path("/root/later-" + os.path.basename(path)))
        os.remove(root.path("/etc/nut/su700.dev"))
        del kept["su700.dev"]
        root.do("dpkg -i /root/later-mulgefa-*.deb")
        expect(root.nut_files(), kept, "files after an upgrade")
        expect(root.do("id -u nut").strip(), nut, "the number of the user")

        root.do("dpkg --remove mulgefa-server mulgefa-client")
        expect(root.nut_files(), kept, "files after the removal")
        root.do("dpkg --purge mulgefa-client mulgefa-server")
        expect(os.listdir(root.path("/etc/nut")), ["other"], "a file that no package made")
        shutil.rmtree(root.path("/etc/nut"))
        after = state_of(root.folder)
        expect({it: after.get(it) for it in after.keys() | before.keys() if after.get(it) != before.get(it)}, {}, "what a purge leaves")

    def test_purge_leaves_nothing(self):
        root = self.fresh("purged")
        before = state_of(root.folder)
        root.do("dpkg -i /root/mulgefa-*.deb")
        root.do("systemctl enable mulgefa-upsd mulgefa-upsmon mulgefa-dummy-ups@su700")
        # what 'systemctl reload mulgefa-upsd' leaves
        root.do("touch /etc/nut/reload")
        root.do("dpkg --purge mulgefa-server mulgefa-client")
        after = state_of(root.folder)
        expect({it: after.get(it) for it in after.keys() | before.keys() if after.get(it) != before.get(it)}, {}, "what a purge leaves")

    def test_files_of_others_stay(self):
        """A configuration that exists before, usually of NUT, is neither replaced nor removed."""
        root = self.fresh("mine")
        mine = {name: f"# my {name}\n" for name in ("ups.conf", "upsd.conf", "upsd.users", "upsmon.conf", "nut.conf")}
        for name, text in mine.items():
            root.write(f"/etc/nut/{name}", text)
        said = root.do("dpkg -i /root/mulgefa-*.deb")
        for name in ("ups.conf", "upsmon.conf"):
            ensure(f"/etc/nut/{name} is there already and stays as it is" in said, f"{name} isn't told of: {said}")
        expect(root.nut_files(), mine, "files")
        ensure(not os.path.exists(root.path("/etc/systemd/system/multi-user.target.wants/mulgefa-upsd.service")), "something was enabled")
        root.do("dpkg --purge mulgefa-server mulgefa-client")
        expect(root.nut_files(), mine, "files after a purge")

    def test_services_follow_nut_conf(self):
        """The services that NUT's nut.conf names are enabled, and nothing else."""
        both = ["mulgefa-upsd", "mulgefa-upsmon"]
        wanted = {"none": [], "netclient": ["mulgefa-upsmon"], "standalone": both, "'standalone'": both, '"netserver"  # ours': both}
        root = self.fresh("modes")
        for mode, services in wanted.items():
            root.write("/etc/nut/nut.conf", f"# MODE=netserver\nMODE={mode}\n")
            root.do("dpkg -i /root/mulgefa-*.deb")
            found = [it.removesuffix(".service") for it in os.listdir(root.path("/etc/systemd/system/multi-user.target.wants")) if it.startswith("mulgefa")]
            expect(sorted(found), services, f"what is enabled with MODE={mode}")
            root.do("dpkg --purge mulgefa-server mulgefa-client")

    def test_drop_in_of_nut(self):
        """A unit that would heed what was made for NUT's isn't started, and the packages say so."""
        root = self.fresh("drop-in")
        root.write("/etc/nut/nut.conf", "MODE=netserver\n")
        root.write("/etc/systemd/system/nut-monitor.service.d/override.conf", "[Service]\nExecStart=\nExecStart=/sbin/upsmon -F\n")
        said = root.do("dpkg -i /root/mulgefa-*.deb")
        told = "mulgefa-upsmon.service isn't started, since what was made for NUT's unit applies to it: /etc/systemd/system/nut-monitor.service.d"
        expect([line for line in said.splitlines() if "isn't started" in line], [told], "what is told")

    def test_service_that_was_disabled(self):
        """A package that was removed and comes back enables nothing, and says so where nut.conf names its service."""
        root = self.fresh("again")
        root.write("/etc/nut/nut.conf", "MODE=netserver\n")
        ensure("isn't enabled" not in root.do("dpkg -i /root/mulgefa-*.deb"), "the first installation enables both")
        root.do("systemctl disable mulgefa-upsd")
        root.do("dpkg --remove mulgefa-server mulgefa-client")
        said = root.do("dpkg -i /root/mulgefa-*.deb")
        told = ["mulgefa-upsd.service isn't enabled: 'systemctl enable --now mulgefa-upsd.service' does it"]
        expect([line for line in said.splitlines() if "isn't enabled" in line], told, "what is told of the one that was disabled")

    def test_faults_are_told_last(self):
        """What has to be changed in files of NUT's comes last, whether or not nut.conf says that NUT is to run. What has to run is
        enabled all the same."""
        if not {"upsd", "upsmon"} <= set(self.packages.built):
            raise Missing("no built programs were handed in")
        root = self.fresh("faults")
        told = {
            "mulgefa-client": [
                "/etc/nut/upsmon.conf:2: UnknownDirective: RUN_AS_USER nut",
                "    take it out: the unit runs one process as root; upsmon(8) has a drop-in for two",
                "mulgefa-upsmon.service can't start until this is changed; if it is enabled, systemd tries it every 5 seconds",
            ],
            "mulgefa-server": [
                install.GOES.format("usbhid-ups"),
                "/etc/nut/ups.conf: left to the drivers: maxretry",
                install.REFUSED,
                "mulgefa-upsd.service can't start until this is changed; if it is enabled, systemd tries it every 5 seconds",
            ],
        }
        gone = [
            'the UPS apc has no driver (usbhid-ups is NUT\'s, and went with nut-server): until one runs, nothing stops this machine in a power failure; see from-nut(7), "Drivers"',
            "these bring NUT's drivers back: apt-get download nut-server && mulgefa-nut-drivers nut-server_*.deb && apt-get install ./mulgefa-nut-drivers_*.deb",
        ]
        for mode, last in (("none", []), ("standalone", gone)):
            told["mulgefa-server"] += last
            for name, text in {
                "nut.conf": f"MODE={mode}\n",
                "ups.conf": "maxretry = 3\n[apc]\n driver = usbhid-ups\n port = auto\n",
                "upsd.conf": "",
                "upsd.users": "",
                "upsmon.conf": "MINSUPPLIES 0\nRUN_AS_USER nut\n",
            }.items():
                root.write(f"/etc/nut/{name}", text)
            said = root.do("dpkg -i /root/mulgefa-*.deb").splitlines()
            for package, lines in told.items():
                (at,) = [i for i, line in enumerate(said) if line.startswith(f"Processing triggers for {package} ")]
                expect(said[at + 1 : at + 1 + len(lines)], lines, f"what {package} tells with MODE={mode}")
            rest = [line for line in said[at:] if not line.startswith("Processing triggers for ")]
            ensure(len(rest) <= len(told["mulgefa-server"]) + len(told["mulgefa-client"]), f"what else is told: {said}")
            enabled = os.path.islink(root.path("/etc/systemd/system/multi-user.target.wants/mulgefa-upsmon.service"))
            expect(enabled, mode != "none", f"whether the monitor is enabled with MODE={mode}")
            root.do("dpkg --purge mulgefa-server mulgefa-client")
            shutil.rmtree(root.path("/etc/nut"))

    def package_of_nut(self):
        """Makes what stands for Debian's nut-server: two drivers, and what starts them."""
        tree = os.path.join(self.packages.folder, "nut-server")
        files = {
            "lib/nut/usbhid-ups": "#!/bin/sh\n", "lib/nut/dummy-ups": "#!/bin/sh\n", "lib/nut/upsd": "", "sbin/upsdrvctl": "#!/bin/sh\n", "sbin/upsd": "",
            "usr/share/doc/nut-server/copyright": "c\n", "usr/share/doc/nut-server/changelog.Debian.gz": "",
            "DEBIAN/control": "Package: nut-server\nVersion: 2.8.0-7\nArchitecture: all\nMaintainer: m <m@m.example>\nDepends: nut-client, adduser, dpkg\nDescription: d\n",
        }
        for path, text in files.items():
            write(os.path.join(tree, path), text, 0o755 if text.startswith("#!") else 0o644)
        for folder, _, _ in os.walk(tree):
            os.chmod(folder, 0o755)
        status, said = run([needed("dpkg-deb", "dpkg"), "--root-owner-group", "--build", tree, f"{tree}.deb"])
        expect(status, 0, f"a package of NUT: {said}")
        return f"{tree}.deb"

    def drivers_package(self):
        """Makes the package of NUT's drivers with the script in the archive, before anything is installed."""
        folder = os.path.join(self.packages.folder, "from-archive")
        if not os.path.isdir(folder):
            os.mkdir(folder)
            subprocess.run(["tar", "-xf", self.packages.made("tar")["mulgefa"], "-C", folder], check=True, timeout=60)
        (top,) = [it for it in os.listdir(folder) if not it.endswith(".deb")]
        script = os.path.join(folder, top, "packaging/mulgefa-nut-drivers")
        status, said = run([script, "-o", folder, self.package_of_nut()], env={**os.environ, "LC_ALL": "C"})
        expect((status, said), (0, f"{folder}/mulgefa-nut-drivers_2.8.0-7_all.deb\n"), "what it makes")
        return said.strip()

    def test_drivers_from_the_archive(self):
        path = self.drivers_package()
        _, said = run(["dpkg-deb", "--contents", path])
        found = {line.split()[5] for line in said.splitlines() if not line.startswith("d")}
        drop_in = "/usr/lib/mulgefa/nut-drivers.conf"
        ensure(f"mulgefa-upsd.service.d/nut-drivers.conf -> {drop_in}\n" in said, f"the drop-in of upsd's unit is the server's: {said}")
        ensure(drop_in[1:] in wanted_files("mulgefa-server"), "the server has it")
        units = {f"./lib/systemd/system/{name}" for name in ("nut-driver.target", "nut-driver@.service", "mulgefa-upsd.service.d/nut-drivers.conf")}
        wanted = {"./lib/nut/usbhid-ups", "./lib/nut/dummy-ups", "./sbin/upsdrvctl", *(f"./usr/share/doc/mulgefa-nut-drivers/{it}" for it in ("copyright", "changelog.Debian.gz"))}
        expect(found, wanted | units, "its files")
        _, said = run(["dpkg-deb", "--field", path, "Depends"])
        expect(said, "mulgefa-server, dpkg\n", "what it needs")

    def test_drivers_keep_their_file(self):
        """With NUT's drivers installed in the same step, upsd reads a copy of ups.conf without what is theirs, those that ups.conf names are
        enabled, and nobody is told to take out what they need. A purge of all leaves nothing of it."""
        if not {"upsd", "upsmon"} <= set(self.packages.built):
            raise Missing("no built programs were handed in")
        root = self.fresh("drivers")
        shutil.copy(self.drivers_package(), root.path("/root"))
        files = {
            "nut.conf": "MODE=standalone\n",
            "ups.conf": "maxretry = 3\n[apc]\n driver = usbhid-ups\n port = auto\n vendorid = 051d\n[none]\n driver = snmp-ups\n port = h\n",
            "upsd.conf": "",
            "upsd.users": "[a]\n password = p\n upsmon primary\n",
            "upsmon.conf": "MINSUPPLIES 0\n",
        }
        for name, text in files.items():
            root.write(f"/etc/nut/{name}", text)
        said = root.do("dpkg -i /root/mulgefa-*.deb").splitlines()
        expect([line for line in said if "ups.conf:" in line or "take it out" in line], [], f"what is told: {said}")
        expect({name: root.read(f"/etc/nut/{name}") for name in files}, files, "the files of NUT's")
        place = os.readlink(root.path("/lib/systemd/system/mulgefa-upsd.service.d/nut-drivers.conf"))
        drop_in = root.read(place)
        (command,) = re.findall("^ExecStartPre=[+](.*)$", drop_in, re.MULTILINE)
        expect(re.findall("^ExecReload=[+]?(.*)$", drop_in, re.MULTILINE)[:2], ["", command], "what is run at a reload")
        ensure("\nEnvironment=NUT_CONFPATH=/run/mulgefa\n" in drop_in, f"upsd's directory: {drop_in}")
        expect(root.do(command), "ups.conf: left to the drivers: maxretry\nups.conf: left to the driver of apc: vendorid\n", "what is left to drivers")
        expect(root.read("/run/mulgefa/ups.conf"), "\n[apc]\n driver = usbhid-ups\n port = auto\n\n[none]\n driver = snmp-ups\n port = h\n", "upsd's ups.conf")
        expect(root.do("upsd --check --conf /run/mulgefa"), "", "what upsd says of it")
        expect(root.do("stat -c '%U %G %a' /run/mulgefa /run/mulgefa/upsd.users"), "root nut 750\nroot nut 640\n", "who reads it")
        wants = root.path("/etc/systemd/system/nut-driver.target.wants")
        expect(os.listdir(wants), ["nut-driver@apc.service"], "the drivers that are enabled")
        expect(root.run("mulgefa-check --upsd"), (0, install.GOES.format("snmp-ups") + "\n"), "the drivers that aren't kept")
        root.do("dpkg --purge mulgefa-nut-drivers")
        status, said = root.run("mulgefa-check --upsd")
        expect((status, said.splitlines()[-1]), (1, install.REFUSED), "lines that are nobody's now")
        root.do("dpkg --purge mulgefa-server mulgefa-client")
        left = [path for path in ("/run/mulgefa", "/lib/systemd/system/mulgefa-upsd.service.d", "/etc/systemd/system/nut-driver.target.wants/nut-driver@apc.service") if os.path.lexists(root.path(path))]
        expect(left, [], "what is left")

    def test_installation_that_fails(self):
        """If the first configuration fails in the middle, what is made later by hand isn't the package's to remove, and
        another call makes the rest."""
        root = self.fresh("failed")
        # the first file is made, and the second can't be given to its group
        stand_in = '#!/bin/sh\necho >> /root/calls\n[ "$(wc -l < /root/calls)" != 3 ] || exit 1\nexec /usr/bin/chgrp "$@"\n'
        root.write("/usr/local/sbin/chgrp", stand_in, 0o755)
        path = "PATH=/usr/local/sbin:$PATH; export PATH; "
        status, said = root.run(path + "dpkg -i /root/mulgefa-*.deb")
        ensure(status != 0, f"an installation that fails: {said}")
        os.remove(root.path("/usr/local/sbin/chgrp"))
        # the server's files follow upsmon.conf, which has no group of its own
        expect(sorted(os.listdir(root.path("/etc/nut"))), ["ups.conf", "upsmon.conf"], "whole files are left")
        root.write("/etc/nut/upsd.conf", "LISTEN 127.0.0.1\n")
        root.do("dpkg --configure -a")
        expect(sorted(os.listdir(root.path("/etc/nut"))), sorted(install.EXAMPLES), "the files")
        root.do("dpkg --purge mulgefa-server mulgefa-client")
        expect(root.nut_files(), {"upsd.conf": "LISTEN 127.0.0.1\n"}, "what a purge leaves")


def main(tests, wants):
    """Runs tests of packages by the command line, which may begin with the folder of a saved root."""
    words = sys.argv[1:]
    saved = None
    if words[:1] == ["--root"]:
        saved, words = os.path.abspath(words[1]), words[2:]
    # programs without proof are ten times as large, which packing them takes, and nobody ships them
    built = [] if built_without_proof() else [os.path.abspath(it) for it in words]
    with tempfile.TemporaryDirectory() as folder:
        return run_tests(tests(Packages(built, folder), saved), install=wants)


if __name__ == "__main__":
    sys.exit(main(Tests, "'apt-get install lintian debootstrap' installs what they need; some want root and a network"))
