"""Replaces NUT's packages by this project's on a Debian that runs NUT, and back again, with the given programs.

    python3 -m tests.peers.packages [--root FOLDER] UPSD DUMMY-UPS UPSMON UPSC UPSRW UPSCMD NUTSIM

The Debian is made by debootstrap, which needs root and a network, or is a copy of FOLDER, in which debootstrap made one with
systemd; NUT's packages come from Debian. It runs under systemd-nspawn."""

import os
import re
import shutil
import sys
import time

from tests.support.debian_root import Booted, Root, fresh_root
from tests.support.harness import Missing, ensure, expect, read
from tests.programs.packages import ROOT, main

# NUT with a dummy UPS, as an operator of Debian has it: the files of Debian's packages with a few more lines.
UPS_CONF = '[su700]\n  driver = dummy-ups\n  port = su700.dev\n  desc = "Server room"\n'
UPSD_USERS = "[admin]\n  password = pw\n  actions = set\n  instcmds = all\n[monuser]\n  password = m1\n  upsmon master\n"
UPSMON_CONF = 'MONITOR su700@localhost 1 monuser m1 master\nSHUTDOWNCMD "touch /root/halted"\nRUN_AS_USER root\nFINALDELAY 0\nPOWERDOWNFLAG /run/killpower\n'
DEVICE = "ups.mfr: Dummy\nups.model: Peer\nups.id: rack\nups.status: {}\n"

# what mulgefa-check has to report, in this order
TOLD = [
    "ups.conf:%d: OutsideSection: maxretry = 3",
    "upsd.users:%d: UnknownWord: actions = set",
    "upsd.users:%d: UnknownWord: upsmon master",
    "upsmon.conf:%d: UnknownDirective: POLLFREQALERT 5",
    "upsmon.conf:%d: UnknownWord: MONITOR su700@localhost 1 .. master",
    "upsmon.conf:%d: UnknownDirective: RUN_AS_USER root",
]


def page(*names):
    return read(os.path.join(ROOT, *names))


def shown(section, block):
    """Returns one of the blocks of code that a section of docs/from-nut.md has."""
    text = re.search(rf"^## {section}\n(.*?)^## ", page("docs", "from-nut.md"), re.MULTILINE | re.DOTALL)[1]
    return re.findall(r"^```\n(.*?)^```", text, re.MULTILINE | re.DOTALL)[block]


def shown_commands(section, block):
    return shown(section, block).splitlines()


def archive_commands(block):
    """Returns the commands of one of the blocks that the README of the archive has."""
    return re.findall(r"^```sh\n(.*?)^```", page("packaging", "archive.md"), re.MULTILINE | re.DOTALL)[block].splitlines()


def install_steps():
    """Returns what stands as code in each numbered step of the README's "Install"; root needs no sudo."""
    text = page("README.md").partition("\n## Install\n")[2].partition("\n## ")[0]
    numbered = re.findall(r"^(\d)\. (.*)$", text, re.MULTILINE)
    return {int(number): [it.removeprefix("sudo ") for it in re.findall("`(.*?)`", step)] for number, step in numbered}


class Tests:
    def __init__(self, packages, saved):
        self.packages = packages
        self.saved = saved

    def nut_installed(self, name):
        """Makes a Debian with NUT installed and configured, from packages that are available again without a network."""
        folder = os.path.join(self.packages.folder, name)
        root = fresh_root(folder, self.saved)
        root.write("/etc/apt/apt.conf.d/90test", 'APT::Get::Assume-Yes "true";\nAPT::Install-Recommends "false";\n', 0o644)
        status, said = root.run("apt-get update && apt-get install nut-server nut-client python3-nut")
        if status != 0:
            raise Missing(f"NUT's packages can't be had: {said.splitlines()[-1:]}")
        root.write("/etc/nut/ups.conf", root.read("/etc/nut/ups.conf") + UPS_CONF)
        root.write("/etc/nut/upsd.users", root.read("/etc/nut/upsd.users") + UPSD_USERS)
        kept = [it for it in root.read("/etc/nut/upsmon.conf").splitlines() if not it.startswith(("SHUTDOWNCMD", "FINALDELAY", "POWERDOWNFLAG"))]
        root.write("/etc/nut/upsmon.conf", "\n".join(kept) + "\n" + UPSMON_CONF)
        root.write("/etc/nut/nut.conf", "MODE=standalone\n")
        # NUT's clients ask again and again for a name that nobody knows
        root.write("/etc/hosts", "127.0.0.1 localhost\n", 0o644)
        root.write("/etc/nut/su700.dev", DEVICE.format("OL"))
        root.do("chgrp nut /etc/nut/su700.dev")
        for path in (*self.packages.made("deb").values(), *self.packages.made("tar").values()):
            shutil.copy(path, root.path("/root"))
        os.mkdir(root.path("/root/later"))
        for path in self.packages.made("deb", env={"SOURCE_DATE_EPOCH": "4000000000"}).values():
            shutil.copy(path, root.path("/root/later"))
        root.do("tar -xf /root/mulgefa-*.tar.gz -C /root && rm /root/mulgefa-*.tar.gz")
        return folder

    def test_exchange_and_back(self):
        machine = Booted(self.nut_installed("machine"))
        try:
            self.nut_serves(machine)
            before = {name: machine.read(f"/etc/nut/{name}") for name in os.listdir(machine.path("/etc/nut"))}
            enabled = self.enabled_units_of_nut(machine)
            nut = machine.do("id nut")
            self.exchange(machine)
            self.is_served_here(machine)
            machine.restart()
            self.is_served_here(machine)
            self.nothing_was_lost_at_the_boot(machine)
            self.journal_names_the_programs(machine)
            self.restarts(machine)
            self.stops_early(machine)
            self.reloads(machine)
            self.refuses_to_reload_faults(machine)
            self.goes_on_after_hangup(machine)
            self.client_sees_an_upgrade(machine)
            self.halts(machine)
            self.bring_back(machine)
            for name, text in before.items():
                found = machine.read(f"/etc/nut/{name}.nut" if os.path.exists(machine.path(f"/etc/nut/{name}.nut")) else f"/etc/nut/{name}")
                if name != "su700.dev":
                    expect(found == text, True, f"what {name} was is kept")
            expect(machine.do("id nut"), nut, "the user nut")
            expect(self.enabled_units_of_nut(machine), enabled, "what is enabled of NUT after the way back")
            machine.restart()
            self.nut_serves(machine)
            machine.do("dpkg --purge mulgefa-server mulgefa-client")
            expect(self.enabled_units_of_nut(machine), enabled, "what is enabled of NUT after a purge")
            machine.restart()
            self.nut_serves(machine)
            left = machine.do("find / -xdev -name '*mulgefa*' -not -path '/root/*' -not -path '/proc/*' -not -path '/sys/*'").split()
            expect([it for it in left if not it.startswith(("/var/log/", "/var/cache/", "/run/systemd/", "/var/lib/dpkg/info/"))], [], "what a purge leaves")
        finally:
            machine.stop()

    def test_faults_that_nobody_has_changed(self):
        """NUT's files still have to be changed when the packages replace it: apt's last lines and the units say so, and the services
        run once that is done. An upgrade ends no service for a fault that came later."""
        machine = Booted(self.nut_installed("unchanged"))
        try:
            self.nut_serves(machine)
            said = machine.do("apt-get install ./mulgefa-server_*.deb ./mulgefa-client_*.deb").splitlines()
            told = [i for i, line in enumerate(said) if "can't start until this is changed" in line]
            expect(len(told), 2, f"services that can't start: {said}")
            last = "\n".join(said[told[0] - 20 :])
            for line in ("/etc/nut/upsmon.conf", "nothing stops this machine in a power failure", "nobody gets the status of its UPSes"):
                ensure(line in last, f"{line} isn't among the last lines: {said}")
            ensure(not [line for line in said[told[0] :] if line.startswith(("Setting up", "Unpacking"))], f"what comes later: {said}")
            for unit, line in (("mulgefa-upsd", "]: ups.conf:"), ("mulgefa-upsmon", "]: upsmon.conf:")):
                ensure("status=1/FAILURE" in machine.run(f"systemctl status {unit}")[1], f"{unit} fails visibly")
                ensure(line in machine.do(f"journalctl --unit {unit} --lines 20"), f"the journal of {unit} says why")
            machine.do("systemctl enable --now mulgefa-dummy-ups@su700")
            machine.do("mulgefa-check -i")
            machine.wait_for("upsc su700 ups.status 2> /dev/null", "OL")
            machine.wait_for("upsc -c su700 2> /dev/null", "127.0.0.1")
            for name in ("ups.conf", "upsmon.conf"):
                machine.write(f"/etc/nut/{name}", "faulty\n" + machine.read(f"/etc/nut/{name}"))
            units = "systemctl show -p MainPID mulgefa-upsd mulgefa-upsmon"
            before = machine.do(units)
            said = machine.do("cd /root/later && apt-get install ./mulgefa-server_*.deb ./mulgefa-client_*.deb")
            expect(machine.do(units), before, "the processes")
            for line in ("/etc/nut/ups.conf:1: OutsideSection: faulty ..\n", "\nmulgefa-upsmon.service still runs its earlier program: "):
                ensure(line in said, f"{line} isn't told: {said}")
        finally:
            machine.stop()

    def test_drivers_of_nut_stay(self):
        """A driver of NUT, with a directive that isn't known here, from a package made of NUT's own. It needs no device,
        since it copies what another driver tells. upsd reads the same ups.conf, without what is the driver's."""
        folder = self.nut_installed("drivers")
        with open(os.path.join(folder, "etc/nut/ups.conf"), "a") as file:
            file.write("[copy]\n  driver = clone\n  port = dummy-ups-su700\n  pollinterval = 1\n")
        machine = Booted(folder)
        try:
            machine.wait_for("upsc copy ups.status 2> /dev/null", "OL", 90)
            before = machine.read("/etc/nut/ups.conf")
            left = ["ups.conf: left to the drivers: maxretry", "ups.conf: left to the driver of copy: pollinterval"]
            check, _, drivers, exchange = shown_commands("Drivers", 0)
            machine.do(check)
            # there is no network, and what was fetched is kept
            machine.do(drivers.replace("nut-server_", "/var/cache/apt/archives/nut-server_"))
            said = machine.do(exchange)
            ensure("take it out" not in said and "refuses" not in said and "has no " not in said, f"what apt tells: {said}")
            machine.restart()
            machine.wait_for("upsc copy ups.status 2> /dev/null", "OL", 60)
            machine.wait_for("upsc su700 ups.status 2> /dev/null", "OL", 60)
            expect(machine.do("upsc copy driver.name"), "clone\n", "the driver")
            ensure("2.8.0" not in self.version(machine), "this project's server answers")
            expect(machine.read("/etc/nut/ups.conf"), before, "the drivers' ups.conf")
            expect(machine.run("mulgefa-check"), (0, ""), "mulgefa-check")
            said = machine.do("journalctl --boot --output cat -t upsd")
            expect([line for line in said.splitlines() if line.startswith("ups.conf: ")], left, "what the journal names")
            self.copies_anew(machine)
            expect(machine.do("dpkg --verify mulgefa-nut-drivers"), "", "files that differ")
            machine.wait_for("upsc -c su700", "127.0.0.1")
            self.flag_is_found(machine)
            machine.do("upsrw -s ups.status=OB -u admin -p pw su700")
            machine.wait_for("upsc copy ups.status", "OB")
            machine.do("apt-get install nut-server nut-client")
            expect(machine.do("dpkg -l 'mulgefa*' | grep -c ^ii || true"), "0\n", "this project's packages are gone")
            machine.do("systemctl restart nut-driver-enumerator nut-server nut-monitor")
            self.nut_serves(machine)
            machine.wait_for("upsc copy ups.status 2> /dev/null", "OL", 60)
        finally:
            machine.stop()

    def copies_anew(self, machine):
        """There is one ups.conf to edit: a reload of the unit has upsd read it, and a fault of upsd's own lines fails the reload."""
        process, before = machine.do("systemctl show -p MainPID mulgefa-upsd"), machine.read("/etc/nut/ups.conf")
        machine.write("/etc/nut/ups.conf", before + "[more]\n  driver = clone\n  port = x\n  offdelay = 1\n")
        machine.do("chgrp nut /etc/nut/ups.conf && systemctl reload mulgefa-upsd")
        machine.wait_for("upsc -l 2> /dev/null", "su700\ncopy\nmore")
        number = len(before.splitlines()) + 1
        machine.write("/etc/nut/ups.conf", before + "[more\n")
        ensure(machine.run("systemctl reload mulgefa-upsd")[0] != 0, "a reload with a fault in a section")
        ensure(f"ups.conf:{number}: " in machine.do("systemctl status mulgefa-upsd"), "the status shows the line of /etc/nut/ups.conf")
        machine.write("/etc/nut/ups.conf", before)
        machine.do("chgrp nut /etc/nut/ups.conf && systemctl reload mulgefa-upsd")
        machine.wait_for("upsc -l 2> /dev/null", "su700\ncopy")
        expect(machine.do("systemctl show -p MainPID mulgefa-upsd"), process, "the process of upsd")
        expect(machine.do("stat -c '%U %G %a' /run/mulgefa /run/mulgefa/upsd.users"), "root nut 750\nroot nut 640\n", "who reads the copy")

    def test_driver_that_went_with_nut(self):
        """A machine with one UPS whose driver is NUT's: apt's last lines say that nobody watches it, and what to type, which brings the
        driver back. The driver is NUT's dummy-ups under another name."""
        folder = self.nut_installed("went")
        root = Root(folder)
        root.do("cp /lib/nut/dummy-ups /lib/nut/usbhid-ups && mv /etc/nut/su700.dev /etc/nut/eaton.dev")
        root.write("/etc/nut/ups.conf", '[eaton]\n  driver = usbhid-ups\n  port = eaton.dev\n  desc = "Server room"\n  pollinterval = 1\n')
        root.write("/etc/nut/upsd.conf", "")
        root.write("/etc/nut/upsd.users", "[monuser]\n  password = m1\n  upsmon primary\n")
        root.write("/etc/nut/upsmon.conf", UPSMON_CONF.replace("su700", "eaton").replace("master", "primary").replace("RUN_AS_USER root\n", ""))
        # a package of NUT's with that driver
        package = "/var/cache/apt/archives/nut-server_*.deb"
        root.do(f"dpkg-deb -R {package} nut && cp /lib/nut/dummy-ups nut/lib/nut/usbhid-ups && mkdir made && dpkg-deb -b nut made && rm -r nut")
        machine = Booted(folder)
        try:
            machine.wait_for("upsc eaton ups.status 2> /dev/null", "OL", 90)
            nothing = "nothing stops this machine in a power failure"
            # the client alone takes server and drivers away
            said = machine.do("apt-get install ./mulgefa-client_*.deb").splitlines()
            gone = f"the UPS eaton has no server and no driver here (both went with nut-server): until they run, {nothing}"
            expect(said[-2], gone, "what apt says last")
            # here the server can't start, since it refuses a line that the driver needs
            said = machine.do("apt-get install ./mulgefa-server_*.deb").splitlines()
            gone = f'the UPS eaton has no driver (usbhid-ups is NUT\'s, and went with nut-server): until one runs, {nothing}; see from-nut(7), "Drivers"'
            expect(said[-2], gone, "what apt says last but one")
            back = "apt-get download nut-server && mulgefa-nut-drivers nut-server_*.deb && apt-get install ./mulgefa-nut-drivers_*.deb"
            expect(said[-1], f"these bring NUT's drivers back: {back}", "what apt says last")
            said = machine.do(back.replace("apt-get download nut-server", "cd made"))
            ensure("has no " not in said, f"what apt says: {said}")
            machine.wait_for("upsc eaton ups.status 2> /dev/null", "OL")
            machine.restart()
            machine.wait_for("upsc eaton ups.status 2> /dev/null", "OL")
            expect(machine.do("systemctl is-active nut-driver@eaton mulgefa-upsd mulgefa-upsmon"), "active\n" * 3, "what runs")
            ensure("cannot connect to its driver" not in machine.do("journalctl --boot -t upsd"), "upsd starts after the driver")
            said = machine.do("apt-get install --reinstall ./mulgefa-server_*.deb")
            ensure("has no " not in said, f"what apt says of a UPS with a status: {said}")
        finally:
            machine.stop()

    def fresh(self, name, *wanted):
        """Makes a Debian without NUT, with these packages of Debian, and with this project's packages and archive."""
        root = fresh_root(os.path.join(self.packages.folder, name), self.saved)
        root.write("/etc/apt/apt.conf.d/90test", 'APT::Get::Assume-Yes "true";\nAPT::Install-Recommends "false";\n', 0o644)
        root.write("/etc/hosts", "127.0.0.1 localhost\n", 0o644)
        status, said = root.run(f"apt-get update && apt-get install {' '.join(wanted)}")
        if status != 0:
            raise Missing(f"Debian's packages can't be had: {said.splitlines()[-1:]}")
        os.mkdir(root.path("/root/dist"))
        for path in (*self.packages.made("deb").values(), *self.packages.made("tar").values()):
            shutil.copy(path, root.path("/root/dist"))
        return root.folder

    def test_install_steps(self):
        """Each command of the README's "Install", as it stands there, leads to a machine that goes off once its battery is low."""
        machine = Booted(self.fresh("steps", "nftables", "iproute2"))
        try:
            steps = install_steps()
            machine.do(next(it for it in steps[3] if it.startswith("apt-get ")))
            enable, show = steps[4]
            machine.do(enable)
            mains, script, low, dummy, journal = steps[5]
            ensure(mains in machine.do(show).splitlines(), f"the variables have {mains}")
            self.firewall_passes_the_port_to_some(machine)

            text = machine.read(script)
            ensure(mains in text, f"{script}: {text}")
            machine.do(f"sed -i 's/^{mains}$/ups.status: {low}/' {script} && systemctl restart {dummy}")
            machine.wait_for(f"{journal} -o cat | grep -c '^upsmon would stop this machine now$'", "1", 60)
            machine.do(f"sed -i 's/^ups.status: {low}$/{mains}/' {script} && systemctl restart {dummy}")
            expect(machine.read(script), text, "the line is changed back")
            machine.wait_for(show + " ups.status 2> /dev/null", "FSD OL")
            machine.do(f"systemctl restart {steps[6][0]}")

            ask, status, directive, conf, restart, flag = steps[7][1:]
            machine.wait_for(ask + " 2> /dev/null", status)
            ensure(os.path.exists(machine.path(flag)) or machine.run(f"ls {flag}")[0] == 0, f"the rehearsal leaves {flag}")
            machine.do(f"sed -i 's|^SHUTDOWNCMD .*|{directive}|' {conf} && {restart}")
            ensure(machine.run(f"ls {flag}")[0] != 0, f"the restart removes {flag}")
            machine.do(f"sed -i 's/^{mains}$/ups.status: {low}/' {script} && systemctl restart {dummy}")
            machine.process.wait(60)
        finally:
            machine.stop()

    def firewall_passes_the_port_to_some(self, machine):
        """The table that upsd.conf(5) shows keeps strangers out, and lets this machine in, and the other ports."""
        blocks = re.findall(r"^\.EX\n(.*?)^\.EE", page("man", "upsd.conf.5"), re.MULTILINE | re.DOTALL)
        machine.do(f"cat >> /etc/nftables.conf << 'END'\n{blocks[0]}END\n{blocks[1]}")
        before = machine.read("/etc/nut/upsd.conf")
        machine.write("/etc/nut/upsd.conf", "LISTEN 0.0.0.0\nLISTEN 0.0.0.0 3494\n")
        machine.do("chgrp nut /etc/nut/upsd.conf && systemctl restart mulgefa-upsd")
        machine.do("ip netns add far && ip link add near type veth peer name far netns far")
        machine.do("ip addr add 192.0.2.17/24 dev near && ip link set near up")
        connects = "timeout 3 bash -c '< /dev/tcp/192.0.2.17/{}' 2> /dev/null"
        expect(machine.run(connects.format(3493))[0], 0, "this machine connects")
        for address, port, is_passed in (("192.0.2.14", 3493, True), ("192.0.2.99", 3493, False), ("192.0.2.99", 3494, True)):
            machine.do(f"ip -n far addr flush dev far && ip -n far addr add {address}/24 dev far && ip -n far link set far up")
            status, _ = machine.run("ip netns exec far " + connects.format(port))
            expect(status == 0, is_passed, f"{address} connects to {port}")
        machine.write("/etc/nut/upsd.conf", before)
        machine.do("chgrp nut /etc/nut/upsd.conf && systemctl restart mulgefa-upsd")
        machine.wait_for("upsc -c su700 2> /dev/null", "127.0.0.1")

    def test_archive_is_installed(self):
        """What the README of the archive shows, as it stands there, and the way back."""
        machine = Booted(self.fresh("unpacked"))
        try:
            machine.do("tar -xf dist/mulgefa-*.tar.gz")
            for command in archive_commands(0):
                machine.do(f"cd mulgefa-*/ && {command}")
            machine.wait_for("upsc su700 ups.status 2> /dev/null", "OL")
            machine.wait_for("upsc -c su700 2> /dev/null", "127.0.0.1")
            modes = machine.do("stat -c '%U %G %a' /etc/nut /etc/nut/upsd.users /etc/nut/upsmon.conf")
            expect(modes, "root nut 750\nroot nut 640\nroot root 600\n", "who reads the files")
            for command in archive_commands(1):
                machine.do(f"cd mulgefa-*/ && {command}")
            left = machine.do("find / -xdev -name '*mulgefa*' -not -path '/root/*' -not -path '/proc/*' -not -path '/sys/*'")
            expect(left, "", "what is left")
            expect(len(os.listdir(machine.path("/etc/nut"))), 5, "the files of the configuration")
        finally:
            machine.stop()

    def test_nuts_packages_stay(self):
        """The second way of docs/from-nut.md to keep NUT's drivers: an upgrade of NUT's packages and a boot start neither its server nor its
        monitor, and there is a way back. The driver is NUT's dummy-ups under another name."""
        folder = self.nut_installed("stay")
        root = Root(folder)
        root.do("dpkg-divert --local --rename --add /lib/nut/usbhid-ups && cp /lib/nut/dummy-ups /lib/nut/usbhid-ups")
        root.write("/etc/nut/ups.conf", root.read("/etc/nut/ups.conf").replace("driver = dummy-ups", "driver = usbhid-ups\n  pollinterval = 1"))
        machine = Booted(folder)
        try:
            self.nut_serves(machine)
            for command in shown_commands("Drivers", 1):
                # the files have lines of drivers, which stay
                status, said = machine.run(command)
                ensure(status == 0 or command.endswith("mulgefa-check -i"), f"{command}: {said}")
            machine.wait_for("upsc su700 ups.status 2> /dev/null", "OL")
            runs = "systemctl is-active mulgefa-upsd mulgefa-upsmon nut-driver@su700 nut-server nut-monitor || true"
            for change in (lambda: machine.do("apt-get install --reinstall nut-server nut-client"), machine.restart):
                change()
                machine.wait_for("upsc su700 ups.status 2> /dev/null", "OL", 60)
                machine.wait_for("upsc -c su700 2> /dev/null", "127.0.0.1")
                expect(machine.do(runs), "active\n" * 3 + "inactive\n" * 2, "what runs")
            ensure("2.8.0" not in self.version(machine), "this project's server answers")
            for command in archive_commands(1) + archive_commands(2):
                machine.do(f"cd mulgefa-*/ && {command.replace('mulgefa-dummy-ups@su700 ', '')}")
            self.nut_serves(machine)
            machine.restart()
            self.nut_serves(machine)
        finally:
            machine.stop()

    def test_tutorial(self):
        """Each command of docs/tutorial.md in its order, on a machine that has no UPS software, shows what the page says. The UPS is a
        file that NUT's dummy-ups plays under the name usbhid-ups."""
        folder = os.path.join(self.packages.folder, "tutorial")
        root = fresh_root(folder, self.saved)
        root.write("/etc/apt/apt.conf.d/90test", 'APT::Get::Assume-Yes "true";\nAPT::Install-Recommends "false";\n', 0o644)
        status, said = root.run("apt-get update && apt-get download nut-server && apt-get --download-only install nut-server")
        if status != 0:
            raise Missing(f"NUT's packages can't be had: {said.splitlines()[-1:]}")
        package = root.do("echo nut-server_*.deb").strip()
        root.do(f"dpkg-deb -R {package} nut && cp nut/lib/nut/dummy-ups nut/lib/nut/usbhid-ups && dpkg-deb -Zgzip -b nut {package} && rm -r nut")
        root.write("/etc/hosts", "127.0.0.1 localhost\n", 0o644)
        for path in self.packages.made("deb").values():
            shutil.copy(path, root.path("/root"))
        machine = Booted(folder)
        try:
            self.follow_the_tutorial(machine)
            machine.start()
            machine.wait_for("upsc eaton ups.status 2> /dev/null", "OL")
            expect(machine.do("systemctl is-active nut-driver@eaton mulgefa-upsd mulgefa-upsmon"), "active\n" * 3, "what runs after the last step")
            expect(machine.run("ls /run/killpower")[0], 2, "whether there is a flag")
        finally:
            machine.stop()

    def follow_the_tutorial(self, machine):
        text = page("docs", "tutorial.md").partition("\n## A UPS with SNMP")[0]
        for number, step in enumerate(text.split("\n## ")):
            if number == 3:
                machine.write("/etc/nut/auto", "battery.charge: 100\nbattery.runtime.low: 120\nups.status: OL\n")
                machine.do("chgrp nut /etc/nut/auto")
            elif number == 5:
                for status, line in (("OB", "UPS eaton@localhost: mains lost"), ("OL", "UPS eaton@localhost on line power")):
                    machine.do(f"sed -i 's/^ups.status.*/ups.status: {status}/' /etc/nut/auto")
                    machine.wait_for(f"journalctl -t upsmon -o cat | grep -c '^{line}$'", "2")
            elif number == 8:
                machine.do("upsmon --fsd")
                machine.process.wait(60)
                machine.stop()
                return
            for kind, block in re.findall(r"^```(sh)?\n(.*?)^```", step, re.MULTILINE | re.DOTALL):
                if kind:
                    # there is no network, and the package is there
                    said = machine.do("set -e\n" + block.replace("apt-get download", "echo"))
                else:
                    expect([line for line in block.splitlines() if line not in said.splitlines()], [], f"what step {number} doesn't show: {said}")
            if number == 6:
                ensure(re.search("It prints `(.*)`", step)[1] in said.splitlines(), f"what step 6 says: {said}")
            elif number == 7:
                ensure("\nOL\n" in "\n" + said, f"the status of step 7: {said}")

    def restarts(self, machine):
        """A restart with a fault fails, and however often a service is restarted, it runs."""
        for program, name in (("upsd", "upsd.users"), ("upsmon", "upsmon.conf")):
            unit = f"mulgefa-{program}"
            text = machine.read(f"/etc/nut/{name}")
            machine.write(f"/etc/nut/{name}", text + "faulty\n")
            status, said = machine.run(f"systemctl restart {unit}")
            ensure(status != 0, f"a restart of {unit} with a fault: {said}")
            machine.write(f"/etc/nut/{name}", text)
            machine.wait_for(f"systemctl is-active {unit}", "active")
            machine.do(f"for i in 1 2 3 4 5 6 7; do systemctl restart {unit} || exit 1; done")
            expect(machine.do(f"systemctl is-active {unit}"), "active\n", f"{unit} after seven restarts")
        began = time.monotonic()
        machine.do("systemctl stop mulgefa-dummy-ups@su700 && systemctl restart mulgefa-upsd")
        ensure(time.monotonic() - began < 9, "a server without a driver starts within five seconds")
        machine.do("systemctl start mulgefa-dummy-ups@su700")
        machine.wait_for("upsc su700 ups.status 2> /dev/null", "OL")
        machine.wait_for("upsc -c su700 2> /dev/null", "127.0.0.1")

    def stops_early(self, machine):
        """The script of the page stops the machine some time after mains went, also after it failed once. Once mains is back, it doesn't."""
        text = machine.read("/etc/nut/upsmon.conf")
        machine.write("/etc/nut/early", shown("Examples", 0).replace("5min", "3s"), 0o755)
        quick = re.sub("^POLLFREQ .*$", "POLLFREQ 1", text, flags=re.MULTILINE)
        machine.write("/etc/nut/upsmon.conf", quick + "NOTIFYCMD /etc/nut/early\nNOTIFYFLAG ONBATT SYSLOG+EXEC\nNOTIFYFLAG ONLINE SYSLOG+EXEC\n")
        machine.do("systemctl restart mulgefa-upsmon")
        machine.wait_for("upsc -c su700 2> /dev/null", "127.0.0.1")
        service = "on-battery-su700@localhost.service"
        units = "systemctl list-units --all --plain --no-legend 'on-battery*'"
        battery, mains = (f"upscmd -u admin -p pw su700 test.failure.{it}" for it in ("start", "stop"))
        # no file, so that it fails; it tries again until mains is back
        machine.do(f"{battery} && sleep 2 && mv /etc/nut/upsmon.conf /etc/nut/away && sleep 8")
        ensure(int(machine.do(f"systemctl show --property NRestarts --value {service}")) > 0, "it tries again")
        machine.do(f"mv /etc/nut/away /etc/nut/upsmon.conf && {mains}")
        machine.wait_for(units, "")
        expect(machine.run("ls /root/halted")[0], 2, "whether the machine was stopped")
        # mains that is back in time
        machine.do(f"{battery} && sleep 2 && {mains}")
        machine.wait_for(units, "")
        expect(machine.do("upsc su700 ups.status"), "OL\n", "the status")
        machine.do(battery)
        machine.wait_for("ls /root/halted 2> /dev/null", "/root/halted", 60)
        machine.wait_for("upsc su700 ups.status 2> /dev/null", "FSD OB")
        machine.wait_for(units, "")
        machine.write("/etc/nut/upsmon.conf", text)
        machine.do("rm /root/halted; systemctl restart mulgefa-dummy-ups@su700 mulgefa-upsd && systemctl restart mulgefa-upsmon")
        machine.wait_for("upsc su700 ups.status 2> /dev/null", "OL")
        machine.wait_for("upsc -c su700 2> /dev/null", "127.0.0.1")

    def flag_is_found(self, machine):
        """A script at the end of a halt asks upsmon without the environment of its unit."""
        machine.do("echo upsmon-shutdown-file > /run/killpower")
        expect(machine.run("env -i /sbin/upsmon -K"), (0, ""), "upsmon -K with the flag")
        machine.do("rm /run/killpower")
        expect(machine.run("env -i /sbin/upsmon -K"), (1, ""), "upsmon -K without it")

    def nut_serves(self, machine):
        machine.wait_for("upsc su700 ups.status 2> /dev/null", "OL", 90)
        for unit in ("nut-server", "nut-monitor", "nut-driver@su700"):
            expect(machine.do(f"systemctl is-active {unit} || true"), "active\n", unit)
        ensure("2.8.0" in self.version(machine), "NUT's own server answers")

    def enabled_units_of_nut(self, machine):
        """Returns what is enabled of NUT's units, so that it starts at the next boot."""
        units = ("nut-server", "nut-monitor", "nut-driver@su700", "nut-driver-enumerator", "nut.target")
        return {unit: machine.run(f"systemctl is-enabled {unit}")[1] for unit in units}

    def version(self, machine):
        """Returns the version that the server at the port reports."""
        return machine.do("python3 -c 'import socket; s = socket.create_connection((\"127.0.0.1\", 3493)); s.sendall(b\"VER\\n\"); print(s.recv(200).decode())'")

    def exchange(self, machine):
        check = "/root/mulgefa-*/packaging/mulgefa-check"
        status, said = machine.run(check)
        expect(status, 1, f"mulgefa-check: {said}")
        for wanted in TOLD:
            name, text = wanted.split(":%d: ")
            directive = text.split(": ")[1].replace(" .. ", " monuser m1 ")
            number = [i + 1 for i, it in enumerate(machine.read(f"/etc/nut/{name}").splitlines()) if it.strip() == directive]
            expect(len(number), 1, f"lines that are {directive}")
            ensure(f"/etc/nut/{wanted % number[0]}\n" in said, f"{wanted % number[0]} isn't told: {said}")
        ensure("m1" not in said, f"a password is told: {said}")
        expect(machine.do("systemctl is-active nut-server nut-monitor"), "active\nactive\n", "NUT is running")

        _, said, _ = [machine.do(it) for it in shown_commands("Switch", 0)]

        ensure("nut-client" in said and "nut-server" in said and "REMOVED" in said, f"apt removes NUT's packages: {said}")
        last = "the UPS su700 has no driver: until 'systemctl enable --now mulgefa-dummy-ups@su700' starts its dummy, nothing stops this machine in a power failure"
        expect(said.splitlines()[-1], last, "apt's last line")
        expect(machine.do("dpkg --verify mulgefa-client mulgefa-server"), "", "files that differ")
        status, said = machine.run("mulgefa-check")
        expect((status, said), (0, ""), "mulgefa-check")

    def is_served_here(self, machine):
        machine.wait_for("upsc su700 ups.status 2> /dev/null", "OL")
        ensure("2.8.0" not in self.version(machine), "this project's server answers")
        for unit in ("mulgefa-upsd", "mulgefa-upsmon", "mulgefa-dummy-ups@su700", "nut-server", "nut-monitor"):
            expect(machine.do(f"systemctl is-active {unit} || true"), "active\n", unit)
        machine.wait_for("upsc -c su700", "127.0.0.1")
        expect(machine.do("upsrw -s ups.id=other -u admin -p pw su700"), "OK\n", "upsrw")
        machine.wait_for("upsc su700 ups.id", "other")
        expect(machine.do("upscmd -u admin -p pw su700 test.failure.start"), "OK\n", "upscmd")
        machine.wait_for("upsc su700 ups.status", "OB")
        machine.do("upscmd -u admin -p pw su700 test.failure.stop")
        machine.wait_for("upsc su700 ups.status", "OL")
        # NUT's own module for Python is a client that was kept
        said = machine.do("""python3 -c 'import PyNUT; print(PyNUT.PyNUTClient().GetUPSVars("su700")[b"ups.model"])'""")
        expect(said, "b'Peer'\n", "NUT's module for Python")

    def nothing_was_lost_at_the_boot(self, machine):
        """Each program has found the one that it asks at once."""
        said = machine.do("journalctl --boot --output cat --unit mulgefa-upsd --unit mulgefa-upsmon")
        for words in ("cannot connect", "lost", "refused", "denied"):
            ensure(words not in said, f"{words!r} at a boot: {said}")

    def journal_names_the_programs(self, machine):
        """Whoever filters by the name of a program finds its lines."""
        for name, words in (("upsd", "asked the driver to set ups.id"), ("upsmon", "UPS su700@localhost: server connected"), ("dummy-ups", "")):
            said = machine.do(f"journalctl --boot --output cat -t {name}")
            ensure(words in said and "-- No entries --" not in said, f"the journal of {name}: {said}")
        expect(machine.do("journalctl --boot -t env"), "-- No entries --\n", "lines of env")

    def reloads(self, machine):
        """upsd reads its files again, though its user can't write to their folder, and by the monitor's reload too."""
        before = machine.do("systemctl show -p MainPID mulgefa-upsd")
        text = machine.read("/etc/nut/ups.conf")
        for added, names in (("[spare]\n", "su700\nspare"), ("", "su700")) * 3:
            machine.write("/etc/nut/ups.conf", text + added)
            machine.do("systemctl reload " + ("mulgefa-upsd" if added else "mulgefa-upsmon"))
            machine.wait_for("upsc -l 2> /dev/null", names)
            machine.wait_for("ls /run/nut/reload /etc/nut/reload 2> /dev/null", "")
        # where nobody can make a file beside the others
        count = "journalctl --unit mulgefa-upsd | grep -c ']: reloaded: '"
        reloads = int(machine.do(count))
        machine.do("mount --bind /etc/nut /etc/nut && mount -o remount,bind,ro /etc/nut && systemctl reload mulgefa-upsd")
        machine.wait_for(count, str(reloads + 1))
        machine.do("umount /etc/nut")
        expect(machine.do("systemctl show -p MainPID mulgefa-upsd"), before, "the process of upsd")

    def refuses_to_reload_faults(self, machine):
        for program, name in (("upsd", "upsd.users"), ("upsmon", "upsmon.conf")):
            unit = f"mulgefa-{program}"
            machine.wait_for("ls /run/nut/reload /etc/nut/reload 2> /dev/null", "")
            text = machine.read(f"/etc/nut/{name}")
            machine.write(f"/etc/nut/{name}", text + "faulty\n")
            status, said = machine.run(f"systemctl reload {unit}")
            ensure(status != 0, f"a reload of {name} with a fault: {said}")
            told = f"{name}:{len(text.splitlines()) + 1}: UnknownDirective"
            ensure(told in machine.do(f"systemctl status {unit}"), f"the status of {unit} doesn't show {told}")
            expect(machine.run("ls /run/nut/reload /etc/nut/reload 2> /dev/null")[1], "", "a reload is asked for")
            machine.write(f"/etc/nut/{name}", text)
            machine.do(f"systemctl reload {unit}")
        machine.wait_for("upsc -c su700", "127.0.0.1")

    def goes_on_after_hangup(self, machine):
        """Scripts send SIGHUP to have NUT's programs read their files. It reaches all processes of a unit."""
        # upsc runs now and then
        processes = "systemctl status mulgefa-upsd mulgefa-upsmon mulgefa-dummy-ups@su700 | grep -E '─[0-9]+ ' | grep -v upsc"
        before = machine.do(processes)
        machine.do("systemctl kill -s HUP mulgefa-upsd mulgefa-upsmon mulgefa-dummy-ups@su700 && sleep 1")
        expect(machine.do(processes), before, "the processes")
        machine.wait_for("upsc -c su700", "127.0.0.1")

    def client_sees_an_upgrade(self, machine):
        before = machine.do("systemctl show -p MainPID mulgefa-upsd mulgefa-upsmon mulgefa-dummy-ups@su700")
        machine.do("cd /root/later && apt-get install ./mulgefa-server_*.deb ./mulgefa-client_*.deb")
        after = machine.do("systemctl show -p MainPID mulgefa-upsd mulgefa-upsmon mulgefa-dummy-ups@su700")
        for one, other in zip(before.split(), after.split()):
            ensure(one != other and not other.endswith("=0"), f"the services run on by the new programs: {before} {after}")
        machine.wait_for("upsc su700 ups.status 2> /dev/null", "OL")
        machine.wait_for("upsc -c su700 2> /dev/null", "127.0.0.1")

    def halts(self, machine):
        machine.write("/etc/nut/su700.dev", DEVICE.format("OB LB"))
        machine.do("systemctl restart mulgefa-dummy-ups@su700")
        machine.wait_for("ls /root/halted 2> /dev/null", "/root/halted", 60)
        expect(machine.do("cat /run/killpower"), "upsmon-shutdown-file\n", "POWERDOWNFLAG")
        machine.do("upsmon -K")
        self.upgrade_keeps_a_forced_shutdown(machine)
        machine.write("/etc/nut/su700.dev", DEVICE.format("OL"))
        # FSD is kept by the server, and ends with it
        machine.do("systemctl stop mulgefa-upsmon && systemctl restart mulgefa-dummy-ups@su700 mulgefa-upsd")
        machine.do("rm /root/halted && systemctl start mulgefa-upsmon")
        machine.wait_for("upsc su700 ups.status 2> /dev/null", "OL")

    def upgrade_keeps_a_forced_shutdown(self, machine):
        """The server that knows of it runs on, and no monitor is started, which would halt the machine."""
        units = "systemctl show -p MainPID mulgefa-upsd mulgefa-upsmon mulgefa-dummy-ups@su700"
        before = machine.do(units)
        said = machine.do("apt-get install --reinstall /root/later/mulgefa-server_*.deb /root/later/mulgefa-client_*.deb")
        expect(machine.do(units), before, "the processes")
        expect(machine.do("upsc su700 ups.status"), "FSD OB LB\n", "the status")
        ensure("\nmulgefa-upsd.service still runs its earlier program: " in said, f"what apt tells: {said}")

    def bring_back(self, machine):
        for command in shown_commands("Go back", 0):
            machine.do(command)
        self.nut_serves(machine)


if __name__ == "__main__":
    sys.exit(main(Tests, "'apt-get install debootstrap systemd-container' installs what they need; they want root and a network"))
