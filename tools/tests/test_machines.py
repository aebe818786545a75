"""The command lines of docs/orders.md for many machines, on the loopback of one: GNU parallel over ssh, and a job array of Slurm.

Both are started for the test alone, on free ports and with keys of their own. Without their packages, or where they don't start, the
tests are skipped and say why.
"""

import getpass
import os
import pathlib
import re
import socket
import subprocess
import time
import unittest

from .frame import ROOT, TOOLS, need
from .test_shake import STAND_IN, Shaken

SHARES = (1, 2, 3)
SECONDS = 180  # until a daemon has to answer
PART = (ROOT / "docs" / "orders.md").read_text().split("## Many machines")[1]
LINES = re.findall(r"^    (.*)$", re.sub(r"\\\n *", "", PART), re.M)  # those that go on are joined


def line_of(part):
    """The command line of the page that has this part."""
    return next(line for line in LINES if part in line)


def free_port():
    with socket.socket() as tried:
        tried.bind(("127.0.0.1", 0))
        return tried.getsockname()[1]


class Machines(Shaken):
    """A search in shares is started by somebody else, and its parts, joined, are the whole."""

    is_alone = True

    def setUp(self):
        super().setUp()
        self.env = {**os.environ, "XOUSIM": str(STAND_IN), "HOME": str(self.folder / "home"), "LC_ALL": "C.UTF-8"}
        (self.folder / "service.image").write_bytes(self.image.read_bytes())
        (self.folder / "tools").symlink_to(TOOLS)
        (self.folder / "home").mkdir()

    def start(self, *words):
        """A daemon that ends with the test."""
        said = open(self.folder / f"{pathlib.Path(words[0]).name}.said", "w+b")
        started = subprocess.Popen(list(map(str, words)), stdin=subprocess.DEVNULL, stdout=said, stderr=said, env=self.env)

        def end():
            started.terminate()
            try:
                started.wait(20)
            except subprocess.TimeoutExpired:
                started.kill()
                started.wait()
            said.close()

        self.addCleanup(end)
        return started

    def wait_for(self, *words):
        """Waits until a command goes well; where it doesn't the test is skipped, with what the command says."""
        until = time.monotonic() + SECONDS
        while True:
            ran = subprocess.run(list(map(str, words)), env=self.env, capture_output=True, text=True, check=False)
            if ran.returncode == 0:
                return ran.stdout
            if time.monotonic() > until:
                last = (ran.stderr.strip() or "no word").splitlines()[-1]
                raise unittest.SkipTest(f"{pathlib.Path(words[0]).name} doesn't start here: {last}")
            time.sleep(0.2)

    def shell(self, line):
        ran = subprocess.run(["bash", "-c", line], cwd=self.folder, env=self.env, capture_output=True, text=True, check=False, timeout=600)
        return ran.stdout + ran.stderr

    def holds_whole(self, said):
        """The files of the shares are there, and the page's line joins them."""
        self.assertEqual({path.name for path in self.folder.glob("?.json")}, {f"{part}.json" for part in SHARES}, said)
        whole = self.shake(self.image, "--steps", "1000", "--runs", "30", status=1)
        ran = subprocess.run(["bash", "-c", line_of("--merge")], cwd=self.folder, env=self.env, capture_output=True, text=True, check=False)
        self.assertEqual(ran.returncode, 1, ran.stderr)
        self.assertEqual(self.table(ran.stdout), self.table(whole))

    def page_line(self, part, *changes):
        """A line of the page with what differs here: the machines, and how many runs and shares."""
        line = line_of(part)
        for old, new in (("service.image", "service.image --steps 1000 --runs 30"), *changes):
            self.assertIn(old, line)
            line = line.replace(old, new)
        return line


class Parallel(Machines):
    def setUp(self):
        super().setUp()
        need("parallel", "ssh", "/usr/sbin/sshd", "bash")
        if os.geteuid() == 0:
            self.make_run_folder()
        port, keys = free_port(), {}
        for name in ("host", "user"):
            keys[name] = self.folder / f"{name}_key"
            subprocess.run(["ssh-keygen", "-q", "-t", "ed25519", "-N", "", "-f", keys[name]], check=True)
        config = self.folder / "sshd_config"
        config.write_text(
            f"Port {port}\nListenAddress 127.0.0.1\nHostKey {keys['host']}\nAuthorizedKeysFile {keys['user']}.pub\nPidFile none\n"
            f"StrictModes no\nUsePAM no\nPasswordAuthentication no\nPermitRootLogin prohibit-password\nSetEnv XOUSIM={STAND_IN}\n"
        )
        options = "-o StrictHostKeyChecking=no -o UserKnownHostsFile=/dev/null -o LogLevel=ERROR -o BatchMode=yes"
        self.login = f"ssh -p {port} -i {keys['user']} {options} {getpass.getuser()}@127.0.0.1"
        self.start("/usr/sbin/sshd", "-D", "-e", "-f", config)
        self.wait_for(*self.login.split(), "true")

    def make_run_folder(self):
        """What sshd asks for as root, where nothing has started it yet."""
        folder = pathlib.Path("/run/sshd")
        if not folder.exists():
            folder.mkdir(mode=0o755)
            self.addCleanup(folder.rmdir)

    def test_shares(self):
        logins = ("4/one,4/two", f"'2/{self.login}'")
        line = self.page_line("--share {}/8", logins, ("{}/8", "{}/3"), (" 1 2 3 4 5 6 7 8", " 1 2 3"))
        self.holds_whole(self.shell(line.replace("parallel ", "parallel --will-cite ")))

    def test_prefixes(self):
        """The searches behind the prefixes go over the same line; each name of a file comes to a search."""
        (self.folder / "starts").mkdir()
        for number in SHARES:
            (self.folder / "starts" / f"prefix-{number}.events").write_text("tick 1\n")
        (self.folder / "xousorders").write_text('#!/bin/sh\necho "searched $1 $2 $3"\n')
        (self.folder / "xousorders").chmod(0o755)
        line = line_of("./xousorders service.image --from").replace("4/one,4/two", f"'2/{self.login}'")
        said = self.shell(line.replace("parallel ", "parallel --will-cite --keep-order "))
        self.assertEqual(said.splitlines(), [f"searched service.image --from starts/prefix-{number}.events" for number in SHARES])


class Slurm(Machines):
    def setUp(self):
        super().setUp()
        need("sbatch", "/usr/sbin/slurmctld", "/usr/sbin/slurmd", "/usr/sbin/munged", "bash")
        key, munge = self.folder / "munge.key", self.folder / "munge.socket"
        key.write_bytes(os.urandom(1024))
        key.chmod(0o600)
        names = {name: self.folder / f"munge.{name}" for name in ("pid", "log", "seed")}
        files = [f"--{name}-file={path}" for name, path in names.items()]
        self.start("/usr/sbin/munged", "--foreground", "--force", f"--key-file={key}", f"--socket={munge}", *files)
        config = self.folder / "slurm.conf"
        for name in ("state", "spool"):
            (self.folder / name).mkdir()
        host, user = socket.gethostname().split(".")[0], getpass.getuser()
        config.write_text(
            f"ClusterName=one\nSlurmctldHost={host}(127.0.0.1)\nSlurmUser={user}\nSlurmdUser={user}\n"
            f"AuthType=auth/munge\nAuthInfo=socket={munge}\nSlurmctldPort={free_port()}\nSlurmdPort={free_port()}\n"
            f"StateSaveLocation={self.folder}/state\nSlurmdSpoolDir={self.folder}/spool\n"
            f"SlurmctldPidFile={self.folder}/slurmctld.pid\nSlurmdPidFile={self.folder}/slurmd.pid\n"
            "ProctrackType=proctrack/linuxproc\nTaskPlugin=task/none\nJobAcctGatherType=jobacct_gather/none\nReturnToService=2\n"
            "SelectType=select/cons_tres\nSelectTypeParameters=CR_CPU\nMpiDefault=none\nSchedulerParameters=batch_sched_delay=0\n"
            f"NodeName={host} NodeAddr=127.0.0.1 CPUs={os.cpu_count()} State=UNKNOWN\nPartitionName=all Nodes=ALL Default=YES State=UP\n"
        )
        self.env["SLURM_CONF"] = str(config)
        self.start("/usr/sbin/slurmctld", "-D", "-f", config)
        self.start("/usr/sbin/slurmd", "-D", "-N", host, "-f", config)
        self.wait_for("bash", "-c", "sinfo -h -o %T | grep -q idle")

    def test_shares(self):
        line = self.page_line("sbatch", ("--array=1-8", "--wait --array=1-3"), ("/8 ", "/3 "))
        self.holds_whole(self.shell(line))
