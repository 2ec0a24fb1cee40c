#!/usr/bin/env python3
"""Runs the farm on a real Slurm with two nodes on the loopback network, harms it, and compares its tables
with those of xargs.

    by_hand_slurm.py SHB WORK [NAME..]

WORK is a new folder for all that is made. NAMEs choose among: plain, node, controller, twice, disk, many. It
is run by hand, as root, and installs nothing: Debian's packages are slurm-wlm and munge. Every daemon that it
starts it ends by its own process number; a node runs in a namespace of its own, so that killing it kills all
that it runs, as a power failure does.
"""

import contextlib
import os
import pathlib
import re
import shutil
import signal
import socket
import subprocess
import sys
import time

HERE = pathlib.Path(__file__).resolve().parent
TOP = HERE.parents[1]
COMMAND = HERE.parent / "shb-farm"
NEEDED = ("munged", "slurmctld", "slurmd", "sbatch", "scontrol", "unshare", "xargs", "mount")
# traces.tsv has times
TABLES = ("places.tsv", "facts.tsv", "places.txt", "places.sarif", "unknown.places")
MEMORY = "256"
SECONDS = 1800
CONFIGURATION = """\
ClusterName=loop
SlurmctldHost={host}(127.0.0.1)
SlurmctldPort=17000
SlurmUser=root
SlurmdUser=root
AuthInfo=socket={run}/munge.socket
CommunicationParameters=NoInAddrAny,NoCtldInAddrAny
StateSaveLocation={run}/state
SlurmdSpoolDir={run}/spool-%n
SlurmctldPidFile={run}/slurmctld.pid
SlurmdPidFile={run}/%n.pid
SlurmctldLogFile={run}/slurmctld.log
SlurmdLogFile={run}/%n.log
ProctrackType=proctrack/linuxproc
TaskPlugin=task/none
MpiDefault=none
JobAcctGatherType=jobacct_gather/none
SelectType=select/cons_tres
SelectTypeParameters=CR_Core_Memory
SlurmdTimeout=15
ReturnToService=2
SlurmdParameters=config_overrides
NodeName=n[1-2] NodeHostname={host} NodeAddr=127.0.0.1 Port=[17001-17002] CPUs=1 RealMemory=2500
PartitionName=all Nodes=ALL Default=YES
"""


class Cluster:
    """munge, the controller and two nodes of one processor each."""

    def __init__(self, run):
        self.run, self.started = run, {}
        (run / "state").mkdir(parents=True)
        (run / "munge.key").write_bytes(os.urandom(128))
        (run / "munge.key").chmod(0o600)
        run.chmod(0o755)
        (run / "slurm.conf").write_text(
            CONFIGURATION.format(host=socket.gethostname().split(".")[0], run=run))
        os.environ["SLURM_CONF"] = str(run / "slurm.conf")

    def start(self, name):
        """Starts a daemon if it doesn't run."""
        if name in self.started and self.started[name].poll() is None:
            return
        words = {"munged": ["munged", "--foreground", "--force", f"--socket={self.run}/munge.socket",
                            f"--key-file={self.run}/munge.key",
                            f"--pid-file={self.run}/munged.pid", f"--log-file={self.run}/munged.log",
                            f"--seed-file={self.run}/munge.seed"],
                 "slurmctld": ["slurmctld", "-D"]}.get(
                     name, ["unshare", "--pid", "--fork", "--kill-child", "--mount-proc", "slurmd", "-D",
                            "-N", name])
        with open(self.run / f"{name}.said", "ab") as said:
            self.started[name] = subprocess.Popen(words, stdin=subprocess.DEVNULL, stdout=said, stderr=said)
        time.sleep(1)

    def up(self):
        """Starts all that doesn't run, and waits until both nodes are ready."""
        for _ in range(120):
            for name in ("munged", "slurmctld", "n1", "n2"):
                self.start(name)
            subprocess.run(["scontrol", "update", "nodename=n1,n2", "state=resume"],
                           stderr=subprocess.DEVNULL)
            shown = subprocess.run(["scontrol", "-o", "show", "nodes"], stdout=subprocess.PIPE,
                                   stderr=subprocess.DEVNULL).stdout.decode()
            if len(re.findall(r"State=(?:IDLE|MIXED|ALLOCATED)(?![*+])", shown)) == 2:
                return
            time.sleep(1)
        raise SystemExit(f"the nodes don't come up; see {self.run}")

    def kill(self, name):
        self.started[name].kill()
        self.started[name].wait()

    def end(self):
        for name in ("n1", "n2", "slurmctld", "munged"):
            if name in self.started and self.started[name].poll() is None:
                self.started[name].terminate()
                with contextlib.suppress(subprocess.TimeoutExpired):
                    self.started[name].wait(20)
                    continue
                self.kill(name)


class Farm:
    """A folder of traces, and the tables that xargs makes of it."""

    def __init__(self, shb, work, traces):
        self.shb, self.work, self.traces, self.started = shb, work, traces, []
        self.plain = work / f"xargs-{traces.name}"
        self.took("xargs, two at once", self.start("--jobs", "2", out=self.plain))
        self.count = len(list((self.plain / "outcomes").rglob("*.outcome")))

    def start(self, *words, out):
        words = [sys.executable, COMMAND, "--memory", MEMORY, *words, self.traces, out]
        log = open(self.work / f"{out.name}.said", "ab")
        self.started.append(subprocess.Popen(words, env={**os.environ, "SHB": str(self.shb)}, stdout=log,
                                             stderr=log))
        return time.monotonic(), self.started[-1]

    def end(self):
        for started in self.started:
            if started.poll() is None:
                started.terminate()
                started.wait()

    def slurm(self, out):
        return self.start("--engine", "slurm", out=out)

    def took(self, what, started):
        """Waits for a farm, says how long it took, and gives its status."""
        status = started[1].wait(SECONDS)
        print(f"  {what}: {time.monotonic() - started[0]:.0f} s, status {status}", flush=True)
        return status

    def made(self, out):
        return len(list((out / "outcomes").rglob("*.outcome"))) if (out / "outcomes").exists() else 0

    def wait_for(self, out, count, started):
        """Waits until there are so many outcomes."""
        while self.made(out) < count and started[1].poll() is None:
            time.sleep(0.1)
        print(f"  {self.made(out)} of {self.count} outcomes", flush=True)

    def compare(self, name, out):
        different = [table for table in TABLES if (out / table).read_bytes()
                     != (self.plain / table).read_bytes()]
        print(f"{name}: " + (f"{', '.join(different)} differ" if different else "the same tables as xargs'"),
              flush=True)
        return not different

    def finish(self, name, out, status):
        """Runs the farm again until it says what xargs' said (at most three times), and compares."""
        missing = lambda folder: (folder / "traces.tsv").read_text().count("\tmissing\t")
        wanted = 2 if missing(self.plain) else 1
        lost = missing(out) - missing(self.plain)
        print(f"  {lost} traces were lost and stated as missing", flush=True)
        for _ in range(3 if lost or status != wanted else 0):
            self.took("run again", self.slurm(out))
            lost = missing(out) - missing(self.plain)
            if not lost:
                break
        return self.compare(name, out)


def make_traces(folder, events=100_000):
    """Traces as a farm meets them: ordinary ones, malformed ones, one that runs out of memory, one
    that isn't there."""
    folder.mkdir()
    for number in range(12):
        with open(folder / f"made-{number:02}.std", "wb") as made:
            subprocess.run([sys.executable, TOP / "bench" / "generate.py", "--events", str(events),
                            "--threads", "8",
                            "--races", str(200 * (number % 4)), "--seed", str(number)], stdout=made,
                           check=True)
    for example in (TOP / "examples").glob("*.std"):
        shutil.copy(example, folder)
    (folder / "a folder").mkdir()
    for name, text in (("empty.std", b""), ("bad-release.std", b"T1|w(x)|a:1\nT1|rel(l)|a:2\n"),
                       ("bytes.std", bytes(range(256)) * 40),
                       ("a folder/a name with 'quotes' and $HOME.std", b"T1|w(x)|a b:1\nT2|w(x)|a b:2\n"),
                       ("wide.std",
                        b"".join(b"T%d|w(x%d)|%s\n" % (k % 8, k, b"p" * 300) for k in range(800_000)))):
        (folder / name).write_bytes(text)
    (folder / "gone.std").symlink_to("nowhere")
    return folder


def make_many(folder, count=10_000):
    folder.mkdir()
    for number in range(count):
        (folder / f"{number:05}.std").write_bytes(b"T1|w(x)|a.c:%d\n"
                                                  b"T2|w(x)|b.c:%d\n" % (number % 7, number % 11))
    return folder


def plain(cluster, farm, out):
    """Nothing is harmed."""
    return farm.took("slurm", farm.slurm(out))


def node(cluster, farm, out):
    """A node and all that runs on it is killed at a quarter, and comes back at a half."""
    started = farm.slurm(out)
    farm.wait_for(out, farm.count // 4, started)
    cluster.kill("n1")
    farm.wait_for(out, farm.count // 2, started)
    cluster.start("n1")
    return farm.took("slurm, node n1 killed and started again", started)


def controller(cluster, farm, out):
    """The controller is killed at a quarter, and started again after five seconds. Nodes that it drains are
    resumed: they may run already what they are given."""
    started = farm.slurm(out)
    farm.wait_for(out, farm.count // 4, started)
    cluster.kill("slurmctld")
    time.sleep(5)
    cluster.start("slurmctld")
    while started[1].poll() is None:
        cluster.up()
        time.sleep(1)
    return farm.took("slurm, slurmctld killed and started again", started)


def twice(cluster, farm, out):
    """Two farms at once on one folder."""
    first, second = farm.slurm(out), farm.slurm(out)
    farm.took("slurm, first of two", first)
    return farm.took("slurm, second of two", second)


def restart_nodes(cluster):
    for name in ("n1", "n2"):
        cluster.kill(name)
    cluster.up()


def disk(cluster, farm, out):
    """The folder of the outcomes is on a disk that is full at once; then it has room."""
    out.mkdir()
    subprocess.run(["mount", "-t", "tmpfs", "-o", "size=64k", "none", out], check=True)
    restart_nodes(cluster)      # a node sees what was mounted before it began
    try:
        status = farm.took("slurm on a disk of 64 KiB", farm.slurm(out))
        print(f"  {farm.made(out)} of {farm.count} outcomes", flush=True)
        subprocess.run(["mount", "-o", "remount,size=1g", out], check=True)
        status = farm.took("slurm with room", farm.slurm(out))
        kept = out.with_name("disk-kept")
        shutil.copytree(out, kept)
    finally:
        subprocess.run(["umount", out], check=True)
        restart_nodes(cluster)
    out.rmdir()
    kept.rename(out)
    return status


SCENES = {scene.__name__: scene for scene in (plain, node, controller, twice, disk)}


def main(words):
    missing = [name for name in NEEDED if not shutil.which(name)]
    if missing or os.getuid() or len(words) < 2:
        print(f"{__doc__}\nmissing: {', '.join(missing) or 'nothing'}"
              + ("" if not os.getuid() else "; it isn't run as root"))
        return 2
    shb, work, names = (pathlib.Path(words[0]).resolve(), pathlib.Path(words[1]).resolve(),
                        words[2:] or [*SCENES, "many"])
    signal.signal(signal.SIGTERM, lambda number, frame: sys.exit(1))      # so that the daemons are ended
    work.mkdir()
    cluster, farm, good = Cluster(work / "run"), None, []
    try:
        cluster.up()
        if set(names) & set(SCENES):
            farm = Farm(shb, work, make_traces(work / "traces"))
        for name in (name for name in names if name in SCENES):
            print(f"{name}: {SCENES[name].__doc__}", flush=True)
            status = SCENES[name](cluster, farm, work / name)
            cluster.up()
            if status is not None:
                good.append(farm.finish(name, work / name, status))
        if "many" in names:
            print("many: 10,000 small traces", flush=True)
            farm = Farm(shb, work, make_many(work / "small"))
            farm.took("xargs again", farm.start("--jobs", "2", out=farm.plain))
            status = farm.took("slurm", farm.slurm(work / "many"))
            farm.took("slurm again", farm.slurm(work / "many"))
            good.append(farm.finish("many", work / "many", status))
    finally:
        if farm:
            farm.end()
        cluster.end()
    print(f"{good.count(True)} passed, {good.count(False)} failed")
    return 0 if good and all(good) else 1


if __name__ == "__main__":
    sys.exit(main(sys.argv[1:]))
