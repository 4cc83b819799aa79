#!/usr/bin/env python3
"""Makes a small cluster on this machine, and compares what examples/many makes on it with the same runs made by hand.

    python3 bench/cluster.py                    # all checks; the last line is `N passed, M failed`
    python3 bench/cluster.py --run COMMAND..    # runs a command on the cluster, such as bash

It needs root and some of Debian's packages: apt-get install slurm-wlm munge parallel openssh-server rsync. The cluster is in namespaces of its
own (of processes, mounts, networks and names): a head with munge and the controller of SLURM, and three nodes, each with an address, a daemon
of SLURM, sshd and a home of its own. The nodes alpha and beta share the head's files; gamma lacks the folder of the program. All their files
are in one temporary folder, all processes end with this one, and nothing of the machine's configuration is changed. It takes a minute.

TT names the program; if it isn't set, it is crates/tt/out/tt, which ./tt builds.
"""
import os
import shutil
import signal
import socket
import subprocess
import sys
import tempfile
import time
from pathlib import Path

TOP = Path(__file__).resolve().parent.parent
PROGRAM = Path(os.environ.get("TT", TOP / "crates/tt/out/tt")).resolve()
NEEDED = {"slurmctld": "slurm-wlm", "slurmd": "slurm-wlm", "sbatch": "slurm-wlm", "munged": "munge", "sshd": "openssh-server", "ssh": "openssh-client",
          "rsync": "rsync", "parallel": "parallel", "ip": "iproute2", "unshare": "util-linux"}
NAMESPACES = ["--mount", "--net", "--uts", "--ipc", "--pid", "--fork", "--mount-proc", "--kill-child"]
NODES = {"alpha": 11, "beta": 12, "gamma": 13}
NETWORK = "198.51.100"
SSH_PORT = 2222
SECONDS = 30
# The runs: instances of examples/, copied under names of which one has a space; few seeds and little work.
INSTANCES = {"like02": "like02", "week five": "small05"}
SEEDS = 4
WORK = {"improve": ("--steps", 1_000), "parts": ("--nodes", 200)}
# What has to be as before when the cluster is down.
OF_THE_MACHINE = ["/etc/ssh", "/etc/slurm", "/etc/munge", "/etc/hosts", "/etc/passwd", "/run/munge", "/run/sshd", "/run/slurmctld.pid", "/run/slurmd.pid",
                  "/var/spool/slurmctld", "/var/spool/slurmd", "/var/lib/munge", "/var/log/munge", "/var/log/slurm", "/root/.ssh", "/root/.parallel"]

SLURM_CONF = """ClusterName=trial
SlurmctldHost=head
SlurmUser=root
SlurmdUser=root
AuthType=auth/munge
AuthInfo=socket={folder}/munge.socket
CredType=cred/munge
StateSaveLocation={folder}/state
SlurmdSpoolDir={folder}/%n/spool
SlurmctldPidFile={folder}/slurmctld.pid
SlurmdPidFile={folder}/%n/slurmd.pid
SlurmctldLogFile={folder}/slurmctld.log
SlurmdLogFile={folder}/%n/slurmd.log
ProctrackType=proctrack/linuxproc
TaskPlugin=task/none
JobAcctGatherType=jobacct_gather/none
AccountingStorageType=accounting_storage/none
SelectType=select/cons_tres
SelectTypeParameters=CR_CPU
SwitchType=switch/none
MpiDefault=none
ReturnToService=2
PropagateResourceLimits=NONE
KillWait=2
NodeName=alpha,beta,gamma CPUs=1 RealMemory=2000 State=UNKNOWN
PartitionName=all Nodes=alpha,beta,gamma Default=YES MaxTime=60 State=UP
"""
SSHD_CONFIG = """Port {port}
ListenAddress {address}
HostKey {folder}/host_key
AuthorizedKeysFile {folder}/authorized_keys
PasswordAuthentication no
KbdInteractiveAuthentication no
UsePAM no
PermitRootLogin prohibit-password
StrictModes no
PidFile none
"""
SSH_CONFIG = """Host *
  Port {port}
  User root
  IdentityFile {folder}/key
  IdentitiesOnly yes
  UserKnownHostsFile {folder}/known_hosts
  GlobalKnownHostsFile /dev/null
  StrictHostKeyChecking yes
  BatchMode yes
  ConnectTimeout 5
  ControlMaster auto
  ControlPath {folder}/%n.ssh
  ControlPersist 60
"""
# A node: waits for its end of the wire, and gives itself a name, an address and a home.
NODE = """set -e
hostname {name}
mount --bind {folder}/{name}/passwd /etc/passwd
until ip link show eth0 >{folder}/{name}/link 2>&1; do sleep 0.1; done
ip link set lo up
ip address add {address}/24 dev eth0
ip link set eth0 up
{hide}
/usr/sbin/sshd -D -f {folder}/{name}/sshd_config -E {folder}/{name}/sshd.log &
exec slurmd -D
"""


def wait_for(what, is_true):
    """Waits until something is true."""
    end = time.monotonic() + SECONDS
    while not is_true():
        if time.monotonic() > end:
            raise RuntimeError(f"{what}: not within {SECONDS} seconds")
        time.sleep(0.1)


def run(words, folder=None, **environment):
    return subprocess.run([str(word) for word in words], cwd=folder, env={**os.environ, **environment}, text=True, capture_output=True, check=False)


def must(*words):
    """Runs a command without which there is no cluster."""
    done = run(words)
    if done.returncode != 0:
        raise RuntimeError(f"{' '.join(map(str, words))}: {done.stderr.strip()}")
    return done.stdout


class Cluster:
    """The daemons, inside the namespaces that they share."""

    def __init__(self, folder):
        self.folder, self.site, self.daemons = folder, folder / "a site", {}

    def write(self, name, text, mode=0o644):
        path = self.folder / name
        path.parent.mkdir(parents=True, exist_ok=True)
        path.write_text(text.format(folder=self.folder, port=SSH_PORT) if "{folder}" in text else text)
        path.chmod(mode)

    def start(self):
        """Starts everything, and waits until all nodes are idle and answer."""
        self.make_files()
        must("mount", "--bind", self.folder / "hosts", "/etc/hosts")
        must("mount", "-t", "tmpfs", "run", "/run")
        os.mkdir("/run/sshd", 0o755)
        socket.sethostname("head")
        must("ip", "link", "set", "lo", "up")
        must("ip", "link", "add", "net0", "type", "bridge")
        must("ip", "address", "add", f"{NETWORK}.1/24", "dev", "net0")
        must("ip", "link", "set", "net0", "up")
        os.environ.update(SLURM_CONF=f"{self.folder}/slurm.conf", HOME=f"{self.folder}/head", TMPDIR=f"{self.folder}/tmp",
                          PARALLEL_SSH=f"ssh -F {self.folder}/ssh_config")
        self.begin("munged", "--foreground", *(f"--{word}={self.folder}/munge.{word}" for word in ("socket", "key-file", "pid-file", "log-file", "seed-file")))
        wait_for("munged", lambda: os.path.exists(f"{self.folder}/munge.socket"))
        self.begin("slurmctld", "-D")
        for name in NODES:
            self.start_node(name)
        wait_for("three idle nodes", lambda: run(["sinfo", "--noheader", "--Node", "--format=%t"]).stdout.split() == ["idle"] * 3)
        for name in NODES:
            wait_for(f"sshd of {name}", lambda name=name: self.ssh(name, "hostname").stdout.strip() == name)

    def make_files(self):
        for name in ("state", "tmp", "head", *NODES):
            (self.folder / name).mkdir()
        self.write("munge.key-file", os.urandom(64).hex(), 0o400)
        must("ssh-keygen", "-q", "-t", "ed25519", "-N", "", "-f", self.folder / "key")
        must("ssh-keygen", "-q", "-t", "ed25519", "-N", "", "-f", self.folder / "host_key")
        host_key = (self.folder / "host_key.pub").read_text()
        self.write("authorized_keys", (self.folder / "key.pub").read_text())
        self.write("known_hosts", "".join(f"[{name}]:{SSH_PORT} {host_key}" for name in NODES))
        self.write("hosts", f"127.0.0.1 localhost\n{NETWORK}.1 head\n" + "".join(f"{NETWORK}.{last} {name}\n" for name, last in NODES.items()))
        self.write("slurm.conf", SLURM_CONF)
        self.write("ssh_config", SSH_CONFIG)
        with open("/etc/passwd", encoding="utf-8") as file:
            users = [line.split(":") for line in file.read().splitlines()]
        for name, last in NODES.items():
            homes = [[*user[:5], f"{self.folder}/{name}", "/bin/bash"] if user[0] == "root" else user for user in users]
            self.write(f"{name}/passwd", "".join(":".join(user) + "\n" for user in homes))
            self.write(f"{name}/sshd_config", SSHD_CONFIG.format(folder=self.folder, port=SSH_PORT, address=f"{NETWORK}.{last}"))

    def begin(self, name, *words):
        with open(f"{self.folder}/{name}.out", "w", encoding="utf-8") as out:
            self.daemons[name] = subprocess.Popen([name if name in ("munged", "slurmctld") else "unshare", *words], stdout=out, stderr=subprocess.STDOUT)
        return self.daemons[name]

    def start_node(self, name):
        hide = f"mount -t tmpfs -o size=1m none '{self.site}'" if name == "gamma" else ""
        script = NODE.format(name=name, folder=self.folder, address=f"{NETWORK}.{NODES[name]}", hide=hide)
        node = self.begin(name, "--mount", "--net", "--uts", "bash", "-c", script)
        wait_for(f"the network of {name}", lambda: os.readlink(f"/proc/{node.pid}/ns/net") != os.readlink("/proc/self/ns/net"))
        must("ip", "link", "add", f"to-{name}", "type", "veth", "peer", "name", "eth0", "netns", node.pid)
        must("ip", "link", "set", f"to-{name}", "master", "net0", "up")

    def ssh(self, name, command):
        return run(["ssh", "-F", self.folder / "ssh_config", name, command])

    def stop(self):
        """Ends the daemons, the last first; what doesn't end is killed with the namespace of processes."""
        for daemon in reversed(self.daemons.values()):
            daemon.terminate()
        for daemon in self.daemons.values():
            try:
                daemon.wait(timeout=10)
            except subprocess.TimeoutExpired:
                daemon.kill()


class Checks:
    """The runs made by hand and on the cluster, and how they compare."""

    def __init__(self, cluster):
        self.cluster, self.many, self.tt = cluster, cluster.site / "examples/many", cluster.site / "tt"
        self.inputs, self.hand = cluster.folder / "the inputs", cluster.folder / "by hand"
        self.instances = [self.inputs / f"{name}.ctt" for name in INSTANCES]
        self.lines, self.results, self.rows = {}, [], []

    def groups(self):
        """All that is made and compared, in order."""
        yield self.by_hand
        for kind in WORK:
            yield from (lambda way=way, kind=kind: way(kind) for way in (self.slurm, self.ssh))
        yield from (self.failed_run, self.node_without_program, self.cancelled_task, self.again)

    def check(self, what, passed, said=""):
        self.results.append(bool(passed))
        print(f"{'passed' if passed else 'FAILED'}: {what}" + ("" if passed or not said else f": {str(said).strip()}"), flush=True)

    def by_hand(self):
        """Makes each run by one command, and says what many.sh should say of them."""
        self.inputs.mkdir()
        for name, source in INSTANCES.items():
            for suffix in (".ctt", ".sol"):
                shutil.copy(TOP / f"examples/{source}{suffix}", self.inputs / f"{name}{suffix}")
            (self.hand / name).mkdir(parents=True)
            for seed in range(1, SEEDS + 1):
                start, out = self.inputs / name, self.hand / name / str(seed)
                for kind, words in [("improve", [f"{start}.ctt", f"{start}.sol", f"{out}.sol"]), ("parts", [f"{start}.ctt", f"{out}.proofs"])]:
                    done = run([self.tt, kind, *words, "--seed", seed, *WORK[kind], "--quiet"])
                    if done.returncode > 1 or done.stderr:
                        raise RuntimeError(f"{kind} by hand, {name}, seed {seed}: {done.stderr}")
            self.lines["improve", name] = self.best_timetable(name)
            self.lines["parts", name] = self.best_proofs(name)

    def best_timetable(self, name):
        counts = []
        for seed in range(1, SEEDS + 1):
            said = dict(line.split() for line in run([self.tt, "validate", self.inputs / f"{name}.ctt", self.hand / name / f"{seed}.sol"]).stdout.splitlines())
            counts.append((int(said["hard"]), int(said["cost"]), seed))
        hard, cost, seed = min(counts)
        shutil.copy(self.hand / name / f"{seed}.sol", self.hand / f"{name}.sol")
        return f"{name}: hard {hard} cost {cost}, made by seed {seed}, the best of {SEEDS}"

    def best_proofs(self, name):
        """Keeps the proof with the greatest bound of each kind."""
        kept, best = self.hand / f"{name}.proofs", {}
        kept.mkdir()
        for seed in range(1, SEEDS + 1):
            for proof in sorted((self.hand / name / f"{seed}.proofs").iterdir()):
                bound = int(must(self.tt, "sum", self.inputs / f"{name}.ctt", proof, "--quiet").split()[1])
                best[proof.name] = max(best.get(proof.name, (-1, 0)), (bound, -seed))
        for proof, (_, seed) in best.items():
            shutil.copy(self.hand / name / f"{-seed}.proofs" / proof, kept / proof)
        line = must(self.tt, "sum", self.inputs / f"{name}.ctt", *sorted(kept.iterdir()), "--quiet").strip()
        said = ", ".join(f"{proof} {bound} by seed {-seed}" for proof, (bound, seed) in sorted(best.items()))
        return f"{name}: {line}{': ' if said else ''}{said}, the best of {SEEDS}"

    def files_of(self, folder, kind):
        """The results of all seeds and the kept ones: their paths and bytes."""
        results = {}
        for name in INSTANCES:
            if kind == "improve":
                paths = [folder / f"{name}.sol", *(folder / name).glob("*.sol")]
            else:
                paths = [*(folder / f"{name}.proofs").glob("*"), *(folder / name).glob("*.proofs/*")]
            results.update((str(path.relative_to(folder)), path.read_bytes()) for path in paths if path.is_file() and path.name != "start.sol")
        return results

    def compare(self, way, kind, out, kept, nodes):
        """Compares the runs in a folder with those made by hand."""
        expected, found = self.files_of(self.hand, kind), self.files_of(out, kind)
        same = sum(found.get(path) == text for path, text in expected.items())
        lines = [self.lines[kind, name] for name in INSTANCES]
        self.check(f"{way}, {kind}: {len(expected)} files are those made by hand, byte for byte", found == expected, sorted(set(found) ^ set(expected)))
        self.check(f"{way}, {kind}: what is kept is said, with status 0", (kept.returncode, kept.stdout.splitlines()) == (0, lines), kept.stdout + kept.stderr)
        self.check(f"{way}, {kind}: alpha and beta made runs", nodes == {"alpha", "beta"}, nodes)
        self.rows.append((way, kind, len(INSTANCES) * SEEDS, f"{same} of {len(expected)}", " and ".join(sorted(nodes)), "; ".join(kept.stdout.splitlines())))

    def sbatch(self, folder, kind, *options, seeds=f"1-{SEEDS}", **environment):
        words = ["sbatch", "--wait", f"--array={seeds}", *options, self.many / "slurm.sh", kind, WORK[kind][1], *INSTANCES]
        return run(words, folder, HERE=str(self.many), **environment)

    def nodes_of(self, out, kind):
        """The nodes that the logs of the runs name."""
        logs = [path.read_text() for name in INSTANCES for path in (out / name).glob(f"[0-9]*.{kind}.log")]
        return {line.split()[3] for log in logs for line in log.splitlines() if line.startswith("status ")}

    def keep(self, kind, out, *options):
        return run([self.many / "many.sh", "keep", kind, *options, "--jobs", "1", out, *self.instances])

    def slurm(self, kind):
        out = self.cluster.folder / "runs of slurm"
        done = run([self.many / "many.sh", "prepare", kind, out, *self.instances])
        self.check(f"SLURM, {kind}: prepared", done.returncode == 0, done.stderr)
        done = self.sbatch(out, kind, "--exclude=gamma")
        self.check(f"SLURM, {kind}: the array ends with status 0", done.returncode == 0, done.stderr + self.logs(out))
        self.compare("SLURM", kind, out, self.keep(kind, out, "--seeds", SEEDS), self.nodes_of(out, kind))

    def logs(self, out):
        return "".join(path.read_text() for path in sorted(out.glob("task-*.log")))

    def hosts(self, kind, hosts, out, *instances):
        return run([self.many / "many.sh", kind, "--hosts", hosts, "--jobs", 1, "--seeds", SEEDS, *WORK[kind], out, *(instances or self.instances)])

    def ssh(self, kind):
        out = self.cluster.folder / "runs of ssh"
        done = self.hosts(kind, "alpha,beta", out)
        self.check(f"ssh, {kind}: nothing is said of faults", done.stderr == "", done.stderr)
        self.compare("ssh", kind, out, done, self.nodes_of(out, kind))
        left = [str(path) for name in NODES for path in (self.cluster.folder / name).glob(".parallel/tmp/*") if path.is_dir() and name != path.name]
        self.check(f"ssh, {kind}: no file is left on the hosts", not left, left)

    def failed_run(self):
        """An instance that is refused, among others."""
        wrong = self.inputs / "wrong one.ctt"
        wrong.write_text("none")
        shutil.copy(self.inputs / "like02.sol", self.inputs / "wrong one.sol")
        out = self.cluster.folder / "failed runs"
        done = self.hosts("improve", "alpha,beta", out, wrong, self.instances[0])
        self.check("ssh, a run that is refused: status 1, and the others are kept",
                   done.returncode == 1 and done.stdout.strip() == self.lines["improve", "like02"] and "wrong one: no run left a timetable" in done.stderr,
                   done.stdout + done.stderr)
        self.check("ssh, a run that is refused: its reason is said, with its seed and host",
                   "improve wrong one with seed 2 on " in done.stderr and "refused: instance: " in done.stderr, done.stderr)
        log = out / "wrong one/2.improve.log"
        self.check("ssh, a run that is refused: its log comes back", log.exists() and log.read_text().startswith("refused: "), log)
        done = run(["sbatch", "--wait", "--array=1-2", "--exclude=gamma", self.many / "slurm.sh", "improve", 10, "wrong one", "like02"], out, HERE=str(self.many))
        self.check("SLURM, a run that is refused: status 1", done.returncode == 1, done.stderr)
        self.check("SLURM, a run that is refused: the task's log has the reason, and the next run",
                   all(text in (out / "task-1.log").read_text() for text in ("refused: instance: ", "wrong one with seed 1 failed with status 2", "like02: hard 0")),
                   self.logs(out))

    def node_without_program(self):
        """The node gamma, which has no program."""
        out = self.cluster.folder / "without a program"
        for hosts, fault in [("alpha,gamma", "gamma\tthere is no program"), ("alpha,delta", "delta\tssh: "), ("alpha,:", "in place of :")]:
            done = self.hosts("improve", hosts, out)
            self.check(f"ssh, {hosts}: nothing is begun, with status 2", done.returncode == 2 and fault in done.stderr and not out.exists(), done.stderr)
        run([self.many / "many.sh", "prepare", "improve", out, *self.instances])
        done = self.sbatch(out, "improve", "--nodelist=gamma", seeds="1-2")
        self.check("SLURM, a node without a program: status 2, and the log says so",
                   done.returncode == 2 and "on gamma, so nothing was begun" in self.logs(out), done.stderr + self.logs(out))
        done = self.sbatch(out, "improve", "--nodelist=beta", seeds="1", TT="/no where/tt")
        self.check("SLURM, another program that isn't there: status 1, and the log says so",
                   done.returncode == 1 and "there is no program /no where/tt on beta" in self.logs(out), done.stderr + self.logs(out))
        self.sbatch(out, "improve", "--exclude=gamma", seeds=f"3-{SEEDS}")
        done = self.keep("improve", out, "--seeds", SEEDS)
        self.check("SLURM, a node without a program: keep names the seeds that are missing, with status 1",
                   done.returncode == 1 and "like02: these seeds left nothing: 1 2\n" in done.stderr, done.stderr)
        self.sbatch(out, "improve", "--exclude=gamma", seeds="1-2")
        done = self.keep("improve", out, "--seeds", SEEDS)
        self.check("SLURM, a node without a program: the runs made again on others are those made by hand",
                   done.returncode == 0 and self.files_of(out, "improve") == self.files_of(self.hand, "improve"), done.stderr)

    def cancelled_task(self):
        """A task that is ended from outside while it runs."""
        out = self.cluster.folder / "cancelled"
        run([self.many / "many.sh", "prepare", "improve", out, *self.instances[:1]])
        begun = run(["sbatch", "--parsable", "--array=1", "--exclude=gamma", self.many / "slurm.sh", "improve", 1_000_000, "like02"], out, HERE=str(self.many))
        wait_for("the task's run", lambda: (out / "like02/1.improve.log").exists())
        run(["scancel", begun.stdout.strip()])
        wait_for("the task's end", lambda: not run(["squeue", "--noheader"]).stdout)
        done = run([self.many / "many.sh", "keep", "improve", "--seeds", 1, out, self.instances[0]])
        self.check("SLURM, a task that is cancelled: it leaves nothing, and keep says so with status 1",
                   done.returncode == 1 and "like02: no run left a timetable\n" in done.stderr, done.stdout + done.stderr)

    def again(self):
        """A second call in the same folder, whose runs fail."""
        out = self.cluster.folder / "runs of ssh"
        wrong = self.inputs / "again/like02.ctt"
        wrong.parent.mkdir()
        wrong.write_text("none")
        shutil.copy(self.inputs / "like02.sol", wrong.with_suffix(".sol"))
        done = self.hosts("improve", "alpha", out, wrong)
        kept = [path for path in [out / "like02.sol.old", *(out / f"like02/{seed}.sol.old" for seed in range(1, SEEDS + 1))] if path.exists()]
        self.check("ssh, a second call whose runs fail: what the first left isn't taken for its results, and stays as .old",
                   done.returncode == 1 and done.stdout == "" and len(kept) == SEEDS + 1 and not (out / "like02.sol").exists(), done.stdout + done.stderr)


def inside(folder, command):
    """What is done in the namespaces: a command, or all checks."""
    cluster = Cluster(folder)
    checks = Checks(cluster)
    try:
        cluster.start()
        if command:
            return subprocess.run(command, check=False).returncode
        for group in checks.groups():
            group()
        print("\n| Way | Kind | Runs | Files as by hand | Nodes | Kept |\n|---|---|---|---|---|---|")
        for row in checks.rows:
            print("| " + " | ".join(map(str, row)) + " |")
        print(flush=True)
        return 0
    except (RuntimeError, OSError) as fault:
        checks.check("the cluster and its runs", False, fault)
        for path in sorted([*folder.glob("*.out"), *folder.glob("*/sshd.log")]):
            print(f"{path.relative_to(folder)}: {path.read_text(errors='replace')[-500:]}", flush=True)
        return 1
    finally:
        (folder / "counts").write_text(f"{sum(checks.results)} {len(checks.results)}")
        cluster.stop()


def versions():
    """The versions of what the cluster is made of, in one line."""
    said = [run(words) for words in (["slurmd", "-V"], ["munged", "--version"], ["ssh", "-V"], ["rsync", "--version"], ["parallel", "--version"])]
    first = [(done.stdout or done.stderr).splitlines()[0].split("(")[0].strip() for done in said]
    return ", ".join(first).replace("  ", " ")


def state_of_machine():
    """What a cluster could change: files of the configuration with their times, and the networks."""
    paths = [Path(name) for top in OF_THE_MACHINE for name in (top, *(str(path) for path in Path(top).rglob("*")))]
    files = {str(path): (path.lstat().st_mtime_ns, path.lstat().st_size) for path in paths if os.path.lexists(path)}
    return files, run(["ip", "-o", "link"]).stdout.count("\n"), os.uname().nodename


def processes_in(folder):
    """The processes whose command line or environment names a folder."""
    found = []
    for entry in Path("/proc").glob("[0-9]*"):
        try:
            if str(folder) in (entry / "cmdline").read_text(errors="replace") + (entry / "environ").read_text(errors="replace"):
                found.append(entry.name)
        except OSError:
            pass
    return found


def begin(command):
    """Begins the process inside, and returns it with its folder."""
    folder = Path(tempfile.mkdtemp(prefix="tt-cluster-", dir="/tmp"))
    folder.chmod(0o755)
    shutil.copytree(TOP / "examples/many", folder / "a site/examples/many")
    shutil.copy(PROGRAM, folder / "a site/tt")
    words = ["unshare", *NAMESPACES, sys.executable, os.path.abspath(__file__), "--inside", folder, *command]
    environment = {key: value for key, value in os.environ.items() if key not in ("TT", "HERE") and not key.startswith(("SLURM", "SBATCH", "PARALLEL"))}
    return subprocess.Popen(words, env=environment), folder


def end(process, folder):
    """Ends all that is left: with unshare the kernel ends every process of its namespace."""
    if process.poll() is None:
        process.kill()
    process.wait()
    shutil.rmtree(folder, ignore_errors=True)


def leaves_nothing():
    """Whether a cluster that is ended by a signal, when it is up, leaves neither a process nor a file."""
    words = [sys.executable, os.path.abspath(__file__), "--run", "sh", "-c", 'echo "$SLURM_CONF"; sleep 600']
    with subprocess.Popen(words, stdout=subprocess.PIPE, text=True) as caller:
        folder = Path(caller.stdout.readline().strip()).parent
        caller.terminate()
        caller.wait(timeout=SECONDS)
    return folder.name.startswith("tt-cluster-") and not folder.exists() and not processes_in(folder)


def main():
    if sys.argv[1:2] == ["--inside"]:
        return inside(Path(sys.argv[2]), sys.argv[3:])
    missing = sorted({package for name, package in NEEDED.items() if shutil.which(name, path=os.environ["PATH"] + ":/usr/sbin:/sbin") is None})
    if os.geteuid() != 0 or missing or not os.access(PROGRAM, os.X_OK):
        print(f"cluster.py: needs root, the program {PROGRAM}, and Debian's packages: {' '.join(missing) or 'all are there'}", file=sys.stderr)
        return 2
    command = sys.argv[2:] if sys.argv[1:2] == ["--run"] else []
    for number in (signal.SIGTERM, signal.SIGHUP):
        signal.signal(number, lambda number, _: sys.exit(128 + number))
    before = state_of_machine()
    if not command:
        print(versions(), flush=True)
    process, folder = begin(command)
    try:
        status = process.wait()
        if command:
            return status
        passed, made = map(int, (folder / "counts").read_text().split()) if (folder / "counts").exists() else (0, 1)
    finally:
        end(process, folder)
    last = [("the cluster is down: no process and no file of it is left", not processes_in(folder) and not folder.exists()),
            ("a cluster that is ended by a signal leaves nothing", leaves_nothing()),
            ("the machine's configuration, folders and networks are as before", state_of_machine() == before)]
    for what, is_so in last:
        print(f"{'passed' if is_so else 'FAILED'}: {what}")
    passed, made = passed + sum(is_so for _, is_so in last), made + len(last)
    print(f"{passed} passed, {made - passed} failed")
    return 0 if passed == made and status == 0 else 1


if __name__ == "__main__":
    sys.exit(print(__doc__) if sys.argv[1:] == ["--help"] else main())
