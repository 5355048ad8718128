# SPDX-License-Identifier: BSD-3-Clause
"""Machines of a trial, all on this one: sshd and the daemons of Slurm on 127.0.0.1, with their files in one folder."""
import os
import socket
import subprocess
import time

SSHD = """Port {port}
ListenAddress 127.0.0.1
HostKey {folder}/host_key
PidFile {folder}/{name}.pid
AuthorizedKeysFile {folder}/user_key.pub
StrictModes no
UsePAM no
PasswordAuthentication no
PermitRootLogin prohibit-password
SetEnv PATH={folder}/{name}/bin:/usr/bin:/bin TMPDIR={folder}/{name}/tmp HOME={folder}/{name}
"""
SSH = """Host {name}
  HostName 127.0.0.1
  Port {port}
"""
SSH_ALL = """Host *
  User root
  IdentityFile {folder}/user_key
  IdentitiesOnly yes
  UserKnownHostsFile {folder}/known_hosts
  StrictHostKeyChecking accept-new
  KexAlgorithms curve25519-sha256
  LogLevel ERROR
"""
SLURM = """ClusterName=trial
SlurmctldHost={host}(127.0.0.1)
SlurmctldPort={control}
SlurmUser=root
SlurmdUser=root
AuthType=auth/munge
AuthInfo=socket={folder}/munge.socket
CredType=cred/munge
StateSaveLocation={folder}/state
SlurmdSpoolDir={folder}/spool.%n
SlurmctldPidFile={folder}/slurmctld.pid
SlurmdPidFile={folder}/slurmd.%n.pid
SlurmctldLogFile={folder}/slurmctld.log
SlurmdLogFile={folder}/slurmd.%n.log
ProctrackType=proctrack/linuxproc
TaskPlugin=task/none
SwitchType=switch/none
MpiDefault=none
ReturnToService=2
SelectType=select/cons_tres
SelectTypeParameters=CR_CPU
CommunicationParameters=NoInAddrAny,NoCtldInAddrAny
JobAcctGatherType=jobacct_gather/none
JobCompType=jobcomp/none
SchedulerParameters=sched_min_interval=100000
NodeName=n1 NodeHostname={host} NodeAddr=127.0.0.1 Port={first} CPUs=2 RealMemory=500
NodeName=n2 NodeHostname={host} NodeAddr=127.0.0.1 Port={second} CPUs=2 RealMemory=500
PartitionName=all Nodes=n1,n2 Default=YES MaxTime=INFINITE State=UP
"""


def free_port():
    """A port of 127.0.0.1 at which nobody listens."""
    with socket.socket() as one:
        one.bind(("127.0.0.1", 0))
        return one.getsockname()[1]


def wait_until(true, what, seconds=60):
    """Waits until something is true, and refuses to wait longer than that."""
    end = time.monotonic() + seconds
    while not true():
        if time.monotonic() > end:
            raise RuntimeError(f"{what}: not there after {seconds} s")
        time.sleep(0.1)


def answers(port):
    """Whether somebody listens at a port."""
    with socket.socket() as one:
        return one.connect_ex(("127.0.0.1", port)) == 0


class Daemons:
    """Processes that stay in front of this one; the last that began ends first."""

    def __init__(self):
        self.begun = []

    def start(self, *words, env=None):
        """Starts one, which is ended by its process id."""
        quiet = {"stdin": subprocess.DEVNULL, "stdout": subprocess.DEVNULL, "stderr": subprocess.DEVNULL}
        process = subprocess.Popen([str(word) for word in words], start_new_session=True, env=env, **quiet)
        self.begun.append(process)
        return process

    def end(self):
        """Ends each that began, and waits for it."""
        for process in reversed(self.begun):
            process.terminate()
            try:
                process.wait(20)
            except subprocess.TimeoutExpired:
                process.kill()
                process.wait()


def make_keys(folder):
    """Makes the keys of the machines and of the user, for this run alone."""
    for name in ("host_key", "user_key"):
        subprocess.run(["ssh-keygen", "-q", "-t", "ed25519", "-N", "", "-f", str(folder / name)], check=True)


def start_sshd(daemons, folder, program, hidden):
    """Starts the machines one, which can't see a folder, and two; there is none at the port of the machine down."""
    ports = {name: free_port() for name in ("one", "two", "down")}
    make_keys(folder)
    hosts = "".join(SSH.format(name=name, port=port) for name, port in ports.items())
    (folder / "ssh_config").write_text(hosts + SSH_ALL.format(folder=folder))
    for name in ("one", "two"):
        for part in ("bin", "tmp"):
            (folder / name / part).mkdir(parents=True)
        (folder / name / "bin" / "aclc").symlink_to(program)
        (folder / f"sshd_{name}").write_text(SSHD.format(folder=folder, name=name, port=ports[name]))
        # sshd wants the folder /run/sshd, which this one has for itself.
        hide = 'mount -t tmpfs none "$0" && ' if name == "one" else ""
        run = f'{hide}mount -t tmpfs none /run && mkdir -m 755 /run/sshd && exec /usr/sbin/sshd -D -f "$1" -E "$2"'
        daemons.start("unshare", "--mount", "sh", "-c", run, hidden, folder / f"sshd_{name}", folder / f"{name}.log")
        wait_until(lambda: answers(ports[name]), f"sshd {name}")


def start_slurm(daemons, folder):
    """Starts munged, slurmctld and two slurmd; returns the environment of Slurm's commands."""
    folder.mkdir(mode=0o711)
    key = folder / "munge.key"
    key.write_bytes(os.urandom(1024))
    key.chmod(0o400)
    ports = {name: free_port() for name in ("control", "first", "second")}
    (folder / "slurm.conf").write_text(SLURM.format(folder=folder, host=os.uname().nodename.split(".")[0], **ports))
    env = {**os.environ, "SLURM_CONF": str(folder / "slurm.conf")}
    files = [f"--{word}-file={folder}/munge.{word}" for word in ("key", "pid", "log", "seed")]
    daemons.start("munged", "-F", "--force", f"--socket={folder}/munge.socket", *files)
    wait_until((folder / "munge.socket").exists, "munged")
    daemons.start("slurmctld", "-D", "-i", env=env)
    for node in ("n1", "n2"):
        daemons.start("slurmd", "-D", "-N", node, env=env)
    ask = {"env": env, "stdout": subprocess.PIPE, "stderr": subprocess.DEVNULL}
    idle = ["sinfo", "--noheader", "--states=idle", "--format=%D"]
    wait_until(lambda: subprocess.run(idle, **ask).stdout.split() == [b"2"], "Slurm")
    return env
