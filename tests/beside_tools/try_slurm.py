"""Slurm on this machine's loopback: the night run of the example as a job array, with faults, and with a node that is lost."""

import os
import pwd
import shutil
import socket
import subprocess
import sys
import tempfile

import bench
import books
import histories
import processes
from bench import read, run, write

HERE = os.path.join(bench.EXAMPLES, "slurm")
COUNT = 400
CONFIG = """ClusterName=beside
SlurmctldHost={host}(127.0.0.1)
SlurmctldPort={control}
CommunicationParameters=NoCtldInAddrAny,NoInAddrAny
AuthType=auth/munge
AuthInfo=socket={room}/munge.socket,cred_expire=10
SlurmUser={user}
SlurmdUser={user}
StateSaveLocation={room}/state
SlurmdSpoolDir={room}/%n
SlurmctldPidFile={room}/slurmctld.pid
SlurmdPidFile={room}/%n.pid
SlurmdTimeout=12
ProctrackType=proctrack/linuxproc
TaskPlugin=task/none
MpiDefault=none
SelectType=select/cons_tres
SelectTypeParameters=CR_CPU
ReturnToService=2
PropagateResourceLimits=NONE
NodeName=n1 NodeHostname={host} NodeAddr=127.0.0.1 Port={one} CPUs=1
NodeName=n2 NodeHostname={host} NodeAddr=127.0.0.1 Port={other} CPUs=1
PartitionName=main Nodes=n1,n2 Default=YES MaxTime=10
"""


class Cluster:
    """munged, slurmctld and two slurmd, which listen on the loopback alone."""

    def __init__(self, room):
        # Other programs are to find the socket of munged, and no more than that.
        os.chmod(room, 0o711)
        self.room = room
        control, one, other = processes.free_ports(3)
        host = socket.gethostname().split(".")[0]
        user = pwd.getpwuid(os.getuid()).pw_name
        write(CONFIG.format(host=host, control=control, one=one, other=other, room=room, user=user), room, "slurm.conf")
        self.settings = {**os.environ, "SLURM_CONF": os.path.join(room, "slurm.conf")}
        self.nodes = {}

    def sbin(self, name):
        return shutil.which(name, path=os.environ["PATH"] + ":/usr/sbin:/sbin")

    def begin(self, name, *words):
        return processes.start([self.sbin(name), *words], os.path.join(self.room, f"{words[-1]}.said"), env=self.settings)

    def start(self):
        path = lambda name: os.path.join(self.room, name)
        os.mkdir(path("state"))
        run(self.sbin("mungekey"), "--create", "--keyfile", path("munge.key"))
        names = ("key-file", "pid-file", "log-file", "seed-file", "socket")
        files = [f"--{name}={path('munge.' + name.partition('-')[0])}" for name in names]
        self.begin("munged", "--foreground", *files, "--num-threads=2")
        processes.wait_for(lambda: os.path.exists(path("munge.socket")), 20)
        self.begin("slurmctld", "-D")
        self.nodes = {name: self.begin("slurmd", "-D", "-N", name) for name in ("n1", "n2")}
        return processes.wait_for(lambda: self.run("sinfo", "-h", "-o", "%T %D")[1] == "idle 2\n", 60)

    def said(self):
        """The last that munged, slurmctld and slurmd have said."""
        files = [name for name in sorted(os.listdir(self.room)) if name.endswith(".said")]
        return "\n".join(line for name in files for line in [name, *read(self.room, name).splitlines()[-5:]])

    def run(self, *words, **settings):
        return run(*words, folder=self.room, env={**self.settings, **settings})

    def running(self, node):
        """The tasks on a node: {the number of the job: the number of the task}."""
        return dict(line.split() for line in self.run("squeue", "-h", "-t", "R", "-w", node, "-o", "%A %K")[1].splitlines())

    def lose(self, node):
        """Ends a node and all that runs there; answers its tasks."""
        tasks = self.running(node)
        processes.kill(self.nodes[node].pid)
        for number in processes.below(os.getpid()):
            if any(f"slurmstepd: [{job}." in processes.called(number) for job in tasks):
                processes.kill(number)
        return sorted(tasks.values())


def list_of(names):
    return "".join(name + "\0" for name in names)


def make_books(room):
    """400 books with a table for all of them, three of which have a fault; answers the list and what each book has to print."""
    dice = bench.Dice(2)
    market = books.Market(dice)
    os.mkdir(os.path.join(room, "books"))
    texts, lines = {}, {}
    for number in range(COUNT):
        name = f"books/{number:03}{' $(touch oops)' if number == 5 else ''}.txt"
        book = books.Book(dice, market, dice.between(1, 6), f"b{number}_")
        texts[name], lines[name] = book.text, book.lines()
        write(book.text, room, name)
    write(market.table(), room, "fixings.csv")
    for name in ("night", "submit", "morning"):
        shutil.copy(os.path.join(HERE, name), room)
    return texts, lines


def joined(room, out):
    folder = os.path.join(room, out)
    return "".join(read(folder, name) for name in sorted(os.listdir(folder)) if name.endswith(".flows"))


def spoil(room, texts):
    """Puts a fault into three of the books; answers what `morning` has to say of each."""
    no_text, refused, missing = [sorted(texts)[number] for number in (7, 123, 341)]
    write(texts[no_text].replace("asset ", "asset ;"), room, no_text)
    write(texts[refused] + "contract half = scale(0.005, pay(EUR, Desk, Bank));\n", room, refused)
    write(texts[missing] + "contract late = after(400, scale(round(half_even, 2, obs(FX, 0)), pay(EUR, Desk, Bank)));\n", room, missing)
    line = books.HEAD.split("asset")[0].count("\n") + 1
    return {no_text: (6, f"fault text syntax line {line} column 7"), refused: (1, "fault refused half scale node 0"),
            missing: (8, "fault missing FX 400")}


def try_faults(own, cluster, program, texts, lines):
    """Three books have a fault: they are named in the morning, and run again when they are mended."""
    room = cluster.room
    faults = spoil(room, texts)
    submit = "./submit", "out/again", "fixings.csv", "out"
    status, text, said = cluster.run("bash", os.path.join(HERE, "steps"), TILUGBA=program)
    named = [f"{name}: {fault} status {status}" for name, (status, fault) in faults.items()]
    own.same("Slurm, a night with faults", (0, named, ""), (status, text.splitlines()[1:], said))
    own.same("Slurm, the list of the morning", list_of(faults), read(room, "out", "again"))
    others = "".join(lines[name] for name in sorted(lines) if name not in faults)
    own.same("Slurm, the lines beside the faults", others, joined(room, "out"))
    records = sorted(word for word in cluster.run("scontrol", "show", "job")[1].split() if word.startswith("ExitCode="))
    own.same("Slurm, its own records", [f"ExitCode={status}:0" for status in (0, 1, 6, 8)], records)
    own.same("Slurm, the greatest status", 8, cluster.run(*submit, TILUGBA=program)[0])
    for name in faults:
        write(texts[name], room, name)
    own.same("Slurm, what was mended", 0, cluster.run(*submit, TILUGBA=program)[0])
    own.same("Slurm, the morning after", (0, "", ""), cluster.run("./morning", "list", "out"))
    own.same("Slurm, the files of the night", COUNT + 1, len(os.listdir(os.path.join(room, "out"))))
    after_another = "".join(run(program, "flows", name, "fixings.csv", folder=room)[1] for name in sorted(texts))
    own.same("one run after another", "".join(lines[name] for name in sorted(lines)), after_another)
    own.same("Slurm, joined", after_another, joined(room, "out"))


def try_lost_node(own, cluster, program, lines):
    """A node is lost in the middle of a night of two tasks, with all that runs there: its task is given to the other one."""
    room = cluster.room
    os.mkdir(os.path.join(room, "lost"))
    # A run takes long enough for the node to be lost before it is done.
    write('#!/bin/sh\nsleep 0.1\nexec "$FAST" "$@"\n', room, "slow")
    os.chmod(os.path.join(room, "slow"), 0o755)
    words = "sbatch", "--wait", "--array=0-1", "night", "list", "fixings.csv", "lost"
    settings = {**cluster.settings, "TILUGBA": "./slow", "FAST": program}
    night = processes.start(words, os.path.join(room, "night.said"), cwd=room, env=settings)
    has_some = lambda: len(os.listdir(os.path.join(room, "lost"))) > 20 and cluster.running("n1") and cluster.running("n2")
    own.judge(processes.wait_for(has_some, 300), "Slurm: no tasks came to run on both nodes")
    tasks = cluster.lose("n1")
    try:
        status = night.wait(600)
    except subprocess.TimeoutExpired:
        status = "it does not end"
    own.same("Slurm, a night with a lost node", 0, status)
    own.same("Slurm, the lost node", "down", cluster.run("sinfo", "-h", "-n", "n1", "-o", "%T")[1].strip().rstrip("*"))
    jobs = cluster.run("scontrol", "show", "job")[1].split("\n\n")
    again = [job.split("ArrayTaskId=")[1].split()[0] for job in jobs if "Restarts=1 " in job and "NodeList=n2" in job]
    own.same("Slurm, the task that was given to the other node", tasks, sorted(again))
    own.same("Slurm, joined after the loss", "".join(lines[name] for name in sorted(lines)[:200]), joined(room, "lost"))


def try_history(own, cluster, program):
    """A history as an array gives the bytes that it gives here, and what was answered is not asked again."""
    history = histories.History(cluster.room, program)
    settings = {**cluster.settings, "TILUGBA_LIBRARY": ""}
    status, text, _ = history.printed("--slurm", "array", env=settings)
    own.same("Slurm, a history is written", (0, "1 task; run array/submit"), (status, text.partition(",")[0]))
    own.same("Slurm, its tasks", 0, run("array/submit", folder=history.room, env=settings)[0])
    kept = [read(history.room, "array", "answers", name) for name in os.listdir(os.path.join(history.room, "array", "answers"))]
    own.same("Slurm, its answers", history.count, "".join(kept).count("\n"))
    own.same("Slurm, its table", (0, history.want[1]), history.printed("--keep", "array", env=settings)[:2])


def main():
    own, program = bench.Bench(), sys.argv[1]
    processes.adopt()
    with tempfile.TemporaryDirectory() as room:
        try:
            cluster = Cluster(room)
            if own.judge(cluster.start(), "Slurm: its two nodes do not come up") or print(cluster.said()):
                own.same("Slurm, where it listens", {"loopback"}, processes.open_addresses())
                texts, lines = make_books(room)
                try_faults(own, cluster, program, texts, lines)
                try_history(own, cluster, program)
                try_lost_node(own, cluster, program, lines)
        finally:
            own.judge(not processes.end_all(), "Slurm: a process would not end")
    own.end()


main()
