"""Slurm's own daemons on the loopback, with all their files in a folder: what a test by hand of a batch system needs."""
from __future__ import annotations

import os
import shutil
import socket
import subprocess
import time
from typing import Callable, Optional

LONG = 120
CONFIGURATION = '''ClusterName=topo
SlurmctldHost=%(name)s(127.0.0.1)
SlurmctldPort=%(control)d
SlurmdPort=%(node)d
SlurmUser=%(user)s
AuthType=auth/munge
AuthInfo=socket=%(folder)s/munge.socket
StateSaveLocation=%(folder)s/state
SlurmdSpoolDir=%(folder)s/spool
SlurmctldPidFile=%(folder)s/slurmctld.pid
SlurmdPidFile=%(folder)s/slurmd.pid
ProctrackType=proctrack/linuxproc
TaskPlugin=task/none
SelectType=select/cons_tres
SelectTypeParameters=CR_Core
ReturnToService=2
MpiDefault=none
SchedulerParameters=sched_min_interval=200000
MinJobAge=3600
NodeName=%(name)s NodeAddr=127.0.0.1 CPUs=%(processors)d State=UNKNOWN
PartitionName=all Nodes=%(name)s Default=YES MaxTime=INFINITE State=UP
'''


def missing() -> str:
    """What is missing for it on this machine."""
    absent = [name for name in ('slurmctld', 'slurmd', 'sbatch', 'munged', 'mungekey') if not found(name)]
    return '%s (packages slurm-wlm and munge)' % ', '.join(absent) if absent else ''


def found(name: str) -> Optional[str]:
    return shutil.which(name, path=os.environ.get('PATH', '') + ':/usr/sbin')


def free_port() -> int:
    with socket.create_server(('127.0.0.1', 0)) as at:
        return at.getsockname()[1]


class Batch:
    """A controller and one node with so many processors; `environment` is for the commands that submit and ask."""

    def __init__(self, folder: str, processors: int) -> None:
        self.folder, self.name = folder, socket.gethostname().split('.')[0]
        self.running: list[subprocess.Popen] = []
        for name in 'state', 'spool':
            os.makedirs(os.path.join(folder, name))
        os.chmod(folder, 0o755)
        told = {'name': self.name, 'folder': folder, 'control': free_port(), 'node': free_port(), 'processors': processors,
                'user': 'root' if os.getuid() == 0 else os.environ['USER']}
        with open(self.path('slurm.conf'), 'w', encoding='ascii') as out:
            out.write(CONFIGURATION % told)
        self.environment = dict(os.environ, SLURM_CONF=self.path('slurm.conf'))
        try:
            self.start()
        except BaseException:
            self.close()
            raise

    def path(self, name: str) -> str:
        return os.path.join(self.folder, name)

    def start(self) -> None:
        subprocess.run([found('mungekey'), '--create', '--keyfile=' + self.path('munge.key')], check=True)
        self.daemon('munged', '--foreground', '--force', '--key-file=' + self.path('munge.key'), '--socket=' + self.path('munge.socket'),
                    '--pid-file=' + self.path('munge.pid'), '--log-file=' + self.path('munge.log'), '--seed-file=' + self.path('munge.seed'))
        self.until(lambda: os.path.exists(self.path('munge.socket')), 'munge')
        self.daemon('slurmctld', '-D', '-f', self.path('slurm.conf'))
        self.daemon('slurmd', '-D', '-f', self.path('slurm.conf'), '-N', self.name)
        self.until(lambda: 'idle' in self.ask('sinfo', '-h', '-o', '%T'), 'a node')

    def daemon(self, name: str, *words: str) -> None:
        with open(self.path(name + '.said'), 'ab') as said:
            self.running.append(subprocess.Popen([found(name), *words], stdout=said, stderr=said, stdin=subprocess.DEVNULL, env=self.environment))

    def until(self, is_so: Callable[[], bool], what: str) -> None:
        end = time.monotonic() + LONG
        while not is_so():
            if time.monotonic() > end or any(each.poll() is not None for each in self.running):
                raise RuntimeError('no %s: see %s' % (what, self.folder))
            time.sleep(0.2)

    def ask(self, *words: str) -> str:
        """What a command of Slurm says; nothing where it fails."""
        return subprocess.run(words, env=self.environment, capture_output=True, text=True).stdout

    def close(self) -> None:
        """Ends its daemons, the last one first."""
        for each in self.running[::-1]:
            each.terminate()
        for each in self.running[::-1]:
            try:
                each.wait(20)
            except subprocess.TimeoutExpired:
                each.kill()
                each.wait()
