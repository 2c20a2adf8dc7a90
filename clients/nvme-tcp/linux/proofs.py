"""Scenes with authentication, for kernels that support it and targets that were built with libcrypto."""
import signal
import time
from pathlib import Path
from typing import Callable, Dict

from linux.machines import ADDRESS, Guest, say
from linux.record import IDENTITY, Recorder
from linux.scenes import AGAIN, LIVELY, READ, Stage, stage, write
from tests.chap import GROUP_NAMES, HASHES, secret_of
from tests.targets import BLOCKS, fixed_random

READ_ONE = "dd if=/dev/nvme0n1 of=/dev/null bs=512 count=1 iflag=direct 2>&1 | tail -n 1"
STRANGER = "--hostnqn=nqn.2024-01.example:a1 --hostid=b2000000-0000-0000-0000-000000000000"
# Secrets of both hosts, of the target, and of a1 later.
SECRETS = {name: secret_of(name.encode().ljust(32, b".")) for name in ("a1", "b2", "controller", "new")}


def key_line(host: str, secret: str, controller: str = "") -> str:
    """The line of a host in the file of keys."""
    return f"{host}000000-0000-0000-0000-000000000000 nqn.2024-01.example:{host} {secret} {controller}\n"


def prove(it: Stage, a: Guest) -> None:
    say("with the right secret, a wrong one, and none")
    a.run(f"mine={SECRETS['a1']}; others={SECRETS['b2']}; targets={SECRETS['controller']}")
    a.run(f'to="-t tcp -a {ADDRESS} -s {it.port} -n $nqn"')
    leave = "nvme disconnect -n $nqn"
    text = a.run("nvme connect $to $me --dhchap-secret=$mine; echo status $?")
    it.wants("a1 proves who it is", "authenticated" in text and "status 0" in text)
    it.wants("its disk is there", "512 bytes" in a.run(f"sleep 2; {READ_ONE}"))
    a.run(leave)
    text = a.run("nvme connect $to $me --dhchap-secret=$others; echo status $?")
    it.wants("a wrong secret is refused at once", "authentication failed" in text and "status 1" in text)
    text = a.run("nvme connect $to $me; echo status $?")
    it.wants("so is none", "no key" in text and "status 1" in text)
    text = a.run(f"nvme connect $to {STRANGER} --dhchap-secret=$mine; echo status $?")
    it.wants("so is a1 with the HOSTID of b2", "is not allowed" in text and "status 1" in text)
    say("the target proves who it is, too")
    text = a.run("nvme connect $to $me --dhchap-secret=$mine --dhchap-ctrl-secret=$targets; echo status $?")
    it.wants("both have proved it", "controller authenticated" in text and "status 0" in text)
    it.wants("the disk is there", "512 bytes" in a.run(f"sleep 2; {READ_ONE}"))
    a.run(leave)
    text = a.run("nvme connect $to $me --dhchap-secret=$mine --dhchap-ctrl-secret=$others; echo status $?")
    it.wants("a target with another secret is refused", "authentication failed" in text and "status 1" in text)


def discover(it: Stage, a: Guest) -> None:
    say("discovery")
    words = f"-t tcp -a {ADDRESS} -s {it.port} $me"
    text = a.run(f"nvme discover {words} | head -n 12")
    it.wants("discovery finds the subsystem", "nqn.2024-01.example:suvmileh" in text)
    text = a.run(f"nvme discover {words.replace('$me', STRANGER)}; echo status $?")
    it.wants("and does not answer a host that is not listed", "subnqn" not in text)
    text = a.run(f"nvme connect-all {words} --dhchap-secret={SECRETS['a1']}; sleep 2; ls /dev/nvme*n1")
    it.wants("connect-all connects to it", "qid 0: authenticated" in text and "n1" in text.splitlines()[-1])
    a.run("nvme disconnect -n $nqn")


def prove_again(it: Stage, a: Guest) -> None:
    say("on live queues: a reset, a power loss, and a new secret")
    both = f"--dhchap-secret={SECRETS['a1']} --dhchap-ctrl-secret={SECRETS['controller']}"
    it.connect(a, f"{AGAIN} {both}")
    text = a.run(f"nvme reset /dev/nvme0; sleep 3; {LIVELY}; {READ_ONE}")
    it.wants("it is live after a reset", "512 bytes" in text)
    it.ask("powercycle")
    a.rest(5)
    text = a.run(f"{LIVELY}; {READ_ONE}")
    it.wants("it is live after a power loss", "512 bytes" in text)
    secret = "/sys/class/nvme/nvme0/dhchap_secret"
    text = a.run(f"echo -n {SECRETS['new']} >{secret}; sleep 1; echo -n {SECRETS['a1']} >{secret}; sleep 3; {LIVELY}")
    it.write_keys(key_line("a1", SECRETS["new"], SECRETS["controller"]) + key_line("b2", SECRETS["b2"]))
    it.target.process.send_signal(signal.SIGHUP)
    time.sleep(1)
    text = a.run(READ_ONE)
    it.wants("keys that are read again leave it connected", "512 bytes" in text)
    text = a.run(f"echo -n {SECRETS['new']} >{secret}; sleep 5; {LIVELY}; {READ_ONE}")
    it.wants("it proves itself by the new secret", "authenticated" in text and "512 bytes" in text)
    it.write_keys(key_line("b2", SECRETS["b2"]))
    it.target.process.send_signal(signal.SIGHUP)
    a.rest(8)
    text = a.run(f"ls /dev/nvme*; {READ_ONE}")
    it.wants("a host that is listed no more is gone", "512 bytes" not in text)


def proofs(built: Path, folder: Path) -> None:
    """Hosts authenticate: with the right secret, wrong ones and none, in both directions, and again."""
    keys = key_line("a1", SECRETS["a1"], SECRETS["controller"]) + key_line("b2", SECRETS["b2"])
    with stage(built, folder, 16384, "a1", "b2", keys=keys) as it:
        a = it.guest("a1", cpus=2)
        prove(it, a)
        discover(it, a)
        prove_again(it, a)


def each_proof(built: Path, folder: Path) -> None:
    """Linux and the target authenticate each other, with each hash and each group."""
    keys = key_line("a1", SECRETS["a1"], SECRETS["controller"])
    with stage(built, folder, 16384, "a1", keys=keys) as it:
        a = it.guest("a1", cpus=2)
        both = f"--dhchap-secret={SECRETS['a1']} --dhchap-ctrl-secret={SECRETS['controller']}"
        for group in GROUP_NAMES:
            for kind in HASHES.values():
                it.target.close()
                it.target.options = [*it.script(), "--dhchap", f"{kind},{group}", "--image", str(it.target.image)]
                it.target.start(it.port)
                begun = time.monotonic()
                text = a.run(f"nvme connect -t tcp -a {ADDRESS} -s {it.port} -n $nqn $me {both}; sleep 1; {READ_ONE}")
                say(f"{time.monotonic() - begun:.0f} s")
                it.wants(f"{kind} and {group}", f"hash hmac({kind}) dhgroup {group}" in text and "512 bytes" in text)
                a.run("nvme disconnect -n $nqn")


def recorded_proofs(built: Path, folder: Path, path: Path) -> None:
    """Records one host with mutual authentication, one with one-way authentication, and one without."""
    keys = key_line("a1", SECRETS["a1"], SECRETS["controller"]) + key_line("b2", SECRETS["b2"])
    with stage(built, folder, BLOCKS, "a1", "b2", state=True, keys=keys) as it:
        (folder / "state/identity").write_text(IDENTITY)
        it.target.environment = fixed_random(folder)
        it.restart()
        recorder = Recorder(it.target.port)
        it.port = recorder.port
        both = f"--dhchap-secret={SECRETS['a1']} --dhchap-ctrl-secret={SECRETS['controller']}"
        a, b = it.connected("a1", both), it.connected("b2", f"--hdr-digest --dhchap-secret={SECRETS['b2']}")
        a.run(write("written by a1"))
        it.wants("b2 reads it", "written by a1" in b.run(READ))
        for guest in (a, b):
            guest.run("nvme disconnect -n $nqn")
        # The recorder may hand on the ends of connections after the next one.
        time.sleep(2)
        it.connect(a, f"--dhchap-secret={SECRETS['b2']}")
        time.sleep(1)
        recorder.save(path)


PROOFS: Dict[str, Callable[[Path, Path], None]] = {"proofs": proofs, "each-proof": each_proof}
