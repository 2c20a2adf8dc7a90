"""Linux's own target, nvmet, in the guest: nvme-cli sends the same commands to it and to this target."""
import re
from pathlib import Path
from typing import Callable, Dict, List

from linux.machines import ADDRESS, Guest, say
from linux.scenes import stage

CONFIGFS = "/sys/kernel/config/nvmet"
NAME = "nqn.2024-01.example:nvmet"
# Lines that export a block device in the guest's memory by nvmet, over TCP.
EXPORT = (
    "load nvmet; mount -t configfs none /sys/kernel/config; ls /dev/nullb0",
    f"s={CONFIGFS}/subsystems/{NAME}; p={CONFIGFS}/ports/1; mkdir $s; echo 1 >$s/attr_allow_any_host",
    "mkdir $s/namespaces/1; echo -n /dev/nullb0 >$s/namespaces/1/device_path; echo 1 >$s/namespaces/1/enable",
    "mkdir $p; echo tcp >$p/addr_trtype; echo ipv4 >$p/addr_adrfam; echo 127.0.0.1 >$p/addr_traddr",
    "echo 4420 >$p/addr_trsvcid; ln -s $s $p/subsystems/",
)
# The commands by their names in the table; {c} is the controller, {n} its namespace.
SINGLE = {
    "id-ctrl": "id-ctrl {c}", "nvm-id-ctrl": "nvm-id-ctrl {c}", "id-ns": "id-ns {n}", "nvm-id-ns": "nvm-id-ns {n}",
    "ns-descs": "ns-descs {n}", "list-ns": "list-ns {c}", "list-ns --all": "list-ns {c} --all",
    "list-ctrl": "list-ctrl {c}", "cmdset-ind-id-ns": "cmdset-ind-id-ns {n} -n 1",
    "error-log": "error-log {c} -e 4", "smart-log": "smart-log {c}", "fw-log": "fw-log {c}",
    "changed-ns-list-log": "changed-ns-list-log {c}", "effects-log": "effects-log {c} -c 0", "ana-log": "ana-log {c}",
    "resv-notif-log": "resv-notif-log {c}", "supported-log-pages": "supported-log-pages {c}",
    "resv-register": "resv-register {n} --rrega=0 --nrkey=0xa",
    "resv-acquire": "resv-acquire {n} --racqa=0 --crkey=0xa --rtype=1",
    "resv-report --eds": "resv-report {n} --eds", "resv-report": "resv-report {n}",
    "resv-release": "resv-release {n} --rrela=0 --crkey=0xa --rtype=1",
    "resv-release, clear": "resv-release {n} --rrela=1 --crkey=0xa",
    "dsm": "dsm {n} -n 1 --ad -s 0 -b 8", "write-zeroes": "write-zeroes {n} -s 0 -c 7", "flush": "flush {n} -n 1",
    "compare": "compare {n} -s 0 -c 0 -z 512 -d /room/zeros", "verify": "verify {n} -s 0 -c 0",
    "write-uncor": "write-uncor {n} -s 0 -c 0", "abort": "admin-passthru {c} -o 8 --cdw10=0x10000",
    "keep-alive": "admin-passthru {c} -o 0x18", "create-ns": "create-ns {c} -s 8 -c 8 -f 0",
    "attach-ns": "attach-ns {c} -n 1 -c 1", "format": "admin-passthru {c} -o 0x80 -n 1",
    "an unknown I/O command": "io-passthru {n} -o 0x7e -n 1",
}
PAGES = (0x00, 0x01, 0x02, 0x03, 0x04, 0x05, 0x09, 0x0c, 0x0d, 0x12, 0x16, 0x70, 0x80, 0x81)
# Values of Identify's CNS with namespace and command set.
STRUCTURES = ((0x00, 1, 0), (0x01, 0, 0), (0x02, 0, 0), (0x03, 1, 0), (0x05, 1, 0), (0x06, 0, 0), (0x07, 0, 0),
              (0x08, 1, 0), (0x10, 0, 0), (0x11, 1, 0), (0x12, 1, 0), (0x13, 0, 0), (0x1c, 0, 0))
FEATURES = (*range(0x01, 0x11), 0x16, 0x17, *range(0x80, 0x85))
VALUES = {0x01: 0, 0x02: 0, 0x04: 0x157, 0x05: 0, 0x06: 1, 0x08: 0, 0x0a: 0, 0x0b: 0x100, 0x0f: 30000, 0x80: 0, 0x82: 0,
          0x83: 1, 0x84: 0}
# Features of a namespace, and the words for the data of a feature. EXHID: a HOSTID of 128 bits.
OF_NAMESPACE = (0x05, 0x82, 0x83, 0x84)
DATA = {0x03: "-l 4096", 0x0c: "-l 256", 0x0d: "-l 4096", 0x0e: "-l 8", 0x16: "-l 512", 0x81: "-l 16 --cdw11=1"}


def feature(fid: int) -> str:
    return f"-f {fid}" + (" -n 1" if fid in OF_NAMESPACE else "")


def commands() -> Dict[str, str]:
    """All commands, in the order of the table."""
    found = dict(SINGLE)
    for page in PAGES:
        found[f"Log Page {page:02x}h"] = f"get-log {{c}} -i {page} -l 4096"
        if page in (0x04, 0x05):
            found[f"Log Page {page:02x}h, 512 bytes"] = f"get-log {{c}} -i {page} -l 512"
    for cns, nsid, csi in STRUCTURES:
        found[f"Identify {cns:02x}h"] = f"admin-passthru {{c}} -o 6 -n {nsid} --cdw10={cns} --cdw11={csi << 24} " \
            "-l 4096 -r"
    for fid in FEATURES:
        found[f"Get Features {fid:02x}h"] = f"get-feature {{c}} {feature(fid)} {DATA.get(fid, '')}"
    for select in (1, 2, 3):
        found[f"Get Features 0fh, Select {select}"] = f"get-feature {{c}} -f 15 -s {select}"
    for fid, value in VALUES.items():
        found[f"Set Features {fid:02x}h"] = f"set-feature {{c}} {feature(fid)} -v {value}"
    return found


def status_of(text: str) -> str:
    """The status in the output of nvme-cli, or its first line if there is none."""
    found = re.search(r"status: .*\((?:0x)?([0-9a-f]+)\)", text, re.I)
    if found:
        status = int(found[1], 16)
        return f"{status >> 8 & 7:x}:{status & 0xff:02x}"
    lines = text.split("\n")
    return "0:00" if "rc 0" in lines else (lines[1] if len(lines) > 1 else "?")


def table_of(rows: List[List[str]]) -> str:
    widths = [max(len(row[it]) for row in rows) for it in range(len(rows[0]))]
    return "".join("  ".join(word.ljust(width) for word, width in zip(row, widths)).rstrip() + "\n" for row in rows)


def ask_both(a: Guest) -> List[List[str]]:
    """Sends each command to both. Returns the rows of the table."""
    rows = [["Command", "this target", "nvmet"]]
    for name, words in commands().items():
        row = [name]
        for device in ("/dev/nvme0", "/dev/nvme1"):
            line = words.format(c=device, n=f"{device}n1")
            row.append(status_of(a.run(f"nvme {line} >/room/out 2>&1; r=$?; head -c 1500 /room/out; echo; echo rc $r")))
        rows.append(row)
    return rows


def nvmet(built: Path, folder: Path) -> None:
    """The same commands to this target, and to Linux's own in the guest: the status of each."""
    with stage(built, folder, 2048, "a1") as it:
        a = it.guest("a1", cpus=2)
        a.run(f"nvme connect -t tcp -a {ADDRESS} -s {it.port} -n $nqn $me; sleep 2")
        for line in EXPORT:
            a.run(line)
        text = a.run(f"nvme connect -t tcp -a 127.0.0.1 -s 4420 -n {NAME} $me; sleep 3; ls /dev/nvme*; uname -r")
        it.wants("both are connected", "/dev/nvme0n1" in text and "/dev/nvme1n1" in text)
        a.run("head -c 512 /dev/zero >/room/zeros")
        rows = ask_both(a)
        say("the status of each")
        print(table_of(rows), flush=True)
        (folder / "table.txt").write_text(table_of(rows))
        of = {name: results for name, *results in rows}
        it.wants("both answer what any host asks", all(of[name] == ["0:00"] * 2 for name in (
            "id-ctrl", "id-ns", "ns-descs", "list-ns", "error-log", "smart-log", "fw-log", "ana-log", "dsm", "flush")))
        more = [name for name, results in of.items() if results[1] == "0:00" != results[0]]
        it.wants(f"nvmet executes nothing that this target refuses: {more}", not more)


NVMET: Dict[str, Callable[[Path, Path], None]] = {"nvmet": nvmet}
