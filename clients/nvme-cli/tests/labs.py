"""Trials of the lab itself: what lasts and what does not, its errors, and that it disturbs no other program."""
import fcntl
import json
import os
import re
import shutil
import sys
from pathlib import Path

from support import CONFIG, HERE, LAB, PACKAGE, Bench, Fault, check_is

# Programs that have nothing to do with devices, and what they say of themselves.
ORDINARY = (
    "ls -ld / /etc /dev/null /dev/zero", "cat /etc/passwd | sort | head -n 3", "find /sys/class/net -maxdepth 1",
    "test -x /bin/sh && test ! -e /dev/nvme-none && echo yes", "readlink /proc/self/cwd",
    "stat -c '%F %a' /dev/full",
    "dd if=/dev/zero bs=512 count=1 2>/dev/null | od", "ls /proc/self/fd | wc -l", "yes | head -n 1",
    "ls -U /etc | wc -l", "cat; exit 3", "kill -TERM $$",
)


# Each CONFIG that is refused, and what is said after its name and a colon.
REFUSED = (
    ("", "1:1: there is no controller; add a line 'controller 1 host 1'"),
    ("controller 1 host 1\nnamespace 1 blocks 0 shared\n", "2:1: namespace 1 has no blocks"),
    ("controller 1 host 1\nnamspace 1\n", "2:1: there is no line 'namspace'; did you mean 'namespace'?"),
    ("controller 1 host a1\n", "1:19: word 4: H, a number below 2^128, not 'a1'; did you mean '0xa1'?"),
    ("controller 1 host 1\nup 1\n", "2:1: up needs a 'start' before it"),
    ("controller 1 host 1\nstart\n\n\tup 1\n", "4:2: this line is an event; a configuration has none"),
    ("controller 1 host 1\nstart\nattached 1 1\n", "3:1: attached must come before 'start'"),
    ("controller 2 host 1\n", "1:1: this must be controller 1, not 2: controllers are numbered from 1"),
    ("controller 1 host 1\nnamespace 1 blocks 18446744073709551615 shared\n",
     "2:1: namespace 1 has 18446744073709551615 blocks; at most 65536 are allowed"),
    ("controller 1 host 1\x0b\n",
     "1:20: the byte \\x0b is neither a visible character nor a space, a tab or a carriage return"),
)

# Uses of a block device, and their results; the last ones are tried if the program is installed.
DISKS = (
    ("yes | head -c 100000 >zero && dd if=zero of=/dev/nvme0n1 bs=4k status=none && "
     "head -c 100000 /dev/nvme0n1 | cmp - zero && echo same", "same\n"),
    ("cat /dev/nvme0n1 >one; cat </dev/nvme0n1 >two; cp /dev/nvme0n1 three; cmp one two && cmp one three && wc -c <one",
     "1048576\n"),
    ("dd if=/dev/nvme0n1 of=four iflag=direct bs=64k status=none && cmp one four && echo same", "same\n"),
    ("dd if=/dev/zero of=/dev/nvme0n2 bs=512 oflag=direct 2>&1 | head -n 3",
     "dd: error writing '/dev/nvme0n2': No space left on device\n65+0 records in\n64+0 records out\n"),
    ("printf hello >/dev/nvme0n2; printf ' you' | dd of=/dev/nvme0n2 bs=1 seek=5 conv=fsync status=none; "
     "dd if=/dev/nvme0n2 bs=1 skip=3 count=6 status=none", "lo you"),
    ("tail -c 2 /dev/nvme0n1 | od -An -tx1", " 00 00\n"),
    ("od -An -tx1 /dev/nvme0n1 2>&1", "od: /dev/nvme0n1: Operation not supported\n"),
)
DISK_TOOLS = (
    ("mkfs.ext4", "mkfs.ext4 -F -q /dev/nvme0n1 2>/dev/null && e2fsck -fn /dev/nvme0n1 >/dev/null 2>&1; echo $?",
     "0\n"),
    ("tar", "tar -c -f /dev/nvme0n1 -C / etc/passwd && tar -t -f /dev/nvme0n1", "etc/passwd\n"),
    ("fio", "fio --name=a --filename=/dev/nvme0n1 --rw=randrw --bs=4k --size=256k --direct=1 --ioengine=psync "
     "--verify=crc32c --fsync=8 | grep -o 'err= *[0-9]*'", "err= 0\n"),
    ("fio", "fio --name=a --filename=/dev/nvme0n1 --rw=write --bs=4k --size=4k --ioengine=libaio 2>&1 | "
     "grep -o 'Bad file descriptor' | head -n 1", "Bad file descriptor\n"),
)


def disks(bench: Bench) -> None:
    """Programs that read and write block devices, which know nothing of NVMe."""
    own = sorted(Path("/dev").glob("nvme*"))
    tools = [(line, wanted) for tool, line, wanted in DISK_TOOLS if shutil.which(tool)]
    for drivers in ([], ["--drivers"]):
        with bench.held(drivers):
            for line, wanted in (*DISKS, *tools):
                done = bench.run(["sh", "-c", line])
                check_is(f"`{line}`, which prints {done.errors!r},", done.output, wanted)
    check_is("what the machine's own /dev has", sorted(Path("/dev").glob("nvme*")), own)


def lasting(bench: Bench) -> None:
    """What is written lasts as long as a shell of the lab, in all its shells, and no longer."""
    tool = f"{bench.client} reservations && {bench.client} attachment"
    inner = " ".join(bench.words(["--host", "0xb2"], [bench.client, "hammer", "/dev/nvme0n1", "3", "1"]))
    done = bench.run(["sh", "-c", f"{tool} && {inner} && {tool} && ls /dev/nvme1"])
    check_is(f"the end of a shell, with {done.errors!r},", (done.status, done.output), (0, "/dev/nvme1\n"))
    bench.wait_over()
    done = bench.run(["sh", "-c", "ls /dev/nvme0 /dev/nvme0n1; ls /dev/nvme1"], ["--host", "0xb2"])
    check_is("a host's devices", done.output, "/dev/nvme0\n/dev/nvme0n1\n")


def shells(bench: Bench) -> None:
    """Without COMMAND a shell is opened, which prints whose it is."""
    bench.others["SHELL"] = "/bin/sh"
    done = bench.run([], ["--host", "0xa1"], given="test -b /dev/nvme0n2 && echo there; exit 5\n")
    del bench.others["SHELL"]
    check_is("a shell", (done.status, done.output), (5, "there\n"))
    check_is("its word", done.errors,
             "lab: a shell of host 0xa1, with /dev/nvme0 /dev/nvme0n1 /dev/nvme0n2; exit leaves it\n")


def images(bench: Bench) -> None:
    """An image keeps the blocks; a script of all that happened runs again, and ends as the lab did."""
    for drivers in ([], ["--drivers"]):
        kept_and_run_again(bench, drivers)
    held = bench.place / "held"
    with open(held, "wb") as file:
        file.truncate((2048 + 64) * 512)
        fcntl.flock(file, fcntl.LOCK_EX)
        said = f"nvmelive: '{held}' is in use: process {os.getpid()} ({Path('/proc/self/comm').read_text().strip()}) "
        expect_fault(bench, ["--image", str(held)], f"{said}holds its lock")
    small = bench.place / "small"
    small.write_bytes(bytes(512))
    expect_fault(bench, ["--image", str(small)], f"{CONFIG}:4:1: namespace 1 ends after the 1 blocks of the medium, "
                 "on which namespaces follow one another")


def outputs(bench: Bench) -> None:
    """A script replaces no file without --force, and never one that the lab reads; two labs don't write one script."""
    config, image, kept, link, hard = (bench.place / it for it in
                                       ("its.nvme", "its.img", "its-kept.nvme", "link", "hard"))
    config.write_text("controller 1 host 1\nnamespace 1 blocks 8 shared\nattached 1 1\n")
    image.write_bytes(b"\1" * 4096)
    kept.write_text("mine\n")
    link.symlink_to(image)
    os.link(config, hard)
    before = {it: it.read_bytes() for it in (config, image, kept)}
    expect_fault(bench, ["--script", str(kept)], f"{kept} exists; --force replaces it", config=config)
    expect_fault(bench, ["--script", str(bench.place), "--force"],
                 f"{bench.place} is no regular file, and is not written", config=config)
    for script in (image, config, link, hard):
        for force in ([], ["--force"]):
            expect_fault(bench, ["--image", str(image), "--script", str(script), *force],
                         f"{script.resolve()} is also read by this lab; nothing was written", config=config)
    with open(image, "rb") as file:
        fcntl.flock(file, fcntl.LOCK_EX)
        for words in (["--script", str(kept), "--force"], ["--script", str(bench.place / "new.nvme")]):
            expect_fault(bench, ["--image", str(image), *words], "is in use: ", whole=False, config=config)
    check_is("what refused labs leave", {it: it.read_bytes() for it in before}, before)
    check_is("whether a lab that fails leaves a script", (bench.place / "new.nvme").exists(), False)
    script = ["--script", str(kept)]
    with bench.held([*script, "--force"], config):
        check_is("one that joins, by the same script", bench.run(["true"], script, config).status, 0)
        expect_fault(bench, [*script, "--force"], f"{kept} is in use: another program has it locked")
    check_is("the first line of a replaced script", kept.read_text().split("\n")[0], "controller 1 host 0x1 raw")


def kept_and_run_again(bench: Bench, drivers: "list[str]") -> None:
    image, again, script = (bench.place / name for name in ("image", "again", "script.nvme"))
    for each in (image, again):
        with open(each, "wb") as file:
            file.truncate((2048 + 64) * 512)
    options = [*drivers, "--image", str(image), "--script", str(script), "--force"]
    done = bench.run([bench.client, "hammer", "/dev/nvme0n1", "0", "3"], options)
    check_is(f"the end of a lab with an image, with {done.errors!r},", done.status, 0)
    bench.wait_over()
    if not any(image.read_bytes()):
        raise Fault("the image is unchanged")
    is_driver = "\nup 1\n" in script.read_text()
    check_is("whether drivers have done it", is_driver, bool(drivers))
    done = bench.run_words([bench.program, str(again), str(script)])
    check_is(f"the end of the script, with {done.errors!r},", done.status, 0)
    check_is("whether the script leaves the same image", again.read_bytes() == image.read_bytes(), True)


def kept_and_explored(bench: Bench) -> None:
    """What two hosts did in a lab runs again to the same answers, and is explored in every other order."""
    image, again, fresh, kept, scene = (bench.place / it for it in
                                        ("image", "again", "fresh", "kept.nvme", "scene.nvme"))
    for each in (image, again, fresh):
        with open(each, "wb") as file:
            file.truncate((2048 + 64) * 512)
    let_two_hosts_write(bench, ["--drivers", "--host", "0xa1", "--image", str(image), "--script", str(kept)])
    done = bench.run_words([bench.program, str(again)], kept.read_text())
    check_is(f"the end of the kept lines, with {done.errors!r},", done.status, 0)
    posted = [it for it in done.output.splitlines() if it.startswith("execute ")]
    check_is("what register, acquire and both writes are answered again", [posted[-n] for n in (7, 6, 5, 1)],
             [*["execute 1 0 posted 0:00 0"] * 3, "execute 2 0 posted 0:83 7"])
    check_is("whether the kept lines leave the same image", again.read_bytes() == image.read_bytes(), True)
    bench.others["PYTHONPATH"] = str(PACKAGE.parent / "python")
    try:
        explore_scene(bench, kept, scene, fresh)
    finally:
        del bench.others["PYTHONPATH"]


def let_two_hosts_write(bench: Bench, options: "list[str]") -> None:
    """One host reserves the namespace and writes; then the other host's write is refused."""
    nvme = HERE / "standin" / "nvme"
    other = f"echo from b2 | '{nvme}' write /dev/nvme0n1 --start-block=7 --data-size=512"
    done = bench.run(["sh", "-c", f"""
        '{nvme}' resv-register /dev/nvme0n1 --rrega=0 --nrkey=0xa
        '{nvme}' resv-acquire /dev/nvme0n1 --racqa=0 --crkey=0xa --rtype=1
        echo from a1 | '{nvme}' write /dev/nvme0n1 --start-block=7 --data-size=512
        '{LAB}' --host 0xb2 '{CONFIG}' -- sh -c "{other}"
        """], options)
    check_is("the messages to the hosts", done.output.splitlines(),
             ["NVME Reservation  success", "NVME Reservation Acquire success", "write: Success"])
    check_is("whether the other host's write is refused", "Reservation Conflict" in done.errors, True)
    bench.wait_over()


def explore_scene(bench: Bench, kept: Path, scene: Path, fresh: Path) -> None:
    """A scene of kept lines has a part for each host, and the other host's write is not refused in every order."""
    nvmesim = [sys.executable, "-m", "nvmesim"]
    done = bench.run_words([*nvmesim, "scene", str(kept), "-o", str(scene)])
    check_is(f"the end of scene, with {done.errors!r},", (done.status, done.output), (0, ""))
    check_is("its parts", re.findall("^#.*$", scene.read_text(), re.M), ["# host ha1", "# host hb2"])
    done = bench.run_words([*nvmesim, "explore", str(scene), "--image", str(fresh), "--json"])
    check_is(f"the end of explore, with {done.errors!r},", done.status, 0)
    found = json.loads(done.output)
    check_is("whether all orders were judged", (found["judged"], found["is_whole"]), (found["orders"], True))
    outcomes = sorted((it["answers"]["hb2.write1"]["status"], it["blocks"]["1:7"]) for it in found["outcomes"])
    check_is("the result of the write", outcomes, [(it, b"from a1\n".hex()) for it in ("0:00", "0:83")])


def undisturbed(bench: Bench) -> None:
    """A command that opens none of the devices ends as it would without a lab."""
    with bench.held():
        for line in ORDINARY:
            without = bench.run_words(["sh", "-c", line], "given\n")
            within = bench.run(["sh", "-c", line], given="given\n")
            check_is(f"`{line}` in a lab", within, without)
        bench.try_client("others")
    check_is("others without a lab", bench.run_words([bench.client, "others"]).status, 0)


def expect_fault(bench: Bench, words: "list[str]", text: str, status: int = 125, whole: bool = True,
                 config: "Path | None" = None) -> None:
    """The lab prints one sentence, and runs nothing."""
    done = bench.run_words([str(bench.lab), *words, str(config or CONFIG), "--", "echo", "ran"])
    is_said = done.errors == f"lab: {text}\n" if whole else text in done.errors and done.errors.count("\n") == 1
    if done.status != status or done.output or not is_said or not done.errors.startswith("lab: "):
        raise Fault(f"lab {' '.join(words)} ended with {done.status} and printed {done.errors!r}{done.output!r}")


def power_cycles(bench: Bench) -> None:
    """A power cycle needs a lab that runs; each is a line of its script, and the devices continue after it."""
    def cycled(*words: str) -> "tuple[int, str]":
        done = bench.run_words([str(bench.lab), "--power-cycle", *words])
        return done.status, done.errors + done.output

    said = f"lab: no lab of {CONFIG} runs, so there is no power to cycle\n"
    check_is("a power cycle without a lab", cycled(str(CONFIG)), (125, said))
    said = "lab: --power-cycle takes CONFIG and nothing else\n"
    for words in ([str(CONFIG), "--", "true"], ["--drivers", str(CONFIG)], ["--host", "0xa1", str(CONFIG)]):
        check_is("a power cycle with more words", cycled(*words), (125, said))
    script = bench.place / "script.nvme"
    for drivers in ([], ["--drivers"]):
        with bench.held([*drivers, "--script", str(script), "--force"]):
            for _ in range(2):
                check_is("a power cycle", cycled(str(CONFIG)), (0, ""))
                bench.try_client("hammer", "/dev/nvme0n1", "0", "2")
        check_is("the power cycles of the script", script.read_text().count("\npowercycle\n"), 2)


def faults(bench: Bench) -> None:
    """What goes wrong in the lab is one sentence."""
    absent = str(bench.place / "absent")
    expect_fault(bench, ["--program", absent], f"{absent} is no program; --program names an nvmelive")
    expect_fault(bench, ["--program", "/bin/true"], "the program has ended", whole=False)
    bench.others["NVMESIM"] = absent
    expect_fault(bench, [], f"there is no program {absent}, which judges CONFIG; the variable NVMESIM names one")
    del bench.others["NVMESIM"]
    parrot = bench.place / "parrot"
    parrot.write_text("#!/bin/sh\nexec cat\n")
    parrot.chmod(0o755)
    expect_fault(bench, ["--program", str(parrot)], "two-hosts.nvme line 1", whole=False)
    expect_fault(bench, ["--image", absent], "", whole=False)
    expect_fault(bench, ["--host", "0xc3"], "no controller belongs to host 0xc3", whole=False)
    expect_fault(bench, ["--host", "c3"], "--host c3 is no number")
    expect_fault(bench, ["--hosts"], "there is no option --hosts; --help lists them")
    expect_fault(bench, [], f"{absent} can't be read: No such file or directory", config=Path(absent))
    config = bench.place / "config.nvme"
    for text, said in REFUSED:
        config.write_text(text)
        expect_fault(bench, [], f"{config}:{said}", config=config)
    bench.wait_over()
    config.write_text("# \u00e9\n\tcontroller  1 host\t010 \r\n\nnamespace 0x1 blocks 0x10 shared\nattached 1 01\n start\n#\n")
    done = bench.run(["cat", "/sys/block/nvme0n1/size"], ["--host", "10", "--drivers"], config=config)
    check_is("numbers of all forms, and a last start", (done.status, done.output, done.errors), (0, "16\n", ""))
    bench.wait_over()
    for words in ([], ["--host"], [str(config), "after"], [str(config), "--"]):
        done = bench.run_words([str(bench.lab), *words])
        check_is(f"lab {' '.join(words)}", (done.status, done.errors.count("\n"), done.output), (125, 1, ""))
    check_is("a command that is not found", bench.run(["absent"]).status, 127)
    check_is("a command that can't be run", bench.run(["/etc/passwd"]).status, 126)
    changed(bench, config)


def changed(bench: Bench, config: Path) -> None:
    """A second lab of a CONFIG that has changed, with another image, or with drivers, does not join the first."""
    config.write_text("controller 1 host 1\nnamespace 1 blocks 8 shared\nattached 1 1\n")
    inner = " ".join(bench.words([], ["true"], config))
    done = bench.run(["sh", "-c", f"{inner} && echo '# more' >>{config} && {inner}"], config=config)
    check_is("a CONFIG that has changed", (done.status, done.errors),
             (125, f"lab: {config} has changed since its lab was started, which still runs\n"))
    inner = " ".join(bench.words(["--image", str(config)], ["true"], config))
    done = bench.run(["sh", "-c", inner], config=config)
    check_is("another image", (done.status, done.errors),
             (125, f"lab: the lab of {config} runs already, without --image {config}\n"))
    inner = " ".join(bench.words(["--drivers"], ["true"], config))
    done = bench.run(["sh", "-c", inner], config=config)
    check_is("drivers in a lab without any", (done.status, done.errors),
             (125, f"lab: the lab of {config} runs already, without --drivers\n"))


def without_compiler(bench: Bench) -> None:
    """A fresh copy compiles its library, or reports that it can't; the next one finds it."""
    place = bench.place / "a copy"
    shutil.copytree(PACKAGE, place, ignore=shutil.ignore_patterns("out", "__pycache__"))
    fresh = Bench(bench.place, bench.program, place / "lab", {"CC": "no-compiler"})
    expect_fault(fresh, [], "there is no C compiler `no-compiler`", whole=False)
    fresh.others["CC"] = "/bin/false"
    expect_fault(fresh, [], "`/bin/false` does not compile the library: no message")
    del fresh.others["CC"]
    fresh.try_client("files")
    fresh.others["CC"] = "no-compiler"
    fresh.try_client("files")
    for library in (bench.place / f"nvme-lab-{os.getuid()}").glob("libnvmelab-*"):
        library.unlink()


def without_python(bench: Bench) -> None:
    """Without Python there is a message."""
    tools = bench.place / "tools"
    tools.mkdir()
    for tool in ("bash", "dirname", "realpath"):
        (tools / tool).symlink_to(shutil.which(tool) or "absent")
    without = Bench(bench.place, bench.program, others={"PATH": str(tools)})
    expect_fault(without, [], "there is no python3: Python 3.9 or later is needed")


TRIALS = (lasting, shells, images, outputs, kept_and_explored, disks, power_cycles, undisturbed, faults,
          without_compiler, without_python)
