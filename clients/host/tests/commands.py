"""Commands of nvmehost over a controller in memory, and what they print."""

ADDRESS = "0000:00:04.0"
# Words for a device that is absent: the words, the status, and what is said.
ABSENT = "ffff:ff:1f.7"
BAD_WORDS = (
    ([], 2, "usage: "), ([ABSENT, "read"], 2, "usage: "), ([ABSENT, "dance"], 2, "usage: "),
    (["--json"], 2, "usage: "), (["--json", ABSENT, "read"], 2, "usage: "),
    ([ABSENT, "bench", "read", "1", "8", "4"], 2, "usage: "),
    ([ABSENT, "bench", "erase", "1", "8", "4", "1"], 2, "usage: "),
    ([ABSENT, "bench", "read", "1", "0", "4", "1"], 2, "usage: "),
    ([ABSENT, "bench", "read", "1", "257", "4", "1"], 2, "usage: "),
    ([ABSENT, "bench", "read", "1", "8", "25", "1"], 2, "usage: "),
    ([ABSENT, "bench", "read", "1", "8", "4", "0"], 2, "usage: "),
    (["--timeout", ABSENT, "identify"], 2, "usage: "), (["--timeout", "0", ABSENT, "events"], 2, "usage: "),
    ([ABSENT, "events", "1"], 2, "usage: "), ([ABSENT, "resv-report"], 2, "usage: "),
    ([ABSENT, "events", "--enable", "0x100000000"], 2, "usage: "),
    ([ABSENT, "resv-report", "1", "--crkey", "1"], 2, "usage: "),
    ([ABSENT, "resv-report", "1", "--host-identifier", "12"], 2,
     "nvmehost: resv-report needs --host-identifier with 32 hexadecimal digits\n"),
    ([ABSENT, "resv-release", "1", "--rrela", "8"], 2, "usage: "),
    ([ABSENT, "resv-register", "1", "--nrkey", "1"], 2,
     "nvmehost: resv-register needs --host-identifier with 32 hexadecimal digits\n"),
    (["nonsense", "identify"], 2, "is no PCI address"),
    ([ABSENT, "identify"], 1, f"nvmehost: {ABSENT}: there is no such PCI device; lspci -D lists them\n"),
    (["--help"], 0, "usage: "),
)
# Commands over a controller in memory, one after the other: the words, the length of the input, the status, and the
# output or the object that it has as JSON, of the bytes that were written.
BLOCK_COMMANDS = (
    ([ADDRESS, "write", "1", "10"], 1024, 0, b""),
    ([ADDRESS, "read", "1", "10", "2"], 0, 0, lambda blocks: blocks),
    (["--json", ADDRESS, "read", "1", "11", "1"], 0, 0,
     lambda blocks: {"command": "read", "nsid": 1, "block": 11, "count": 1, "data": blocks[512:].hex()}),
    ([ADDRESS, "compare", "1", "10"], 1024, 0, b""), ([ADDRESS, "compare", "1", "12"], 512, 3, b""),
    (["--json", ADDRESS, "compare", "1", "10"], 512, 0,
     {"command": "compare", "nsid": 1, "block": 10, "count": 1, "equal": True}),
    (["--json", ADDRESS, "compare", "1", "12"], 512, 3,
     {"command": "compare", "nsid": 1, "block": 12, "count": 1, "equal": False}),
    (["--json", ADDRESS, "write", "1", "12"], 512, 0, {"command": "write", "nsid": 1, "block": 12, "count": 1}),
    (["--json", ADDRESS, "zeroes", "1", "10", "2"], 0, 0, {"command": "zeroes", "nsid": 1, "block": 10, "count": 2}),
    ([ADDRESS, "read", "1", "11", "1"], 0, 0, bytes(512)), (["--json", ADDRESS, "flush", "1"], 0, 0,
                                                            {"command": "flush", "nsid": 1}),
    ([ADDRESS, "read", "2", "0", "1"], 0, 1, b""), ([ADDRESS, "read", "1", "2048", "1"], 0, 1, b""),
    ([ADDRESS, "write", "1", "0"], 100, 1, b""),
    ([ADDRESS, "identify"], 0, 0, b"model \nserial TEST\nfirmware \ncntlid 0\nnn 1\nmdts 5\noncs 0029\nvwc 0\n"
                                  b"namespace 1: 2048 blocks of 512 bytes\n"),
    (["--json", ADDRESS, "identify"], 0, 0,
     {"model": "", "serial": "TEST", "firmware": "", "cntlid": 0, "nn": 1, "mdts": 5, "oncs": "0029", "vwc": 0,
      "namespaces": [{"nsid": 1, "blocks": 2048, "block_size": 512}]}),
)
HOST, OTHER_HOST = "00112233445566778899aabbccddeeff", "ffeeddccbbaa99887766554433221100"
KNOWN = ["--host-identifier", HOST]
REGISTRANT = {"cntlid": 0, "holder": True, "host_identifier": HOST, "key": "0x00000000000000ab"}
# Commands with options, one after the other: variables of the environment and the words, the status, the output or the
# object that it has as JSON, and what is on standard error.
OPTION_COMMANDS = (
    ([ADDRESS, "resv-report", "1"], 0, "generation 0\ntype 0: none\nptpls 0\n"),
    ([ADDRESS, "resv-register", "1", *KNOWN, "--nrkey", "0xab", "--cptpl=3"], 0, ""),
    ([ADDRESS, "resv-register", "1", *KNOWN, "--nrkey", "0xac"], 1, "",
     f"nvmehost: {ADDRESS}: Reservation Register: the controller answered status 0:83\n"),
    (["--json", ADDRESS, "resv-acquire", "1", *KNOWN, "--crkey", "0xab", "--rtype", "5"], 0,
     {"command": "resv-acquire", "nsid": 1}),
    ([ADDRESS, "resv-report", *KNOWN, "1"], 0,
     f"generation 1\ntype 5: Write Exclusive - All Registrants\nptpls 1\n"
     f"registrant: controller 0, holder, host {HOST}, key 0x00000000000000ab\n"),
    (["--json", ADDRESS, "resv-report", "1"], 0,
     {"command": "resv-report", "nsid": 1, "generation": 1, "type": 5, "ptpls": 1, "registrants": [REGISTRANT]}),
    ([ADDRESS, "resv-release", "1", *KNOWN, "--crkey", "0xab", "--rtype", "5"], 0, ""),
    ([ADDRESS, "resv-register", "1", "--host-identifier", HOST.upper(), "--rrega", "2", "--iekey", "--nrkey", "7"], 0, ""),
    ([ADDRESS, "resv-acquire", "1", "--host-identifier", OTHER_HOST, "--crkey", "7", "--rtype", "1"], 1, "",
     f"nvmehost: {ADDRESS}: Reservation Acquire: the controller answered status 0:83\n"),
    ([ADDRESS, "resv-report", "1"], 0,
     f"generation 2\ntype 0: none\nptpls 1\n"
     f"registrant: controller 0, no holder, host {HOST}, key 0x0000000000000007\n"),
    (["--json", ADDRESS, "resv-release", "1", *KNOWN, "--rrela", "1", "--crkey", "7"], 0,
     {"command": "resv-release", "nsid": 1}),
    (["--json", ADDRESS, "resv-report", "1"], 0,
     {"command": "resv-report", "nsid": 1, "generation": 3, "type": 0, "ptpls": 1, "registrants": []}),
    ([ADDRESS, "resv-report", "2"], 1, "",
     f"nvmehost: {ADDRESS}: Reservation Report: there is no such namespace, or it is not attached (NSZE)\n"),
    (["EVENT=0x800006", ADDRESS, "events", *KNOWN], 0,
     "reservation: type 6, info 00, log page 80\nreservation preempted, namespace 1\n"),
    (["EVENT=0x800006", "--json", ADDRESS, "events"], 0,
     {"command": "events", "kind": "reservation", "type": 6, "info": 0, "log_page": 128,
      "notification": "reservation preempted", "nsid": 1}),
    (["EVENT=0x020101", "--json", ADDRESS, "events"], 0,
     {"command": "events", "kind": "health", "type": 1, "info": 1, "log_page": 2, "critical_warning": 2}),
    (["EVENT=0x020101", ADDRESS, "events"], 0, "health: type 1, info 01, log page 02\ncritical warning 02\n"),
    (["EVENT=0x040002", ADDRESS, "events"], 0, "namespaces: type 2, info 00, log page 04\nchanged: 4\n"),
    (["EVENT=0x040002", "--json", ADDRESS, "events"], 0,
     {"command": "events", "kind": "namespaces", "type": 2, "info": 0, "log_page": 4, "changed": [4]}),
    (["CONFIGURED=1", "EVENT=0x040002", ADDRESS, "events", "--enable", "0x100"], 0,
     "namespaces: type 2, info 00, log page 04\nchanged: 4\n"),
    (["CONFIGURED=1", "EVENT=0x020101", ADDRESS, "events", *KNOWN, "--enable", "2"], 0,
     "health: type 1, info 01, log page 02\ncritical warning 02\n"),
    (["EVENT=0x050002", ADDRESS, "events"], 1, "",
     f"nvmehost: {ADDRESS}: Get Log Page 05 for the event namespaces: the controller answered status 1:09\n"
     "the log page of an event was not read\n"),
)
# Requests whose time is over, and how they ended; and a device that is gone, or to be removed.
LATE = f"nvmehost: {ADDRESS}: Read: timed out after 1 s\nnvmehost: {ADDRESS}: Read: "
READ = ["--timeout", "1", ADDRESS, "read", "1", "0", "1"]
OUTCOMES = (
    (["--timeout", "1", ADDRESS, "events"], 1, "",
     f"nvmehost: {ADDRESS}: Asynchronous Event Request: timed out after 1 s\n"
     f"nvmehost: {ADDRESS}: Asynchronous Event Request: aborted by the controller\n"),
    (["CONFIGURED=1", "EVENT=0x040002", "--timeout", "1", ADDRESS, "events", "--enable", "0xff"], 1, "",
     f"nvmehost: {ADDRESS}: Asynchronous Event Request: timed out after 1 s\n"
     f"nvmehost: {ADDRESS}: Asynchronous Event Request: aborted by the controller\n"),
    (["HOLD=2", *READ], 1, "", f"{LATE}aborted by the controller\n"),
    (["HOLD=2", "HOLD_LATE=1", *READ], 1, "", f"{LATE}answered late: status 0:00\n"),
    (["HOLD=2", "HOLD_FOREVER=1", *READ], 1, "", f"{LATE}aborted by the reset: it may have been executed\n"),
    (["HOLD=2", "--timeout", "1", ADDRESS, "bench", "read", "1", "8", "4", "1"], 1, "",
     f"{LATE}aborted by the controller\n"),
    (["RECALLED=1", ADDRESS, "events"], 1, "", f"nvmehost: {ADDRESS}: Linux wants to remove the device\n"),
    (["RECALLED=1", "HOLD=2", ADDRESS, "bench", "read", "1", "8", "4", "9"], 1, "",
     f"nvmehost: {ADDRESS}: Linux wants to remove the device\n"),
    (["LOST=1", ADDRESS, "identify"], 1, "",
     f"nvmehost: {ADDRESS}: its registers are gone: it was removed, or is without power\n"),
)


def done(command, status="0:00", **more):
    """What a session prints for a command that the controller answered."""
    return {"command": command, "status": status, "dw0": 0, **more}


def refused(reason):
    """What a session prints for a line of which nothing was sent."""
    return {"refused": reason}


def expected(words):
    """The reason of a line with other words than these."""
    return refused(f"wrong words; expected: {words}")


def report(*words):
    """A Reservation Report of these double words, and zeros to a multiple of 64 bytes."""
    data = "".join(words)
    return done("resv-report", data=data.ljust(-(-len(data) // 128) * 128, "0"))


BLOCK, OTHER_BLOCK, ZEROS = "5a" * 512, "5b" * 512, "00" * 512
BLOCKS = refused("DATA must be 1 to 256 whole blocks of 512 bytes in hexadecimal")
REGISTER = expected("resv-register NSID [--rrega N] [--crkey N] [--nrkey N] [--iekey] [--cptpl N]")
NO_NAMESPACE = refused("there is no such namespace, or it is not attached (NSZE)")
UNCHANGED = ("read 1 20 3", done("read", data=BLOCK + OTHER_BLOCK + ZEROS))
# Lines of one session over a new controller in memory, and what it prints for each.
SESSION = (
    ("zeroes 1 20 4", done("zeroes")), (f"write 1 20 {BLOCK}{OTHER_BLOCK}", done("write")), UNCHANGED,
    (f"compare 1 20 {BLOCK.upper()}", done("compare")), (f"compare 1 21 {BLOCK}", done("compare", "2:85")),
    ("flush  1 ", done("flush")),
    # None of these is sent.
    ("", refused("the line is empty")), (" ", refused("the line is empty")), ("dance", refused("no command has this name")),
    ("bench read 1 8 4 1", refused("no command has this name")), ("read 1 20", expected("read NSID BLOCK COUNT")),
    (f"write -1 20 {ZEROS}", expected("write NSID BLOCK DATA")), (f"write 1 20 {ZEROS} 1", expected("write NSID BLOCK DATA")),
    (f"write 1 20 {ZEROS[2:]}", BLOCKS), (f"write 1 20 {ZEROS[2:]}0g", BLOCKS), (f"compare 1 20 {ZEROS[2:]}g0", BLOCKS),
    (f"write 1 20 {ZEROS * 257}", refused("the line is too long")), ("zeroes 1 20 1\0", refused("the line has a NUL byte")),
    ("zeroes 1 20 0x1z", expected("zeroes NSID BLOCK COUNT")), ("zeroes 1 20 65537", expected("zeroes NSID BLOCK COUNT")),
    ("zeroes 1 2047 2", refused("blocks after the last one of the namespace (NSZE)")), ("zeroes 2 20 1", NO_NAMESPACE),
    ("zeroes 0 20 1", refused("there is no namespace 0")), ("flush 4294967296", expected("flush NSID")),
    ("zeroes 65 20 1", refused("namespaces above 64 are not supported")),
    ("read 1 20 0", refused("no command can express the request")), ("zeroes 1 20 1 1", expected("zeroes NSID BLOCK COUNT")),
    (" ".join("z" * 17), refused("the line has too many words")), (f"write 1 20 {ZEROS} {'1 ' * 20}", refused(
        "the line has too many words")),
    ("resv-register 1 --nrkey 7", refused("the controller does not have the identifier of this host")),
    ("host-identifier", expected("host-identifier HOST")), (f"host-identifier {HOST} 1", expected("host-identifier HOST")),
    (f"host-identifier {HOST}0", refused("HOST must have 32 hexadecimal digits")), UNCHANGED,
    # Reservations.
    ("resv-report 1 16", report("00" * 64)), (f"host-identifier {HOST.upper()}", done("host-identifier")),
    ("resv-register 1 --nrkey 7 --cptpl 1", done("resv-register", "0:02")),
    ("resv-register 1 --nrkey 7", done("resv-register")), ("resv-register 1 --nrkey 8", done("resv-register", "0:83")),
    ("resv-register 1 --rrega 2 --crkey 7 --nrkey", REGISTER), ("resv-register 1 --rrega 2 --crkey 7 --nrkey 8 2", REGISTER),
    (f"resv-register 1 --rrega 2 --crkey 7 --nrkey 8 --host-identifier {HOST}", REGISTER),
    ("resv-register 1 --host-identifier 1 --rrega 2 --crkey 7 --nrkey 8", REGISTER),
    ("resv-register 2 --nrkey 7", NO_NAMESPACE), ("resv-acquire 1 --crkey 7 --rtype=1", done("resv-acquire")),
    ("resv-release 1 --crkey 7 --rtype 2", done("resv-release", "0:02")),
    ("resv-report 1 32", report("01000000", "01010000", "00" * 56, "00000100", "00000000", "07000000", "00000000", HOST)),
    ("resv-report 1 0", refused("no command can express the request")), ("resv-report 2 16", NO_NAMESPACE),
    ("resv-release 1 --rrela 1 --crkey 7", done("resv-release")),
    ("resv-report 1", expected("resv-report NSID DWORDS")), ("resv-report 1 16", report("02000000")),
)
# How a session ends: variables of the environment and the words, the input, the status, what is printed, and what is on
# standard error.
SESSION_ENDS = (
    ([ADDRESS, "session"], "", 0, "", ""), ([ADDRESS, "session", "1"], "flush 1\n", 2, "", None),
    ([ADDRESS, "session"], "flush 1\nflush 1", 0,
     '{"command":"flush","status":"0:00","dw0":0}\n{"refused":"the last line has no end"}\n', ""),
    (["HOLD=2", "--timeout", "1", ADDRESS, "session"], "flush 1\nread 1 0 1\nflush 1\n", 1,
     '{"command":"flush","status":"0:00","dw0":0}\n', f"{LATE}aborted by the controller\n"),
    (["LOST=1", ADDRESS, "session"], "flush 1\n", 1, "",
     f"nvmehost: {ADDRESS}: its registers are gone: it was removed, or is without power\n"),
)
