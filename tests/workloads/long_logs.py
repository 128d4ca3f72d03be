"""Long logs of each kind, and logs of which little is kept."""

import os
import pathlib
import random
import subprocess
from collections.abc import Iterator

from calling import TOOL, check

# So many lines has each.
LINES = 100000
# A log of which little is kept has so many requests, and of two such logs the peaks of memory may differ by so many KiB.
KEPT, MORE = 20, 3 << 10
# A log of threads under a lock has so many requests, of each of which so many bytes may be kept for the order.
LOCKED, OF_EACH = 10_000, 1_000


def long_logs() -> Iterator[tuple[list[str], list[str]]]:
    """Logs of 100,000 lines of each kind, as words and text."""
    dice = random.Random(7)
    lines = []
    for n in range(LINES // 5):
        at = 10**9 + n * 50
        moment = f"{at // 10**6}.{at % 10**6:06}"
        offset = dice.randrange(64) * 4096
        lines += [
            f'{n % 4 + 1} {moment} openat(AT_FDCWD, "/srv/d{n % 50}/f{n % 2000}", O_RDWR|O_CREAT, 0644) = 3 <0.000012>',
            f'{n % 4 + 1} {moment} write(3, "\\1\\0\\0\\0abc"..., 8192) = 8192 <0.000034>',
            f'{n % 4 + 1} {moment} pread64(3, "abc"..., 16384, {offset}) = 16384 <0.0000{dice.randrange(10, 99)}>',
            f"{n % 4 + 1} {moment} fstat(3, {{st_mode=S_IFREG|0644, st_size=8192, ...}}) = 0 <0.000003>",
            f"{n % 4 + 1} {moment} close(3) = 0 <0.000003>",
        ]
    yield ["strace", "-"], lines
    yield ["strace", "-", "--order", "none"], lines
    lines = ["fio version 3 iolog", "1 /srv/a add", "2 /srv/a open"]
    lines += [f"{n * 7} /srv/a {dice.choice(['read', 'write'])} {dice.randrange(5000) * 4096} 8192" for n in range(LINES - 3)]
    yield ["fio", "-"], lines
    lines = []
    for n in range(LINES // 2):
        place = f"R {n % 4096 * 16} + 16"
        lines += [f"  8,0    1 {n * 2 + 1:8} {n // 10000:5}.{n % 10000 * 100000:09}    10  D   {place} [fio]"]
        lines += [f"  8,0    1 {n * 2 + 2:8} {n // 10000:5}.{n % 10000 * 100000 + 77000:09}     0  C   {place} [0]"]
    yield ["blkparse", "-"], lines
    lines = []
    for n in range(LINES):
        kind, offset = dice.choice(["Read", "Write"]), dice.randrange(10**6) * 4096
        lines.append(f"{128166372003061629 + n * 900},src1,{n % 2},{kind},{offset},8192,{dice.randrange(9000)}")
    yield ["msr", "-"], lines


def idle_log(path: pathlib.Path, idle: int) -> None:
    """A log of few requests, each behind so many calls that ask for no data of files."""
    with open(path, "w") as file:
        for n in range(KEPT * (idle + 1)):
            at = 10**9 + n * 50
            moment = f"7 {at // 10**6}.{at % 10**6:06}"
            if n % (idle + 1):
                file.write(f"{moment} mmap(NULL, {n * 4096}, PROT_READ|PROT_WRITE, MAP_PRIVATE|MAP_ANONYMOUS, -1, 0) = {n * 4096:#x} <0.000003>\n")
            else:
                file.write(f'{moment} pwrite64(3</srv/a>, "abc"..., 8192, {n % 64 * 4096}) = 8192 <0.000034>\n')


def ordering_lines(idle: int) -> Iterator[str]:
    """The lines of a log of few requests, each behind so many of calls that order threads, without their times. As long as it lasts a parent waits
    for a child, a thread for being woken, another one for bytes of a pipe, and two for what never comes."""
    waits = [
        ("1", "wait4(-1, ", "[{WIFEXITED(s) && WEXITSTATUS(s) == 0}], 0, NULL) = 7"), ("2", "futex(0x7f0000000000, FUTEX_WAIT_PRIVATE, 0, NULL", ") = 0"),
        ("3", "read(4<pipe:[9]>, ", '"", 4096) = 0'), ("4", "poll([{fd=3, events=POLLIN}], 1, -1", ""), ("5", "fsync(5</srv/b>", ""),
    ]
    calls = [
        ("futex(0x7f0000001000, FUTEX_WAIT_PRIVATE, 2, NULL", ") = 0"), ('write(8<pipe:[1]>, "x"', ", 1) = 1"), ("read(9<pipe:[1]>, ", '"x", 1) = 1'),
        ("fcntl(3</srv/a>, F_SETLKW, {l_type=F_WRLCK, l_whence=SEEK_SET, l_start=0, l_len=0}", ") = 0"),
        ("fcntl(3</srv/a>, F_SETLK, {l_type=F_UNLCK, l_whence=SEEK_SET, l_start=0, l_len=0}", ") = 0"),
    ]
    for who, head, _ in waits:
        yield f"{who} {head} <unfinished ...>"
    # Two threads: what the one begins ends behind the beginning of what the other one asks for.
    for n in range(KEPT * (idle // 4 + 1)):
        head, tail = calls[n % len(calls)]
        if n % (idle // 4 + 1) == 0:
            head, tail = f'pwrite64(3</srv/a>, "abc"..., 8192, {n % 64 * 4096}', ") = 8192"
        one, other = ("7", "8") if n // 10 % 2 else ("8", "7")
        yield f"{one} {head} <unfinished ...>"
        yield f"{other} futex(0x7f0000001000, FUTEX_WAKE_PRIVATE, 1 <unfinished ...>"
        yield f"{one} <... {head.partition('(')[0]} resumed>{tail} <0.000100>"
        yield f"{other} <... futex resumed>) = 1 <0.000100>"
    for who, head, tail in waits:
        if tail:
            yield f"{who} <... {head.partition('(')[0]} resumed>{tail} <9.000000>"


def ordering_log(path: pathlib.Path, idle: int) -> None:
    with open(path, "w") as file:
        for n, line in enumerate(ordering_lines(idle)):
            who, _, text = line.partition(" ")
            file.write(f"{who} {1000 + n // 20000}.{n % 20000 * 50:06} {text}\n")


def locked_log(path: pathlib.Path) -> None:
    """A log of eight threads that write in turn, each under a lock of all."""
    taken, given = (f"fcntl(5</srv/lock>, {call}, {{l_type={kind}, l_whence=SEEK_SET, l_start=0, l_len=0}}) = 0" for call, kind in (
        ("F_SETLKW", "F_WRLCK"), ("F_SETLK", "F_UNLCK")))
    with open(path, "w") as file:
        for n in range(3 * LOCKED):
            turn, at = n // 3, 10**9 + n * 50
            call = (taken, f'pwrite64(4</srv/f{turn % 8}>, ""..., 4096, {turn % 512 * 4096}) = 4096', given)[n % 3]
            file.write(f"{100 + turn % 8} {at // 10**6}.{at % 10**6:06} {call} <0.000034>\n")


def peak(scratch: pathlib.Path, order: str) -> tuple[int, int]:
    """The peak of memory of an import, in KiB, and how many messages it made; 0 where it did not end well."""
    with open(scratch / "idle.csv", "w") as out:
        words: list[str | pathlib.Path] = [TOOL, "strace", scratch / "idle.strace", "--order", order, "--tree", scratch / "idle.toml"]
        process = subprocess.Popen(words, stdin=subprocess.DEVNULL, stdout=out, stderr=subprocess.DEVNULL)
        _, status, used = os.wait4(process.pid, 0)
        process.returncode = os.waitstatus_to_exitcode(status)
    made = len((scratch / "idle.csv").read_text().splitlines()) - 1
    return used.ru_maxrss, 0 if process.returncode else made


def lean(scratch: pathlib.Path) -> None:
    """What is not kept of a log takes no memory: one that is many times as long, with as many requests, has the same peak. Nor do calls that order
    threads, also not those that last as long as the log; and of what a request comes after its lists alone are kept."""
    for log, order, sizes in ((idle_log, "all", (50, 5000)), (idle_log, "none", (50, 5000)), (ordering_log, "all", (1000, 5000))):
        peaks = []
        for idle in sizes:
            log(scratch / "idle.strace", idle)
            most, made = peak(scratch, order)
            check(f"{log.__name__}, --order {order}, {idle} lines to a request: kept", made >= KEPT)
            peaks.append(most)
        check(f"{log.__name__}, --order {order}: memory of a long log", peaks[1] < peaks[0] + MORE, peaks)
    locked_log(scratch / "idle.strace")
    (alone, made), (ordered, also) = peak(scratch, "none"), peak(scratch, "lock")
    check("locked_log: kept", made == also == LOCKED, (made, also))
    check("locked_log: memory of what requests come after", (ordered - alone) * 1024 < OF_EACH * LOCKED, (alone, ordered))
