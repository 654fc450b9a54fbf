"""What the scripts of this folder share: the tools that a machine has, times and memory, and other tools' formats."""
import os
import shutil
import subprocess
import sys
import time

HERE = os.path.dirname(os.path.realpath(__file__))
BUILT = os.path.join(os.path.dirname(HERE), "crates", "locate_tools", "out", "locate_tools")
PLAIN = {**os.environ, "LC_ALL": "C"}  # bytes are compared, not letters


def found(*names):
    """The first of these programs that is there."""
    for name in names:
        path = name if os.path.isabs(name) else shutil.which(name)
        if path and os.access(path, os.X_OK):
            return os.path.realpath(path)
    return None


def frcode():
    return found("frcode", "/usr/libexec/frcode", "/usr/lib/locate/frcode")


def updatedb_of(tool):
    """The updatedb of mlocate, plocate or findutils. The plain name may be another's, so the version is checked."""
    for name in (f"updatedb.{tool}", f"/usr/sbin/updatedb.{tool}", f"/usr/bin/updatedb.{tool}", "updatedb"):
        path = found(name)
        if path:
            told = subprocess.run([path, "--version"], capture_output=True, env=PLAIN)
            if told.returncode == 0 and tool.encode() in told.stdout:
                return path
    return None


def built(program):
    """The built program, or the end of the script."""
    if not os.access(program, os.X_OK):
        sys.exit(f"{program} is not built: run bin/locate once")
    return os.path.realpath(program)


def timed(words, into=os.devnull, good=(0,), env=PLAIN):
    """The time that passed, and user and system time, in milliseconds."""
    with open(into, "wb") as out:
        start = time.perf_counter()
        child = subprocess.Popen(words, stdin=subprocess.DEVNULL, stdout=out, env=env)
        _, status, used = os.wait4(child.pid, 0)
        passed = time.perf_counter() - start
        child.returncode = os.waitstatus_to_exitcode(status)
    if child.returncode not in good:
        sys.exit(f"status {child.returncode}: {' '.join(words)}")
    return 1000 * passed, 1000 * (used.ru_utime + used.ru_stime)


def peak(words, folder, env=PLAIN):
    """The most memory that a run held, in KB, by /usr/bin/time, which is small itself; None without it."""
    if not found("/usr/bin/time"):
        return None
    with open(f"{folder}/out", "wb") as out:
        subprocess.run(["/usr/bin/time", "-q", "-o", f"{folder}/peak", "-f", "%M", *words], stdout=out, env=env)
    with open(f"{folder}/peak") as told:
        return int(told.read().split()[-1])


def shared(a, b):
    """How many bytes two paths share at the front."""
    low, high = 0, min(len(a), len(b))
    while low < high:
        middle = (low + high + 1) // 2
        if a[:middle] == b[:middle]:
            low = middle
        else:
            high = middle - 1
    return low


def locate02(paths):
    """A LOCATE02 database of these paths, as frcode writes it (locatedb(5))."""
    out, before, count = [b"\0LOCATE02\0"], b"", 0
    for path in paths:
        now = shared(before, path)
        change = now - count
        out.append(change.to_bytes(1, "big", signed=True) if -127 <= change <= 127 else b"\x80" + change.to_bytes(2, "big", signed=True))
        out.append(path[now:] + b"\0")
        before, count = path, now
    return b"".join(out)


def bigram(paths):
    """A bigram database of these paths: the 128 most frequent pairs, and then a piece for each path."""
    counts, rests, before, count = {}, [], b"", 0
    for path in paths:
        now = shared(before, path)
        rest = path[now:]
        rests.append((now - count, rest))
        before, count = path, now
        for i in range(0, len(rest) - 1, 2):
            pair = rest[i : i + 2]
            counts[pair] = counts.get(pair, 0) + 1
    plain = [pair for pair in counts if all(32 <= byte <= 127 for byte in pair)]
    table = sorted(plain, key=lambda pair: (-counts[pair], pair))[:128]
    codes = {pair: bytes([128 + i]) for i, pair in enumerate(table)}
    out = [b"".join(table).ljust(256, b"\0")]
    for change, rest in rests:
        out.append(bytes([change + 14]) if -14 <= change <= 14 else b"\x1e" + (change + 14).to_bytes(4, "little", signed=True))
        for i in range(0, len(rest), 2):
            pair = rest[i : i + 2]
            out.append(codes.get(pair) or b"".join(bytes([byte]) if 32 <= byte <= 127 else bytes([31, byte]) for byte in pair))
    return b"".join(out)


def made(count, seed, folder):
    """Writes a list of paths and databases of three formats. Gives the paths of each, in its order."""
    subprocess.run([f"{HERE}/make_paths", str(count), str(seed), folder], check=True)
    with open(f"{folder}/list", "rb") as listed:
        paths = listed.read().split(b"\n")[:-1]
    ordered = sorted(paths)
    with open(f"{folder}/bigram", "wb") as into:
        into.write(bigram(ordered))
    with open(f"{folder}/locate02", "wb") as into:
        if frcode():
            text = b"".join(path + b"\0" for path in ordered)
            subprocess.run([frcode(), "-0"], input=text, stdout=into, check=True, env=PLAIN)
        else:
            into.write(locate02(ordered))
    return {"mlocate": paths, "locate02": ordered, "bigram": ordered}


def works(name, words):
    """Whether a search runs here at all: one whose libraries are missing is left out."""
    status = subprocess.run(words + ["zzqqzz"], stdin=subprocess.DEVNULL, stdout=subprocess.DEVNULL, env=PLAIN).returncode
    if status not in (0, 1):
        print(f"{name} ends with status {status}, and is left out", file=sys.stderr)
    return status in (0, 1)


def need_others(columns):
    """Ends the script where no other tool is here: times without another's beside them tell nothing."""
    if all(column[0].startswith("this") or column[0].startswith("grep") or column[0] == "find" for column in columns):
        sys.exit("no other tool is here to compare with: see bench/README.md")


def table(rows):
    """Prints rows of cells, the first to the left and the others to the right."""
    widths = [max(len(row[i]) for row in rows if i < len(row)) for i in range(max(map(len, rows)))]
    for row in rows:
        print("  ".join(cell.ljust(widths[0]) if i == 0 else cell.rjust(widths[i]) for i, cell in enumerate(row)).rstrip())
