"""The medians that cli/bench prints. Each round begins with an empty card, database and FAT image of 4 MiB; the three
programs take turns, and each is a process of its own, as a person would start it."""

import os
import shutil
import statistics
import subprocess
import sys
import tempfile
import time

ROUNDS = 21
LIST = os.urandom(1 << 20)

# Name of the tool, Debian's package, how an empty store is made, how the list is put, how it is got back, and a remark.
SQL_PUT = "INSERT INTO lists VALUES ('list', readfile('list'))"
SQL_GET = "SELECT writefile('back', bytes) FROM lists WHERE name = 'list'"
TOOLS = [
    ("lamporchid", "", ["format", "store", "--blocks", "4096", "--size", "1024"], ["put", "store", "list", "list"],
     ["get", "store", "list", "back"], "checks the card, writes all of it anew, syncs file and folder"),
    ("sqlite3", "sqlite3", ["store", "CREATE TABLE lists (name TEXT PRIMARY KEY, bytes BLOB)"], ["store", SQL_PUT],
     ["store", SQL_GET], "a journal and the database, both synced"),
    ("mcopy", "mtools", ["-C", "-i", "store", "-T", "8192", "::"], ["-i", "store", "list", "::list"],
     ["-i", "store", "::list", "back"], "into a FAT image of 4 MiB, not synced"),
]


def run(words):
    subprocess.run(words, check=True, stdout=subprocess.DEVNULL)


def prepare(program, make, folder):
    """An empty store, kept aside to begin each round with."""
    os.chdir(folder)
    if os.path.basename(program[-1]) == "mcopy":
        program = ["mformat"]
    run(program + make)
    os.rename("store", "empty")
    with open("list", "wb") as file:
        file.write(LIST)


def timed(program, put, folder):
    os.chdir(folder)
    shutil.copyfile("empty", "store")
    os.sync()
    start = time.perf_counter()
    run(program + put)
    return time.perf_counter() - start


def got_back(program, get, folder):
    os.chdir(folder)
    run(program + get)
    with open("back", "rb") as file:
        return file.read() == LIST


def main():
    ours = [shutil.which(sys.argv[1])] * (len(sys.argv) > 2) + [os.path.abspath(sys.argv[-1])]
    here = []
    with tempfile.TemporaryDirectory() as top:
        for name, package, make, put, get, remark in TOOLS:
            program = ours if name == "lamporchid" else [name]
            if name != "lamporchid" and shutil.which(name) is None:
                print(f"{name} is not here and was not timed (Debian's package {package} has it)")
                continue
            folder = os.path.join(top, name)
            os.mkdir(folder)
            prepare(program, make, folder)
            here.append((name, program, put, get, folder, remark, []))
        for _ in range(ROUNDS):
            for _, program, put, _, folder, _, times in here:
                times.append(timed(program, put, folder))
        print(f"1 MiB put on a store of 4 MiB, {ROUNDS} rounds: median (least to most), in milliseconds")
        for name, program, _, get, folder, remark, times in here:
            same = "" if got_back(program, get, folder) else "; THE BYTES DID NOT COME BACK"
            middle, least, most = (1000 * t for t in (statistics.median(times), min(times), max(times)))
            print(f"{name:<12} {middle:8.1f}  ({least:.1f} to {most:.1f})  {remark}{same}")
        os.chdir("/")


main()
