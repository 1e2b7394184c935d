"""How long a program takes, for the benches."""
import os
import re
import shutil
import subprocess
import time


def seconds(program, *words):
    """The least of three times, by the wall clock."""
    best = None
    for _ in range(3):
        start = time.perf_counter()
        subprocess.run([program, *map(str, words)], stdout=subprocess.DEVNULL, check=True)
        took = time.perf_counter() - start
        best = took if best is None else min(best, took)
    return best


def put(place, name, make, *words):
    """Writes what `make` gives to a file in the folder `place`, in a process of its own: what a process held before it became
    another program counts as that program's memory."""
    path = os.path.join(place, name)
    maker = os.fork()
    if not maker:
        with open(path, "wb") as f:
            f.write(make(*words))
        os._exit(0)
    os.waitpid(maker, 0)
    return path


def waited(words, text, given=None):
    """What a program used. What it prints goes to the file `text`, and it reads the file `given`, where one is named."""
    files = [(os.POSIX_SPAWN_OPEN, 1, text, os.O_WRONLY | os.O_CREAT | os.O_TRUNC, 0o666)]
    if given:
        files.append((os.POSIX_SPAWN_OPEN, 0, given, os.O_RDONLY, 0))
    child = os.posix_spawn(words[0], words, os.environ, file_actions=files)
    _, status, used = os.wait4(child, 0)
    if status:
        raise SystemExit(" ".join(words) + " failed")
    return used


def timed(words, text=os.devnull):
    """The seconds that a program takes, and the MiB that it holds at most. What it prints goes to the file `text`."""
    start = time.perf_counter()
    used = waited(words, text)
    return time.perf_counter() - start, used.ru_maxrss / 1024


def spent(words, text=os.devnull, given=None):
    """The same, but the seconds of a processor. It reads the file `given`, where one is named."""
    used = waited(words, text, given)
    return used.ru_utime + used.ru_stime, used.ru_maxrss / 1024


def instructions(program, place, *words, given=os.devnull):
    """What callgrind collects of a program that reads the file `given`; its log is left in the folder `place`."""
    log = os.path.join(place, "log")
    with open(given, "rb") as text:
        subprocess.run(["valgrind", "--tool=callgrind", "--callgrind-out-file=" + os.devnull, "--log-file=" + log,
                        program, *map(str, words)], stdin=text, stdout=subprocess.DEVNULL, check=True)
    with open(log) as f:
        return int(re.search(r"Collected : (\d+)", f.read()).group(1))


def joined(logs, clients, text):
    """Writes the logs of a folder to a text as they are printed."""
    with open(text, "wb") as out:
        for client in clients:
            out.write(b"client %d\n" % client)
            with open(os.path.join(logs, "%d.log" % client), "rb") as log:
                shutil.copyfileobj(log, out)
