"""What commands cost on a file: seconds, and memory."""

import os
import socket
import subprocess
import time


def best_of(runs, action):
    """The least of the seconds that an action took."""
    least = None
    for _ in range(runs):
        start = time.perf_counter()
        action()
        seconds = time.perf_counter() - start
        least = seconds if least is None else min(least, seconds)
    return least


def run_on(command, path):
    """Runs a command on a file."""
    with open(path, "rb") as octets, open(os.devnull, "wb") as null:
        subprocess.run(command, stdin=octets, stdout=null, check=True)


def output_of(command, path):
    """What a command prints of a file."""
    with open(path, "rb") as octets:
        return subprocess.run(command, stdin=octets, stdout=subprocess.PIPE, check=True).stdout


def writes_of(command, path):
    """How many writes a run of a command makes on a file: each is a record of a socket."""
    ours, output = socket.socketpair(socket.AF_UNIX, socket.SOCK_SEQPACKET)
    with ours, open(path, "rb") as octets:
        with output:
            run = subprocess.Popen(command, stdin=octets, stdout=output)
        writes = sum(1 for _ in iter(lambda: ours.recv(1 << 20), b""))
        if run.wait() != 0:
            raise subprocess.CalledProcessError(run.returncode, command)
    return writes


def best_run(command, path):
    """The least of the seconds that runs of a command took on a file."""
    return best_of(5, lambda: run_on(command, path))


def best_runs(commands, path, runs=7):
    """The same of some commands, whose runs alternate."""
    commands = list(commands)
    turns = [[best_of(1, lambda: run_on(command, path)) for command in commands] for _ in range(runs)]
    return [min(seconds) for seconds in zip(*turns)]


def peak_octets(command, path):
    """The most memory that a run of a command had on a file, in octets, looked at while its output
    is read."""
    most = 0
    with open(path, "rb") as octets, subprocess.Popen(command, stdin=octets, stdout=subprocess.PIPE) as run:
        while run.stdout.read(1 << 14):
            with open(f"/proc/{run.pid}/status") as status:
                for line in status:
                    if line.startswith("VmHWM:"):
                        most = max(most, int(line.split()[1]) * 1024)
    if run.returncode != 0:
        raise subprocess.CalledProcessError(run.returncode, command)
    return most


def usage_of(command, path):
    """What a run of a command used on a file, whatever it returned."""
    with open(path, "rb") as octets, open(os.devnull, "wb") as null:
        run = subprocess.Popen(command, stdin=octets, stdout=null)
        _, status, usage = os.wait4(run.pid, 0)
        run.returncode = os.waitstatus_to_exitcode(status)
    if run.returncode < 0:
        raise subprocess.CalledProcessError(run.returncode, command)
    return usage


def most_octets(command, path):
    """The most memory that a run of a command had on a file, in octets, whatever it returned. It is not less than what
    this program has when it begins the run."""
    return usage_of(command, path).ru_maxrss * 1024


def processor_seconds(command, path):
    """The least of the seconds that runs of a command had a processor, whatever they returned."""
    usages = [usage_of(command, path) for _ in range(3)]
    return min(usage.ru_utime + usage.ru_stime for usage in usages)


def written(command, path):
    """How many octets a command prints of a file, whatever it returns."""
    with open(path, "rb") as octets, subprocess.Popen(command, stdin=octets, stdout=subprocess.PIPE) as run:
        return sum(map(len, iter(lambda: run.stdout.read(1 << 20), b"")))


def rate(size, seconds):
    return f"{seconds:.3f} s, {size / seconds / 1e6:.1f} MB/s"


def print_costs(commands, path, size):
    """Prints what commands with a name each cost on a file, whose runs alternate."""
    seconds = best_runs(commands.values(), path)
    for (name, command), least in zip(commands.items(), seconds):
        print(f"    {name} {rate(size, least)}, {peak_octets(command, path) / 1e6:.1f} MB of memory")
