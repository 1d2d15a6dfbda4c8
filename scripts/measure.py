#!/usr/bin/env python3
"""Runs a command three times, discards its output, and prints its processor time (the least of the three) and its peak resident memory.

usage: scripts/measure.py NAME [--bytes N] [--per N WORD] -- COMMAND ..

Both figures cover only the command's own process, from its first instruction to its end. They are its clock, and VmHWM at its end, where
ptrace stops it. (ru_maxrss of an ended child includes the memory of the measuring program.) With --bytes it also prints the rate for N
bytes, and with --per the time for each of N things. Figures that a page shows go into docs/measured by hand, with commit, kit, machine,
date and load; scripts/speed-chart.py makes the tables.
"""
import ctypes
import os
import signal
import sys
import time

LIBC = ctypes.CDLL(None, use_errno=True)
TRACEME, CONT, SETOPTIONS, TRACE_EXIT, EVENT_EXIT = 0, 7, 0x4200, 0x40, 6
TRIALS = 3


def ptrace(request, pid, number):
    """Makes one call of ptrace."""
    if LIBC.ptrace(request, pid, None, ctypes.c_void_p(number)) == -1:
        raise OSError(ctypes.get_errno(), "ptrace")


def used(pid):
    """Returns the processor time of a process so far."""
    clock = ctypes.c_int()
    if LIBC.clock_getcpuclockid(pid, ctypes.byref(clock)):
        raise OSError("no clock")
    return time.clock_gettime(clock.value)


def peak_of(pid):
    """Returns the greatest resident memory of a process so far, in KiB."""
    with open(f"/proc/{pid}/status") as status:
        return next(int(line.split()[1]) for line in status if line.startswith("VmHWM:"))


def begun(command):
    """Starts a command and returns its process, stopped at its first instruction."""
    pid = os.fork()
    if pid == 0:
        null = os.open(os.devnull, os.O_RDWR)
        for file in range(3):
            os.dup2(null, file)
        try:
            ptrace(TRACEME, 0, 0)
            os.execvp(command[0], command)
        finally:
            os._exit(127)
    _, status = os.waitpid(pid, 0)
    if not os.WIFSTOPPED(status):
        sys.exit(f"{command[0]} can't be run and traced")
    ptrace(SETOPTIONS, pid, TRACE_EXIT)
    return pid


def measured(command):
    """Runs a command and returns its processor time, its peak and its status."""
    pid = begun(command)
    first, took, peak, passed = used(pid), None, None, 0
    while True:
        ptrace(CONT, pid, passed)
        _, status = os.waitpid(pid, 0)
        if not os.WIFSTOPPED(status):
            return took, peak, os.waitstatus_to_exitcode(status)
        passed = os.WSTOPSIG(status)
        if status >> 8 == signal.SIGTRAP | EVENT_EXIT << 8:
            took, peak, passed = used(pid) - first, peak_of(pid), 0


def main(name, *words):
    split = words.index("--")
    options, command = list(words[:split]), list(words[split + 1:])
    runs = [measured(command) for _ in range(TRIALS)]
    took, peak = min(run[0] for run in runs), max(run[1] for run in runs)
    said = [f"{took * 1000:.1f} ms of processor time"]
    while options:
        option = options.pop(0)
        count = int(options.pop(0))
        if option == "--bytes":
            said.append(f"{count / took / 1048576:.0f} MiB/s")
        elif option == "--per":
            said.append(f"{took / count * 1e6:.2f} us a {options.pop(0)}")
        else:
            sys.exit(__doc__)
    statuses = sorted({run[2] for run in runs})
    print(f"{name}: {', '.join(said)}, peak {peak} KiB, status {' '.join(map(str, statuses))}", flush=True)


if len(sys.argv) < 4 or "--" not in sys.argv:
    sys.exit(__doc__)
main(*sys.argv[1:])
