"""The number of instructions that a built program executes on an input, counted exactly."""
import platform
import re
import shutil
import subprocess
import tempfile


def emulator():
    """The emulator where the machine is no x86-64; None where there is none."""
    return None if platform.machine() == "x86_64" else shutil.which("qemu-x86_64")


def way():
    """How a run is counted on this machine."""
    return "qemu-x86_64, a Trace line for each instruction" if emulator() else "valgrind's callgrind"


def by_emulator(program, given):
    """The Trace lines of a run with one instruction to a block."""
    command = [emulator(), "-one-insn-per-tb", "-d", "nochain,exec", program]
    with tempfile.TemporaryFile() as source:
        source.write(given)
        source.seek(0)
        run = subprocess.Popen(command, stdin=source, stdout=subprocess.DEVNULL, stderr=subprocess.PIPE)
        total = sum(1 for row in run.stderr if row.startswith(b"Trace"))
    if run.wait() != 0:
        raise SystemExit("the program failed")
    return total


def by_valgrind(program, given):
    """The instructions that callgrind reports of a run."""
    if not shutil.which("valgrind"):
        raise SystemExit("counting needs qemu-x86_64 or valgrind")
    command = ["valgrind", "--tool=callgrind", "--callgrind-out-file=/dev/null", program]
    run = subprocess.run(command, input=given, stdout=subprocess.DEVNULL, stderr=subprocess.PIPE, check=True)
    return int(re.search(rb"Collected : (\d+)", run.stderr).group(1))


def count(program, given):
    """The instructions of one run on this input."""
    return by_emulator(program, given) if emulator() else by_valgrind(program, given)


def called(program, arguments, caller):
    """The instructions of all that one function of the program calls in a run, by callgrind: from the first of each function called to its return."""
    with tempfile.NamedTemporaryFile() as profile:
        command = ["valgrind", "--tool=callgrind", f"--callgrind-out-file={profile.name}", program, *arguments]
        subprocess.run(command, stdout=subprocess.DEVNULL, stderr=subprocess.DEVNULL, check=True)
        rows = profile.read().decode().splitlines()
    names, inside, total = {}, False, 0
    for row, after in zip(rows, rows[1:]):
        name = re.match(r"(c?)fn=\((\d+)\)(?: (.*))?", row)
        if name and name[3]:
            names[name[2]] = name[3]
        if name and not name[1]:
            inside = caller in names[name[2]]
        if inside and row.startswith("calls="):
            total += int(after.split()[1])
    return total
