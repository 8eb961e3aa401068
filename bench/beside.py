"""What the measures share: the programs, and runs of several commands on one input, in turn, with the best time of each."""
import os
import platform
import shutil
import subprocess
import sys
import tempfile
import time

top = os.path.dirname(os.path.dirname(os.path.abspath(__file__)))


def build():
    """Proves and builds what is missing or older than its sources; what is said meanwhile goes to standard error."""
    if subprocess.run([os.path.join(top, "zoribhat"), "compare", "0", "0"], stdout=subprocess.DEVNULL).returncode:
        sys.exit("bench: nothing is measured, since ./zoribhat compare 0 0, which builds both programs and the reference, has failed")


def prove(name):
    """Proves and builds one program, for a measure that needs no reference."""
    if subprocess.run(["rt", "run"], cwd=os.path.join(top, "crates", name), stdin=subprocess.DEVNULL, stdout=sys.stderr).returncode:
        sys.exit("bench: nothing is measured, since rt run has failed in crates/%s" % name)


def compiled(name, libraries, missing):
    """A C program of this folder, with the libraries that it needs; `missing` names the header where it is not there."""
    cc = tool("cc")
    source, program = os.path.join(top, "bench", name + ".c"), os.path.join(top, "target", "bench_" + name)
    os.makedirs(os.path.dirname(program), exist_ok=True)
    headers = [word for library in libraries for word in ("-include", library + ".h")]
    if subprocess.run(cc + headers + ["-E", "-x", "c", os.devnull], stdout=subprocess.DEVNULL, stderr=subprocess.DEVNULL).returncode:
        sys.exit("bench: nothing is measured, since this machine lacks %s" % missing)
    if subprocess.run(cc + ["-O2", source, "-o", program] + ["-l" + library for library in libraries]).returncode:
        sys.exit("bench: nothing is measured, since %s does not compile" % source)
    return [program]


def proved(name):
    return [os.path.join(top, "crates", name, "out", name)]


def reference(name):
    return [os.path.join(top, "target/reference"), name]


def tool(name):
    """A command of the machine."""
    if not shutil.which(name):
        sys.exit("bench: nothing is measured, since this machine has no %s to measure beside" % name)
    return [name]


def machine():
    return "%s, %d cores" % (platform.processor() or platform.machine(), os.cpu_count())


def output(command, stdin=subprocess.DEVNULL):
    run = subprocess.run(command, stdin=stdin, stdout=subprocess.PIPE)
    if run.returncode:
        sys.exit("bench: %s has failed" % " ".join(command))
    return run.stdout


def on_file(command, path):
    with open(path, "rb") as f:
        begin = time.perf_counter()
        text = output(command, f)
        return time.perf_counter() - begin, text


def best(commands, text, runs):
    """The best time in seconds of each command, and its output; the commands take turns, so that other work on the machine hits all of them."""
    times, outputs = [[] for _ in commands], [b""] * len(commands)
    with tempfile.NamedTemporaryFile("wb") as f:
        f.write(text)
        f.flush()
        for _ in range(runs):
            for i, command in enumerate(commands):
                took, outputs[i] = on_file(command, f.name)
                times[i].append(took)
    return [min(t) for t in times], outputs
