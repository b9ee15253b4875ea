"""Runs the script program, the directory program and the load program, where `rt ci`, `rt all test` and `rt run` build them, or those that
the environment names as SCRIPT_PROGRAM, DIRECTORY_PROGRAM and WORKLOAD_PROGRAM."""
import os
import resource
import subprocess

CRATES = os.path.join(os.path.dirname(os.path.abspath(__file__)), "..", "..", "crates")


def built(name):
    """Where the program of a crate stands once it is built."""
    return os.path.join(CRATES, name, "out", name)


PROGRAM = os.environ.get("SCRIPT_PROGRAM", built("script_main"))
DIRECTORY = os.environ.get("DIRECTORY_PROGRAM", built("directory_main"))
WORKLOAD = os.environ.get("WORKLOAD_PROGRAM", built("workload_main"))


def run(data, stack=None, program=PROGRAM):
    """The ended run of the program on these bytes. `stack` is the most bytes of stack that it gets; the environment would lie on that
    stack too, so then there is none."""
    def limit():
        resource.setrlimit(resource.RLIMIT_CORE, (0, 0))
        resource.setrlimit(resource.RLIMIT_STACK, (stack, stack))
    limited = {} if stack is None else {"preexec_fn": limit, "env": {}}
    return subprocess.run([program], input=data, stdout=subprocess.PIPE, stderr=subprocess.PIPE, timeout=120, **limited)


def output(data, program=PROGRAM):
    """What the program writes to standard output on these bytes; it must end well and write nothing to standard error."""
    done = run(data, program=program)
    if done.returncode != 0 or done.stderr:
        raise SystemExit(f"the program ended with status {done.returncode} and wrote to standard error: {done.stderr[:200]}")
    return done.stdout


def lines(data, program=PROGRAM):
    """The lines as (entry, number, value), and after that the members that a list of the directory writes."""
    return [tuple(int(word) for word in line.split(b" ")) for line in output(data, program).split(b"\n")[:-1]]
