"""Runs a program by ptrace, so that a test has a say in each of its reads of standard input and writes of standard output.

A plan is a function of `read` or `write`, the bytes that the call asks to move and those that such calls have moved before. It answers
None where the call is let through, a number of bytes where it may move no more than those, and less than 0 where it isn't made and fails
with that error.
"""
import ctypes
import os
import signal
import subprocess
import tempfile

LIBC = ctypes.CDLL(None, use_errno=True)
LIBC.ptrace.argtypes, LIBC.ptrace.restype = [ctypes.c_long, ctypes.c_long, ctypes.c_void_p, ctypes.c_void_p], ctypes.c_long
TRACEME, GETREGS, SETREGS, SYSCALL, SETOPTIONS = 0, 12, 13, 24, 0x4200
TRACESYSGOOD, EXITKILL = 1, 1 << 20
AT_CALL = signal.SIGTRAP | 0x80  # what stops the program where a system call begins or ends, by TRACESYSGOOD
NAMES = {(0, 0): "read", (1, 1): "write"}  # by the number of the system call and the descriptor
WORD = 1 << 64
MOST = 100000  # reads and writes; a program that makes more goes on without end


class Registers(ctypes.Structure):
    _fields_ = [(name, ctypes.c_ulonglong) for name in
                "r15 r14 r13 r12 rbp rbx r11 r10 r9 r8 rax rcx rdx rsi rdi orig_rax rip cs eflags rsp ss fs_base gs_base ds es fs gs".split()]


def ptrace(request, pid, data=None):
    if LIBC.ptrace(request, pid, None, data) < 0:
        raise OSError(ctypes.get_errno(), f"ptrace {request}: {os.strerror(ctypes.get_errno())}")


def is_allowed():
    """Whether this machine lets a program be traced."""
    pid = os.fork()
    if pid == 0:
        os._exit(LIBC.ptrace(TRACEME, 0, None, None) < 0)
    return os.waitpid(pid, 0)[1] == 0


class Traced:
    """A started program. `calls` has its reads and writes with what each answered."""

    def __init__(self, pid, plan):
        self.pid, self.plan = pid, plan
        self.calls, self.moved = [], {"read": 0, "write": 0}
        os.waitpid(pid, 0)  # it stops where it has become the program
        ptrace(SETOPTIONS, pid, TRACESYSGOOD | EXITKILL)

    def registers(self):
        registers = Registers()
        ptrace(GETREGS, self.pid, ctypes.byref(registers))
        return registers

    def to_next_stop(self):
        """Lets the program run to where its next system call begins or ends. How it ended, where it has, else None."""
        ptrace(SYSCALL, self.pid)
        status = os.waitpid(self.pid, 0)[1]
        if not os.WIFSTOPPED(status):
            return os.waitstatus_to_exitcode(status)
        if os.WSTOPSIG(status) != AT_CALL:
            raise SystemExit(f"the program got signal {os.WSTOPSIG(status)}")
        return None

    def planned(self, registers, name):
        """Takes the program over a call that begins with these registers, as the plan says."""
        if len(self.calls) == MOST:
            raise SystemExit(f"the program makes more than {MOST} reads and writes")
        number, asked = registers.orig_rax, registers.rdx
        told = self.plan(name, asked, self.moved[name])
        if told is not None:
            registers.orig_rax, registers.rdx = (WORD - 1, asked) if told < 0 else (number, min(told, asked))
            ptrace(SETREGS, self.pid, ctypes.byref(registers))
        self.to_next_stop()
        registers = self.registers()
        if told is not None:
            registers.rax, registers.rdx = told % WORD if told < 0 else registers.rax, asked
            ptrace(SETREGS, self.pid, ctypes.byref(registers))
        answer = registers.rax if registers.rax < WORD // 2 else registers.rax - WORD
        self.calls.append((name, answer))
        self.moved[name] += max(answer, 0)

    def to_its_end(self):
        """Takes the program from call to call. How it ended."""
        while (status := self.to_next_stop()) is None:
            registers = self.registers()
            name = NAMES.get((registers.orig_rax, registers.rdi))
            if name is not None:
                self.planned(registers, name)
            elif (status := self.to_next_stop()) is not None:
                break
        return status


def run(program, data, plan):
    """What the program writes on these bytes, and its reads and writes with what each answered. It must end well and write nothing to
    standard error."""
    with tempfile.TemporaryFile() as source, tempfile.TemporaryFile() as sink, tempfile.TemporaryFile() as complaint:
        source.write(data)
        source.seek(0)
        child = subprocess.Popen([program], stdin=source, stdout=sink, stderr=complaint, preexec_fn=lambda: ptrace(TRACEME, 0))
        traced = Traced(child.pid, plan)
        child.returncode = traced.to_its_end()
        sink.seek(0)
        complaint.seek(0)
        words = complaint.read()
        if child.returncode != 0 or words:
            raise SystemExit(f"{program} ended with status {child.returncode} and wrote to standard error: {words[:200]}")
        return sink.read(), traced.calls
