# Run in gdb by stack.sh: how deep the stack goes under each function of stack_probe, by filling the free stack and looking what was touched.
import subprocess

import gdb

FILL = 0xA5
program = gdb.current_progspace().filename
deepest = {}


def symbols():
    for line in subprocess.run(["nm", program], capture_output=True, text=True, check=True).stdout.splitlines():
        parts = line.split(" ", 2)
        if len(parts) == 3 and parts[1] in ("t", "T"):
            yield int(parts[0], 16), parts[2]


def mapped(end):
    """Where the first mapping begins whose line in the list of mappings ends so."""
    maps = open(f"/proc/{gdb.selected_inferior().pid}/maps").read()
    return next(int(line.split("-")[0], 16) for line in maps.splitlines() if line.endswith(end))


class Left(gdb.Breakpoint):
    """The return from a function: the lowest byte that is not as it was filled tells its depth."""

    def __init__(self, address, name, entry, low):
        super().__init__(f"*{address}", internal=True)
        self.silent = True
        self.name, self.entry, self.low = name, entry, low

    def stop(self):
        if int(gdb.parse_and_eval("(unsigned long)$rsp")) != self.entry + 8:
            return False
        memory = bytes(gdb.selected_inferior().read_memory(self.low, self.entry - self.low))
        touched = next((i for i, byte in enumerate(memory) if byte != FILL), len(memory))
        if touched == 0:
            raise gdb.GdbError("the whole stack was touched: too little of it is mapped")
        depth = self.entry + 8 - (self.low + touched)
        deepest[self.name] = max(deepest.get(self.name, 0), depth)
        self.enabled = False
        return False


class Entered(gdb.Breakpoint):
    """The entry of a function: everything below the stack pointer is free, and is filled."""

    def __init__(self, address, name):
        super().__init__(f"*{address}", internal=True)
        self.silent = True
        self.name = name

    def stop(self):
        entry = int(gdb.parse_and_eval("(unsigned long)$rsp"))
        low = mapped("[stack]")
        inferior = gdb.selected_inferior()
        inferior.write_memory(low, bytes([FILL]) * (entry - low))
        back = int.from_bytes(bytes(inferior.read_memory(entry, 8)), "little")
        Left(back, self.name, entry, low)
        return False


wanted = gdb.convenience_variable("wanted").string()
gdb.execute("set confirm off")
gdb.execute("set pagination off")
gdb.execute("starti > /dev/null")
base = mapped(program)
for at, name in symbols():
    if name.split("::<")[0] == wanted:
        Entered(base + at, wanted)
gdb.execute("continue")
for name, depth in deepest.items():
    print(f"depth {name} {depth}")
