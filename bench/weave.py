#!/usr/bin/env python3
"""CPU time and peak memory of `weave` on sources of the first form, at growing sizes up to the limits.

Run it from the top of the repository, after `rt ci` or `rt run` has left the program at
crates/weave_cli/out/weave_cli, or give the program's path. Times are the mean of some runs, in milliseconds. The peak
includes what the system counts from before the program begins, the memory of this script: some 14,000 KiB.
"""
import os
import resource
import subprocess
import sys
import tempfile

RULE = ("/*@ meta \\prop, \\name(keep), \\targets(\\ALL), \\context(\\writing), "
        "\\separated(\\written, &%s); */\n")


def body(count):
    """One long body."""
    return "int x; int y;\n" + RULE % "x" + "int main(void) {\n" + "y = 1;\n" * count + "return 0; }"


def chain(count):
    """A long chain of functions, each of which calls the one before it."""
    last = count // 2 - 1
    lines = ["int x;\n", RULE % "x", "void f0(void) { x = 1; }\n"]
    lines += [f"void f{i}(void) {{ f{i - 1}(); }}\n" for i in range(1, last + 1)]
    return "".join(lines) + f"int main(void) {{ f{last}(); return 0; }}"


def variables(count):
    """Many variables, each assigned once."""
    names = [f"v{i}" for i in range(count // 2)]
    return ("".join(f"int {n};\n" for n in names) + RULE % names[0] + "int main(void) {\n"
            + "".join(f"{n} = 7;\n" for n in names) + "return 0; }")


def names(count):
    """A variable of the rule with a long name, which each assertion repeats."""
    name = "n" * 1500
    return f"int y; int {name};\n" + RULE % name + "int main(void) {\n" + "y = 1;\n" * count + "return 0; }"


def measure(program, folder, runs):
    """The mean CPU time in milliseconds, the peak memory in KiB, and the length of the output."""
    total, peak, written = 0.0, 0, 0
    for _ in range(runs):
        child = subprocess.Popen([program, "weave", "p.c"], cwd=folder, stdout=subprocess.PIPE)
        written = len(child.stdout.read())
        child.stdout.close()
        _, status, usage = os.wait4(child.pid, 0)
        assert status == 0, status
        total += usage.ru_utime + usage.ru_stime
        peak = max(peak, usage.ru_maxrss)
    return 1000 * total / runs, peak, written


def main():
    program = os.path.realpath(sys.argv[1] if len(sys.argv) > 1 else "crates/weave_cli/out/weave_cli")
    print(f"{'kind':10} {'count':>6} {'source B':>9} {'woven B':>10} {'CPU ms':>8} {'peak KiB':>9}")
    with tempfile.TemporaryDirectory() as folder:
        for kind in (body, chain, variables, names):
            for count in (1200, 2500, 5000, 9900):
                text = kind(count)
                with open(os.path.join(folder, "p.c"), "w") as file:
                    file.write(text)
                time, peak, written = measure(program, folder, 20)
                print(f"{kind.__name__:10} {count:6} {len(text):9} {written:10} {time:8.2f} {peak:9}")


if __name__ == "__main__":
    resource.setrlimit(resource.RLIMIT_CORE, (0, 0))
    main()
