"""Shows how time and memory of reading and printing grow with the module, how both compare with MLIR's own tool, and what
a step costs.

python3 bench/growth.py PROGRAM [OPERATIONS]

PROGRAM is the built program (`rt run` in crates/pdllrw leaves it as out/pdllrw). Three modules are made, of
OPERATIONS times 1, 10 and 100 operations (2,000 where it isn't given), and each is read and printed with an empty
pattern file. A line each has the best of three wall times and the peak memory per operation, and both as ratios of
those of the first size: a program that is linear keeps both ratios near 1 or below. Where mlir-opt is installed, the
line also has the program's time and memory as ratios of those of mlir-opt on the same module. The last lines are runs of
1, 10 and 100 steps on a module of OPERATIONS times 10: the time of a step as a ratio of the time that reading and printing
the same module take.
"""
import os
import shutil
import subprocess
import sys
import tempfile
import time


def write_module(path, count):
    with open(path, 'w') as module:
        module.write('%0 = "t.start"() {v = 0 : i32} : () -> i32\n')
        for number in range(1, count):
            module.write(f'%{number} = "t.op{number % 7}"(%{number - 1}) {{v = {number} : i32}} : (i32) -> i32\n')


PATTERN = """Pattern Hit {
  let root = op<t.hit>(x: Value) -> (t: Type);
  replace root with op<t.miss>(x) -> (t);
}
"""


def write_hits(path, count):
    """100 of the operations are those that the pattern matches."""
    with open(path, 'w') as module:
        module.write('%0 = "t.start"() {v = 0 : i32} : () -> i32\n')
        for number in range(1, count):
            name = 't.hit' if number % (count // 100) == 1 else 't.op'
            module.write(f'%{number} = "{name}"(%{number - 1}) {{v = {number} : i32}} : (i32) -> i32\n')


def measure_steps(program, folder, count):
    patterns, module = os.path.join(folder, 'hit.pdll'), os.path.join(folder, 'hits.mlir')
    with open(patterns, 'w') as file:
        file.write(PATTERN)
    write_hits(module, count)
    whole, _ = best([program, '--max-rewrites', '0', patterns, module], 1)
    for steps in (1, 10, 100):
        seconds, _ = best([program, '--max-rewrites', str(steps), patterns, module], 0 if steps == 100 else 1)
        each = (seconds - whole) / steps
        print(f'{steps} steps on {count} operations: {each * 1e3:.2f} ms each, ratio {each / whole:.3f}')


def measure(words, wanted):
    """Wall seconds and peak bytes of one run, which must end with the wanted status."""
    start = time.perf_counter()
    with open(os.devnull, 'w') as nothing:
        child = subprocess.Popen(words, stdout=nothing, stderr=nothing)
        _, status, usage = os.wait4(child.pid, 0)
    seconds = time.perf_counter() - start
    code = os.waitstatus_to_exitcode(status)
    if code != wanted:
        raise SystemExit(f'{words[0]} ended with status {code}')
    return seconds, usage.ru_maxrss * 1024


def best(words, wanted=0):
    runs = [measure(words, wanted) for _ in range(3)]
    return min(run[0] for run in runs), min(run[1] for run in runs)


def main(words):
    if len(words) not in (1, 2):
        raise SystemExit(__doc__)
    program = os.path.abspath(words[0])
    base = int(words[1]) if len(words) == 2 else 2_000
    other = next((name for name in ('mlir-opt', 'mlir-opt-14', 'mlir-opt-15') if shutil.which(name)), None)
    first = None
    with tempfile.TemporaryDirectory() as folder:
        patterns = os.path.join(folder, 'patterns.pdll')
        open(patterns, 'w').close()
        for factor in (1, 10, 100):
            count = base * factor
            module = os.path.join(folder, f'{count}.mlir')
            write_module(module, count)
            seconds, memory = best([program, patterns, module])
            first = first or (seconds / count, memory / count)
            line = (f'{count} operations: {seconds / count * 1e6:.3f} us and {memory / count:.0f} bytes each, '
                    f'ratios {seconds / count / first[0]:.2f} and {memory / count / first[1]:.2f}')
            if other:
                its = best([other, '--allow-unregistered-dialect', '--mlir-print-op-generic', module])
                line += f'; against {other} {seconds / its[0]:.2f} and {memory / its[1]:.2f}'
            print(line)
            os.remove(module)
        measure_steps(program, folder, base * 10)


main(sys.argv[1:])
