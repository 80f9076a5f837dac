"""Shows what reading and printing cost beside MLIR's own tool, on the generator's module.

python3 bench/reading.py PROGRAM [MLIR_OPT]

PROGRAM is the built program, MLIR_OPT the peer (`mlir-opt-22` where it isn't given). Both read the module of 200,000
operations and print it in generic form; the program has an empty pattern file. Printed are the best of five wall times
and the peak memory of each, as ratios of the peer's, the bytes an operation, and, where valgrind is installed, the
instructions an operation and the ten functions that execute most of them. Last comes a module in which no two names, types
or attributes are alike, with the instructions an operation.
"""
import os
import re
import shutil
import subprocess
import sys
import tempfile
import time

from generated import write_module

OPERATIONS = 200_000


def timed(words):
    """The best of five wall times, in seconds, and the peak memory, in bytes."""
    best, peak = None, 0
    for _ in range(5):
        start = time.monotonic()
        with open(os.devnull, 'wb') as nowhere:
            process = subprocess.Popen(words, stdout=nowhere, stderr=nowhere)
            _, status, usage = os.wait4(process.pid, 0)
        if status:
            sys.exit(f'{words[0]} ended with {status}')
        took = time.monotonic() - start
        best = took if best is None else min(best, took)
        peak = max(peak, usage.ru_maxrss * 1024)
    return best, peak


def instructions(words, operations, folder):
    """The instructions an operation, and the ten functions that execute most of them."""
    out = os.path.join(folder, 'callgrind.out')
    subprocess.run(['valgrind', '--tool=callgrind', f'--callgrind-out-file={out}', *words], stdout=subprocess.DEVNULL, stderr=subprocess.DEVNULL, check=True)
    text = subprocess.run(['callgrind_annotate', out], capture_output=True, text=True, check=True).stdout
    total = int(re.search(r'([\d,]+).*PROGRAM TOTALS', text).group(1).replace(',', ''))
    rows = re.findall(r'^\s*([\d,]+) \(\s*([\d.]+)%\)\s+\S*?:(\S.*)$', text, re.M)
    return total / operations, rows[:10]


def write_different(path, operations):
    with open(path, 'w') as module:
        for number in range(operations):
            module.write(f'%{number} = "t.op{number}"() {{name{number} = {number} : i64}} : () -> tensor<{number}xi32>\n')


def main():
    program = sys.argv[1]
    peer = sys.argv[2] if len(sys.argv) > 2 else 'mlir-opt-22'
    with tempfile.TemporaryDirectory() as folder:
        module, patterns, different = (os.path.join(folder, name) for name in ('module.mlir', 'none.pdll', 'different.mlir'))
        write_module(module, 7, OPERATIONS)
        write_different(different, OPERATIONS // 10)
        open(patterns, 'w').close()
        took, peak = timed([program, patterns, module])
        print(f'reading and printing {OPERATIONS} operations: {took:.3f} s, {peak / OPERATIONS:.0f} bytes an operation')
        if shutil.which(peer):
            theirs, memory = timed([peer, '--allow-unregistered-dialect', '--mlir-print-op-generic', module])
            print(f'as ratios of {peer}: {took / theirs:.2f} of its time ({theirs:.3f} s), {peak / memory:.2f} of its memory')
        if shutil.which('valgrind'):
            count, rows = instructions([program, patterns, module], OPERATIONS, folder)
            print(f'instructions an operation: {count:.0f}')
            for number, share, name in rows:
                print(f'  {share:>5}%  {name[:100]}')
            count, _ = instructions([program, patterns, different], OPERATIONS // 10, folder)
            print(f'instructions an operation where no two are alike: {count:.0f}')


if __name__ == '__main__':
    main()
