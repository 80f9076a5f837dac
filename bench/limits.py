"""Runs the program on inputs too large for the cases of worked_cases.

python3 bench/limits.py PROGRAM
Prints what falls short, and a last line with the counts; status 1 if anything does.
"""
import os
import subprocess
import sys
import tempfile

LINE = b'"a"() : () -> ()\n'
ERASE = b'Pattern A => erase op<t.a>;\n'
MOST = 67_108_864

# what it shows, the pattern file, the module file, the status, the log or its end
CASES = [
    ('a module file that is too long', b'', (b' ', MOST + 1), 4, b'pdllrw: module: M1 TooLong\n'),
    ('a pattern file that is too long', (b' ', MOST + 1), b'', 3, b'pdllrw: patterns: P1 TooLong\n'),
    ('a module file of the greatest length', b'', (b' ', MOST), 0, b'end converged steps 0\n'),
    ('one operation too many', b'', (LINE, 1_000_001), 4, b'pdllrw: module: 1000001:1: M14 TooMany\n'),
    ('the default bound', ERASE, (b'"t.a"() : () -> ()\n', 10_001), 1,
     b'\nend bound rewrites steps 10000 pattern 0 root 10001\n'),
]


def bytes_of(text):
    return text[0] * text[1] if isinstance(text, tuple) else text


def main(argv):
    if len(argv) != 1:
        print(__doc__)
        return 2
    program = os.path.abspath(argv[0])
    bad = 0
    for name, patterns, module, status, log in CASES:
        with tempfile.TemporaryDirectory() as folder:
            for file, text in (('p', patterns), ('m', module)):
                with open(os.path.join(folder, file), 'wb') as it:
                    it.write(bytes_of(text))
            ran = subprocess.run([program, 'p', 'm'], cwd=folder, capture_output=True)
        if ran.returncode != status or not ran.stderr.endswith(log):
            bad += 1
            print(f'{name}: status {ran.returncode}, log {ran.stderr[-200:]!r}')
    print(f'{len(CASES)} inputs, {bad} fall short')
    return 1 if bad else 0


if __name__ == '__main__':
    sys.exit(main(sys.argv[1:]))
