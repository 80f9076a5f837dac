"""Writes the generator's module, and the patterns that run on it.

python3 bench/generated.py NUMBER MODULE [PATTERNS] [OPERATIONS]

NUMBER is the seed, MODULE the file that is written, PATTERNS the file of its two patterns. OPERATIONS is 200,000 where it
isn't given. What the module is stands in `docs/formats.md` where the program has the generator; this script draws the
numbers apart from the program, so that each can check the other.
"""
import sys

PATTERNS = '''Constraint HasNoUse(o: Op);
Pattern NegNeg {
  let inner = op<g.neg>(x: Value);
  let root = op<g.neg>(inner);
  replace root with x;
}
Pattern DropNeg with benefit(2) {
  let root = op<g.neg>;
  HasNoUse(root);
  erase root;
}
'''


def draws(number):
    while True:
        number = (number * 6364136223846793005 + 1442695040888963407) % 2**64
        yield number >> 33


def lines(number, operations):
    yield '%0 = "g.src"() : () -> i32\n'
    for row, drawn in zip(range(2, operations + 1), draws(number)):
        operand = row - 1 - drawn % min(row - 1, 16)
        name = 'g.neg' if drawn // 16 % 2 else 'g.id'
        yield f'%{row - 1} = "{name}"(%{operand - 1}) : (i32) -> i32\n'


def write_module(path, number=7, operations=200_000):
    with open(path, 'w') as module:
        module.writelines(lines(number, operations))


def main():
    words = sys.argv[1:]
    operations = int(words[3]) if len(words) > 3 else 200_000
    write_module(words[1], int(words[0]), operations)
    if len(words) > 2:
        with open(words[2], 'w') as patterns:
            patterns.write(PATTERNS)


if __name__ == '__main__':
    main()
