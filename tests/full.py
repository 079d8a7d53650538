"""Writes a lawful scheme of exactly 4,096 words: full.py PATH"""

import sys

from schemes import full, to_bytes


def main() -> int:
    if len(sys.argv) != 2:
        print("usage: full.py PATH", file=sys.stderr)
        return 2
    words = full().words()
    assert len(words) == 4096
    with open(sys.argv[1], "wb") as file:
        file.write(to_bytes(words))
    return 0


if __name__ == "__main__":
    sys.exit(main())
