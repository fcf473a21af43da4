"""Prints the rows of XNB files, or why they are refused.

    python3 python/show.py corpus/kinds/ok-kind-13-string.xnb
"""

import sys

import xnb


def main(paths) -> int:
    status = 0
    for path in paths:
        with open(path, "rb") as file:
            content = file.read()
        try:
            table = xnb.load(content)
        except xnb.Refused as refused:
            print(f"refused {refused.refusal.value} at {refused.place}: {refused.refusal.name}")
            status = 1
            continue
        for number, row in enumerate(table.rows):
            text = f' "{table.text(number)}"' if row.kind == xnb.Kind.STRING else ""
            print(f"row {number}, {row.length} bytes at {row.first}: {row.kind.name}{text}")
    return status


if __name__ == "__main__":
    sys.exit(main(sys.argv[1:]))
