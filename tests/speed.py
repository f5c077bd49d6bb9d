"""Measures the figures of tests/speed.json again with the built program, and prints them:
python3 -m tests.speed > new.json.

ROMAN names another program. Compare the new table with the old one before you replace it. A digest of an output changes
only if the output does.
"""

import json
import sys
import tempfile
from pathlib import Path

from .test_speed import measured


def main() -> int:
    with tempfile.TemporaryDirectory() as folder:
        table = measured(Path(folder))
    rows = [
        f'  "{name}": {{\n'
        + ",\n".join(f'    "{command}": {json.dumps(row)}' for command, row in commands.items())
        + "\n  }"
        for name, commands in table.items()
    ]
    print("{\n" + ",\n".join(rows) + "\n}")
    return 0


if __name__ == "__main__":
    sys.exit(main())
