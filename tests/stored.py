#!/usr/bin/env python3
"""The stored inputs and expected outputs of the test programs, and the sheets of examples/, are what their scripts write: each script is
run into a new folder, and the files are compared byte for byte. Status 1 if one differs or is missing."""
import subprocess
import sys
import tempfile
from pathlib import Path

HERE = Path(__file__).resolve().parent
ROOT = HERE.parent

# where the stored files are, and the command that writes them, but for the folder
WRITTEN = [
    (ROOT / 'crates/sheets_test', ['sheet_papers.py']),
    (ROOT / 'crates/marking_test', ['marking_papers.py']),
    (ROOT / 'crates/calls_test', ['typed_papers.py']),
    (ROOT / 'examples', ['marking_papers.py', '--examples']),
]


def main():
    wrong = []
    for stored, command in WRITTEN:
        with tempfile.TemporaryDirectory() as folder:
            subprocess.run([sys.executable, str(HERE / command[0]), *command[1:], folder], check=True, stdout=subprocess.DEVNULL)
            for written in sorted(Path(folder).iterdir()):
                same = stored / written.name
                if not same.is_file() or same.read_bytes() != written.read_bytes():
                    wrong.append(same.relative_to(ROOT))
    for name in wrong:
        print(f'{name} is not what its script writes')
    sys.exit(1 if wrong else 0)


if __name__ == '__main__':
    main()
