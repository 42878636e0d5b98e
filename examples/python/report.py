"""Prints the numbers of a swap as swapreport does: report.py PREFIX [FOLDER], by default the installed sample swap."""

import pathlib
import sys

from swap import Swap


def read(path):
    """The bytes of a plain file; a named pipe would be waited for."""
    if not path.is_file():
        sys.exit(f"report.py: {path}: no plain file")
    return path.read_bytes()


def blocks_mined(swap, journal):
    kinds = journal[:: swap.constant["SWAP_STEP_SIZE"]]
    return kinds.count(swap.constant["SWAP_MINE"])


def print_rows(swap, sheet, setup, journal):
    size = swap.constant["SWAP_REPORT_ROW"]
    count = sheet[0] % swap.constant["SWAP_THREE_PARTIES"]
    output = bytearray(size * count)
    swap.call("swap_report", sheet, setup, journal, output)
    for t in range(count):
        row = output[size * t : size * (t + 1)]
        heights = (swap.number(row, "SWAP_REPORT_" + name) for name in ("BLOCK", "LOCK_HEIGHT", "DEADLINE"))
        print(t, row[swap.constant["SWAP_REPORT_STATUS"]], row[swap.constant["SWAP_REPORT_PAYEE"]], *heights)


def main(prefix, folder):
    swap = Swap(prefix)
    sheet, setup, journal = (read(folder / name) for name in ("sheet.bin", "setup.bin", "journal.bin"))
    refusal, count = swap.call("swap_run", sheet, setup, journal)
    if refusal != swap.constant["SWAP_ACCEPTED"]:
        name, words = swap.refusals[refusal]
        sys.exit(f"report.py: {folder}: refused after {count} steps: {words} ({name})")
    print(count, refusal, blocks_mined(swap, journal))
    print_rows(swap, sheet, setup, journal)


if __name__ == "__main__":
    if len(sys.argv) not in (2, 3):
        print("usage: report.py PREFIX [FOLDER]", file=sys.stderr)
        sys.exit(2)
    sample = pathlib.Path(sys.argv[1]) / "share" / "swap" / "sample"
    try:
        main(sys.argv[1], pathlib.Path(sys.argv[2]) if len(sys.argv) == 3 else sample)
    except OSError as error:
        sys.exit(f"report.py: {error}")
