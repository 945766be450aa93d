"""Tests the picture in README.md: report_picture.py PROGRAM, or --write.

The program's report on examples/broken is that of examples/broken.report, which was written by hand, and docs/report.svg is a terminal that
shows it. `--write` redraws the picture from examples/broken.report. Prints a line for each case.
"""

import html
import pathlib
import subprocess
import sys

from running import differences_of, exit_status, report

TOP = pathlib.Path(__file__).resolve().parent.parent
FOLDER = TOP / "examples" / "broken"
REPORT = TOP / "examples" / "broken.report"
PICTURE = TOP / "docs" / "report.svg"
COMMAND = "$ actionlint"
SIZE, ADVANCE, LEADING, MARGIN, BAR = 14, 8.43, 19, 16, 30


def text(row, line):
    """A line of the terminal; its length is given, so columns are aligned in any font."""
    place = f'x="{MARGIN}" y="{BAR + MARGIN + row * LEADING}" textLength="{len(line) * ADVANCE:.2f}"'
    return f'  <text {place} xml:space="preserve">{html.escape(line, quote=False)}</text>\n' if line else ""


def picture(lines):
    """A terminal with these lines."""
    width = round(max(map(len, lines)) * ADVANCE + 2 * MARGIN)
    height = BAR + len(lines) * LEADING + MARGIN
    dots = "".join(f'  <circle cx="{18 + 20 * n}" cy="15" r="6" fill="{it}"/>\n' for n, it in enumerate(("#ff5f57", "#febc2e", "#28c840")))
    return (
        f'<svg xmlns="http://www.w3.org/2000/svg" width="{width}" height="{height}" viewBox="0 0 {width} {height}" role="img" '
        f'font-family="DejaVu Sans Mono, Menlo, Consolas, monospace" font-size="{SIZE}" fill="#d8dee9">\n'
        "  <title>actionlint lints a folder and finds five faults</title>\n"
        f'  <rect width="{width}" height="{height}" rx="8" fill="#20242c"/>\n{dots}'
        + "".join(text(row, line) for row, line in enumerate(lines))
        + "</svg>\n"
    )


def drawn():
    """The picture of the report."""
    return picture([COMMAND, *REPORT.read_text(encoding="utf-8").splitlines()])


def main():
    if sys.argv[1:] == ["--write"]:
        PICTURE.write_text(drawn(), encoding="utf-8")
        return 0
    if len(sys.argv) != 2:
        print("report_picture.py PROGRAM | --write", file=sys.stderr)
        return 2
    ran = subprocess.run([pathlib.Path(sys.argv[1]).resolve()], cwd=FOLDER, capture_output=True, check=False, timeout=60)
    report("example-that-costs-a-run", ran.returncode, differences_of(ran, 1, REPORT.read_bytes(), b""))
    same = PICTURE.read_text(encoding="utf-8") == drawn()
    report("picture-of-its-report", "-", [] if same else ["docs/report.svg is another picture: report_picture.py --write"])
    return exit_status()


if __name__ == "__main__":
    sys.exit(main())
