"""The sizes that CONTRIBUTING.md ("Names and prose") limits: crates, files, lines of proofs and of clauses, README.md and crates.txt.

`NOT_YET` lists what is above a limit and how far. Nothing else may be, and none of these may grow. Once one is smaller, its number here has
to be, too: the check prints the line that the list should have. With --list it prints the whole list, as after a merge of crates.
"""

import glob
import os
import re
import sys

sys.path.insert(0, __file__.rsplit("/", 2)[0] + "/lib")
from checking import check, end  # noqa: E402

# Of `src/` of a crate without its tests: the lines, and the functions.
MOST_LINES, MOST_FUNCTIONS = 1500, 100
# The lines of a file (.rt or .antt).
MOST_FILE = 350
# The columns of a line of proofs/, and of a clause.
MOST_PROOF, MOST_CLAUSE = 160, 100
MOST_README = 120
MOST_CRATES = 68
# Made by scripts/page.
MADE = "html.rt"
NOT_YET = {
    "byte_text: wide proof lines": 26,
    "crates.txt": 76,
    "crates/job_desk/src/desk/tests.rt": 443,
    "crates/octo_session/src/open_turn.rt": 379,
    "crates/printer_link/proofs/Links.antt": 412,
    "crates/printer_link/src/story.rt": 367,
    "crates/printer_link_socket/src/stream_link.rt": 358,
    "gcode_lines: wide proof lines": 66,
    "gcode_measure: wide proof lines": 14,
    "gcode_words: wide proof lines": 5,
    "job_desk: lines": 1537,
    "job_desk: wide proof lines": 28,
    "keeper_tool: wide proof lines": 1,
    "marlin_frame: wide clauses": 1,
    "marlin_frame: wide proof lines": 8,
    "marlin_reply: wide proof lines": 13,
    "marlin_sim: lines": 1719,
    "marlin_sim: wide clauses": 16,
    "marlin_sim: wide proof lines": 90,
    "octo_access: wide proof lines": 62,
    "octo_api_commands: wide clauses": 1,
    "octo_api_replies: wide proof lines": 2,
    "octo_api_requests: wide clauses": 1,
    "octo_api_requests: wide proof lines": 2,
    "octo_api_worker: wide proof lines": 25,
    "octo_commands: wide proof lines": 6,
    "octo_commands_print: wide proof lines": 17,
    "octo_files: wide clauses": 2,
    "octo_files: wide proof lines": 7,
    "octo_floor: wide proof lines": 76,
    "octo_floor_bay: wide proof lines": 28,
    "octo_floor_command: wide proof lines": 3,
    "octo_house: lines": 1742,
    "octo_house: wide proof lines": 55,
    "octo_house_laws: wide proof lines": 18,
    "octo_house_rules: wide proof lines": 121,
    "octo_house_run: wide proof lines": 71,
    "octo_house_run_proof: wide proof lines": 145,
    "octo_house_tables: wide proof lines": 7,
    "octo_http: lines": 1660,
    "octo_http: wide clauses": 28,
    "octo_http: wide proof lines": 34,
    "octo_http_forms: wide proof lines": 1,
    "octo_keeper: wide clauses": 7,
    "octo_keeper: wide proof lines": 32,
    "octo_keeper_sql: wide proof lines": 98,
    "octo_log: wide proof lines": 1,
    "octo_log_link: wide clauses": 1,
    "octo_log_link: wide proof lines": 1,
    "octo_outside: wide clauses": 5,
    "octo_outside: wide proof lines": 5,
    "octo_outside_sockets: wide proof lines": 1,
    "octo_serve: wide proof lines": 12,
    "octo_serve_command: wide proof lines": 14,
    "octo_session: wide clauses": 21,
    "octo_session: wide proof lines": 20,
    "octo_session_line_proof: wide proof lines": 329,
    "octo_session_print: wide clauses": 8,
    "octo_session_print: wide proof lines": 161,
    "octo_settings: wide proof lines": 36,
    "octo_words: wide proof lines": 6,
    "print_queue: wide proof lines": 67,
    "printer_link: wide proof lines": 60,
    "printer_link_socket: wide proof lines": 9,
    "printer_model: wide clauses": 2,
    "printer_model: wide proof lines": 53,
    "send_window: wide clauses": 1,
    "send_window: wide proof lines": 43,
    "temp_rules: wide proof lines": 10,
}

FUNCTION = re.compile(r"\s*(pub(\(crate\))? )?(const |ghost )?fn ")
CLAUSE = re.compile(r"\s*(requires|ensures)\b")


def lines_of(path):
    return open(path, encoding="utf-8").read().splitlines()


def is_test(path):
    """Whether it is of a module `tests`."""
    parts = path.split("/src/", 1)[-1].split("/")
    return "tests" in parts or "tests.rt" in parts


def clause_lines(lines):
    """The lines of clauses, each to the brace that closes it."""
    depth, within = 0, False
    for line in lines:
        if not within and CLAUSE.match(line):
            depth, within = 0, True
        if within:
            yield line
            text = re.sub(r'b?"(\\.|[^"\\])*"|b?\'(\\.|[^\'\\])\'', "", line)
            depth += text.count("{") - text.count("}")
            within = depth > 0 or "{" not in text and depth == 0 and CLAUSE.match(line) is not None


def found():
    """What is above a limit: its name, and the number."""
    names = sorted(os.listdir("crates"))
    for name in names:
        texts = {path: lines_of(path) for path in glob.glob("crates/%s/src/**/*.rt" % name, recursive=True)}
        own = [lines for path, lines in texts.items() if not is_test(path) and os.path.basename(path) != MADE]
        length, functions = sum(map(len, own)), sum(bool(FUNCTION.match(line)) for lines in own for line in lines)
        clauses = sum(len(line) > MOST_CLAUSE for lines in texts.values() for line in clause_lines(lines))
        proofs = [path for part in ("proofs", "specs") for path in glob.glob("crates/%s/%s/**/*.antt" % (name, part), recursive=True)]
        texts.update({path: lines_of(path) for path in proofs})
        wide = sum(len(line) > MOST_PROOF for path in proofs if "/proofs/" in path for line in texts[path])
        for what, number, most in (("lines", length, MOST_LINES), ("functions", functions, MOST_FUNCTIONS), ("wide clauses", clauses, 0), ("wide proof lines", wide, 0)):
            if number > most:
                yield "%s: %s" % (name, what), number
        for path, lines in texts.items():
            if len(lines) > MOST_FILE and os.path.basename(path) != MADE:
                yield path, len(lines)
    readme = len(lines_of("README.md"))
    if readme > MOST_README:
        yield "README.md", readme
    crates = sum(bool(line.split("#")[0].strip()) for line in lines_of("crates.txt"))
    if crates > MOST_CRATES:
        yield "crates.txt", crates


def main():
    numbers = dict(sorted(found()))
    if sys.argv[1:] == ["--list"]:
        for name, number in numbers.items():
            print('    "%s": %d,' % (name, number))
        return
    for name in sorted({*numbers, *NOT_YET}):
        number, known = numbers.get(name), NOT_YET.get(name)
        if number is None:
            check("%s is within its limit: remove it from NOT_YET" % name, known, None)
        elif known is None or number > known:
            check("%s: %d, above the limit" % (name, number), number, known)
        elif number < known:
            check("%s has shrunk: write %d in NOT_YET" % (name, number), known, number)
    check("sizes are within their limits, or in NOT_YET (%d)" % len(NOT_YET), set(numbers), set(NOT_YET))
    end()


main()
