"""What the process checks share: the programs that a check needs, a line for each thing that it looks at, and its status."""

import os
import subprocess
import sys

# The paths of the checks begin at the top of the checkout.
os.chdir(os.path.join(os.path.dirname(os.path.abspath(__file__)), "../.."))
failed = False


def build(*programs):
    """Makes these programs (scripts/build), or ends the check."""
    if subprocess.run(["scripts/build", *programs]).returncode:
        sys.exit(1)


def check(name, found, wanted):
    """Whether what was found is what is wanted."""
    global failed
    if found == wanted:
        print("ok: " + name, flush=True)
    else:
        print("failed: %s: %.1000r, wanted %.1000r" % (name, found, wanted), flush=True)
        failed = True


def check_that(name, holds, found=""):
    """Whether it holds; else what was found."""
    global failed
    print("ok: " + name if holds else "failed: %s: %r" % (name, found), flush=True)
    failed = failed or not holds


def end():
    """Ends a check: with status 1 if something failed."""
    sys.exit(1 if failed else 0)
