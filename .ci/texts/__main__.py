#!/usr/bin/env python3
"""What the built program prints, tells and answers, run by run: each file beside this one has the cases of one subject, whose
outcomes were worked by hand from the rules.

usage: python3 .ci/texts [NAME ..]

  NAME   the cases alone whose name has one of these words

The last line is 'N passed, M failed'.
"""
import os
import sys
import unittest

sys.dont_write_bytecode = True
HERE = os.path.dirname(os.path.abspath(__file__))


def main(words):
    chosen = [it for word in words for it in ("-k", word)]
    asked = [sys.argv[0], "discover", "-s", HERE, "-p", "[a-z]*.py", *chosen]
    ran = unittest.main(module=None, argv=asked, verbosity=0, exit=False).result
    # of a case several rows may fail; one that is left out, or is meant to fail, shows nothing
    bad = [it for it, _ in ran.failures + ran.errors + ran.skipped + ran.expectedFailures] + ran.unexpectedSuccesses
    failed = len({getattr(it, "test_case", it).id() for it in bad})
    print(f"{ran.testsRun - failed} passed, {failed} failed")
    return 1 if failed or not ran.testsRun else 0


if __name__ == "__main__":
    sys.exit(main(sys.argv[1:]))
