#!/usr/bin/env python3
"""The tests of the tools and of the launcher. Its status is 0 where all pass."""

import sys
import unittest

sys.dont_write_bytecode = True

import test_believed
import test_commands
import test_conformance
import test_crates
import test_docs
import test_edits
import test_header
import test_launcher
import test_output
import test_package
import test_picture
import test_px
import test_recorders
import test_refused
import test_samples
import test_session
import test_shown
import test_waves

MODULES = (
    test_session,
    test_shown,
    test_refused,
    test_output,
    test_recorders,
    test_samples,
    test_waves,
    test_picture,
    test_commands,
    test_conformance,
    test_crates,
    test_believed,
    test_docs,
    test_edits,
    test_header,
    test_launcher,
    test_package,
    test_px,
)
suite = unittest.TestSuite(map(unittest.defaultTestLoader.loadTestsFromModule, MODULES))
sys.exit(not unittest.TextTestRunner().run(suite).wasSuccessful())
