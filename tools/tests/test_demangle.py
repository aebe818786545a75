"""Rust's names, as charts and lists of threads write them."""

import shutil
import unittest

from xous.programs.demangle import COMMANDS, readable

from .frame import Case

V0 = "_RNvNtCscWIbDq22Wxj_3std7process4exit"
LEGACY = "_ZN4core3fmt5write17h0123456789abcdefE"


class Demangle(Case):
    def test_names(self):
        if not any(map(shutil.which, COMMANDS)):
            raise unittest.SkipTest("c++filt missing: apt-get install binutils")
        self.assertEqual(readable(["main", V0, LEGACY]), {V0: "std::process::exit", LEGACY: "core::fmt::write"})
