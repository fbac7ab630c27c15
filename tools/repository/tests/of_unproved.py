"""Tests of the parts that are taken out of a module
that `rt try` made."""
import unittest

from ..unproved import without_checks


class ModuleThatIsCounted(unittest.TestCase):
    """Tests of the parts that are left of a module of
    `rt try`."""

    def test_fills_and_checks_are_gone(self):
        kept = ["  %r0 = alloca i64, align 8", "  call void @llvm.memset.p0.i64(ptr %r0, i8 0, i64 16, i1 false)"]
        gone = ["  call void @llvm.memset.p0.i64(ptr %r0, i8 -86, i64 8, i1 false)"]
        gone.append('  call void @"rattle-llvm-checks::Value"(i8 %r31)')
        module = "\n".join([kept[0], *gone, kept[1], ""])
        self.assertEqual(without_checks(module), "\n".join([*kept, ""]))

    def test_no_group_of_attributes_is_empty(self):
        left = without_checks('attributes #9 = { sanitize_address "frame-pointer"="all" }\n')
        self.assertEqual(left, "attributes #9 = { nounwind }\n")
