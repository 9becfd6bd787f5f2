"""What earlier versions wrote is read as it was: bindings/tests/written has a file for each."""

import json
import pathlib
import sys
import unittest

sys.path.insert(0, str(pathlib.Path(__file__).parents[1]))

import vx  # noqa: E402
from vx._plans import PlanDescription  # noqa: E402

WRITTEN = pathlib.Path(__file__).resolve().parents[2] / "tests" / "written"


class Written(unittest.TestCase):
    def setUp(self):
        self.versions = [json.loads(path.read_text(encoding="utf-8")) for path in sorted(WRITTEN.glob("*.json"))]
        self.assertTrue(self.versions)

    def test_source_text(self):
        for text in (text for version in self.versions for text in version["source"]):
            self.assertEqual(vx.fmt(text), text)

    def test_types(self):
        for text in (text for version in self.versions for text in version["types"]):
            self.assertEqual(vx.check("$", text), text)

    def test_plans(self):
        for plan in (plan for version in self.versions for plan in version["plans"]):
            written = PlanDescription.of_json(plan["written"])
            self.assertEqual(vx.plan(plan["expression"], plan["schema"]), written)
            self.assertEqual((vx.fmt(written.tree), vx.check("$", written.scope)), (written.tree, written.scope))

    def test_statistics(self):
        for chunks in (version["chunks"] for version in self.versions):
            found = vx.prune(chunks["expression"], chunks["written"], chunks["schema"])
            self.assertEqual([verdict.value for verdict in found], chunks["verdicts"])


if __name__ == "__main__":
    unittest.main()
