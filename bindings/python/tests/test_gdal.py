"""Tests of what another library exports by Arrow's C data interface: GDAL, where its shared library is installed."""

import ctypes
import json
import pathlib
import sys
import tempfile
import unittest
from ctypes.util import find_library

sys.path.insert(0, str(pathlib.Path(__file__).parents[1]))
sys.path.insert(0, str(pathlib.Path(__file__).parent))

import vx  # noqa: E402
from columns import ArrowArray, ArrowSchema  # noqa: E402

ROWS = 1000
NAMES = ["n", "wide", "real", "text", "flag", "numbers", "words"]


def opened():
    """GDAL, or none where there is none."""
    for name in ("libgdal.so.32", find_library("gdal")):
        try:
            return ctypes.CDLL(name) if name else None
        except OSError:
            continue
    return None


class ArrowArrayStream(ctypes.Structure):
    """A stream of arrays, as Arrow's specification has it."""


_STREAM = ctypes.POINTER(ArrowArrayStream)
ArrowArrayStream._fields_ = [
    ("get_schema", ctypes.CFUNCTYPE(ctypes.c_int, _STREAM, ctypes.POINTER(ArrowSchema))),
    ("get_next", ctypes.CFUNCTYPE(ctypes.c_int, _STREAM, ctypes.POINTER(ArrowArray))),
    ("get_last_error", ctypes.CFUNCTYPE(ctypes.c_char_p, _STREAM)),
    ("release", ctypes.CFUNCTYPE(None, _STREAM)),
    ("private_data", ctypes.c_void_p),
]

_new = ctypes.PYFUNCTYPE(ctypes.py_object, ctypes.c_void_p, ctypes.c_char_p, ctypes.c_void_p)(
    ("PyCapsule_New", ctypes.pythonapi)
)


class Batch:
    """An array of GDAL's, which whoever made this releases."""

    def __init__(self, schema, array):
        self.schema, self.array = schema, array

    def __arrow_c_array__(self, requested_schema=None):
        return (
            _new(ctypes.addressof(self.schema), b"arrow_schema", None),
            _new(ctypes.addressof(self.array), b"arrow_array", None),
        )


def rows():
    """Rows of each type that both libraries have, with nulls."""
    for at in range(ROWS):
        row = {
            "n": at * 7919 % 1000 - 500,
            "wide": at * 10**10,
            "real": (at - 500) / 7,
            "text": "aä\"\\%"[: at % 6] * (at % 3),
            "flag": at % 3 == 0,
            "numbers": list(range(1 + at % 5)),
            "words": ["w" * (at % 4), "é"][: 1 + at % 2],
        }
        yield {name: None if at % (11 + index) == 3 else value for index, (name, value) in enumerate(row.items())}


GDAL = opened()


@unittest.skipUnless(GDAL, "GDAL isn't installed")
class Gdal(unittest.TestCase):
    def setUp(self):
        GDAL.GDALAllRegister()
        for name in ("GDALOpenEx", "GDALDatasetGetLayer"):
            getattr(GDAL, name).restype = ctypes.c_void_p
        features = [{"type": "Feature", "properties": row, "geometry": None} for row in rows()]
        self.folder = tempfile.TemporaryDirectory()
        path = pathlib.Path(self.folder.name) / "rows.geojson"
        path.write_text(json.dumps({"type": "FeatureCollection", "features": features}), encoding="utf-8")
        self.dataset = ctypes.c_void_p(GDAL.GDALOpenEx(str(path).encode(), 4, None, None, None))
        self.layer = ctypes.c_void_p(GDAL.GDALDatasetGetLayer(self.dataset, 0))

    def tearDown(self):
        GDAL.GDALClose(self.dataset)
        self.folder.cleanup()

    def batches(self, most):
        """The batches of so many rows at most."""
        stream, schema, array = ArrowArrayStream(), ArrowSchema(), ArrowArray()
        words = (ctypes.c_char_p * 3)(b"INCLUDE_FID=NO", b"MAX_FEATURES_IN_BATCH=%d" % most, None)
        self.assertTrue(GDAL.OGR_L_GetArrowStream(self.layer, ctypes.byref(stream), words))
        self.assertEqual(stream.get_schema(ctypes.byref(stream), ctypes.byref(schema)), 0)
        while True:
            self.assertEqual(stream.get_next(ctypes.byref(stream), ctypes.byref(array)), 0)
            if not array.release:
                break
            yield Batch(schema, array)
            self.assertTrue(array.release and schema.release)
            array.release(ctypes.byref(array))
        schema.release(ctypes.byref(schema))
        stream.release(ctypes.byref(stream))

    def test_values(self):
        wanted = list(rows())
        for most in (ROWS, 64, 37, 1):
            found, selected = [], []
            for batch in self.batches(most):
                if not found:
                    schema = vx.schema_of(batch)
                    plan = vx.Plan("pack(" + ", ".join(f"{name}: {name}" for name in NAMES) + ")", schema)
                    picked = vx.Plan("n > 0 and text like '%a%' and not flag", schema)
                found += plan.scan(batch)
                selected += picked.select(batch).tolist()
            self.assertEqual(found, wanted)
            truths = [
                row["n"] is not None and row["n"] > 0 and "a" in (row["text"] or "") and row["flag"] is False
                for row in wanted
            ]
            self.assertEqual(selected, truths)
            plan.close()
            picked.close()

    def test_another_type(self):
        for batch in self.batches(ROWS):
            with vx.Plan("n", "{n=i64?}") as plan, self.assertRaises(vx.DataError):
                plan.scan(batch)


if __name__ == "__main__":
    unittest.main()
