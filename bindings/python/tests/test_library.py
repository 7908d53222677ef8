"""Where the module finds the library, and what it says where it does not; its usage, as a doctest; the example."""
import ctypes
import doctest
import os
import pathlib
import re
import shutil
import subprocess
import sys
import tempfile
import unittest
import unittest.mock

import gpmf
import mixer
from samples import ROOT, SAMPLES, item, raw, seconds, stored

MODULE = pathlib.Path(gpmf.__file__).resolve()
LIBRARY = gpmf._library_file()


def run(folder, lib, *words):
    """What Python says with the module out of a folder and GPMF_LIB set to a path, or unset."""
    environment = {name: text for name, text in os.environ.items() if name != "GPMF_LIB"}
    environment["PYTHONPATH"] = str(folder)
    if lib is not None:
        environment["GPMF_LIB"] = str(lib)
    return subprocess.run([sys.executable, *words], env=environment, capture_output=True, text=True, cwd=folder)


class Search(unittest.TestCase):
    LOADED = ("-c", "import gpmf; print(gpmf._C._name)")

    def setUp(self):
        folder = tempfile.TemporaryDirectory()
        self.addCleanup(folder.cleanup)
        self.root = pathlib.Path(folder.name).resolve()
        self.folder = self.root / "bindings" / "python"
        self.folder.mkdir(parents=True)
        shutil.copy(MODULE, self.folder)

    def lay(self, *parts):
        file = self.root.joinpath(*parts, "libgpmf.so")
        file.parent.mkdir(parents=True, exist_ok=True)
        return shutil.copy(LIBRARY, file)

    def test_the_variable_names_a_folder_or_a_file_and_comes_first(self):
        named, _, _ = self.lay("named"), self.lay("bindings", "python"), self.lay("target", "lib")
        for lib in named.parent, named, os.path.relpath(named, self.folder):
            self.assertEqual(run(self.folder, lib, *self.LOADED).stdout.strip(), str(named))

    def test_beside_the_module_comes_before_the_repository(self):
        built = self.lay("target", "lib")
        self.assertEqual(run(self.folder, None, *self.LOADED).stdout.strip(), str(built))
        beside = self.lay("bindings", "python")
        self.assertEqual(run(self.folder, None, *self.LOADED).stdout.strip(), str(beside))
        self.assertEqual(run(self.folder, "", *self.LOADED).stdout.strip(), str(beside))

    def test_where_there_is_none_it_says_what_to_do(self):
        for lib in None, self.root, self.root / "nowhere":
            said = run(self.folder, lib, *self.LOADED)
            self.assertEqual(said.returncode, 1)
            self.assertRegex(said.stderr.splitlines()[-1], r"^ImportError: there is no libgpmf\.so: run \./gpmf lib in the repository \(looked for: .*libgpmf\.so\)$")

    def test_a_variable_that_names_nothing_is_not_passed_over(self):
        self.lay("target", "lib"), self.lay("bindings", "python")
        self.assertEqual(run(self.folder, self.root / "nowhere", *self.LOADED).returncode, 1)

    def test_another_file_is_not_taken_for_the_library(self):
        other = self.root / "libgpmf.so"
        other.write_bytes(b"no library")
        said = run(self.folder, other, *self.LOADED)
        self.assertRegex(said.stderr.splitlines()[-1], r"^ImportError: .*libgpmf\.so is not the library of this module: run \./gpmf lib")


class Interpreter(unittest.TestCase):
    def test_its_functions_are_as_they_were_for_other_modules(self):
        names = "PyObject_GetBuffer", "PyBuffer_Release"
        asked = f"[(f.argtypes, f.restype) for f in map(lambda name: getattr(ctypes.pythonapi, name), {names})]"
        said = run(MODULE.parent, LIBRARY, "-c", f"import ctypes; before = {asked}; import gpmf; gpmf.rows(b''); print({asked} == before, before)")
        self.assertEqual((said.stdout, said.stderr), (f"True {[(None, ctypes.c_int)] * 2}\n", ""))


class Usage(unittest.TestCase):
    def test_the_module_does_what_its_usage_says(self):
        before = os.getcwd()
        self.addCleanup(os.chdir, before)
        os.chdir(ROOT)
        result = doctest.testmod(gpmf)
        self.assertEqual(result.failed, 0)
        self.assertGreaterEqual(result.attempted, 2)

    def test_the_code_on_the_page_runs(self):
        (code,) = re.findall(r"^```python\n(.*?)^```$", (MODULE.parent.parent / "README.md").read_text(), re.M | re.S)
        said = run(MODULE.parent, LIBRARY, "-c", f"import os; os.chdir({str(SAMPLES)!r})\n{code}")
        counts = re.findall(r"^rows (\d+)", stored("take.take"), re.M)
        wet = [list(map(list, zip(*columns[:3]))) for columns in seconds().values()]
        self.assertEqual(said.stdout.splitlines(), [line for count, rows in zip(counts, wet) for line in (f"{count} rows", str(rows))], said.stderr)

    def test_the_example_prints_the_stored_tables(self):
        for name in "take", "damaged":
            with self.subTest(name):
                said = run(MODULE.parent, LIBRARY, "mixer.py", str(SAMPLES / f"{name}.raw"))
                self.assertEqual((said.stdout, said.stderr, said.returncode), (stored(f"{name}.table"), "", 0))

    def test_the_example_prints_the_tables_of_the_hard_takes(self):
        """As the examples in C and Rust do, with the same takes."""
        with tempfile.TemporaryDirectory() as folder:
            subprocess.run(["sh", str(ROOT / "bindings" / "c" / "takes"), folder], check=True)
            tables = sorted(pathlib.Path(folder).glob("*.table"))
            self.assertEqual([table.stem for table in tables], ["extremes", "forms", "long_type"])
            for table in tables:
                with self.subTest(table.stem):
                    said = run(MODULE.parent, LIBRARY, "mixer.py", str(table.with_suffix(".raw")))
                    self.assertEqual((said.stdout, said.stderr, said.returncode), (table.read_text(), "", 0))

    def test_the_example_asks_for_each_value_once(self):
        """MWET, AALP and SCAL: an element by itself would go through a whole TYPE text, or through all texts."""
        for packet in gpmf.packets(raw("take")):
            with unittest.mock.patch.object(gpmf, "_call", wraps=gpmf._call) as call:
                self.assertEqual(mixer.line_of(packet), stored("take.table").splitlines()[packet.number])
            names = [each.args[0] for each in call.call_args_list]
            self.assertEqual((names.count("gpmf_elements_at"), names.count("gpmf_element")), (3, 0))

    def test_the_example_has_a_stroke_for_a_column_that_is_not_in_all_rows(self):
        def cells(wet, gain, scale):
            streams = [item("MWET", "c", 3, 2, wet), item("SCAL", "c", 2, 2, scale) + item("AALP", "c", 2, 2, gain)]
            (packet,) = gpmf.packets(b"DEVC\0\1\0\0" + b"".join(item("STRM", "\0", 1, len(each), each) for each in streams))
            return mixer.line_of(packet).split()[1:6]

        self.assertEqual(cells(b"abcabc", b"\2\4\4\x08", b"\1\2ab"), ["2/2", "2/2", "99.0", "3.0", "3.0"])
        self.assertEqual(cells(b"abcab\0", b"\2\4\4\0", b"\1\2ab"), ["2/2", "2/2", "-", "3.0", "-"])
        self.assertEqual(cells(b"ab\0abc", b"\2\0\4\4", b"\1\2ab"), ["-"] * 5)
        self.assertEqual(cells(b"abcabc", b"\2\4\4\x08", b"\1\0\0\0"), ["2/2", "2/2", "99.0", "3.0", "-"])
        self.assertEqual(cells(b"abcabc", b"\2\4\4\x08", b"\0\0\1\2"), ["2/2", "2/2", "99.0", "-", "-"])

    def test_the_example_says_how_it_is_used(self):
        said = run(MODULE.parent, LIBRARY, "mixer.py")
        self.assertEqual((said.stdout, said.stderr, said.returncode), ("", "usage: mixer.py FILE\n", 2))
        said = run(MODULE.parent, LIBRARY, "mixer.py", str(SAMPLES / "take.raw"), "more")
        self.assertEqual((said.stdout, said.stderr, said.returncode), ("", "usage: mixer.py FILE\n", 2))

    def test_the_example_says_which_file_it_cannot_read(self):
        for file in SAMPLES / "missing.raw", SAMPLES:
            said = run(MODULE.parent, LIBRARY, "mixer.py", str(file))
            self.assertEqual((said.stdout, said.stderr.startswith(f"mixer.py: {file}: "), said.stderr.count("\n"), said.returncode), ("", True, 1, 2))


if __name__ == "__main__":
    unittest.main()
