"""The module's declarations are those of include/gpmf.h, each of its functions can be called, and the refusals mean what README.md says."""
import ast
import ctypes
import inspect
import re
import unittest

import gpmf
from samples import ROOT

HEADER = re.sub(r"/\*.*?\*/", "", (ROOT / "include" / "gpmf.h").read_text(), flags=re.S)
SOURCE = ROOT / "bindings" / "python" / "gpmf.py"
PLAIN = {
    "bool": ctypes.c_bool, "float": ctypes.c_float, "double": ctypes.c_double, "size_t": ctypes.c_size_t,
    **{f"{sign}int{bits}_t": getattr(ctypes, f"c_{sign}int{bits}") for sign in ("", "u") for bits in (8, 16, 32, 64)},
}


def c_type(text):
    """The ctypes type of a C type."""
    return ctypes.c_void_p if "*" in text or "[" in text else PLAIN.get(text) or getattr(gpmf, text)


def structs():
    """Of each struct its fields: name and type, with an array's length."""
    found = {}
    for name, body in re.findall(r"typedef struct (\w+) \{(.*?)\}", HEADER, re.S):
        fields = re.findall(r"(\w+) (\w+)(?:\[(\d+)\])?;", body)
        found[name] = [(field, c_type(kind) * int(length) if length else c_type(kind)) for kind, field, length in fields]
    return found


def functions():
    """Of each function the type of its answer, then those of its arguments."""
    found = {}
    for answer, name, arguments in re.findall(r"^(\w+) (gpmf_\w+)\(([^;]*)\);", HEADER, re.M):
        typed = [re.fullmatch(r"(?:const )?(\w+ \*?)(\w+)(\[\d+\])?", " ".join(each.split())).group(1, 3) for each in arguments.split(",")]
        found[name] = (c_type(answer), *(c_type(kind.strip() + (length or "")) for kind, length in typed))
    return found


def defined(pattern):
    """The numbers that are defined under names like that."""
    return {name: int(number) for name, number in re.findall(rf"#define GPMF_({pattern}) (?:UINT32_C\()?(\d+)", HEADER)}


def public_functions():
    return {name: each for name, each in inspect.getmembers(gpmf, inspect.isfunction) if each.__module__ == "gpmf" and not name.startswith("_")}


def public_methods():
    kinds = gpmf.Reading, gpmf.Packet, gpmf.Take, gpmf.Refusal
    return [each for kind in kinds for name, each in inspect.getmembers(kind, inspect.isfunction) if name in vars(kind) and not name.startswith("_")]


class Declarations(unittest.TestCase):
    def test_the_parts_of_the_header_are_found(self):
        self.assertEqual(len(structs()), HEADER.count("typedef struct"))
        self.assertEqual(len(functions()), len(set(re.findall(r"\b(gpmf_\w+)\(", HEADER))))
        self.assertGreater(len(functions()), 60)

    def test_structs(self):
        mirrored = {name: each for name, each in vars(gpmf).items() if name.startswith("gpmf_")}
        self.assertEqual({name: list(each._fields_) for name, each in mirrored.items()}, structs())

    def test_functions(self):
        self.assertEqual(gpmf._CALLS, functions())
        for name, (answer, *arguments) in functions().items():
            with self.subTest(name):
                function = getattr(gpmf._C, name)
                self.assertEqual((function.restype, *function.argtypes), (answer, *arguments))

    def test_numbers(self):
        limits = defined("MOST_BYTES|MOST_ROWS|ROW_WIDTH|NO_TYPE|REFUSED|IS|NOTHING|MORE|GROUP_CALLER|GROUP_BY_KEY")
        self.assertEqual(limits, {name: getattr(gpmf, name) for name in limits})
        self.assertEqual(len(limits), 10)
        self.assertEqual(gpmf.FULL, ctypes.c_size_t(-1).value)
        self.assertEqual({name[6:]: number for name, number in defined(r"VALUE_\w+").items()}, dict(gpmf.Kind.__members__))
        self.assertEqual({name[4:]: number for name, number in defined(r"TAG_\w+").items()}, dict(gpmf.Tag.__members__))
        forms = defined("SIGNED|UNSIGNED|SINGLE|DOUBLE")
        self.assertEqual({name.lower() + "_value": number for name, number in forms.items()}, {form: at for at, form in enumerate(gpmf._FORMS)})

    def test_meanings(self):
        table = re.findall(r"^\| (\d+) \| (.*) \|$", (ROOT / "README.md").read_text(), re.M)
        self.assertEqual(gpmf.MEANINGS, {int(number): meaning for number, meaning in table})
        self.assertEqual(list(gpmf.MEANINGS), list(range(1, 14)))


class Face(unittest.TestCase):
    def test_each_function_of_the_library_is_called_by_a_public_one(self):
        called = set()
        for name, function in public_functions().items():
            called |= set(re.findall(r"\bgpmf_\w+(?=[\"(])", inspect.getsource(function)))
        self.assertEqual(set(functions()) - called, set())

    def test_each_public_function_has_hints_and_says_what_it_does(self):
        for function in [*public_functions().values(), *public_methods()]:
            with self.subTest(function.__qualname__):
                hints = inspect.signature(function)
                self.assertTrue(function.__doc__)
                self.assertIsNot(hints.return_annotation, inspect.Signature.empty)
                self.assertTrue(all(name == "self" or each.annotation is not each.empty for name, each in hints.parameters.items()))

    def test_the_module_is_python_3_9(self):
        for file in SOURCE, SOURCE.with_name("mixer.py"):
            self.assertTrue(ast.parse(file.read_text(), feature_version=(3, 9)).body)


class AsAnException(unittest.TestCase):
    def test_a_refusal_says_what_it_means(self):
        refusal = gpmf.Refusal(2, 984)
        self.assertEqual(str(refusal), "refused with 2 at 984: an item's payload runs past the end of its level (for a value read: of the payload given)")
        self.assertEqual((refusal.number, refusal.place, refusal.meaning), (2, 984, gpmf.MEANINGS[2]))
        self.assertIn("does not know", gpmf.Refusal(99, 0).meaning)
        self.assertIsInstance(refusal, Exception)


if __name__ == "__main__":
    unittest.main()
