"""The examples of every docstring, run; and that every public function and class has a docstring, functions with an example."""
import doctest
import importlib
import inspect
import io
import os
import pkgutil
import re
import subprocess
import unittest

import cases  # noqa: F401  puts the module on the path

import chordvenus
from chordvenus import _library as lib
from chordvenus import tables

PUBLIC = {name: getattr(chordvenus, name) for name in chordvenus.__all__}
WANTS = {  # the examples that take a call which an older library does not have
    "least": "cv_grating_least",
    "move": "cv_to_second",
    "rescue": "cv_rescue",
    "shop": "cv_shop",
}


def modules():
    yield chordvenus
    for found in pkgutil.iter_modules(chordvenus.__path__, "chordvenus."):
        if not found.name.endswith("__main__"):
            yield importlib.import_module(found.name)


def left_out(test):
    """The call that an example needs and the library does not have, or None."""
    wanted = "cv_shop" if ".Schedule" in test.name else WANTS.get(test.name.rsplit(".", 1)[-1])
    if wanted is None or lib.has(wanted):
        return None
    return wanted


class Examples(unittest.TestCase):
    def test_examples(self):
        ran = 0
        for module in modules():
            globs = {**vars(module), **PUBLIC}
            for test in doctest.DocTestFinder().find(module, globs=globs):
                wanted = left_out(test)
                if wanted is not None:
                    print(f"left out: the example of {test.name}, until the library has {wanted}")
                    continue
                text = io.StringIO()
                result = doctest.DocTestRunner(optionflags=doctest.NORMALIZE_WHITESPACE).run(test, out=text.write)
                self.assertEqual(result.failed, 0, text.getvalue())
                ran += result.attempted
        print(f"{ran} lines of examples ran")
        self.assertGreater(ran, 60)

    def test_documented(self):
        for name, thing in PUBLIC.items():
            if inspect.isfunction(thing):
                self.assertIn(">>>", thing.__doc__ or "", f"{name} has no example")
                self.assertNotIn(inspect.Parameter.empty, [p.annotation for p in inspect.signature(thing).parameters.values()], name)
                self.assertIn("return", thing.__annotations__, f"{name} does not say what it gives")
            elif inspect.isclass(thing):
                self.assertTrue(thing.__doc__, f"{name} has no docstring")
                for part, method in vars(thing).items():
                    method = getattr(method, "__func__", method)
                    if not part.startswith("_") and inspect.isfunction(method):
                        self.assertIn(">>>", method.__doc__ or "", f"{name}.{part} has no example")

    def test_every_function_is_hinted(self):
        for module in modules():
            for name, thing in vars(module).items():
                if inspect.isfunction(thing) and thing.__module__ == module.__name__:
                    self.assertIn("return", thing.__annotations__, f"{module.__name__}.{name}")
                    self.assertTrue(thing.__doc__ or name.startswith("_"), f"{module.__name__}.{name} has no docstring")

    def test_readme(self):
        """The README's and the page's lines of Python, run as they stand."""
        for page in ("README.md", "docs/PYTHON.md"):
            text = (cases.ROOT / page).read_text(encoding="utf-8")
            pieces = re.findall(r"^```python\n(.*?)^```", text, re.DOTALL | re.MULTILINE)
            self.assertTrue(pieces, page)
            for piece in pieces:
                exec(compile(piece, page, "exec"), {"print": lambda *words: None})

    def test_shown(self):
        """What the page shows of the command is what it prints."""
        text = (cases.ROOT / "docs" / "PYTHON.md").read_text(encoding="utf-8")
        shown = re.findall(r"^\$ (.*)\n((?:(?!\$ |```).*\n)*)", text, re.MULTILINE)
        self.assertGreaterEqual(len(shown), 2)
        folder = os.path.join(cases.ROOT, "python", "bin")
        path = {**os.environ, "PATH": os.pathsep.join([folder, os.environ["PATH"]])}
        for words, due in shown:
            if "compare" in words and not lib.has("cv_grating_quiet"):
                continue
            ran = subprocess.run(["bash", "-c", words], cwd=cases.ROOT, env=path, stdout=subprocess.PIPE, stderr=subprocess.STDOUT, text=True)
            self.assertEqual(ran.stdout, due, words)

    def test_readme_table(self):
        """The README's plan is what its first command prints."""
        text = (cases.ROOT / "README.md").read_text(encoding="utf-8")
        self.assertIn(f"```\n{tables.plan_table(chordvenus.plan(chordvenus.read_wishes(str(cases.ROOT / 'examples' / 'batch.txt'))))}```", text)
        self.assertIn(f"```\n{tables.lines(chordvenus.plan(chordvenus.read_wishes(str(cases.ROOT / 'examples' / 'batch.txt'))))}```", text)


if __name__ == "__main__":
    unittest.main()
