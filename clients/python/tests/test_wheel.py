"""What pip installs, which clients/python/packaging makes."""

from __future__ import annotations

import pathlib
import subprocess
import sys
import tempfile
import unittest
import zipfile

FOLDER = pathlib.Path(__file__).resolve().parents[1]
MAKE = "import sys, wheels; print(wheels.build_wheel(sys.argv[1]))"


class WheelTest(unittest.TestCase):
    def test_a_wheel_has_the_package(self) -> None:
        with tempfile.TemporaryDirectory() as folder:
            words = [sys.executable, "-B", "-c", MAKE, folder]
            made = subprocess.run(words, cwd=FOLDER / "packaging", capture_output=True, text=True, check=True)
            path = pathlib.Path(folder) / made.stdout.strip()
            with zipfile.ZipFile(path) as wheel:
                names = set(wheel.namelist())
            package = {f"ccnode/{path.name}" for path in (FOLDER / "src/ccnode").glob("*.py")} | {"ccnode/py.typed"}
            self.assertEqual({name for name in names if name.startswith("ccnode/")}, package)
            imported = "import ccnode; print(ccnode.__file__, callable(ccnode.connect))"
            words = [sys.executable, "-I", "-c", f"import sys; sys.path.insert(0, {str(path)!r}); {imported}"]
            ran = subprocess.run(words, capture_output=True, text=True, check=True)
            self.assertEqual(ran.stdout.split(), [f"{path}/ccnode/__init__.py", "True"])

    def test_the_wheel_has_the_version_of_the_project(self) -> None:
        project = (FOLDER / "pyproject.toml").read_text()
        backend = (FOLDER / "packaging/wheels.py").read_text()
        version = project.split('version = "')[1].split('"')[0]
        self.assertIn(f'VERSION = "ccnode", "{version}"', backend)


if __name__ == "__main__":
    unittest.main()
