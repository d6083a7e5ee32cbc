"""A test that the package installs without a network, with all its files and commands."""
import os
import shutil
import subprocess
import sys
import tempfile
import unittest

from serving import TOP

PYTHONS = (sys.executable, "/usr/bin/python3")
COMMANDS = ("watch", "from-hadoop", "exporter", "simulate", "cluster")


def can_install(python):
    """Whether it has pip, and what makes a wheel: setuptools, and `wheel` where setuptools leaves that to it."""
    makes = (
        "import setuptools; from importlib.util import find_spec as finds; "
        "assert finds('pip') and (finds('wheel') or int(setuptools.__version__.split('.')[0]) > 70)"
    )
    how = {"stderr": subprocess.DEVNULL, "timeout": 60}
    return os.path.exists(python) and not subprocess.run([python, "-c", makes], **how).returncode


class Install(unittest.TestCase):
    def test_it_installs_without_a_network(self):
        python = next((it for it in PYTHONS if can_install(it)), None)
        if not python:
            self.skipTest(f"left out: none of {', '.join(PYTHONS)} has pip, setuptools and wheel")
        with tempfile.TemporaryDirectory() as folder:
            leave_out = shutil.ignore_patterns("build", "*.egg-info", "__pycache__")
            shutil.copytree(f"{TOP}/clients/python", f"{folder}/source", ignore=leave_out)
            words = [python, "-m", "pip", "install", "--no-index", "--no-build-isolation", "--target"]
            words += [f"{folder}/into", f"{folder}/source"]
            made = subprocess.run(words, capture_output=True, text=True, timeout=120)
            self.assertEqual(made.returncode, 0, made.stderr)
            self.assertTrue(os.path.exists(f"{folder}/into/capsched/py.typed"))
            for name in COMMANDS:
                self.check_command(f"{folder}/into", f"capsched-{name}")

    def check_command(self, into, name):
        """It says how it is used, which also reads the files that stand beside the modules."""
        words, within = [f"{into}/bin/{name}", "--help"], {**os.environ, "PYTHONPATH": into}
        ran = subprocess.run(words, env=within, capture_output=True, text=True, timeout=60)
        self.assertEqual((ran.returncode, ran.stderr), (0, ""))
        self.assertIn(f"usage: {name} ", ran.stdout)


if __name__ == "__main__":
    unittest.main()
