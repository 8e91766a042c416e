"""A small tree of files in a temporary folder, for tests of the scripts."""
import os
import subprocess
import tempfile
import unittest

ROOT = os.path.dirname(os.path.dirname(os.path.abspath(__file__)))


class Tree(unittest.TestCase):
    """A temporary folder with files in it."""

    def setUp(self):
        folder = tempfile.TemporaryDirectory()
        self.addCleanup(folder.cleanup)
        self.root = folder.name

    def write(self, path, text, mode=0o644):
        path = os.path.join(self.root, path)
        os.makedirs(os.path.dirname(path), exist_ok=True)
        with open(path, "w", encoding="utf-8") as file:
            file.write(text)
        os.chmod(path, mode)

    def copy_script(self, name):
        with open(os.path.join(ROOT, "scripts", name), encoding="utf-8") as file:
            self.write(f"scripts/{name}", file.read(), 0o755)

    def run_script(self, *words, path=None):
        environment = dict(os.environ, PATH=path or os.environ["PATH"])
        ended = subprocess.run(words, capture_output=True, text=True, env=environment, check=False)
        return ended.returncode, ended.stdout + ended.stderr
