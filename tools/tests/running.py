"""How the tests run a tool: in a folder of their own, by its words."""
import contextlib
import importlib.machinery
import importlib.util
import io
import os
import sys
import tempfile
import unittest
from unittest import mock

TESTS = os.path.dirname(os.path.abspath(__file__))
TOOLS = os.path.dirname(TESTS)
TOP = os.path.dirname(TOOLS)
NETWORK = os.path.join(TOP, "examples", "network")
REPORT = os.path.join(TESTS, "network.report")
LOADED = {}


class ToolTest(unittest.TestCase):
    """A test with a folder that goes when it ends."""

    def setUp(self):
        folder = tempfile.TemporaryDirectory()
        self.addCleanup(folder.cleanup)
        self.folder = folder.name

    def path(self, *names):
        """A path in the test's folder."""
        return os.path.join(self.folder, *names)

    def write(self, name, contents):
        """Writes a file of the test's folder from bytes or text, and answers its path."""
        path = self.path(name)
        os.makedirs(os.path.dirname(path), exist_ok=True)
        with open(path, "wb") as file:
            file.write(contents.encode() if isinstance(contents, str) else contents)
        return path

    def read(self, *names):
        """The bytes of a file of the test's folder."""
        with open(self.path(*names), "rb") as file:
            return file.read()

    def run_tool(self, tool, *words, folder=None):
        """The status, the output and the error text of a tool; paths of the test's folder are cut down to names in both texts."""
        out, error = io.StringIO(), io.StringIO()
        before = os.getcwd()
        os.chdir(folder or self.folder)
        try:
            with mock.patch.object(sys, "argv", [tool, *words]):
                with contextlib.redirect_stdout(out), contextlib.redirect_stderr(error):
                    status = load(tool).main()
        finally:
            os.chdir(before)
        return status, *(stream.getvalue().replace(self.folder + "/", "") for stream in (out, error))


def load(tool):
    """The module that a tool is."""
    path = os.path.join(TOOLS, tool)
    if tool not in LOADED:
        if TOOLS not in sys.path:
            sys.path.insert(0, TOOLS)
        loader = importlib.machinery.SourceFileLoader(tool, path)
        LOADED[tool] = importlib.util.module_from_spec(importlib.util.spec_from_loader(tool, loader))
        loader.exec_module(LOADED[tool])
    return LOADED[tool]


def report_lines():
    """The lines of the example's report."""
    with open(REPORT) as file:
        return file.read().splitlines()
