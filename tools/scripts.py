"""Programs in Python without an ending, as modules, and the files of a repository."""
import importlib.machinery
import importlib.util
import os
import subprocess


def load(name, path):
    """A program in Python, as a module."""
    loader = importlib.machinery.SourceFileLoader(name, path)
    module = importlib.util.module_from_spec(importlib.util.spec_from_loader(name, loader))
    loader.exec_module(module)
    return module


def tracked(root):
    """The paths of a repository, as git has them, and those that are new."""
    words = ["git", "ls-files", "-z", "--cached", "--others", "--exclude-standard"]
    named = subprocess.run(words, cwd=root, capture_output=True, text=True, check=True).stdout
    return [path for path in named.split("\0") if path and os.path.isfile(f"{root}/{path}")]
