"""Python loads this module before the script, where `dk_python` has put its folder into PYTHONPATH. It begins to trace, takes all traces of
itself away, and loads the module of this name that Python would have found without it."""

from __future__ import annotations

import os
import sys


def take_settings() -> dict:
    """The command's settings, which are taken out of the environment, as this folder is taken out of the path."""
    import marshal

    folder = os.path.dirname(os.path.abspath(__file__))
    settings = marshal.loads(bytes.fromhex(os.environ.pop("DK_PYTHON_SETTINGS")))
    if settings["path"] is None:
        del os.environ["PYTHONPATH"]
    else:
        os.environ["PYTHONPATH"] = settings["path"]
    sys.path[:] = [entry for entry in sys.path if entry != folder]
    sys.path_importer_cache.pop(folder, None)
    settings["python"] = sys.executable
    return settings


def begin() -> None:
    """Begins to trace. The tracer's modules keep no name by which the program could find them."""
    settings = take_settings()
    folder = os.path.dirname(os.path.dirname(os.path.abspath(__file__)))
    folders = [folder, os.path.dirname(folder)]
    before = sys.path[:]
    sys.path[:0] = folders
    try:
        import tracing

        tracer = tracing.Tracer(settings)
    finally:
        sys.path[:] = before
        for entry in folders:
            sys.path_importer_cache.pop(entry, None)
    for name in ("tracing", "looking", "spool", "source", "relations", "sitecustomize"):
        sys.modules.pop(name, None)
    tracer.start()


try:
    begin()
except Exception as problem:
    os.write(2, ("dk_python: tracing could not begin: %s: %s\n" % (type(problem).__name__, problem)).encode())
    os._exit(70)

import sitecustomize  # noqa: E402, F401
