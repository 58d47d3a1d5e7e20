"""What is made while the package is installed lies in a folder of its own, so that nothing of it stays beside the sources."""

import atexit
import shutil
import tempfile

from setuptools import setup

room = tempfile.mkdtemp(prefix="stilfloor-")
atexit.register(shutil.rmtree, room, ignore_errors=True)
setup(options={"build": {"build_base": room}, "egg_info": {"egg_base": room}})
