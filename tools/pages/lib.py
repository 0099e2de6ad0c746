"""lib.py: the modules of tools/lib, as programs of this folder import them: `from lib import wire`."""

import os

__path__ = [os.path.join(os.path.dirname(os.path.abspath(__file__)), "../lib")]
