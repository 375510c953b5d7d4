"""Where the tools of the repository are. Once this is imported, so can be the modules of tools/: `run` does it first."""

import os
import sys

ROOT = os.path.dirname(os.path.dirname(os.path.dirname(os.path.dirname(os.path.abspath(__file__)))))
TOOLS = os.path.join(ROOT, "tools")


def tool(name):
    return os.path.join(TOOLS, name)


sys.path.append(TOOLS)
