"""`python3 -m tmm COMMAND ..`: what stands around the program, each command in a module of its own."""

import sys
from importlib import import_module
from typing import Dict, List, Tuple

# Each command: its module, which has `main(words) -> exit status`, and what it does.
COMMANDS: Dict[str, Tuple[str, str]] = {
    "picture": ("tmm.picture", "draw what a script leaves believed"),
    "json": ("tmm.json_lines", "write replies as JSON lines"),
    "network": ("tmm.network", "write the constraints of a script as DOT"),
    "workbench": ("tmm.workbench", "serve a page to edit a script on"),
}


def usage() -> str:
    """What may be given."""
    lines = [f"  {name:<10} {does}" for name, (_, does) in COMMANDS.items()]
    return "\n".join(["usage: python3 -m tmm COMMAND ..", *lines, "Each tells more by -h."])


def main(words: List[str]) -> int:
    """Runs the command that the first word names, and gives its exit status; 2 where there is none."""
    if words and words[0] in COMMANDS:
        module = import_module(COMMANDS[words[0]][0])
        status: int = module.main(words[1:])
        return status
    if words and words[0] in ("-h", "--help"):
        print(usage())
        return 0
    print(usage(), file=sys.stderr)
    return 2


if __name__ == "__main__":
    sys.exit(main(sys.argv[1:]))
