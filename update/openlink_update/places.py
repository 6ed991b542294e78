"""Where the front door and the rules that ship are: in the folders `nginx` and `providers` beside the commands as they
are installed, and in `front_door` and `examples/providers` of the repository."""
from openlink_update import COMMANDS

_INSTALLED = COMMANDS / "nginx"
FRONT_DOOR = _INSTALLED if _INSTALLED.is_dir() else COMMANDS.parent / "front_door"
_RULES = COMMANDS / "providers"
PROVIDERS = _RULES if _RULES.is_dir() else COMMANDS.parent / "examples" / "providers"
