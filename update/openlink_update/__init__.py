"""The weekly update of a library: fetches and prepares tables, makes versions, and puts them in use."""
from pathlib import Path

COMMANDS = Path(__file__).resolve().parent.parent  # the folder of the commands
