"""The sandbox of a library: its limits, and what its user has to read."""
import shutil
from pathlib import Path

from openlink_update import COMMANDS
from openlink_update.fetch.fetch_folder import FETCH
from openlink_update.input_files import InputFolder
from openlink_update.places import PROVIDERS
from openlink_update.rights import sandbox
from openlink_update.rights.limits import Limits
from openlink_update.rights.sandbox import Sandbox
from openlink_update.site.front_door import Site
from openlink_update.update_options import Options
from openlink_update.versions.library import Library


def sandbox_of(options: Options, library: Library, site: Site, folder: Path) -> Sandbox:
    """That of a library with an input in a folder."""
    limits = Limits(
        options.minutes * 60,
        options.memory * 2**20,
        site.most_disk,
        (library.path("versions"), folder, InputFolder(folder).beside(FETCH)),
        f"$openlink_disk in {site.path}",
    )
    program = Path(shutil.which(options.program) or options.program)
    return sandbox.of(
        options.among or options.library,
        library.folder,
        limits,
        [library.folder, COMMANDS, PROVIDERS, program, *site.files()],
    )
