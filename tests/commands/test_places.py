"""What `compile` and `upgrade` find at the path that they write, and beside it: what they replace, what they refuse,
and what a failure leaves."""
import os
import resource
import signal
import stat

from fixtures.assembler import LIST_FILE
from fixtures.program import ProgramCase
from fixtures.system_calls import RENAME, SET_MODE, STORE, without

# A command without its last argument, the path that it writes; the number of bytes written there; and the first of
# them.
COMMANDS = [(["compile", "a.rules"], 127, b"OLK1"), (["upgrade", "a.olk"], 68, b"OLK2")]


def write_sources(program):
    program.write("a.rules", "rule\nlink http://e.org/{rft.issn}\n")
    program.write("a.olk", LIST_FILE)


def kind_of(path):
    """What is at a path: its kind, its device number, its inode, and where it leads if it is a link."""
    found = os.lstat(path)
    return found.st_mode, found.st_rdev, found.st_ino, os.readlink(path) if os.path.islink(path) else None


def mode_of(program, name):
    return stat.S_IMODE(os.lstat(f"{program.folder}/{name}").st_mode)


def places(program, command, name, size, first):
    """The command leaves its file at the path, a regular file, and nothing beside it."""
    program.prints(command + [name], f"{size} bytes")
    path = os.path.join(program.folder, name)
    program.expect(f"{name} is a regular file", os.path.isfile(path) and not os.path.islink(path))
    content = program.read(name) or b""
    program.expect(f"the file {name}", (len(content), content[:4]), (size, first))
    program.expect(f"{name}.new exists", program.has(f"{name}.new"), False)


def add_device(program):
    """The path of a device. That of the system is used only where a faulty program could not replace it."""
    if not os.access("/dev", os.W_OK):
        return "/dev/null"
    os.mknod(f"{program.folder}/device", stat.S_IFCHR | 0o666, os.makedev(1, 3))
    return "device"


# A symbolic link, and where it leads: to a folder, a file, another link, nothing, itself, an open file.
LINKS = [
    ("to_folder", "folder"),
    ("to_file", "kept"),
    ("to_link", "to_file"),
    ("to_none", "none"),
    ("to_itself", "to_itself"),
    ("to_output", "/proc/self/fd/1"),
]


def with_room(room, handler):
    """How to run the program where no file may have more than `room` bytes, as on a full disk."""

    def limit():
        signal.signal(signal.SIGXFSZ, handler)
        resource.setrlimit(resource.RLIMIT_FSIZE, (room, room))

    return {"preexec_fn": limit}


class Places(ProgramCase):
    def test_no_regular_file(self):
        """A folder, a FIFO, a device, and any symbolic link, are refused and stay."""
        write_sources(self.program)
        self.program.write("kept", "what was there")
        os.mkdir(f"{self.program.folder}/folder")
        os.mkfifo(f"{self.program.folder}/fifo")
        device = add_device(self.program)
        for name, target in LINKS + [("to_device", device)]:
            os.symlink(target, f"{self.program.folder}/{name}")
        links = [name for name, _ in LINKS]
        for command, _, _ in COMMANDS:
            for name in ["folder", "fifo", device, *links, "to_device", ".", "/proc/self/cwd"]:
                path = os.path.join(self.program.folder, name)
                before = kind_of(path)
                self.program.fails(command + [name], 4, f"device: {name}")
                self.program.expect(f"what is at {name}", kind_of(path), before)
                self.program.expect(f"{name}.new exists", os.path.lexists(f"{path}.new"), False)

    def test_links_among_the_folders(self):
        """They are followed."""
        write_sources(self.program)
        os.mkdir(f"{self.program.folder}/folder")
        os.symlink("folder", f"{self.program.folder}/to_folder")
        os.symlink("to_folder", f"{self.program.folder}/to_link")
        for command, size, first in COMMANDS:
            for _ in "a new file", "a file that is replaced":
                places(self.program, command, "to_link/code", size, first)
            self.program.expect("the file in the folder", len(self.program.read("folder/code") or b""), size)
            os.remove(f"{self.program.folder}/folder/code")

    def test_modes(self):
        """A file that is replaced keeps its mode. A new file has that of any other new file."""
        write_sources(self.program)
        for command, size, first in COMMANDS:
            for mode in 0o600, 0o640, 0o444, 0o755, 0o000:
                self.program.write("code", "the old file")
                os.chmod(f"{self.program.folder}/code", mode)
                self.program.prints(command + ["code"], f"{size} bytes")
                self.program.expect(f"the mode {mode:o}", mode_of(self.program, "code"), mode)
                os.remove(f"{self.program.folder}/code")
            for mask, mode in (0o027, 0o640), (0o000, 0o666):
                given = self.program.run(command + ["code"], preexec_fn=lambda: os.umask(mask))
                self.program.expect("a new file", given, (0, f"{size} bytes\n".encode(), b""))
                self.program.expect(f"its mode with the mask {mask:o}", mode_of(self.program, "code"), mode)
                os.remove(f"{self.program.folder}/code")

    def test_a_mode_that_is_not_set(self):
        """The old file stays, with its mode, and the new one is removed."""
        write_sources(self.program)
        for command, size, _ in COMMANDS:
            self.program.write("code", "the old file")
            os.chmod(f"{self.program.folder}/code", 0o640)
            given = self.program.run(command + ["code"], **without(SET_MODE))
            self.program.expect(f"{command} without setting modes", given, (4, b"", b"openlink: device: code\n"))
            self.program.expect(
                "code", (self.program.read("code"), mode_of(self.program, "code")), (b"the old file", 0o640)
            )
            self.program.expect("code.new is there", self.program.has("code.new"), False)
            given = self.program.run(command + ["none"], **without(SET_MODE))
            self.program.expect("a new file needs no such call", given, (0, f"{size} bytes\n".encode(), b""))
            os.remove(f"{self.program.folder}/none")

    def test_a_file_beside_the_path(self):
        """Whatever is at PATH.new is refused and stays, and so does the file at PATH."""
        write_sources(self.program)
        for command, size, first in COMMANDS:
            self.program.write("code", "the old file")
            self.program.write("code.new", "another's")
            self.program.fails(command + ["code"], 4, "device: code")
            self.program.expect("code.new", self.program.read("code.new"), b"another's")
            os.remove(f"{self.program.folder}/code.new")
            os.symlink("none", f"{self.program.folder}/code.new")
            self.program.fails(command + ["code"], 4, "device: code")
            self.program.expect("code.new leads to none", os.readlink(f"{self.program.folder}/code.new"), "none")
            self.program.expect("code", self.program.read("code"), b"the old file")
            os.remove(f"{self.program.folder}/code.new")
            places(self.program, command, "code", size, first)

    def test_a_full_disk(self):
        """The old file stays, or there is none, and nothing is left beside it."""
        write_sources(self.program)
        for command, size, first in COMMANDS:
            self.program.write("code", "the old file")
            for room in 0, 1, size - 1:
                for name, content in ("code", b"the old file"), ("none", None):
                    given = self.program.run(command + [name], **with_room(room, signal.SIG_IGN))
                    fault = f"openlink: device: {name}\n".encode()
                    self.program.expect(f"{command} {name}, {room} bytes", given, (4, b"", fault))
                    self.program.expect(f"the file {name}", self.program.read(name), content)
                    self.program.expect(f"{name}.new exists", self.program.has(f"{name}.new"), False)
            given = self.program.run(command + ["code"], **with_room(size, signal.SIG_IGN))
            self.program.expect(f"{command}, {size} bytes", given, (0, f"{size} bytes\n".encode(), b""))
            self.program.expect("the first bytes", self.program.read("code")[:4], first)

    def test_a_file_that_is_not_stored(self):
        """The new file is stored before it is renamed: if that fails, the old file stays."""
        write_sources(self.program)
        for command, _, _ in COMMANDS:
            self.program.write("code", "the old file")
            given = self.program.run(command + ["code"], **without(STORE))
            self.program.expect(f"{command} without storing", given, (4, b"", b"openlink: device: code\n"))
            self.program.expect("code", self.program.read("code"), b"the old file")
            self.program.expect("code.new is there", self.program.has("code.new"), False)

    def test_a_file_that_is_not_renamed(self):
        """The old file stays, and the new one is removed."""
        write_sources(self.program)
        for command, _, _ in COMMANDS:
            self.program.write("code", "the old file")
            for name, content in ("code", b"the old file"), ("none", None):
                given = self.program.run(command + [name], **without(RENAME))
                self.program.expect(
                    f"{command} without renaming", given, (4, b"", f"openlink: device: {name}\n".encode())
                )
                self.program.expect(f"the file {name}", self.program.read(name), content)
                self.program.expect(f"{name}.new exists", self.program.has(f"{name}.new"), False)

    def test_a_command_that_is_killed(self):
        """It leaves the old file, and its part of the new one beside it, which has to be removed by hand. The part has
        the mode of the old file, so that nobody else can read it."""
        write_sources(self.program)
        for command, size, first in COMMANDS:
            self.program.write("code", "the old file")
            os.chmod(f"{self.program.folder}/code", 0o600)
            status = self.program.run(command + ["code"], **with_room(16, signal.SIG_DFL))[0]
            self.program.expect("how it ends", status, -signal.SIGXFSZ)
            self.program.expect("the part of the new file", (self.program.read("code.new") or b"")[:4], first)
            self.program.expect("its mode", mode_of(self.program, "code.new"), 0o600)
            self.program.expect("code", self.program.read("code"), b"the old file")
            self.program.fails(command + ["code"], 4, "device: code")
            os.remove(f"{self.program.folder}/code.new")
            places(self.program, command, "code", size, first)

    def test_no_such_folder(self):
        """Nothing is made if the folder of the path does not exist, or the path names no file in it."""
        write_sources(self.program)
        self.program.write("file", "no folder")
        for command, _, _ in COMMANDS:
            for name in "none/code", "file/code", "", "/":
                self.program.fails(command + [name], 4, f"device: {name}")
        self.program.expect("the file", self.program.read("file"), b"no folder")
        self.program.expect(".new exists", self.program.has(".new"), False)
