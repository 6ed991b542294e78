"""The library's machine: its folders, the processes under a supervisor, nginx with the front door, the providers'
server, the logs, and runs of update/fetch, update/update, update/desk and update/counts on it."""
import json, os, shutil, signal, subprocess, tempfile, threading
from fixtures import PYTHON
from fixtures.needs import DEBIANS, PROGRAM
from fixtures.library import HERE as FIXTURES, FrontDoor, Library
from fixtures.patience import patience, wait_until
from fixtures.providers import HOSTS, Providers, sign
from links import FULL, LOAN, LOANS

HERE = os.path.dirname(os.path.abspath(__file__))
REPLIES = {
    "401": "return 401",
    "403": "return 403",
    "404": "return 404",
    "500": "return 500",
    "204": "return 204",
    "503": "add_header Retry-After 3600 always; return 503",
    "to-http": "return 302 http://{plain}$uri",
    "loop": "return 302 /loop",
    "login": "rewrite ^ /login last",
    "cut": "rewrite ^ /raw/cut last",
    "cut-pieces": "rewrite ^ /raw/cut-pieces last",
    "drip": "rewrite ^ /raw/drip last",
    "large": "rewrite ^ /raw/large last",
}
SERVER = """    server {{
{listens}        ssl_certificate {folder}/{name}.pem;
        ssl_certificate_key {folder}/{name}.key;
        location = /loop {{ return 302 /loop; }}
        location = /login {{ default_type text/html; return 200 "<!DOCTYPE html>\\n<title>Sign in</title>\\n"; }}
        location /raw/ {{
            proxy_pass http://127.0.0.1:{raw};
            proxy_http_version 1.1;
            proxy_buffering off;
            proxy_read_timeout 600s;
        }}
        location / {{
{replies}        }}
    }}
"""
ROOM, INPUT_ROOM = "512m", "192m"  # of the disks
WITH_DESK = (DEBIANS, "-B")  # an interpreter with python3-jinja2
LOGS = ("openlink.log", "openlink-followed.log", "openlink-wanted.log")
ROTATED = 2  # older files of each log
FIRST = 120  # seconds for the first version
COUNTED = tuple(f"js_var $openlink_{name} " for name in ("followed", "log_wanted"))


def servers_of(providers):
    """What nginx serves of a provider: its file, or what a file in slips/ says. The last host has a server of its own,
    since its certificate expires."""
    folder, port = providers.folder, providers.year_port
    lines = "".join(
        f"            if (-f {folder}/files/slips$uri.{name}) {{ {action}; }}\n" for name, action in REPLIES.items()
    ).replace("{plain}", f"{HOSTS[0]}:{providers.plain}")
    return "".join(
        SERVER.format(
            folder=folder,
            name=name,
            raw=providers.raw.server_address[1],
            replies=lines,
            listens="".join(f"        listen {host}:{port} ssl;\n" for host in hosts),
        )
        for name, hosts in (("server", HOSTS[:-1]), ("own", HOSTS[-1:]))
    )


class Vendors(Providers):
    """The providers' server."""

    def __init__(self, free_port):
        self.year_port = free_port()
        super().__init__(b"", servers_of)

    def prepare(self):
        os.mkdir(self.path("files", "slips"))
        for ending in ("pem", "key"):
            shutil.copy(self.path(f"server.{ending}"), self.path(f"own.{ending}"))

    def address_of(self, provider):
        return f"https://{HOSTS[provider.host]}:{self.year_port}/{provider.file}"

    def deliver(self, provider, data, when):
        """The file that a provider sends from now on, with a date of its own."""
        self.write(provider.file, data)
        os.utime(self.path("files", provider.file), (when, when))

    def reply(self, provider, kind):
        if kind == "expired":
            self.certify(-1)
        else:
            open(self.path("files", "slips", f"{provider.file}.{kind}"), "w").close()

    def reply_well(self, provider, kind):
        if kind == "expired":
            self.certify(365)
        else:
            os.unlink(self.path("files", "slips", f"{provider.file}.{kind}"))

    def ports(self):
        return {
            self.year_port,
            self.port,
            self.second,
            self.plain,
            self.stranger,
            self.expired,
            self.raw.server_address[1],
        }

    def certify(self, days):
        """Gives the last host a certificate that is good for these days."""
        sign(self.folder, "own", days)
        before = children_of(self.nginx.pid)
        self.nginx.send_signal(signal.SIGHUP)
        wait_until(lambda: not children_of(self.nginx.pid) & before)


def children_of(pid):
    with open(f"/proc/{pid}/task/{pid}/children") as file:
        return set(file.read().split())


class Input:
    """The library's input folder."""

    def __init__(self, folder):
        self.folder, self.names = folder, []
        os.makedirs(folder)

    def path(self, name):
        return os.path.join(self.folder, name)

    def read(self, name):
        try:
            with open(self.path(name), "rb") as file:
                return file.read()
        except FileNotFoundError:
            return None

    def write(self, name, data):
        with open(self.path(name), "wb") as file:
            file.write(data if isinstance(data, bytes) else data.encode())


class Door(FrontDoor):
    def places(self):
        """With the desk of the library, which the update writes."""
        desk = ("/etc/openlink/desk/current", self.library.path("desk", "current"))
        return [desk if old == desk[0] else (old, new) for old, new in super().places()]

    def write_registry(self):
        """The update makes the registry, and the input has the targets.json that is in use from the first one on."""
        with open(self.path("openlink/targets.json"), "w") as file:
            file.write(self.library.names)

    def wait_for(self, port):
        """No process can run before there is a first version, which takes a while."""
        wait_until(lambda: os.path.lexists(self.library.path("current")), FIRST)
        super().wait_for(port)

    def write_configuration(self):
        super().write_configuration()
        with open(self.path("nginx.conf")) as file:
            text = file.read().replace("worker_processes 1;", "worker_processes 2;")
        with open(self.path("nginx.conf"), "w") as file:
            file.write(text)


def names_of(labels):
    """A targets.json that names these targets."""
    return json.dumps(
        {
            "groups": [{"name": FULL}, {"name": LOANS, "onlyWithout": FULL}],
            "targets": {
                **{name: {"label": label, "group": FULL} for name, label in labels.items()},
                LOAN: {"label": "Loan", "group": LOANS},
            },
        }
    )


class Machine(Library):
    """With two disks, of the library and of its input."""

    def __init__(self, processes, authority, names):
        """With the certificate of the providers' authority, and the text of targets.json."""
        self.day, self.authority, self.names = None, authority, names
        self.room = tempfile.mkdtemp(prefix="year.", dir="/dev/shm" if os.access("/dev/shm", os.W_OK) else None)
        os.chmod(self.room, 0o755)
        self.folder = os.path.join(self.room, "library")
        for name, size in (("library", ROOM), ("input", INPUT_ROOM), ("temporary", "64m")):
            os.mkdir(self.aside(name))
            subprocess.run(
                ["mount", "-t", "tmpfs", "-o", f"size={size},mode=755", "tmpfs", self.aside(name)], check=True
            )
        self.input = Input(self.aside("input/week"))
        self.site = Door(self, processes)
        self.restart = f"{FIXTURES}/restart {self.room} PORT"

    def __exit__(self, *_):
        self.site.stop()
        for name in ("library", "input", "temporary"):
            subprocess.run(["umount", "-l", self.aside(name)])
        shutil.rmtree(self.room, ignore_errors=True)

    def dated(self, *words):
        """Starts a script on the machine's day."""
        environment = {**os.environ, "CURL_CA_BUNDLE": self.authority, "TMPDIR": self.aside("temporary")}
        return subprocess.Popen(
            [*WITH_DESK, f"{HERE}/dated.py", f"{self.day}T04:00:00", *words],
            stdout=subprocess.PIPE,
            stderr=subprocess.STDOUT,
            text=True,
            env=environment,
        )

    def begin(self, *options):
        return self.dated(*self.words(*options))

    def words(self, *options):
        words = super().words(*options)
        if self.site.nginx:
            place = words.index("--reload") + 1
            words[place] = f"{HERE}/reload {self.site.nginx.pid} {self.aside('workers')}"
        return words

    def wait_for_nginx(self):
        """Waits until nginx has read its files again, if a run has told it to, and returns whether it has. It does so
        while the run goes on, and the run may end first: nginx starts new workers, and 100 ms later tells the old ones
        to end. Until then they serve readers with the targets.json that they have read."""
        path = self.aside("workers")
        if not os.path.exists(path):
            return True
        with open(path) as file:
            before = file.read().split()
        os.unlink(path)
        return wait_until(lambda: not any(map(accepts, before)))

    def begin_fetch(self, seconds):
        return self.dated("update/fetch", "--input", self.input.folder, "--pause", "0.2", "--seconds", str(seconds))

    def switch(self):
        """Which update puts a version in use, or None."""
        try:
            found = os.lstat(self.path("before"))
            return found.st_ino, found.st_ctime_ns
        except OSError:
            return None

    def begin_desk(self):
        """What a timer does every day."""
        site = self.site.path("openlink.conf")
        return self.dated("update/desk", "--library", self.folder, "--site", site, "--program", PROGRAM)

    def counts(self):
        """What openlink-counts says of the logs since they were rotated: its status, and JSON."""
        words = [*PYTHON, "update/counts", "--format", "json", *map(self.log, LOGS)]
        done = subprocess.run(words, stdout=subprocess.PIPE, stderr=subprocess.STDOUT, text=True)
        return done.returncode, done.stdout

    def log(self, name):
        return self.site.path(f"log/{name}")

    def lines(self):
        """How many lines each log has."""
        found = []
        for name in LOGS:
            with open(self.log(name), "rb") as file:
                found.append(sum(1 for _ in file))
        return tuple(found)

    def rotate(self):
        """What logrotate does. Returns whether nginx writes to the new files."""
        for path in map(self.log, LOGS):
            for number in range(ROTATED, 0, -1):
                if os.path.exists(f"{path}.{number}"):
                    os.rename(f"{path}.{number}", f"{path}.{number + 1}")
            os.rename(path, f"{path}.1")
            if os.path.exists(f"{path}.{ROTATED + 1}"):
                os.unlink(f"{path}.{ROTATED + 1}")
        self.site.nginx.send_signal(signal.SIGUSR1)
        return wait_until(lambda: all(map(os.path.exists, map(self.log, LOGS))) and not self.writes_to_old_logs())

    def writes_to_old_logs(self):
        """Whether nginx or a worker of it has a log open that was renamed."""
        for pid in (self.site.nginx.pid, *self.site.workers()):
            folder = f"/proc/{pid}/fd"
            try:
                paths = [os.readlink(f"{folder}/{name}") for name in os.listdir(folder)]
            except OSError:
                continue
            if any(path.endswith((".log.1", ".log.2")) for path in paths):
                return True
        return False

    def desk(self, name):
        """A file of the desk, as nginx serves it on the machine itself."""
        reply = self.site.get(f"/desk/{name}", port=self.site.report_port)
        return reply.text if reply.status == 200 else None

    def desk_table(self, name):
        """The cells of a table of the desk below its header."""
        text = self.desk(name)
        return [line.split("\t") for line in text.splitlines()[1:]] if text else []

    def start(self):
        """The first version, and then nginx with its targets.json, which logs what is followed and asked in vain."""
        thread = threading.Thread(target=self.site.start, daemon=True)  # it waits for the version
        thread.start()
        result = ended(self.begin())
        if result[0] != 0:
            return result
        thread.join()
        self.site.edit(
            (
                f"targets from {self.site.path('openlink/targets.json')};",
                f"targets from {self.path('current')}/targets.json;",
            ),
            *((f"{line}off;", f"{line}on;") for line in COUNTED),
        )
        return result

    def fill(self, name, room):
        """Fills a disk but for these bytes. Returns what empties it again."""
        path = os.path.join(self.aside(name), "filler")
        with open(path, "wb") as file:
            os.posix_fallocate(file.fileno(), 0, max(shutil.disk_usage(self.aside(name)).free - room, 1))
        return lambda: os.unlink(path)

    def pids(self):
        """The processes of the program, and the workers of nginx."""
        program = [it.child.pid for it in self.site.supervisors if it.child and it.child.poll() is None]
        return program, [int(it) for it in self.site.workers()]

    def megabytes_in_use(self):
        return sum(shutil.disk_usage(self.aside(name)).used for name in ("library", "input")) / 1e6

    def left_over(self, vendors):
        """Files, processes and ports that a run has left. A process gets a few seconds to end with its run."""
        known = ("current", "versions", "lock", "lock.users", "updated", "runs", "desk")
        names = [name for name in os.listdir(self.folder) if name not in known]
        names += [name for name in self.versions() if name.endswith(".new")]
        names += [f"temporary/{name}" for name in os.listdir(self.aside("temporary"))]
        fetch = f"{self.input.folder}.fetch"
        if os.path.isdir(fetch):
            names += [f"input.fetch/{name}" for name in os.listdir(fetch) if name not in ("lock", "state.json")]
        wait_until(lambda: not self.strangers(vendors), 5)
        return names + self.strangers(vendors)

    def strangers(self, vendors):
        """Processes in this namespace, and ports at which something listens, that are not of the machine itself."""
        servers, own = (self.site.nginx.pid, vendors.nginx.pid), (os.getpid(), *self.pids()[0])
        found = [
            f"process {pid}: {name}"
            for pid, parent, name in processes()
            if pid not in (*servers, *own) and parent not in servers
        ]
        ports = {self.site.port, self.site.report_port, *self.site.ports, *vendors.ports()}
        return found + [f"port {port}" for port in listening() - ports]


def accepts(worker):
    """Whether a worker of nginx accepts connections. One that has been told to end has another title."""
    try:
        with open(f"/proc/{worker}/cmdline") as file:
            title = file.read()
    except OSError:
        return False
    return title != "" and "is shutting down" not in title


def processes():
    """The number, the parent's number and the name of each process that has not ended. One whose parent was killed is
    this one's, as the first of the namespace."""
    found = []
    for pid in filter(str.isdigit, os.listdir("/proc")):
        try:
            with open(f"/proc/{pid}/stat") as file:
                name, _, rest = file.read().partition(" (")[2].rpartition(") ")
        except OSError:
            continue
        if rest[0] != "Z":
            found.append((int(pid), int(rest.split()[1]), name))
    return found


def listening():
    """The ports at which something listens."""
    with open("/proc/net/tcp") as file:
        cells = [line.split() for line in file.readlines()[1:]]
    return {int(cell[1].split(":")[1], 16) for cell in cells if cell[3] == "0A"}


def ended(child, seconds=300):
    """The status of a run and what it said."""
    try:
        out, _ = child.communicate(timeout=patience(seconds))
        return child.returncode, out
    except subprocess.TimeoutExpired:
        child.kill()
        return None, child.communicate()[0] + "The run did not end.\n"
