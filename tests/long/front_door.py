"""The front door as an operator installs it, for the scripts that measure it.

`enter()` runs the script again in network, mount and process namespaces of its own. There the ports of the site and all
addresses of 127.0.0.0/8 are free, /etc/nginx is a copy with front_door in it, and every process ends with the script.
It needs root. `Door` starts nginx and the processes of the program, with the sample library.
"""
import glob, os, re, resource, shutil, signal, socket, subprocess, sys, tempfile, threading, time

TOP = os.path.dirname(os.path.dirname(os.path.dirname(os.path.abspath(__file__))))
sys.path.append(f"{TOP}/tests")
from fixtures.library_index import write_index
from fixtures.patience import wait_until

INSIDE = "FRONT_DOOR_NAMESPACES"
SHARED = "/usr/local/share"  # where the files are that the site includes
READER_LIMIT = re.compile(r"(zone=openlink_reader_\w+:\w+ rate=)\d+(?=r/s;)")
HOSTILE_DOIS = ["10.5555/slow", "10.5555/drip", "10.5555/huge", "10.5555/deep"]
HOSTILE_NUMBERS = [*HOSTILE_DOIS, *(f"copy:{doi}" for doi in HOSTILE_DOIS)]


def enter():
    """Returns inside the namespaces, or ends the script where the machine has no nginx with njs or refuses them."""
    if os.environ.get(INSIDE):
        subprocess.run(["ip", "link", "set", "lo", "up"], check=True)
        return
    missing = [name for name in ("nginx", "ip", "unshare", "taskset") if not shutil.which(name)]
    if not os.path.exists("/usr/lib/nginx/modules/ngx_http_js_module.so"):
        missing.append("the module njs")
    if os.geteuid() != 0:
        missing.append("root")
    if missing:
        sys.exit(f"skipped: this needs {', '.join(missing)}")
    namespaces = ["--net", "--mount", "--pid", "--fork", "--kill-child", "--mount-proc"]
    words = ["unshare", *namespaces, sys.executable, os.path.abspath(sys.argv[0]), *sys.argv[1:]]
    os.execvpe("unshare", words, {**os.environ, INSIDE: "1"})


def cores():
    """Two cores for nginx and the program and the others for the clients, or all for both where there are less than
    four."""
    every = sorted(os.sched_getaffinity(0))
    return (every[:2], every[2:]) if len(every) >= 4 else (every, every)


def on_cores(numbers, *words):
    return ["taskset", "--cpu-list", ",".join(map(str, numbers)), *words]


def kibibytes(pid, field):
    with open(f"/proc/{pid}/status") as status:
        return next(int(line.split()[1]) for line in status if line.startswith(field + ":"))


def most_kibibytes(pid):
    """The most memory that a process has had; 0 if it has just ended."""
    try:
        return kibibytes(pid, "VmHWM")
    except (OSError, StopIteration):
        return 0


def processor_seconds(pid):
    """What a process of one thread has used."""
    with open(f"/proc/{pid}/schedstat") as file:
        return int(file.read().split()[0]) / 1e9


def hostile_queries(size=7900):
    """Queries that make a request line of about that many bytes, by what they repeat: the forms that cost the most."""
    article = "rft.issn=2901-0012&rft.eissn=2908-0142&rft.date=2003-05&rft.volume=12&rft.issue=3&rft.spage=101&"
    size -= 20

    def same(unit, by="&", start=article):
        return start + by.join([unit] * ((size - len(start)) // len(unit + by)))

    def numbered(form):
        whole = article + "&".join(form % i for i in range(size))
        return whole[: whole.rindex("&", 0, size)]

    return {
        "keys of one's own": numbered("k%d=1"),
        "one key": same("a=1"),
        "one key, `&amp;`": same("a=1", "&amp;"),
        "authors": numbered("rft.au=%%C3%%A9%d"),
        "DOIs in `rft_id`": numbered("rft_id=info:doi/10.1/%d"),
        "DOIs in `id`, encoded twice": numbered("id=doi:10.1%%252F%d."),
        "addresses in one `rft_id`": same("https%3A%2F%2Fdoi.org%2F10.", "", "rft_id="),
        "ISBNs": same("rft.isbn=978-1-234-56010-2"),
        "ISSNs in one value": same("ISSN+1234-5679", "+", "rft.issn="),
        "Latin-1 in one value": same("%E9", "", "rft.atitle="),
        "dashes in one value": same("%E2%80%90", "", "rft.jtitle="),
        "letters in `rft.pages`": same("x", "", "rft.pages="),
        "seasons in `date`": same("Winter+2012%2F", "", "date="),
        "tags in `title`": same("%3Cb%3E", "", "title="),
        "words of a title": same("tidal+%C3%A9", "+", "title="),
        "entities in a title": same("%26eacute%3B", "", "rft.jtitle="),
        "a title encoded twice": same("%2541", "", "rft.jtitle="),
        "Dublin Core": same("rft.source=Annals+of+Tidal+Studies,+vol.+1", start="rft_val_fmt=info:ofi/fmt:kev:mtx:dc&"),
        "keys in capitals": same("RFT.ISSN=2901-0012"),
        "entities that split values": same("amp;x", start="atitle=a&"),
    }


def hostile_lists():
    """Addresses of lists and searches, the long ones of about 7,900 bytes."""
    return [
        "/journals?q=an+of+ti+st+co+la",
        "/journals?q=of&page=40",
        "/books?q=" + "a+" * 3900,
        "/journals?q=" + "%C3%A9t+" * 1100,
        "/journals?q=" + "2901-0012+" * 780,
        "/journals/a/1",
        "/books",
        "/find",
        "/cite?title=" + "x+" * 3900,
        "/find.ris?" + "rft.au=%C3%A9&" * 560,
    ]


def listens(port):
    try:
        socket.create_connection(("127.0.0.1", port), 5).close()
        return True
    except OSError:
        return False


def hostile_lookups():
    """Addresses with a number alone, beside an unknown title and in an incomplete citation, of which a service knows
    nothing, or which it answers badly."""
    dois = (*HOSTILE_DOIS, *(f"10.5555/attack{i}" for i in range(40)))
    return [f"/find?id=doi:{doi}{rest}" for doi in dois for rest in ("", "&title=Nowhere", "&issn=2901-0012")]


class Door:
    """nginx and a supervised process of the program on each port of the site's upstream. `edit` makes the site's text
    from that of its file. A measurement may send from one address what many readers do."""

    has_reader_limits = True

    def __init__(self, program, site, worker_connections=4096, edit=lambda text: text):
        self.folder = tempfile.mkdtemp()
        os.chmod(self.folder, 0o755)
        self.nginx = None
        self.ended = False
        self.servers, self.clients = cores()
        self.program = os.path.abspath(program)
        os.chdir(TOP)
        build = ["examples/library/build", self.program, f"{self.folder}/library"]
        subprocess.run(build, check=True, stdout=subprocess.DEVNULL)
        write_index(f"{self.folder}/library/registry.tsv", TOP, f"{self.folder}/version")
        self.install(os.path.abspath(site), worker_connections, edit)
        self.processes = {port: None for port in self.ports}
        for port in self.ports:
            threading.Thread(target=self.supervise, args=(port,), daemon=True).start()

    def install(self, site, worker_connections, edit):
        etc = f"{self.folder}/nginx"
        shutil.copytree("/etc/nginx", etc, symlinks=True)
        for part in ("conf.d", "sites-enabled", "openlink"):
            shutil.rmtree(f"{etc}/{part}", ignore_errors=True)
            os.mkdir(f"{etc}/{part}")
        shutil.copytree(site, f"{etc}/openlink", dirs_exist_ok=True)
        subprocess.run(["mount", "-t", "tmpfs", "none", SHARED], check=True)
        shutil.copytree(site, f"{SHARED}/openlink/nginx")
        for path in (f"{etc}/openlink/openlink.conf", *glob.glob(f"{SHARED}/openlink/nginx/*.conf")):
            with open(path) as file:
                text = file.read().replace("/etc/openlink/current", f"{self.folder}/version")
            if not self.has_reader_limits:
                text = READER_LIMIT.sub(r"\g<1>100000", text)
            if path == f"{etc}/openlink/openlink.conf":
                text = edit(text)
            with open(path, "w") as file:
                file.write(text)
        shutil.move(f"{etc}/openlink/openlink.conf", f"{etc}/conf.d")
        with open(f"{etc}/nginx.conf", "r+") as file:
            text = re.sub(r"worker_connections \d+", f"worker_connections {worker_connections}", file.read())
            file.seek(0)
            file.write(f"worker_rlimit_nofile {4 * worker_connections};\n" + text)
            file.truncate()
        subprocess.run(["mount", "--bind", etc, "/etc/nginx"], check=True)
        for place in ("/var/log/nginx", "/var/lib/nginx", "/run"):
            subprocess.run(["mount", "-t", "tmpfs", "none", place], check=True)
        with open(f"{site}/openlink.conf") as file:
            self.ports = [int(it) for it in re.findall(r"^\s*server 127\.0\.0\.1:(\d+)", file.read(), re.M)]
        assert self.ports, "the upstream of openlink.conf names no process"

    def supervise(self, port):
        """As the unit does: a process that ends is started again after 100 ms."""
        registry = f"{self.folder}/library/registry.tsv"
        words = on_cores(self.servers, self.program, "serve", registry, str(port), "1000000")
        while not self.ended:
            self.processes[port] = subprocess.Popen(words, stdout=subprocess.DEVNULL)
            self.processes[port].wait()
            time.sleep(0.1)

    def start_nginx(self):
        """Starts nginx, with the limits that systemd gives it on Debian: its peak of memory is then that of one
        trial."""
        self.stop_nginx()
        hard = min(524288, resource.getrlimit(resource.RLIMIT_NOFILE)[1])
        words = ["prlimit", f"--nofile=1024:{hard}", "nginx", "-g", "daemon off;"]
        self.nginx = subprocess.Popen(on_cores(self.servers, *words))
        for port in (80, *self.ports):
            assert wait_until(lambda: listens(port)), f"nothing listens at port {port}"
        assert self.nginx.poll() is None, "nginx did not start"

    def stop_nginx(self):
        if self.nginx:
            self.nginx.send_signal(signal.SIGTERM)
            self.nginx.wait()

    def workers(self):
        with open(f"/proc/{self.nginx.pid}/task/{self.nginx.pid}/children") as children:
            return [int(it) for it in children.read().split()]

    def program_pids(self):
        return [process.pid for process in self.processes.values()]

    def peak_of_workers(self):
        """The most memory that a worker of nginx has had, in MB."""
        return max(kibibytes(pid, "VmHWM") for pid in self.workers()) * 1024 / 1e6

    def peak_of_program(self):
        """The most memory that a process of the program has had, in MB."""
        found = [most_kibibytes(pid) for pid in self.program_pids()]
        return max(found) * 1024 / 1e6

    def seconds_of_nginx(self):
        return sum(processor_seconds(pid) for pid in self.workers())

    def seconds_of_program(self):
        return sum(processor_seconds(pid) for pid in self.program_pids())

    def unmount(self):
        """Makes place for another site."""
        for place in ("/run", "/var/lib/nginx", "/var/log/nginx", "/etc/nginx", SHARED):
            subprocess.run(["umount", place], check=True)

    def end(self):
        self.ended = True
        self.stop_nginx()
        for pid in self.program_pids():
            os.kill(pid, signal.SIGKILL)
        shutil.rmtree(self.folder, ignore_errors=True)


def others():
    """What else runs, for a figure's note: the load before the script's own, and the machine's processor."""
    with open("/proc/cpuinfo") as file:
        name = next(line.split(":", 1)[1].strip() for line in file if line.startswith("model name"))
    return f"{name}, {os.cpu_count()} cores; load average before the first trial: {os.getloadavg()[0]:.1f}"
