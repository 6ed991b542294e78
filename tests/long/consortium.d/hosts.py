"""The machines of the consortium: each a host with network and mount namespaces of its own, and with the front door,
the scripts and the libraries as an operator installs them. A bridge joins them with haproxy and the readers."""
import os, re, shutil, signal, subprocess
from fixtures import installation
from fixtures.haproxy_states import states_of

HERE = os.path.dirname(os.path.abspath(__file__))
TOP = os.path.dirname(os.path.dirname(os.path.dirname(HERE)))
SHARED, NETWORK, BALANCER, BRIDGE = "/usr/local/share/openlink", "10.9", "10.9.0.1", "consortium"
LINES_OF_NGINX = {"worker_processes": "2", "worker_connections": "4096"}


def do(*words, **how):
    subprocess.run(words, check=True, **how)


def lay_network(readers):
    """The bridge, with the balancer's address and one for each reader. Returns these."""
    do("ip", "link", "add", BRIDGE, "type", "bridge")
    do("ip", "addr", "add", f"{BALANCER}/16", "dev", BRIDGE)
    do("ip", "link", "set", BRIDGE, "up")
    addresses = [f"{NETWORK}.3.{number + 1}" for number in range(readers)]
    for address in addresses:
        do("ip", "addr", "add", f"{address}/32", "dev", BRIDGE)
    return addresses


def install(program, scratch):
    """The scripts and the commands, as they are installed, for all hosts. Returns the folder of commands."""
    do("mount", "-t", "tmpfs", "none", "/usr/local/share")
    installation.install(SHARED)
    commands = f"{scratch}/bin"
    os.mkdir(commands)
    for name, path in (
        ("openlink", program),
        ("openlink-update", f"{SHARED}/update"),
        ("openlink-library", f"{SHARED}/library"),
        ("openlink-probe", f"{SHARED}/probe"),
        ("systemctl", f"{HERE}/systemctl"),
    ):
        os.symlink(path, f"{commands}/{name}")
    return commands


class Host:
    def __init__(self, number, scratch, commands):
        self.name, self.address, self.veth = f"host{number}", f"{NETWORK}.1.{number}", f"v{number}"
        self.folder, self.commands, self.is_reached = f"{scratch}/host{number}", commands, True
        self.environment = {
            **os.environ,
            "PATH": f"{commands}:{os.environ['PATH']}:/usr/sbin:/sbin",
            "CONSORTIUM": scratch,
        }
        os.mkdir(self.folder)
        shutil.copytree("/etc", f"{self.folder}/etc", symlinks=True)
        for name in ("log", "lib"):
            os.mkdir(f"{self.folder}/{name}")
        self.write_nginx()
        self.child = subprocess.Popen(
            ["unshare", "--net", "--mount", "--propagation", "private", "sh", "-c", self.mounts()],
            stdout=subprocess.PIPE,
            env=self.environment,
        )
        self.child.stdout.readline()
        self.space = os.stat(f"/proc/{self.child.pid}/ns/net").st_ino
        with open(f"{scratch}/{self.name}.pid", "w") as file:
            file.write(f"{self.child.pid}\n")
        self.lay_link()

    def mounts(self):
        places = [("etc", "/etc"), ("log", "/var/log/nginx"), ("lib", "/var/lib/nginx")]
        binds = " && ".join(f"mount --bind {self.folder}/{name} {place}" for name, place in places)
        return f"{binds} && mount -t tmpfs none /run && echo ready && exec sleep infinity"

    def write_nginx(self):
        etc = f"{self.folder}/etc/nginx"
        for part in ("conf.d", "sites-enabled"):
            shutil.rmtree(f"{etc}/{part}", ignore_errors=True)
            os.mkdir(f"{etc}/{part}")
        with open(f"{etc}/nginx.conf") as file:
            text = file.read()
        for name, value in LINES_OF_NGINX.items():
            text = re.sub(rf"\b{name} \w+;", f"{name} {value};", text)
        with open(f"{etc}/nginx.conf", "w") as file:
            file.write(text)
        with open(f"{TOP}/front_door/balancer.conf") as file:
            text = file.read().replace("192.0.2.20", BALANCER)
        with open(f"{etc}/conf.d/openlink-balancer.conf", "w") as file:
            file.write(text)

    def lay_link(self):
        do("ip", "link", "add", self.veth, "type", "veth", "peer", "name", "eth0", "netns", str(self.child.pid))
        do("ip", "link", "set", self.veth, "master", BRIDGE, "up")
        for words in (
            ("ip", "link", "set", "lo", "up"),
            ("ip", "link", "set", "eth0", "up"),
            ("ip", "addr", "add", f"{self.address}/16", "dev", "eth0"),
        ):
            self.inside(*words)

    def words(self, *words):
        return ["nsenter", "--target", str(self.child.pid), "--net", "--mount", *words]

    def inside(self, *words):
        """What a command prints on this host; a RuntimeError says why it fails."""
        status, text = self.run(*words)
        if status != 0:
            raise RuntimeError(f"{self.name}: {' '.join(words)}: {status}, {text}")
        return text

    def run(self, *words):
        """The status of a command on this host, and what it says."""
        done = subprocess.run(
            self.words(*words),
            cwd="/",
            env=self.environment,
            stdin=subprocess.DEVNULL,
            stdout=subprocess.PIPE,
            stderr=subprocess.STDOUT,
            text=True,
        )
        return done.returncode, done.stdout

    def cut(self):
        do("ip", "link", "set", self.veth, "down")

    def mend(self):
        do("ip", "link", "set", self.veth, "up")

    def add(self, members):
        for it in members:
            self.inside("openlink-library", "add", it.name, it.host, "--processes", "2")

    def ports(self):
        """The ports of the program's processes."""
        return [line.split("\t")[3].split() for line in self.inside("openlink-library", "list").splitlines()]

    def stop_processes(self):
        for port in (port for ports in self.ports() for port in ports):
            self.inside("systemctl", "stop", f"openlink@{port}")

    def start_processes(self):
        for port in (port for ports in self.ports() for port in ports):
            self.inside("systemctl", "start", f"openlink@{port}")

    def requests(self):
        """The number of requests of readers that it has had."""
        count = 0
        for name in os.listdir(f"{self.folder}/log"):
            if re.fullmatch(r"openlink\.[\w-]+\.log", name) and not name.endswith(".wanted.log"):
                with open(f"{self.folder}/log/{name}", "rb") as file:
                    count += sum(b"probe" not in line for line in file)
        return count

    def processes(self):
        """The numbers of the processes on this host by their names."""
        found, space = {}, f"net:[{self.space}]"
        for pid in filter(str.isdigit, os.listdir("/proc")):
            try:
                if os.readlink(f"/proc/{pid}/ns/net") == space:
                    with open(f"/proc/{pid}/comm") as file:
                        found.setdefault(file.read().strip(), []).append(int(pid))
            except OSError:
                continue
        return found

    def memory(self):
        """The megabytes that the processes of nginx and of the program have for themselves, and their share of what
        several have; and the number of the program's."""
        found = self.processes()
        sums = [sum(map(megabytes, found.get(name, ()))) for name in ("nginx", "openlink")]
        return (*sums, len(found.get("openlink", ())))

    def end(self):
        for pid in (pid for pids in self.processes().values() for pid in pids):
            try:
                os.kill(pid, signal.SIGKILL)
            except ProcessLookupError:
                pass
        self.child.wait()


def megabytes(pid):
    try:
        with open(f"/proc/{pid}/smaps_rollup") as file:
            return next(int(line.split()[1]) for line in file if line.startswith("Pss:")) * 1024 / 1e6
    except (OSError, StopIteration):
        return 0


class Haproxy:
    """The balancer with the file of packaging/haproxy."""

    def __init__(self, scratch, hosts):
        self.path, self.socket = f"{scratch}/haproxy.cfg", f"{scratch}/admin.sock"
        with open(f"{TOP}/packaging/haproxy/haproxy.cfg") as file:
            text = file.read()
        for number, host in enumerate(hosts, 1):
            text = text.replace(f"192.0.2.2{number}:", f"{host.address}:")
        text = re.sub(r"^    (log|chroot|user|group) .*\n", "", text, flags=re.M)
        with open(self.path, "w") as file:
            file.write(
                text.replace("/run/haproxy/admin.sock mode 660", self.socket).replace("bind :80", f"bind {BALANCER}:80")
            )
        self.child = subprocess.Popen(
            ["haproxy", "-W", "-f", self.path], stdout=subprocess.DEVNULL, stderr=subprocess.DEVNULL
        )

    def reload(self):
        self.child.send_signal(signal.SIGUSR2)

    def states(self):
        """The state of each host for readers."""
        return list(states_of(self.socket, "machines").values())

    def end(self):
        if self.child.poll() is None:
            self.child.terminate()
            self.child.wait()
