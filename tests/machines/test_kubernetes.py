"""The files of packaging/kubernetes: each object has the fields that Kubernetes requires, and what one names exists in
another, in the site or in the container. The objects are those that `kubectl kustomize` prints, if it is installed, and
otherwise those of the base as its files have them."""
from __future__ import annotations

import copy
import json
import os
import re
import shutil
import subprocess
import tempfile

from fixtures import needs
from fixtures.cases import Case
from fixtures import yaml_files
from machines import objects

FOLDER, SITE = "packaging/kubernetes", "front_door/http.conf"
START = "packaging/container/start"
UNITS = {"": 1, "k": 10**3, "M": 10**6, "G": 10**9, "Ki": 2**10, "Mi": 2**20, "Gi": 2**30}
WRITTEN = {"/run", "/var/lib/nginx"}  # by the script `start` and by nginx
TIMES, WORKER_MB = 5, 60  # of the tables' bytes, for a process; the most that a worker of nginx had


def text_of(path):
    with open(path, encoding="utf-8") as file:
        return file.read()


def base_of(folder):
    """The objects of the base, with its labels and the ConfigMaps that it makes."""
    plan = yaml_files.read(f"{folder}/kustomization.yaml")
    found = [yaml_files.read(f"{folder}/{name}") for name in plan["resources"]]
    labels = {name: text for it in plan["labels"] for name, text in it["pairs"].items()}
    for it in found:
        it["metadata"].setdefault("labels", {}).update(labels)
        for place in selectors(it):
            place.update(labels)
    for it in plan["configMapGenerator"]:
        data = {name: text_of(f"{folder}/{name}") for name in it["files"]}
        found.append({"apiVersion": "v1", "kind": "ConfigMap", "metadata": {"name": it["name"]}, "data": data})
    return found


def selectors(it):
    """The labels by which an object selects pods, and those of the pods that it makes."""
    spec = it.get("spec", {})
    if it["kind"] == "Service":
        return [spec["selector"]]
    if it["kind"] == "PodDisruptionBudget":
        return [spec["selector"]["matchLabels"]]
    if it["kind"] == "NetworkPolicy":
        return [spec["podSelector"]["matchLabels"]]
    if it["kind"] != "Deployment":
        return []
    spread = [place["labelSelector"] for place in spec["template"]["spec"].get("topologySpreadConstraints", ())]
    return [
        spec["template"]["metadata"]["labels"],
        *(place["matchLabels"] for place in (spec.get("selector"), *spread) if place),
    ]


def built(folder):
    """The objects that kubectl prints for a folder. A ValueError says why it prints none."""
    made = subprocess.run(["kubectl", "kustomize", folder], capture_output=True, text=True)
    if made.returncode != 0:
        raise ValueError(made.stderr.strip())
    # As JSON; nothing is sent to a cluster.
    words = ["kubectl", "annotate", "--local", "--output=json", "--filename=-", "checked=yes"]
    text = subprocess.run(words, input=made.stdout, capture_output=True, text=True, check=True).stdout
    decoder, at, found = json.JSONDecoder(), 0, []
    while text[at:].strip():
        value, at = decoder.raw_decode(text, at + len(text[at:]) - len(text[at:].lstrip()))
        found.append(value)
    return found


class Set:
    """The objects of one library or of several."""

    def __init__(self, found):
        self.all = found

    def of(self, kind):
        return [it for it in self.all if it.get("kind") == kind]

    def named(self, kind, name):
        return next((it for it in self.of(kind) if it["metadata"]["name"] == name), None)

    def faults(self):
        """Lines that say what is wrong with the objects, and then with what they name."""
        lines = [line for it in self.all for line in objects.faults(it)]
        names = [(it["kind"], it["metadata"]["name"]) for it in self.all] if not lines else []
        lines += [f"two of {kind} {name}" for kind, name in set(names) if names.count((kind, name)) > 1]
        if lines:
            return lines
        for it in self.of("Deployment"):
            lines += self.faults_of_deployment(it)
        for it in self.of("Service"):
            lines += self.faults_of_service(it)
        for it in self.of("Ingress"):
            lines += self.faults_of_ingress(it)
        for it in self.of("PodDisruptionBudget"):
            lines += self.faults_of_budget(it)
        for it in self.of("NetworkPolicy"):
            lines += self.faults_of_policy(it)
        kinds = [kind for kind in objects.KINDS if kind != "ConfigMap"]
        return lines + [f"there is no {kind}" for kind in kinds if not self.of(kind)]

    def pods_of(self, labels):
        """The Deployments whose pods have these labels."""
        return [
            it for it in self.of("Deployment") if labels.items() <= it["spec"]["template"]["metadata"]["labels"].items()
        ]

    def faults_of_deployment(self, it):
        spec, pod = it["spec"], it["spec"]["template"]["spec"]
        lines = []
        if self.pods_of(spec["selector"]["matchLabels"]) != [it]:
            lines.append("its selector is not that of its pods")
        for container in (*pod.get("initContainers", ()), *pod["containers"]):
            lines += self.faults_of_mounts(container, pod)
        files = self.files_of(pod)
        if "openlink.conf" not in files:
            return lines + ["no ConfigMap has openlink.conf"]
        site = Site(files["openlink.conf"])
        lines += ["targets.json is no JSON"] if not is_json(files.get("targets.json", "")) else []
        rolling = spec.get("strategy", {}).get("rollingUpdate", {})
        if (rolling.get("maxUnavailable"), rolling.get("maxSurge", 0) > 0) != (0, True):
            lines.append("an update takes a pod away before the next one is ready")
        return lines + faults_of_container(pod["containers"][0], site) + faults_of_version(pod) + faults_of_rights(pod)

    def files_of(self, pod):
        """The files of all its ConfigMaps."""
        found = {}
        for volume in pod.get("volumes", ()):
            held = self.named("ConfigMap", volume.get("configMap", {}).get("name"))
            found.update(held["data"] if held else {})
        return found

    def faults_of_mounts(self, container, pod):
        names = [volume["name"] for volume in pod.get("volumes", ())]
        lines = [
            f"{container['name']} mounts {it['name']}, which is no volume"
            for it in container.get("volumeMounts", ())
            if it["name"] not in names
        ]
        for volume in pod.get("volumes", ()):
            name = volume.get("configMap", {}).get("name")
            if name and not self.named("ConfigMap", name):
                lines.append(f"there is no ConfigMap {name}")
        return lines

    def faults_of_service(self, it):
        pods = self.pods_of(it["spec"]["selector"])
        if len(pods) != 1:
            return [f"the Service {it['metadata']['name']} selects the pods of {len(pods)} Deployments"]
        names = [port["name"] for port in pods[0]["spec"]["template"]["spec"]["containers"][0].get("ports", ())]
        return [
            f"no port of the container is named {port['targetPort']}"
            for port in it["spec"]["ports"]
            if port["targetPort"] not in names
        ]

    def faults_of_ingress(self, it):
        lines = []
        for rule in it["spec"]["rules"]:
            for path in rule["http"]["paths"]:
                wanted = path["backend"]["service"]
                service = self.named("Service", wanted["name"])
                names = [port.get("name") for port in service["spec"]["ports"]] if service else []
                if wanted["port"].get("name") not in names:
                    lines.append(f"the Ingress leads to no port of a Service: {wanted}")
        hosts = [host for tls in it["spec"].get("tls", ()) for host in tls.get("hosts", ())]
        return lines + [
            f"no certificate for {rule['host']}" for rule in it["spec"]["rules"] if rule["host"] not in hosts
        ]

    def faults_of_budget(self, it):
        pods = self.pods_of(it["spec"]["selector"]["matchLabels"])
        if len(pods) != 1:
            return [f"the disruption budget is for the pods of {len(pods)} Deployments"]
        least, number = it["spec"].get("minAvailable", 0), pods[0]["spec"].get("replicas", 1)
        return [] if 0 < least < number else [f"of {number} pods {least} must be there"]

    def faults_of_policy(self, it):
        """It is for all pods of the library, and opens the port of readers alone."""
        spec = it["spec"]
        pods = self.pods_of(spec["podSelector"]["matchLabels"])
        if len(pods) != 1:
            return [f"the network policy is for the pods of {len(pods)} Deployments"]
        lines = [
            f"the network policy does not bound {it}" for it in ("Ingress", "Egress") if it not in spec["policyTypes"]
        ]
        names = [port["name"] for port in pods[0]["spec"]["template"]["spec"]["containers"][0].get("ports", ())]
        opened = [port["port"] for rule in spec["ingress"] for port in rule["ports"]]
        return lines + ([] if opened == names else [f"the network policy opens {opened}, and readers come to {names}"])


class Site:
    """What openlink.conf of the pods says."""

    def __init__(self, text):
        self.listens = [int(port) for port in re.findall(r"^\s*listen (\d+);", text, re.M)]
        self.processes = re.findall(r"^\s*server 127\.0\.0\.1:\d+", text, re.M)


def is_json(text):
    try:
        return isinstance(json.loads(text), dict)
    except ValueError:
        return False


def faults_of_container(it, site):
    """Its ports, its health page, and its memory."""
    ports = [port["containerPort"] for port in it.get("ports", ())]
    lines = [] if ports == site.listens else [f"ports {ports}, the site {site.listens}"]
    lines += [f"port {port} needs a right of root" for port in ports if port < 1024]
    page = re.search(r"^\s*listen (127\.0\.0\.1:\d+);", text_of(SITE), re.M)[1]
    for name in ("startupProbe", "readinessProbe", "livenessProbe"):
        probe = it.get(name, {"exec": {"command": [""]}})
        words = probe["exec"]["command"]
        if words[0] != "curl" or words[-1] != f"http://{page}/health" or "-fs" not in words:
            lines.append(f"{name} does not ask the health page: {words}")
        elif not int(words[words.index("--max-time") + 1]) < probe.get("timeoutSeconds", 1):
            lines.append(f"{name} ends before curl does")
    return lines + faults_of_memory(it, site)


def faults_of_memory(it, site):
    variables = {entry["name"]: entry["value"] for entry in it.get("env", ())}
    if not re.search(r"\bOPENLINK_WORKERS\b", text_of(START)) or "OPENLINK_WORKERS" not in variables:
        return ["the number of nginx's workers is not limited"]
    said = re.search(r"# (\d+) processes with (\d+) MB of tables", text_of(f"{FOLDER}/base/deployment.yaml"))
    if not said or int(said[1]) != len(site.processes):
        return [f"{len(site.processes)} processes, and the comment on memory has another number"]
    least = int(said[1]) * int(said[2]) * TIMES + int(variables["OPENLINK_WORKERS"]) * WORKER_MB
    limit = bytes_of(it["resources"]["limits"]["memory"]) / 1e6
    return [] if limit >= least else [f"a limit of {limit:.0f} MB of memory, and {least} MB may be needed"]


def bytes_of(quantity):
    number, unit = re.fullmatch(r"(\d+)(\w*)", quantity).groups()
    return int(number) * UNITS[unit]


def faults_of_version(pod):
    """The volume with the version: the first container fills it, and the other one only reads it."""
    filled = [it for container in pod.get("initContainers", ()) for it in container.get("volumeMounts", ())]
    names = {it["name"] for it in filled}
    read = [it for it in pod["containers"][0].get("volumeMounts", ()) if it["name"] in names]
    if [it["mountPath"] for it in filled] != ["/etc/openlink"] or filled[0].get("readOnly"):
        return ["no first container fills /etc/openlink"]
    found = [(it["name"], it["mountPath"], it.get("readOnly")) for it in read]
    if found != [(filled[0]["name"], "/etc/openlink", True)]:
        return ["the version is not mounted for reading alone"]
    return []


def faults_of_rights(pod):
    """What the pod may do and need not; and what it writes beside its root, which is for reading alone."""
    lines = [] if pod.get("automountServiceAccountToken") is False else ["the pod has a token of the cluster"]
    of_pod = pod.get("securityContext", {})
    if of_pod.get("seccompProfile") != {"type": "RuntimeDefault"}:
        lines.append("the pod may make all system calls")
    if of_pod.get("runAsNonRoot") is not True or not of_pod.get("runAsUser") or not of_pod.get("runAsGroup"):
        lines.append("the pod may run as root")
    for it in (*pod["initContainers"], *pod["containers"]):
        rights = it.get("securityContext", {})
        if not rights.get("readOnlyRootFilesystem") or rights.get("allowPrivilegeEscalation") is not False:
            lines.append(f"{it['name']} may write its root, or gain rights")
        if rights.get("capabilities") != {"drop": ["ALL"]} or rights.get("runAsNonRoot") is False:
            lines.append(f"{it['name']} keeps rights of root")
    written = {it["mountPath"] for it in pod["containers"][0]["volumeMounts"] if not it.get("readOnly")}
    return lines + ([] if written == WRITTEN else [f"the container writes to {sorted(written)}"])


def edited(old, new, name="base/deployment.yaml"):
    """A copy of the files with another text in one of them, in a folder of its own."""
    folder = tempfile.mkdtemp(prefix="balancer.")
    shutil.copytree(FOLDER, f"{folder}/kubernetes")
    path = f"{folder}/kubernetes/{name}"
    text = text_of(path)
    assert old in text, f"{name} has no {old}"
    with open(path, "w", encoding="utf-8") as file:
        file.write(text.replace(old, new, 1))
    return folder


# Mistakes, each with a part of the line that names it.
MISTAKES = [
    (("name: openlink-site\n", "name: openlink-sites\n"), "there is no ConfigMap openlink-sites"),
    (("containerPort: 8080\n", "containerPort: 80\n"), "ports [80], the site [8080]"),
    (("containerPort: 8080\n", "containerPort: 80\n"), "port 80 needs a right of root"),
    (("- http://127.0.0.1:8079/health", "- http://127.0.0.1:8078/health"), "startupProbe does not ask"),
    (("readinessProbe:", "readynessProbe:"), "readynessProbe is unknown"),
    (("              readOnly: true\n", ""), "the version is not mounted for reading alone"),
    (("            - name: names\n", "            - name: labels\n"), "mounts labels, which is no volume"),
    (("memory: 768Mi", "memory: 384Mi"), "a limit of 403 MB of memory, and 520 MB"),
    (("maxUnavailable: 0", "maxUnavailable: 1"), "takes a pod away"),
    (("replicas: 2", "replicas: two"), "Deployment.spec.replicas: 'two' has another form"),
    (("timeoutSeconds: 5", "timeoutSeconds: 4"), "startupProbe ends before curl does"),
    (("  selector:\n    matchLabels:\n", "  selectors:\n    matchLabels:\n"), "selector is missing"),
    (("targetPort: http\n", "targetPort: web\n", "base/service.yaml"), "no port of the container is named web"),
    (("                  name: http\n", "                  name: web\n", "base/ingress.yaml"), "leads to no port"),
    (("                name: openlink\n", "                name: links\n", "base/ingress.yaml"), "leads to no port"),
    (("minAvailable: 1", "minAvailable: 2", "base/disruption-budget.yaml"), "of 2 pods 2 must be there"),
    (("policy/v1", "policy/v1beta1", "base/disruption-budget.yaml"), "'policy/v1beta1' has another form"),
    (("  - service.yaml\n", "", "base/kustomization.yaml"), "there is no Service"),
    (("      - openlink.conf", "      - targets.json", "base/kustomization.yaml"), "no ConfigMap has openlink.conf"),
    (("listen 8080;", "listen 80;", "base/openlink.conf"), "the site [80]"),
    (("runAsNonRoot: true", "runAsNonRoot: false"), "the pod may run as root"),
    (("runAsUser: 10001", "runAsUser: 0"), "the pod may run as root"),
    (("        runAsGroup: 10001\n", ""), "the pod may run as root"),
    (
        (
            "                - ALL\n          volumeMounts:\n            - name: version\n"
            "              mountPath: /etc/openlink\n              readOnly",
            "                - ALL\n              add:\n                - KILL\n          volumeMounts:\n"
            "            - name: version\n              mountPath: /etc/openlink\n              readOnly",
        ),
        "openlink keeps rights of root",
    ),
    (("automountServiceAccountToken: false", "automountServiceAccountToken: true"), "a token of the cluster"),
    (("        seccompProfile:\n          type: RuntimeDefault\n", "        seccompProfile: {}\n"), "type is missing"),
    (("readOnlyRootFilesystem: true", "readOnlyRootFilesystem: false"), "version may write its root"),
    (("                - ALL\n", "                - KILL\n"), "version keeps rights of root"),
    (
        ("              mountPath: /run\n", "              mountPath: /run\n              readOnly: true\n"),
        "writes to ['/var/lib/nginx']",
    ),
    (("    - Egress\n", "", "base/network-policy.yaml"), "does not bound Egress"),
    (("port: http\n", "port: page\n", "base/network-policy.yaml"), "the network policy opens ['page']"),
    (("  - network-policy.yaml\n", "", "base/kustomization.yaml"), "there is no NetworkPolicy"),
]
# Mistakes of an overlay, which only kubectl shows.
MISTAKES_OF_OVERLAY = [
    (
        (
            "      app.kubernetes.io/instance: second\n",
            "      app.kubernetes.io/instance: example\n",
            "second/kustomization.yaml",
        ),
        "selects the pods of 2 Deployments",
    ),
    (("    - host: links.second", "    - host: links.third", "second/host.yaml"), "no certificate for links.third"),
]


@needs.python_module("yaml", "python3-yaml")
class Objects(Case):
    def test_base(self) -> None:
        self.expect("the base", Set(base_of(f"{FOLDER}/base")).faults(), [])
        self.expect("labels of the base", text_of(f"{FOLDER}/base/targets.json"), text_of("front_door/targets.json"))
        check = ["update/update.d/targets_file.py", f"{FOLDER}/second/targets.json"]
        done = subprocess.run(check, capture_output=True, text=True, check=False)
        self.expect("labels of the second", (done.returncode, done.stdout), (0, "ok\n"))
        for edit, wanted in MISTAKES:
            folder = edited(*edit)
            try:
                lines = Set(base_of(f"{folder}/kubernetes/base")).faults()
                self.expect(f"{edit[1].strip()}: {lines}", any(wanted in line for line in lines))
            finally:
                shutil.rmtree(folder)

    def test_reader(self) -> None:
        """The reader of YAML reads what kubectl reads. It refuses what kubectl refuses, and words that mean another
        value than they seem to."""
        with tempfile.TemporaryDirectory() as folder:
            path = os.path.join(folder, "a.yaml")
            for text, wanted in (
                ('a: 1\nb:\n- c: x # y\n  d: "e # f"\n- -g\n', {"a": 1, "b": [{"c": "x", "d": "e # f"}, "-g"]}),
                ("a:\n  b: true\nc:\n", {"a": {"b": True}, "c": None}),
                ("a: {b: 1}\n", {"a": {"b": 1}}),
                ("a: 1\na: 2\n", None),
                ("a: 1\n   b: 2\n", None),
                ("a: b: c\n", None),
                ("a: yes\n", None),
                ("a: |\n  b\n", {"a": "b\n"}),
                ("a:\tb\n", None),
                ("a: 'b'\n", {"a": "b"}),
            ):
                with open(path, "w") as file:
                    file.write(text)
                try:
                    found = yaml_files.read(path)
                except yaml_files.Unreadable:
                    found = None
                self.expect(f"YAML {text!r}", found, wanted)

    @needs.kubectl()
    def test_built(self) -> None:
        """What kubectl makes of the base and of the overlay, each alone and both together."""
        base, second = built(f"{FOLDER}/base"), built(f"{FOLDER}/second")
        for name, found in (("base", base), ("second", second), ("base and second", base + second)):
            self.expect(f"built: {name}", Set(copy.deepcopy(found)).faults(), [])
        plain = Set(base_of(f"{FOLDER}/base"))
        self.expect(
            "the base is as its files have it",
            {it["kind"]: it["spec"] for it in plain.all if "spec" in it and it["kind"] != "Deployment"},
            {it["kind"]: it["spec"] for it in base if "spec" in it and it["kind"] != "Deployment"},
        )
        hosts = [it["spec"]["rules"][0]["host"] for it in Set(base + second).of("Ingress")]
        self.expect("hosts", len(set(hosts)), 2)
        for edit, wanted in MISTAKES_OF_OVERLAY:
            folder = edited(*edit)
            try:
                lines = Set(base + built(f"{folder}/kubernetes/second")).faults()
                self.expect(f"{edit[1].strip()}: {lines}", any(wanted in line for line in lines))
            finally:
                shutil.rmtree(folder)
