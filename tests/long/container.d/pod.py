"""pod.py FOLDER OUT: writes what `podman kube play` plays of a library of packaging/kubernetes to OUT/pod.yaml, and
what a reader and Kubernetes take from it to OUT/pod.sh, as variables of the shell.

The objects are those that kubectl makes of FOLDER, or of the base if there is no kubectl. In the copy the Deployment
has one pod, in the network of whoever plays it; all else is as Kubernetes gets it."""
import json, os, shlex, shutil, sys

TOP = os.path.dirname(os.path.dirname(os.path.dirname(os.path.dirname(os.path.abspath(__file__)))))
sys.dont_write_bytecode = True
sys.path.insert(0, os.path.join(TOP, "tests"))
from machines import test_kubernetes as kubernetes

WORKERS, PROBES = "OPENLINK_WORKERS", ("startupProbe", "readinessProbe", "livenessProbe")
PLAYED = ("ConfigMap", "Deployment")  # the others are the cluster's


def objects_of(folder):
    """The objects of a library, and the folder that has its labels."""
    if shutil.which("kubectl"):
        return kubernetes.Set(kubernetes.built(folder)), folder
    base = os.path.join(os.path.dirname(folder), "base")
    return kubernetes.Set(kubernetes.base_of(base)), base


def address_of(found):
    """The host of the Ingress, and the port of the container to which its path leads."""
    rule = found.of("Ingress")[0]["spec"]["rules"][0]
    wanted = rule["http"]["paths"][0]["backend"]["service"]
    ports = found.named("Service", wanted["name"])["spec"]["ports"]
    name = next(port["targetPort"] for port in ports if port["name"] == wanted["port"]["name"])
    pod = found.of("Deployment")[0]["spec"]["template"]["spec"]
    return rule["host"], next(port["containerPort"] for port in pod["containers"][0]["ports"] if port["name"] == name)


def workers_of(container, processors):
    """The number of nginx's workers that the pod should have. It is none that nginx would choose."""
    for entry in container.get("env", ()):
        if entry["name"] == WORKERS and entry["value"] == str(processors):
            entry["value"] = str(processors + 1)
    return next((entry["value"] for entry in container.get("env", ()) if entry["name"] == WORKERS), "")


def library_of(folder):
    """The name of the library on its pages."""
    with open(os.path.join(folder, "targets.json"), encoding="utf-8") as file:
        name = json.load(file)["words"]["library"]
    return name if isinstance(name, str) else name["en"]


def variables_of(found, folder):
    pod = found.of("Deployment")[0]["spec"]["template"]["spec"]
    container = pod["containers"][0]
    host, port = address_of(found)
    return {
        "host": host,
        "port": str(port),
        "name": container["name"],
        "image": container["image"],
        "version_image": pod["initContainers"][0]["image"],
        "library": library_of(folder),
        "workers": workers_of(container, os.cpu_count()),
        "probes": "\n".join(shlex.join(container[name]["exec"]["command"]) for name in PROBES),
    }


def adapt(spec):
    """One pod, in the network of whoever plays it. podman would map its ports, and cannot in such a network. It is not
    started again: podman 4.3 would do so with the first container too, once that has ended."""
    pod = spec["template"]["spec"]
    spec["replicas"], pod["hostNetwork"], pod["restartPolicy"] = 1, True, "Never"
    for container in pod["containers"]:
        container.pop("ports", None)


def main(folder, out):
    found, labels = objects_of(folder)
    variables = variables_of(found, labels)
    adapt(found.of("Deployment")[0]["spec"])
    with open(os.path.join(out, "pod.yaml"), "w", encoding="utf-8") as file:
        file.write("---\n".join(f"{json.dumps(it, ensure_ascii=False)}\n" for kind in PLAYED for it in found.of(kind)))
    with open(os.path.join(out, "pod.sh"), "w", encoding="utf-8") as file:
        file.writelines(f"{name}={shlex.quote(text)}\n" for name, text in variables.items())


main(*sys.argv[1:])
