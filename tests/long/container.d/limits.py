"""limits.py RUNC ARGUMENTS..: starts runc with no limit of a process higher than this process may set. podman asks for
its own limits in a pod, takes no others for it, and a machine within another may not raise them."""
import json, os, resource, sys


def lower(process):
    for it in process.get("rlimits", ()):
        most = resource.getrlimit(getattr(resource, it["type"]))[1]
        if most != resource.RLIM_INFINITY:
            it["hard"], it["soft"] = min(it["hard"], most), min(it["soft"], most)


def edit(path, part):
    """Lowers the limits of the process that a file of runc describes."""
    with open(path, encoding="utf-8") as file:
        value = json.load(file)
    lower(part(value))
    with open(path, "w", encoding="utf-8") as file:
        json.dump(value, file)


def main(words):
    for name, path in zip(words, words[1:]):
        if name == "--bundle":
            edit(os.path.join(path, "config.json"), lambda value: value["process"])
        elif name == "--process":
            edit(path, lambda value: value)
    os.execv(words[0], words)


main(sys.argv[1:])
