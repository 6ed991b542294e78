"""What Kubernetes requires of the objects that packaging/kubernetes has: the names of their fields, which of them must
be there, and the form of each value. From the reference of its API: apps/v1, v1, networking.k8s.io/v1, policy/v1."""
import re

QUANTITY = re.compile(r"\d+(m|k|M|G|Ki|Mi|Gi)?", re.A)
LABEL = re.compile(r"[A-Za-z0-9]([\w.-]{0,61}[A-Za-z0-9])?", re.A)
KEY = re.compile(r"([a-z0-9.-]+/)?[A-Za-z0-9]([\w.-]{0,61}[A-Za-z0-9])?", re.A)
NAME = re.compile(r"[a-z0-9]([a-z0-9.-]{0,251}[a-z0-9])?", re.A)
HOST = re.compile(r"[a-z0-9-]+(\.[a-z0-9-]+)+", re.A)
LABELS = (KEY, LABEL)  # any names of this form, with values of that
TEXTS = (re.compile(r"[\w.-]+", re.A), str)
META = {"name!": NAME, "labels": LABELS, "annotations": (KEY, str), "namespace": NAME}
SELECTOR = {"matchLabels!": LABELS}
PROBE = {
    "exec!": {"command!": [str]},
    "initialDelaySeconds": int,
    "periodSeconds": int,
    "timeoutSeconds": int,
    "failureThreshold": int,
    "successThreshold": int,
}
RESOURCES = {"requests!": {"cpu": QUANTITY, "memory!": QUANTITY}, "limits!": {"cpu": QUANTITY, "memory!": QUANTITY}}
CONTAINER = {
    "name!": LABEL,
    "image!": re.compile(r"[a-z0-9.-]+(/[a-z0-9._-]+)+(:[\w.-]+)?(@sha256:[0-9a-f]{64})?", re.A),
    "command": [str],
    "args": [str],
    "ports": [{"name!": LABEL, "containerPort!": int, "protocol": ["TCP"]}],
    "env": [{"name!": re.compile(r"[A-Z_]+"), "value!": str}],
    "resources!": RESOURCES,
    "startupProbe": PROBE,
    "readinessProbe": PROBE,
    "livenessProbe": PROBE,
    "lifecycle": {"preStop": {"exec!": {"command!": [str]}}},
    "securityContext": {
        "allowPrivilegeEscalation": bool,
        "runAsNonRoot": bool,
        "readOnlyRootFilesystem": bool,
        "capabilities": {"drop": [str], "add": [str]},
    },
    "volumeMounts": [{"name!": LABEL, "mountPath!": re.compile(r"/.+"), "readOnly": bool, "subPath": str}],
}
POD = {
    "securityContext": {
        "runAsNonRoot": bool,
        "runAsUser": int,
        "runAsGroup": int,
        "seccompProfile": {"type!": ["RuntimeDefault"]},
    },
    "automountServiceAccountToken": bool,
    "enableServiceLinks": bool,
    "terminationGracePeriodSeconds": int,
    "topologySpreadConstraints": [
        {
            "maxSkew!": int,
            "topologyKey!": KEY,
            "labelSelector": SELECTOR,
            "whenUnsatisfiable!": re.compile("DoNotSchedule|ScheduleAnyway"),
        }
    ],
    "initContainers": [CONTAINER],
    "containers!": [CONTAINER],
    "volumes": [
        {
            "name!": LABEL,
            "emptyDir": {"sizeLimit": QUANTITY, "medium": str},
            "configMap": {"name!": NAME, "items": [{"key!": str, "path!": str}]},
        }
    ],
}
KINDS = {
    "Deployment": (
        "apps/v1",
        {
            "spec!": {
                "replicas": int,
                "revisionHistoryLimit": int,
                "minReadySeconds": int,
                "progressDeadlineSeconds": int,
                "strategy": {
                    "type!": re.compile("RollingUpdate"),
                    "rollingUpdate": {"maxUnavailable": int, "maxSurge": int},
                },
                "selector!": SELECTOR,
                "template!": {"metadata!": {"labels!": LABELS, "annotations": (KEY, str)}, "spec!": POD},
            }
        },
    ),
    "Service": (
        "v1",
        {
            "spec!": {
                "type": re.compile("ClusterIP"),
                "selector!": LABELS,
                "ports!": [{"name": LABEL, "port!": int, "targetPort!": (int, LABEL), "protocol": ["TCP"]}],
            }
        },
    ),
    "Ingress": (
        "networking.k8s.io/v1",
        {
            "spec!": {
                "ingressClassName": NAME,
                "tls": [{"hosts": [HOST], "secretName": NAME}],
                "rules!": [
                    {
                        "host!": HOST,
                        "http!": {
                            "paths!": [
                                {
                                    "path!": re.compile(r"/.*"),
                                    "pathType!": re.compile("Prefix|Exact"),
                                    "backend!": {"service!": {"name!": NAME, "port!": {"name": LABEL, "number": int}}},
                                }
                            ]
                        },
                    }
                ],
            }
        },
    ),
    "PodDisruptionBudget": (
        "policy/v1",
        {"spec!": {"minAvailable": int, "maxUnavailable": int, "selector!": SELECTOR}},
    ),
    "NetworkPolicy": (
        "networking.k8s.io/v1",
        {
            "spec!": {
                "podSelector!": SELECTOR,
                "policyTypes!": [re.compile("Ingress|Egress")],
                "ingress!": [
                    {"from!": [{"namespaceSelector!": SELECTOR}], "ports!": [{"port!": LABEL, "protocol!": ["TCP"]}]}
                ],
            }
        },
    ),
    "ConfigMap": ("v1", {"data!": TEXTS}),
}


def faults_of_value(value, form, place):
    """Lines that say where a value has not this form."""
    if isinstance(form, dict):
        return faults_of_object(value, form, place)
    if isinstance(form, list):
        if form and isinstance(form[0], str):
            return [] if value in form else [f"{place}: {value!r} is none of {form}"]
        if not isinstance(value, list) or not value:
            return [f"{place} is no list, or an empty one"]
        return [line for number, it in enumerate(value) for line in faults_of_value(it, form[0], f"{place}[{number}]")]
    if form == (int, LABEL):
        is_right = type(value) is int or isinstance(value, str) and bool(LABEL.fullmatch(value))
    elif isinstance(form, tuple):
        if not isinstance(value, dict) or not value:
            return [f"{place} has no names"]
        return [
            line
            for name, it in value.items()
            for line in (
                *faults_of_value(name, form[0], f"{place}, {name}"),
                *faults_of_value(it, form[1], f"{place}.{name}"),
            )
        ]
    elif isinstance(form, re.Pattern):
        is_right = isinstance(value, str) and bool(form.fullmatch(value))
    else:
        is_right = type(value) is form
    return [] if is_right else [f"{place}: {value!r} has another form"]


def faults_of_object(value, form, place):
    if not isinstance(value, dict):
        return [f"{place} has no fields"]
    forms = {name.rstrip("!"): it for name, it in form.items()}
    lines = [f"{place}.{name} is unknown" for name in value if name not in forms]
    lines += [f"{place}.{name[:-1]} is missing" for name in form if name.endswith("!") and name[:-1] not in value]
    return lines + [
        line
        for name, it in value.items()
        if name in forms
        for line in faults_of_value(it, forms[name], f"{place}.{name}")
    ]


def faults(it):
    """What is wrong with an object itself."""
    kind = it.get("kind") if isinstance(it, dict) else None
    if kind not in KINDS:
        return [f"an object of the kind {kind!r}"]
    version, form = KINDS[kind]
    rest = {"apiVersion!": re.compile(re.escape(version)), "kind!": re.compile(kind), "metadata!": META}
    return faults_of_object(it, {**rest, **form}, kind)
