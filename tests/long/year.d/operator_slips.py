"""Slips of the library's own staff, in the lists and rules of the input; each is made by a function that gets the year
and a provider, and returns what mends it."""
import json, os, re
from slips import KEPT, NOT_FETCHED, Slip


def written(year, name, data):
    """Writes a file of the input. Returns what writes the old one again."""
    old = year.machine.input.read(name)
    year.machine.input.write(name, data)
    return lambda: year.machine.input.write(name, old)


def replaced(year, name, old, new):
    data = year.machine.input.read(name).decode()
    assert old in data, f"{name} has no {old}"
    return written(year, name, data.replace(old, new, 1))


def rule_without_end(year, provider):
    year.mail.slips[provider.name] = Slip(KEPT, (f"  {year.path(f'{provider.name}.rules')}: ",))
    return written(year, f"{provider.name}.rules", "rule\nlink https://press.example.com/{title_id\n")


def rule_with_another_name(year, provider):
    year.mail.slips[provider.name] = Slip(
        KEPT,
        (f"  {year.path(f'{provider.name}.rules')}: rule 1, guard 1: " "unknown name titel_id, did you mean title_id",),
    )
    return written(
        year, f"{provider.name}.rules", "rule\nwhen given titel_id\nlink https://press.example.com/{title_id}\n"
    )


def table_that_is_not_there(year, provider):
    path = year.path(f"{provider.name}-new.txt")
    year.mail.slips[provider.name] = Slip(KEPT, (f"  {path}: No such file or directory",))
    year.expect(rf"{re.escape(year.path('sources.tsv'))}: fetched, and no target has it: {provider.file}")
    return replaced(year, "targets.tsv", f"\t{provider.file}\t", f"\t{provider.name}-new.txt\t")


def name_that_is_missing(year, provider):
    year.unnamed = frozenset({provider.name})
    year.expect(
        rf"{re.escape(year.path('targets.json'))}: not named, so they are shown last and not as full text: "
        rf"{provider.name}"
    )
    names = json.loads(year.machine.input.read("targets.json"))
    del names["targets"][provider.name]
    return renamed(year, written(year, "targets.json", json.dumps(names)))


def renamed(year, mend):
    """What mends targets.json, after which it names all targets."""

    def mended():
        year.unnamed = frozenset()
        mend()

    return mended


def names_without_end(year, provider):
    """The update keeps the file of the version in use, which may lack a name since the week before."""
    year.unnamed = year.state.unnamed
    path = re.escape(year.path("targets.json"))
    kept = r"targets\.json: the old one is kept"
    year.expect(kept, rf"{kept}\n  {path}: .*")
    return renamed(year, written(year, "targets.json", year.machine.input.read("targets.json")[:-3]))


def address_of_no_host(year, provider):
    year.mail.slips[provider.name] = Slip(NOT_FETCHED, ("the name of the host is unknown",))
    return replaced(year, "sources.tsv", year.vendors.address_of(provider), f"https://nowhere.invalid/{provider.file}")


def secrets_for_all(year, provider):
    year.mail.slips[year.secret.name] = Slip(NOT_FETCHED, ("others than its owner may read it: chmod 600",))
    os.chmod(year.path("secrets.tsv"), 0o644)
    return lambda: os.chmod(year.path("secrets.tsv"), 0o600)


def secret_that_is_missing(year, provider):
    year.mail.slips[year.secret.name] = Slip(NOT_FETCHED, ("secrets.tsv has no TOKEN",))
    mend = written(year, "secrets.tsv", "OTHER\tx\n")

    def mended():
        mend()
        os.chmod(year.path("secrets.tsv"), 0o600)

    os.chmod(year.path("secrets.tsv"), 0o600)
    return mended


def unknown_option(year, provider):
    line = 1 + [it.name for it in year.collection.providers].index(provider.name)
    year.mail.slips[provider.name] = Slip(NOT_FETCHED, ())
    year.expect(rf"{re.escape(year.path('sources.tsv'))}: line {line}: unknown option weekly")
    address = year.vendors.address_of(provider)
    return replaced(year, "sources.tsv", f"{address}\t", f"{address}\tweekly; ")


# After these no file of the week is used.
def line_of_targets(year, provider):
    line = 1 + [it.name for it in year.collection.providers].index(provider.name)
    place = f"{re.escape(year.path('targets.tsv'))}: line {line}"
    year.expect(rf"openlink-update: {place}: not a name, a rule file, a table.*")
    return replaced(year, "targets.tsv", f"{provider.name}\t", f"{provider.name} ")


def probe_that_differs(year, provider):
    year.expect(
        r"openlink-update: 1 of \d+ probes differ with the new version",
        r"  missing [-\w.]+: .*",
        rf"{re.escape(year.path('probes.tsv'))}:1: .*(\n.*)*",
    )
    query, _, names = year.machine.input.read("probes.tsv").decode().partition("\t")
    other = next(it.name for it in year.collection.providers if it.name not in names.split("\n")[0])
    return written(year, "probes.tsv", f"{query}\t{other} {names}")


USABLE = {
    "a rule without its end": rule_without_end,
    "a rule with another name": rule_with_another_name,
    "a table that is not there": table_that_is_not_there,
    "a name that targets.json lacks": name_that_is_missing,
    "targets.json without its end": names_without_end,
    "an address of no host": address_of_no_host,
    "secrets that others may read": secrets_for_all,
    "a secret that is missing": secret_that_is_missing,
    "an unknown option of a source": unknown_option,
}
UNUSABLE = {"a line of targets.tsv": line_of_targets, "a probe that differs": probe_that_differs}
