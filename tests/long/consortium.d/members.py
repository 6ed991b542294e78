"""The libraries of the consortium: the input of each, and the right page for a request in each of its states. They
share forty made providers, of which each has twenty, with links of its own."""
import dataclasses, datetime, json, os, random
import links, tables
from asking import Allowed
from collection import Collection
from links import FULL, LOAN, LOANS, Held, State

TARGETS = 20
HTML = b"<!DOCTYPE html>\n<title>Sign in</title>\n"
PROBES = 8


def collection(seed):
    """Plain tables: what becomes of others is tried elsewhere."""
    return Collection(random.Random(seed), ["tabs"], list(links.RULES))


class Member:
    def __init__(self, number, shared, folder):
        """A library with twenty of the providers. Its input is in a folder."""
        self.name, self.host = f"lib-{number}", f"links.lib-{number}.example.org"
        self.shared, self.folder, self.edition = shared, folder, 0
        source = random.Random(number)
        chosen = sorted(source.sample(range(len(shared.providers)), TARGETS))
        self.providers = [dataclasses.replace(shared.providers[place]) for place in chosen]
        self.titles, self.held, self.allowed, self.states = shared.journals + shared.books, {}, None, []

    def path(self, *names):
        return os.path.join(self.folder, *names)

    def write(self, name, data):
        with open(self.path(name), "wb") as file:
            file.write(data if isinstance(data, bytes) else data.encode())

    def label(self, provider):
        return f"{provider.label} of {self.name}"

    def write_first(self):
        """The lists of its input, which the weeks do not change, and its first files. Returns the first state."""
        os.makedirs(self.folder, exist_ok=True)
        self.write(
            "targets.tsv",
            "".join(f"{it.name}\t{it.name}.rules\t{it.file}\tgone up to 50%\n" for it in self.providers)
            + "loan\tloan.rules\tANY.tsv\n",
        )
        self.write("ANY.tsv", "print_identifier\nANY\n")
        self.write("loan.rules", links.LOAN_RULES)
        self.write(
            "targets.json",
            json.dumps(
                {
                    "groups": [{"name": FULL}, {"name": LOANS, "onlyWithout": FULL}],
                    "words": {"library": self.name},
                    "targets": {
                        **{it.name: {"label": self.label(it), "group": FULL} for it in self.providers},
                        LOAN: {"label": "Loan", "group": LOANS},
                    },
                }
            ),
        )
        return self.advance()

    def advance(self, broken=None):
        """Its next week: all links have another address. The provider `broken` sends a page in place of its table, so
        this one stays as it was. Returns the state that is right once the week is in use."""
        self.edition += 1
        for it in self.providers:
            before = it.edition, it.rows
            it.edition = f"{self.edition}-{self.name}"
            self.write(f"{it.name}.rules", links.rules_of(it))
            self.write(it.file, HTML if it is broken else tables.file_of(it))
            if it is broken:
                it.edition, it.rows = before
            self.held[it.name] = Held(it.rows, it.rules, it.edition, self.label(it))
        self.write("probes.tsv", "".join(map(self.probe_of, self.shared.stable[:PROBES])))
        return State(f"edition {self.edition} of {self.name}", datetime.date.today(), dict(self.held))

    def probe_of(self, title):
        names = [it.name for it in self.providers if any(row.title == title[0] for row in it.rows)]
        return f"issn={title[1]}&date=2001-05&volume=7\t{' '.join(names) or LOAN}\n"

    def begin(self, state):
        """Its first state, or one that may be seen beside the one in use."""
        if self.allowed is None:
            self.allowed = Allowed(state)
        else:
            self.allowed.add(state)
        self.states.append(state)

    def settle(self, state):
        self.allowed.settle(state)


def members(count, shared, folder):
    return [Member(number, shared, os.path.join(folder, f"lib-{number}")) for number in range(1, count + 1)]
