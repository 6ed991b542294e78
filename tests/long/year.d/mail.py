"""What the mail of a week must say, and what it may: its sections, each a line and those after it that begin with
spaces."""
import collections, re
import slips, tables

TARGET = re.compile(r"(press-\d\d): (.*)")
FILE = re.compile(r"(press-\d\d)\.txt: (.*)")
KEPT = "kept its old rules and table"
AGAIN = "  the table of "
CHANGED = re.compile(r"new, \d+ rows?|(rules changed)?(, )?(\d+ rows? added, \d+ gone)?|moving walls changed")
TITLES = re.compile(r"  titles: \d+ came, \d+ gone: changes/press-\d\d\.txt")
NO_DATE = re.compile(r"no link without a date for (journals|books), such as .*")
FETCHED = re.compile(r"(new|changed), [\d,]+ bytes")
NUMBERED = re.compile(r"([\d,]+) of [\d,]+ rows?\b.*\b(?:first|such as)\b.*\S")  # of a slip, with an example
STAMP = r"\d{8}T\d{6}Z"
# Lines that come every week, and after a run that was ended or killed.
USUAL = [
    re.compile(text)
    for text in (
        r"\d+ files? asked for, \d+ new or changed, \d+ not fetched",
        r"\d+ probes hold",
        r"loan: new, 1 row",
        rf"{STAMP} is in use(; old files of [-.\w, ]+ kept)?",
        rf"nothing new: {STAMP} stays in use(; old files of [-.\w, ]+ kept)?",
        r"\S+/probes\.tsv:\d+: \S+(\n  press-\d\d \S+ is now \S+)*",
    )
]
AFTER_A_KILL = [
    re.compile(text)
    for text in (
        r"the last run was killed while it restarted processes: going back first",
        rf"{STAMP} (is|stays) in use( again)?",
        r"openlink-(update|fetch): ended by SIGTERM",
        r"\S+/lock: another run has not ended",
        r"openlink-update: .*",
        r"the links of the version in use are not known: .*",
        r"\S+/probes\.tsv:\d+: .*(\n.*)*",
    )
]


def sections_of(text):
    found = []
    for line in text.splitlines():
        if line.startswith("  ") and found:
            found[-1].append(line)
        else:
            found.append([line])
    return found


class Week:
    """What is expected of a week's mail: the slips by provider, and lines that slips of staff or kills explain."""

    def __init__(self, providers, path_of):
        self.forms, self.path_of = {it.name: tables.said_of(it) for it in providers}, path_of
        self.slips, self.explained, self.required = {}, [], []
        self.mended = frozenset()  # targets with a slip in the week before, which may have their older table again
        self.kept_once = set()  # targets of which a run keeps the old table, and a later one of the week does not
        self.compared = collections.Counter()

    def faults(self, text):
        """What the mail does not say, and what it says without a reason."""
        found, said = [], {}
        for section in sections_of(text):
            self.compared["sections of mails"] += 1
            found += self.faults_of(section, said)
        for name, slip in self.slips.items():
            lines = said.get(name, [])
            self.compared["lines that mails must have of slips"] += len(slip.says)
            found += self.faults_of_number(name, slip, lines)
            found += [
                f"the mail does not say of {name}: {part}"
                for part in map(self.full(name), slip.says)
                if not any(part in line for line in lines)
            ]
        found += [
            f"the mail does not say: {it.pattern}"
            for it in self.required
            if not any(it.search(line) for line in text.splitlines())
        ]
        return found

    def faults_of_number(self, name, slip, lines):
        """A slip that harms readers is said with the number of its rows, and an example."""
        known = [words for words in slips.OF_UPDATE if any(words in part for part in slip.says)]
        found = []
        for words in known:
            self.compared["numbers and examples of slips"] += 1
            texts = [NUMBERED.search(line.partition(f"{words}: ")[2]) for line in lines if f"{words}: " in line]
            numbers = [int(it[1].replace(",", "")) for it in texts if it]
            if not numbers:
                found.append(f"the mail has no number and no example of {words}: {name}: {lines}")
            elif slip.counted[:1] == (words,) and slip.counted[1] not in numbers:
                found.append(f"the mail has another number than {slip.counted[1]} of {words}: {name}: {lines}")
        return found

    def full(self, name):
        return lambda part: part.replace("{file}", self.path_of(f"{name}.txt"))

    def faults_of(self, section, said):
        head, lines = section[0], section[1:]
        whole, target, file = "\n".join(section), TARGET.fullmatch(head), FILE.fullmatch(head)
        if any(it.fullmatch(whole) for it in (*USUAL, *self.explained)):
            return []
        if file and not lines:
            return self.faults_of_file(file[1], file[2], said)
        if target:
            return self.faults_of_target(target[1], target[2], lines, said)
        return [f"the mail says without a reason: {whole}"]

    def faults_of_file(self, name, text, said):
        said.setdefault(name, []).append(text)
        slip = self.slips.get(name)
        is_slip = slip and (slip.outcome == slips.NOT_FETCHED or any(part in text for part in slip.says))
        return [] if is_slip or FETCHED.fullmatch(text) else [f"a slip that was none: {name}: {text}"]

    def faults_of_target(self, name, text, lines, said):
        said.setdefault(name, []).extend(lines)
        slip = self.slips.get(name)
        if text == KEPT:
            is_kept = slip and slip.outcome == slips.KEPT or name in self.kept_once
            return [] if is_kept else [f"kept without a reason: {name}: {lines}"]
        if NO_DATE.fullmatch(text):
            return []
        if slip and any(text.startswith(part) for part in slip.says):
            said[name].append(text)
            return []
        known = (*self.forms[name], *(slip.says if slip else ()), *([AGAIN] if name in self.mended else []))
        others = [
            line
            for line in lines
            if not TITLES.fullmatch(line) and not any(part in line for part in map(self.full(name), known))
        ]
        wrong = [f"said of {name} without a reason: {line}" for line in others]
        return wrong if CHANGED.fullmatch(text) else [*wrong, f"said of {name}: {text}"]
