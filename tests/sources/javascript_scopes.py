"""The names of a JavaScript file: where each is declared, in which scope, and how often it is used."""
from __future__ import annotations

from sources.javascript_words import words_of

OPENING = {"(": ")", "[": "]", "{": "}"}
KEYWORDS = set(
    """async await break case catch const continue default delete do else export false finally for function
    if import in instanceof let new null of return switch this throw true try typeof var void while""".split()
)


class Scope:
    def __init__(self, outer: Scope | None) -> None:
        self.outer = outer
        self.names: dict[str, Name] = {}

    def find(self, name: str) -> Name | None:
        """Returns the declaration that a name has in this scope, or None."""
        scope: Scope | None = self
        while scope and name not in scope.names:
            scope = scope.outer
        return scope.names[name] if scope else None


class Name:
    def __init__(self, name: str, line: int, scope: Scope, is_parameter: bool = False) -> None:
        self.name, self.line, self.scope, self.is_parameter = name, line, scope, is_parameter
        self.uses = 0
        self.later: list[Name] = []

    def is_before_used(self) -> bool:
        """Whether a parameter after this one is used, so that this one has to be there."""
        return any(it.uses for it in self.later)


class Source:
    """A file. `unknown` are the names that it uses and does not declare, each with its line."""

    def __init__(self, path: str, text: str) -> None:
        self.path, self.words = path, words_of(text)
        self.declared: list[Name] = []
        self.unknown: list[tuple[str, int]] = []
        self.imports: dict[str, tuple[str, int]] = {}
        self.exports: dict[str, int] = {}
        self.functions_in_arrays: list[int] = []
        self.ends, self.around = self.brackets()
        self.begins = {end: start for start, end in self.ends.items()}
        self.scope = Scope(None)
        self.starts: dict[int, list[tuple[int, list[int]]]] = {}  # the scopes that begin at a word
        self.written: set[int] = set()  # the words that declare a name
        self.caught: set[int] = set()  # those after `catch`, where njs demands one
        self.find_scopes()
        self.read()

    def text(self, at: int) -> str:
        return self.words[at].text if 0 <= at < len(self.words) else ""

    def is_name(self, at: int) -> bool:
        return 0 <= at < len(self.words) and self.words[at].kind == "name" and self.text(at) not in KEYWORDS

    def brackets(self) -> tuple[dict[int, int], list[int | None]]:
        """Returns the end of each bracket, and for each word the bracket around it."""
        ends: dict[int, int] = {}
        around: list[int | None] = []
        open_: list[int] = []
        for at, word in enumerate(self.words):
            is_sign = word.kind == "sign"
            if is_sign and word.text in OPENING.values():
                assert open_ and OPENING[self.text(open_[-1])] == word.text, f"{self.path}:{word.line}: {word.text}"
                ends[open_.pop()] = at
            around.append(open_[-1] if open_ else None)
            if is_sign and word.text in OPENING:
                open_.append(at)
        assert not open_, f"{self.path}: a bracket has no end"
        return ends, around

    def find_scopes(self) -> None:
        """Notes each scope as (end, names of parameters) at its first word."""
        for at, word in enumerate(self.words):
            if word.kind == "name" and word.text == "function":
                start = at + 1 if self.text(at + 1) == "(" else at + 2
                self.add_function(at, start, self.ends[self.ends[start] + 1])
            elif word.text == "=>" and word.kind == "sign":
                self.add_arrow(at)
            elif word.kind == "name" and word.text in ("for", "catch") and self.text(at + 1) == "(":
                self.add_loop(at)
            elif word.kind == "sign" and word.text == "{":
                self.starts.setdefault(at, []).append((self.ends[at], []))

    def add_function(self, at: int, start: int, end: int) -> None:
        """The parameters are between `start` and its end, or the word there alone."""
        inside = range(start + 1, self.ends[start]) if start in self.ends else [start]
        names = [it for it in inside if self.is_name(it)]
        self.starts.setdefault(start, []).insert(0, (end, names))
        if self.is_element(at):
            self.functions_in_arrays.append(self.words[at].line)

    def add_arrow(self, at: int) -> None:
        start = self.begins.get(at - 1, at - 1)
        end = self.ends[at + 1] if self.text(at + 1) == "{" else self.end_of_expression(at + 1)
        self.add_function(start - 1 if self.text(start - 1) == "async" else start, start, end)

    def add_loop(self, at: int) -> None:
        body = self.ends[at + 1] + 1
        end = self.ends[body] if self.text(body) == "{" else self.end_of_expression(body)
        if self.text(at) == "catch":
            self.caught.add(at + 2)
        self.starts.setdefault(at + 1, []).insert(0, (end, [at + 2] if self.text(at) == "catch" else []))

    def is_element(self, at: int) -> bool:
        """Whether the word begins an element of an array literal."""
        bracket = self.around[at]
        if bracket is None or self.text(bracket) != "[" or self.text(at - 1) not in ("[", ","):
            return False
        return not (self.is_name(bracket - 1) or self.text(bracket - 1) in (")", "]"))

    def end_of_expression(self, at: int) -> int:
        """The last word of the expression that begins here."""

        def is_end() -> bool:
            return self.words[at].kind == "sign" and self.text(at) in (",", ";", ")", "]", "}")

        while at < len(self.words) and not is_end():
            at = self.ends.get(at, at) + 1
        return at - 1

    def declare(self, at: int, scope: Scope, is_parameter: bool = False) -> Name:
        it = Name(self.text(at), self.words[at].line, scope, is_parameter)
        it.uses = 1 if at in self.caught else 0
        self.written.add(at)
        self.declared.append(it)
        scope.names[it.name] = it
        return it

    def read(self) -> None:
        """Reads all words twice: first the declarations, since a function may be used before it, then the uses."""
        scopes: list[Scope] = []
        scope, ends = self.scope, []
        for at in range(len(self.words)):
            for end, parameters in self.starts.get(at, []):
                scope = Scope(scope)
                ends.append(end)
                names = [self.declare(it, scope, True) for it in parameters]
                for i, it in enumerate(names):
                    it.later = names[i + 1 :]
            scopes.append(scope)
            self.read_declaration(at, scope)
            while ends and ends[-1] == at:
                ends.pop()
                assert scope.outer
                scope = scope.outer
        for at, inner in enumerate(scopes):
            if self.is_use(at):
                found = inner.find(self.text(at))
                if found:
                    found.uses += 1
                else:
                    self.unknown.append((self.text(at), self.words[at].line))

    def read_declaration(self, at: int, scope: Scope) -> None:
        if self.words[at].kind != "name" or self.text(at - 1) == ".":
            return
        if self.text(at) in ("const", "let", "var"):
            self.declare(at + 1, scope)
            at = self.end_of_expression(at + 1) + 1
            while self.text(at) == ",":
                self.declare(at + 1, scope)
                at = self.end_of_expression(at + 1) + 1
        elif self.text(at) == "function" and self.is_name(at + 1):
            self.declare(at + 1, scope)
        elif self.text(at) == "import" and self.is_name(at + 1):
            self.imports[self.text(at + 1)] = (
                self.text(at + 3)[1:-1].removeprefix("./").removesuffix(".js"),
                self.words[at].line,
            )
            self.declare(at + 1, scope)
            self.written.add(at + 2)
        elif self.text(at) == "export":
            inside = range(at + 3, self.ends[at + 2])
            self.exports = {
                self.text(it): self.words[it].line
                for it in inside
                if self.is_name(it) and self.around[it] == at + 2 and self.text(it - 1) in ("{", ",")
            }

    def is_key(self, at: int) -> bool:
        bracket = self.around[at]
        return (
            self.text(at + 1) == ":"
            and bracket is not None
            and self.text(bracket) == "{"
            and self.text(at - 1) in ("{", ",")
        )

    def is_use(self, at: int) -> bool:
        return self.is_name(at) and at not in self.written and self.text(at - 1) != "." and not self.is_key(at)

    def members_of(self, name: str) -> set[str] | None:
        """The names that the file takes from a module; None if it uses the module as a whole."""
        found = set()
        for at in range(len(self.words)):
            if self.text(at) == name and self.is_use(at):
                if self.text(at + 1) != ".":
                    return None
                found.add(self.text(at + 2))
        return found
