"""What a file states to the crates above its crate: definitions, or public items and their contracts."""
import functools
import re

from stored import text_of

FUNCTION = re.compile(r"( *)(pub |pub\(crate\) )?(?:ghost )?(?:const )?(?:unsafe )?fn \w+")
PRIVATE_FIELD = re.compile(r"(?:pub\(crate\) |ghost )?\w+: ")
BLOCK = re.compile(r"(?:pub )?(?:unsafe )?(impl|trait|struct)\b")
PRIVATE_TYPE = re.compile(r"^(?:pub\(crate\) )?(?:struct|enum|trait) (\w+)", re.M)
# The rest of an item, up to the line that closes it.
ITEM = r"(?:[^\n;{]*;\n|[^{;]*\{\n(?:[^}\n].*\n|\n)*\}\n|[^{;]*\{\}\n)"
MODEL = re.compile(r"^impl(?:<[^{]*?>)? Model for (\w+)", re.M)
INSIDE = re.compile(r"^    ghost (?:view|invariant) = .*?;(?=\n\n|\n?\Z)", re.M | re.S)
# The name of a type that is implemented, or of another item.
NAMED = re.compile(
    r"impl(?:<[^{]*?>)? (?:[^{\n]*? for )?(\w+)|(?:pub )?(?:unsafe )?(?:fn|struct|enum|trait|const) (\w+)")
PRIVATE_VALUE = re.compile(r" *(?:pub\(crate\) )?(?:static|const) \w+:")


def stated_in(path, item, calls):
    """Returns what a source states of an item, or of all if it has no such item, without bodies, comments, imports, and
    what is private. If there are calls, methods that are not called are left out."""
    lines = lines_stated_in(path)
    is_here = any(of == item for of, _, _ in lines)
    return "\n".join(line for of, method, line in lines
                     if (of == item or not is_here) and (not method or calls is None or method in calls))


@functools.lru_cache(maxsize=None)
def lines_stated_in(path):
    """Returns the lines that a source states, each with its item, and its method in an `impl` block."""
    return [*stated(public_items(without_insides(text_of(path))).split("\n"))]


def without_insides(text):
    """Returns a source without what its types say of their fields, if no field is public."""
    for head in MODEL.finditer(text):
        fields = re.search(rf"^pub struct {head[1]}\b{ITEM}", text, re.M)
        if fields and not re.search(r"^    pub \w+:", fields[0], re.M):
            block = text[head.start():text.index("\n}\n", head.start())]
            text = text.replace(block, INSIDE.sub("", block))
    return text


def public_items(text):
    """Returns a source without its private types and their `impl` blocks."""
    names = PRIVATE_TYPE.findall(text)
    for name in names:
        text = re.sub(rf"^(?:#\[.*\n)*(?:pub\(crate\) )?(?:struct|enum|trait) {name}\b{ITEM}", "", text, flags=re.M)
        text = re.sub(rf"^impl(?:<[^{{]*?>)? (?:[^{{]*? for )?{name}\b{ITEM}", "", text, flags=re.M)
    return text


def stated(lines):
    """Yields the lines of a source that are statements, each with its item, and its method in an `impl` block."""
    block, item, at, attributes = "", "", 0, []
    while at < len(lines):
        line = lines[at]
        at += 1
        found = NAMED.match(line)
        item = (found[1] or found[2]) if found else item
        if BLOCK.match(line):
            block = kind_of(lines, at - 1)
        elif line.startswith("}"):
            block = ""
        function = FUNCTION.match(line)
        if function:
            head, at = head_from(lines, at - 1, function[1])
            method = re.search(r"fn (\w+)", line)[1] if block == "impl" else ""
            if function[2] == "pub " or block == "trait":
                yield from ((item, method, it) for it in attributes + head)
        elif line.lstrip().startswith("#["):
            attributes.append(line)
            continue
        elif PRIVATE_VALUE.match(line) and block != "trait":
            at = after_value(lines, at - 1)
        elif is_stated(line.strip(), block):
            yield from ((item, "", it) for it in [*attributes, line])
        attributes = []


def after_value(lines, number):
    """Returns the number of the line after the constant that begins on this line."""
    return next(at for at in range(number, len(lines)) if lines[at].rstrip().endswith(";")) + 1


def kind_of(lines, number):
    """Returns what begins on this line: impl, trait or struct. The implementation of a trait counts as a trait: all its
    functions are public."""
    end = next((at for at in range(number, len(lines)) if re.search(r"[{;]", lines[at])), number)
    head = " ".join(lines[number:end + 1])
    found = BLOCK.match(head)[1]
    return "trait" if found == "impl" and " for " in head else found


def is_stated(line, block):
    if not line or line.startswith(("//", "use ", "ghost use ", "mod ")):
        return False
    return block != "struct" or not PRIVATE_FIELD.match(line)


def head_from(lines, number, indent):
    """Returns the head of the function that begins on this line, with its contract, and the number of the line after
    its body."""
    for at in range(number, len(lines)):
        line = lines[at].rstrip()
        if line.endswith((";", "{}")):
            return lines[number:at + 1], at + 1
        opens = line.endswith("{") and (at == number or line.startswith(f"{indent})"))
        if line == f"{indent}{{" or opens:
            end = next(it for it in range(at + 1, len(lines)) if lines[it] == f"{indent}}}")
            return lines[number:at + 1], end + 1
    raise ValueError(f"the function on line {number + 1} has no end")
