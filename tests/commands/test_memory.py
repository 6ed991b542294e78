"""What is printed, and what the service replies, where memory is refused: 503, and no body for HEAD; and that a request
can reserve many more addresses than it uses."""
import resource

from fixtures import needs
from fixtures.assembler import code
from fixtures.program import ProgramCase
from fixtures.service import Service, reply_of, request_of, to_head
from fixtures.targets import ANY_LINK, write_registry

# 32 times 32,768 bytes: a link as long as links may be, for which a run reserves its bytes before the first step.
LONGEST_LINK = code([], [("link", "a" * 32768)], ["EMIT l0"] * 32 + ["HALT"])

# A web link nearly as long as links may be, of apostrophes, each of which takes five bytes in a page.
APOSTROPHES = code([], [("link", "http://e.org/"), ("link", "'" * 32768)], ["EMIT l0"] + ["EMIT l1"] * 31 + ["HALT"])

# A page of 64 such links has 330 MB.
PAGE_LINKS, PAGE_LIMIT = 64, 200_000_000

REFUSED = reply_of(503, "out of memory\n")

# A run reserves the bytes that its code may print, three for each byte of the request and each of the 40 names. So 200
# runs of this code for this request, each of nearly the largest bound, reserve 200 MB. They print short links.
FORTY_NAMES = "rule\nlink http://e.org/" + "{x}" * 40 + "\n"
RESERVING = "/openurl.txt?rft.issn=1&y=" + "a" * 8_700
TARGETS = 200
RESERVED = 200_000_000

# What the service may use for all this, and what it may add to its addresses when they are limited.
USED = 50_000_000

# A method, and whether the reply has its body.
METHODS = [("GET", True), ("HEAD", False), ("GET", True)]


def limit_memory(process):
    """Leaves the process a quarter of a MiB more than it has now."""
    with open(f"/proc/{process}/statm") as sizes:
        limit = int(sizes.read().split()[0]) * resource.getpagesize() + 262144
    resource.prlimit(process, resource.RLIMIT_AS, (limit, limit))


def kilobytes(process, name):
    with open(f"/proc/{process}/status") as lines:
        return next(int(line.split()[1]) for line in lines if line.startswith(f"{name}:"))


@needs.limits_of_addresses()
class Memory(ProgramCase):
    def test_replies_without_memory(self):
        targets = [("small", ANY_LINK, "print_identifier\n1\n"), ("large", LONGEST_LINK, "print_identifier\n2\n")]
        write_registry(self.program, targets)
        small = reply_of(200, "small\thttp://e.org/\n")
        with Service(self.program, 2 + len(METHODS)) as service:
            request = request_of("/openurl.txt?rft.issn=1")
            self.program.expect("with memory", service.reply(request), small)
            limit_memory(service.process.pid)
            for method, has_body in METHODS:
                answer = service.reply(request_of("/openurl.txt?rft.issn=2", method=method))
                self.program.expect(f"{method} without memory", answer, REFUSED if has_body else to_head(REFUSED))
            self.program.expect("a request that needs no more", service.reply(request), small)

    def test_reserved_addresses(self):
        """A limit of addresses refuses a request that uses little memory."""
        self.program.write("rules", FORTY_NAMES)
        self.program.run(["compile", "rules", "code"])
        self.program.write("table", "print_identifier\n1\n")
        self.program.write("registry", "".join(f"t{n}\tcode\ttable\n" for n in range(TARGETS)))
        page = reply_of(200, "".join(f"t{n}\thttp://e.org/\n" for n in range(TARGETS)))
        with Service(self.program, 2) as service:
            process = service.process.pid
            before = kilobytes(process, "VmPeak")
            self.program.expect("a request that reserves much", service.reply(request_of(RESERVING)), page)
            reserved = (kilobytes(process, "VmPeak") - before) * 1024
            self.program.expect(f"{reserved} bytes are reserved", reserved > RESERVED, True)
            used = kilobytes(process, "VmHWM") * 1024
            self.program.expect(f"{used} bytes are used", used < USED, True)
            limit = kilobytes(process, "VmSize") * 1024 + USED
            resource.prlimit(process, resource.RLIMIT_AS, (limit, limit))
            self.program.expect("the same under a limit of addresses", service.reply(request_of(RESERVING)), REFUSED)

    def test_a_command_without_memory(self):
        """A table of almost 16 MiB is read, and the program may have no more than 32 MiB."""
        write_registry(self.program, [("alpha", ANY_LINK, "x\n" + ("a" * 65_535 + "\n") * 255)])

        def limit():
            resource.setrlimit(resource.RLIMIT_AS, (2**25, 2**25))

        given = self.program.run(["resolve", "registry", "x=1"], preexec_fn=limit)
        self.program.expect("a command without memory", given, (4, b"", b"openlink: out of memory\n"))
        self.program.finds_no_link(["resolve", "registry", "x=1"])

    def test_a_page_too_large_for_memory(self):
        small = [("small", ANY_LINK, "print_identifier\n1\n")]
        large = [(f"t{n}", APOSTROPHES, "print_identifier\n2\n") for n in range(PAGE_LINKS)]
        write_registry(self.program, small + large)
        with Service(self.program, 3) as service:
            resource.prlimit(service.process.pid, resource.RLIMIT_AS, (PAGE_LIMIT, PAGE_LIMIT))
            page = service.reply(request_of("/openurl?rft.issn=2"))
            self.program.expect("a page that does not fit", page, REFUSED)
            page = service.reply(request_of("/openurl?rft.issn=2", method="HEAD"))
            self.program.expect("its head", page, to_head(REFUSED))
            answer = service.reply(request_of("/openurl.txt?rft.issn=1"))
            self.program.expect("a request after it", answer, reply_of(200, "small\thttp://e.org/\n"))
