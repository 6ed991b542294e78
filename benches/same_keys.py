"""A library for LD_PRELOAD that makes the secret keys of a program the same in each run, so that counts repeat."""
import subprocess

SOURCE = """#include <string.h>
#include <sys/types.h>
ssize_t getrandom(void *bytes, size_t length, unsigned flags) { memset(bytes, 0x5a, length); return length; }
int getentropy(void *bytes, size_t length) { memset(bytes, 0x5a, length); return 0; }
"""


def build(path):
    command = ["cc", "-O1", "-shared", "-fPIC", "-o", path, "-x", "c", "-"]
    subprocess.run(command, input=SOURCE, text=True, check=True)
