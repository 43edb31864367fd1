"""What the scripts in Python share. They stand in the folder above, so that Python finds it by its name:

    sys.dont_write_bytecode = True  # leaves no __pycache__
    from lib.shared import ROOT
"""
import os
import subprocess
import zlib

ROOT = os.path.dirname(os.path.dirname(os.path.dirname(os.path.realpath(__file__))))
CBSRUN = os.path.join(ROOT, "crates", "cbsrun", "out", "cbsrun")
TRIALS = os.path.join(ROOT, "crates", "trials", "out", "trials")


def build_cbsrun():
    """Proves and builds CBSRUN, if it is not there or a source is newer."""
    subprocess.run([os.path.join(ROOT, "scripts", "program"), "cbsrun"], stdout=subprocess.DEVNULL, check=True)


def build_trials():
    """Proves and builds TRIALS, if it is not there or a source is newer."""
    subprocess.run([os.path.join(ROOT, "scripts", "program"), "trials"], stdout=subprocess.DEVNULL, check=True)


def build_library():
    """Builds the library for C, as scripts/library does, and gives its folder."""
    return output([os.path.join(ROOT, "scripts", "library")]).strip()


def compile_c(library, source, program, *flags):
    """Compiles a program in C, and links it with the library of that folder."""
    output(["cc", "-std=c99", "-O2", *flags, f"-I{library}/include", source, f"{library}/lib/libcbs.a", "-lpthread", "-o", program])


def output(words, **options):
    """The output of a program that ended well."""
    return subprocess.run(words, stdout=subprocess.PIPE, text=True, check=True, **options).stdout


def run_within(seconds, words, **options):
    """Status, output and error output of a program. If it takes longer, subprocess.TimeoutExpired."""
    done = subprocess.run(words, capture_output=True, timeout=seconds, check=False, **options)
    return done.returncode, done.stdout, done.stderr


def task_head(servers, backlog=4096, ring=4):
    """The keys of a task file above its steps. Of each server, budget, period and mode are given."""
    tables = ", ".join(f'{{ budget = {budget}, period = {period}, mode = "{mode}" }}' for budget, period, mode in servers)
    return f"format = 2\nbound = [1, 1]\nbacklog = {backlog}\nring = {ring}\nserver = [{tables}]\n"


def task_file(servers, steps, **keys):
    """A task file with these servers and the lines of these steps."""
    return task_head(servers, **keys) + "step = [\n" + "".join(steps) + "]\n"


def submit(server, kind, units):
    """The line of a step that submits a job. Its units are a list, or the text of one."""
    return f'  {{ op = "submit", server = {server}, job = "{kind}", units = {units} }},\n'


RUN = '  { op = "run" },\n'


def taped_blocks(content):
    """The text of a record with a tape, and the bytes of each of its blocks (docs/FORMATS.md#blocks). None for a block that is wrong."""
    begin = content.index(3) + 1
    blocks, total = [], zlib.crc32(content[:begin])
    while begin < len(content):
        low, middle, high, check = content[begin : begin + 4]
        end = begin + 4 + low + 256 * middle + 65536 * high
        total = zlib.crc32(content[begin:end], total)
        is_right = low ^ middle ^ high ^ check == 255 and content[end : end + 4] == total.to_bytes(4, "little")
        blocks.append(content[begin + 4 : end] if is_right else None)
        begin = end + 4
    return content[: content.index(3)], blocks


def is_told_if_turned(content, place, bit, whole):
    """Whether the program, if a bit of a record is turned, tells a fault, or writes the lines of the whole record, or a beginning of
    them and that the record is cut."""
    turned = bytearray(content)
    turned[place] ^= 1 << bit
    status, out, error = run_within(60, [CBSRUN, "replay", "-"], input=bytes(turned))
    if status == 0:
        return out == whole or whole.startswith(out) and b" is cut after " in error
    return status == 3 and not out


def documents(folder):
    """The documents (*.md) in a folder and below. A folder whose name is 'out' or begins with a dot is passed over."""
    for at, folders, files in os.walk(folder):
        folders[:] = sorted(name for name in folders if name != "out" and not name.startswith("."))
        yield from (os.path.join(at, name) for name in sorted(files) if name.endswith(".md"))


def read(path):
    """The text of a file."""
    with open(path, encoding="utf-8") as file:
        return file.read()


def outside_code(text):
    """The lines of a document that are in no code block, each with its number from 1 on."""
    fenced, after_blank, indented = False, True, False
    for number, line in enumerate(text.split("\n"), 1):
        if line.lstrip().startswith("```"):
            fenced = not fenced
            continue
        # four blanks make a code block after an empty line, but in a list
        indented = line.startswith("    ") and (after_blank or indented)
        after_blank = not line.strip()
        if not fenced and not indented:
            yield number, line
