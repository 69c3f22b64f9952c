"""What the tests share that ask the prover about wrong programs: the copy of the tree, a command run in it, the edits
and the first error. They run in the repository's root."""
import atexit, glob, os, re, shutil, signal, subprocess, tempfile, threading


def read(file):
    with open(file, encoding="utf-8") as opened:
        return opened.read()


def write(file, text):
    with open(file, "w", encoding="utf-8") as opened:
        opened.write(text)


# ---- the crates and the edits

def crates():
    """The crates in their order, each with those that it stands on."""
    lines = [line.split("#")[0].split(":") for line in read("crates.txt").splitlines()]
    return {line[0].split()[0]: line[1].split() for line in lines if len(line) == 2}


def edits():
    """Every edit by its crate and its name: those that `rt` tries, and those that tests/edits tries."""
    files = glob.glob("crates/*/must-fail/*.edit") + glob.glob("tests/edits/*/*.edit")
    found = [(re.fullmatch(r"(?:crates|tests/edits)/([^/]+)/(?:must-fail/)?([^/]+)\.edit", file), file) for file in files]
    return {match.groups(): file for match, file in sorted(found, key=lambda pair: pair[0].groups())}


class Wrong(Exception):
    """Why an edit does not do what it must."""


def replacements(edit):
    """The replacements of an edit, each a file of the crate, the old text and the new one."""
    file = old = None
    for word, text in re.findall(r"^(file|old|new): ?(.*)$", read(edit), re.M):
        if word == "file":
            file = text
        elif word == "old":
            old = text
        else:
            yield file, old, text


def edited(edit, folder):
    """What an edit makes of the files of its crate's folder, by their names there; each old text must stand once."""
    made = {}
    strange = [line for line in read(edit).splitlines() if line and not re.match(r"#|(file|old): .|new:( |$)", line)]
    if strange:
        raise Wrong(f"it has a line that is not read: {strange[0]}")
    for file, old, new in replacements(edit):
        if not file or ".." in file or file.split("/")[0] not in ("src", "specs", "proofs") or not os.path.isfile(f"{folder}/{file}"):
            raise Wrong(f"{file} is no file of the crate")
        text = made.get(file) or read(f"{folder}/{file}")
        if not old or text.count(old) != 1:
            raise Wrong(f"its 'old:' text stands {text.count(old) if old else 0} times in {file}: {old}")
        made[file] = text.replace(old, new)
    if not made:
        raise Wrong("it has no 'old:' and 'new:' pair")
    if all(text == read(f"{folder}/{file}") for file, text in made.items()):
        raise Wrong("it changes nothing")
    return made


# ---- the copy, and what is run in it

def make_copy(tree, folders, files):
    """Makes a copy of parts of the tree outside the checkout, without what is kept of proofs: rt finds that itself, by the sums of the files."""
    for part in folders:
        shutil.rmtree(f"{tree}/{part}", ignore_errors=True)
        shutil.copytree(part, f"{tree}/{part}", ignore=shutil.ignore_patterns("out"))
    for part in files:
        shutil.copy(part, tree)


starting, sessions = threading.Lock(), set()


def end(session):
    """Ends the processes of a session that a command was given, one by one: some of them leave its group."""
    for process in map(int, filter(str.isdigit, os.listdir("/proc"))):
        try:
            if os.getsid(process) == session:
                os.kill(process, signal.SIGKILL)
        except OSError:
            pass  # it has ended by itself


def run(words, folder, limit=None, **environment):
    """The status and the output of a command in a folder of a copy; no status where it took too long."""
    with starting:
        started = subprocess.Popen(words, cwd=folder, stdin=subprocess.DEVNULL, stdout=subprocess.PIPE,
                                   stderr=subprocess.STDOUT, start_new_session=True, env=dict(os.environ, **environment))
        sessions.add(started.pid)
    try:
        output = started.communicate(timeout=limit)[0]
        return started.returncode, output.decode(errors="replace")
    except subprocess.TimeoutExpired:
        end(started.pid)
        return None, started.communicate()[0].decode(errors="replace")
    finally:
        sessions.discard(started.pid)


def linked(kept, to):
    """Copies what a check kept, what it proved by links: a check replaces such a file, and changes none."""
    shutil.copytree(kept, to, copy_function=lambda one, other: (os.link if one.endswith(".oantt") else shutil.copy2)(one, other))


copies = []


def copy_for(name):
    """A new folder outside the checkout, in which no file of Rattle's may lie but in the crates; it goes when the test ends."""
    copies.append(tempfile.mkdtemp(prefix=f"channel-{name}-"))
    return copies[-1]


@atexit.register
def remove_copies():
    for tree in copies:
        shutil.rmtree(tree, ignore_errors=True)


def stop_all(*_):
    """Where a signal ends a test whose commands other threads run: nothing starts any more, and what runs ends with it."""
    starting.acquire()
    for session in list(sessions):
        end(session)
    remove_copies()
    os._exit(1)


# ---- the prover's words

# Where a step of a proof no longer fits the code: it is no fact that fails there.
STEP_LOST = re.compile("no occurrence of the path|has no `|has no field|that can be named from here|is not in scope")


def errors(output):
    """The errors in their order, each by its file, its line and its words, which the prover may break over lines that begin with spaces;
    behind them what it says of the code. That a citing proof is not admitted, or not checked, is no reason."""
    output = re.sub(r"\n +", " ", output)
    found = re.findall(r"^(?:\./)?(\S*?):(\d+):\d+: (error(?!.*was not admitted|.*declarations? that depends? on).*)$", output, re.M)
    found += re.findall(r"^note: (?:\./)?(\S*?):(\d+):\d+: (.*)$", output, re.M)
    return [f"{file}:{line}: {re.sub('^error: ', '', words)[:300]}" for file, line, words in found]


def refusal(output):
    """By the prover, or before it by the types or the form; and the first error, of a fact where there is one."""
    kind, found = "prover" if "logic=not-proved" in output else "types", errors(output)
    facts = [error for error in found if not STEP_LOST.search(error)]
    return kind, next(iter(facts + found), " ".join(output.split()[-12:]))
