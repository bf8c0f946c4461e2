# What kept_first, crash and journal_speed share: a server beside a journal, one request to it, and the layout of a journal,
# worked out apart from the program (docs/DURABILITY.md).
import contextlib, ctypes, os, re, select, signal, socket, struct, subprocess, sys

TOP = os.path.dirname(os.path.dirname(os.path.abspath(__file__)))
SECONDS = 20
FORM = "Content-Type: application/x-www-form-urlencoded\r\nContent-Length: "


class Wrong(Exception):
    """Something came that may not come."""


def want(holds, told):
    if not holds:
        raise Wrong(told)


# ---- the layout

FACTOR, WORD, MOST = 6364136223846793005, 2**64, 81920


def sum_of(check, data):
    """The check behind these bytes, where this is the one before them."""
    for byte in data:
        check = (check + byte + 1) * FACTOR % WORD
    return check


def front_of_head(text, origin):
    return b"BWJOURNAL1\n" + struct.pack(">I", len(text)) + text + origin


def head_of(text):
    return front_of_head(text, b"\0")


def saved_front(text):
    """What stands in front of the saved world that a journal of this service begins at."""
    return front_of_head(text, b"\1")


def start_of(data, text):
    """Where the entries of a journal of this service begin, and the check there: behind its head, or behind the saved world in it."""
    if data.startswith(head_of(text)):
        return len(head_of(text)), sum_of(0, head_of(text))
    front = saved_front(text)
    want(data.startswith(front), "the journal has another head")
    at = len(front) + 8 + int.from_bytes(data[len(front):len(front) + 8], "big")
    check = sum_of(0, data[:at])
    want(data[at:at + 8] == struct.pack(">Q", check), "the check of the saved world")
    return at + 8, check


def front_of(check, key, message):
    """The bytes of an entry in front of its message, and the check behind its length and key."""
    front = struct.pack(">IQ", len(message), key)
    check = sum_of(check, front)
    return front + struct.pack(">Q", check), check


class Entry:
    """An entry that stands in a journal: between which bytes, with which key and message, and the check behind it."""

    def __init__(self, data, start, check):
        length, self.key = struct.unpack(">IQ", data[start:start + 12])
        want(length <= MOST, f"an entry at {start} of {length} bytes")
        self.start, self.end, self.message = start, start + 28 + length, data[start + 20:start + 20 + length]
        front, check = front_of(check, self.key, self.message)
        self.check = sum_of(check, self.message)
        want(data[start:self.end] == front + self.message + struct.pack(">Q", self.check), f"the checks of the entry at {start}")


def entries_of(data, text):
    """The entries of a journal of this service, which has to be whole."""
    entries, (at, check) = [], start_of(data, text)
    while at < len(data):
        entries.append(Entry(data, at, check))
        at, check = entries[-1].end, entries[-1].check
    want(at == len(data), "the journal ends in the midst of an entry")
    return entries


# ---- the server

def end_with_parent():
    """Has the system end this process when the one that started it ends, however that comes."""
    ctypes.CDLL(None).prctl(1, signal.SIGKILL)


def free_port():
    with socket.socket() as it:
        it.bind(("127.0.0.1", 0))
        return it.getsockname()[1]


def launched():
    """The program that ./bigwig would run."""
    given = subprocess.run(["bash", "-c", 'root=$1; . "$root/tools/program"; provide_program', "journaled", TOP], stdout=subprocess.PIPE, text=True)
    return given.stdout.strip() or sys.exit("there is no program")


def begun(words, service, journal=None, limit=None, more=()):
    """The program, begun by these words with a service and a journal, and its port."""
    port = free_port()
    words = [*words, "serve", service, "--port", str(port), *(["--journal", journal] if journal else []), *(["--limit", str(limit)] if limit else []), *more]
    return subprocess.Popen(words, stdin=subprocess.DEVNULL, stdout=subprocess.PIPE, stderr=subprocess.PIPE, preexec_fn=end_with_parent), port


def line_of(server, seconds=SECONDS):
    """The next line that the program prints; none where it ends."""
    want(select.select([server.stdout], [], [], seconds)[0], f"the program prints nothing for {seconds} seconds")
    return server.stdout.readline()


def last_of(process):
    """The program itself, where another one was begun to begin it, as strace."""
    with contextlib.suppress(OSError), open(f"/proc/{process}/task/{process}/children") as children:
        began = children.read().split()
        return last_of(int(began[0])) if began else process
    return process


def end(server, number=signal.SIGKILL):
    """Ends the program; gives its code and what else it printed."""
    if server.poll() is None:
        # It may have ended by itself since.
        with contextlib.suppress(ProcessLookupError):
            os.kill(last_of(server.pid), number)
    out, err = server.communicate(timeout=SECONDS)
    return server.returncode, out, err.decode()


@contextlib.contextmanager
def served(words, service, journal=None, seconds=SECONDS, more=()):
    """A server that has said where it stands; gives its process and its port."""
    server, port = begun(words, service, journal, None, more)
    try:
        line = line_of(server, seconds)
        want(line == f"serving {port}\n".encode(), f"the service isn't served: {line!r}")
        yield server, port
    finally:
        end(server)


# ---- requests

def get(path, more=""):
    return f"GET {path} HTTP/1.1\r\nHost: a\r\n{more}\r\n".encode()


def post(path, form, more=""):
    return f"POST {path} HTTP/1.1\r\nHost: a\r\n{more}{FORM}{len(form)}\r\n\r\n{form}".encode()


class Reply:
    """What came of a request: all bytes, and, where it came whole, the code and the body."""

    def __init__(self, told):
        self.told = told
        head, behind, body = told.partition(b"\r\n\r\n")
        length = re.search(rb"\r\nContent-Length: (\d+)\r\n", head + b"\r\n")
        self.is_whole = bool(behind and length) and len(body) == int(length[1])
        self.code = int(head.split()[1]) if self.is_whole else None
        self.body = body.decode() if self.is_whole else None


def asked(port, request, seconds=SECONDS):
    """What comes of a request over a connection of its own, whole or not."""
    told = b""
    with contextlib.suppress(ConnectionError), socket.create_connection(("127.0.0.1", port), timeout=seconds) as link:
        link.sendall(request)
        while piece := link.recv(65536):
            told += piece
    return Reply(told)


def page(port, request):
    """The page that a request gets."""
    reply = asked(port, request)
    want(reply.code == 200, f"{request[:60]!r} was answered by {reply.told[:200]!r}")
    return reply.body
