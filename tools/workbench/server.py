"""The server of the page: HTTP on 127.0.0.1 alone, for those who know the token in its address.

A request is refused unless its host name is this one and it comes from no other page. A script is answered by a process of its own, with
limits; that ends with the request, when the page stops it or goes away, and with the server.
"""
import contextlib
import hmac
import http.server
import json
import os
import pathlib
import re
import secrets
import selectors
import signal
import socket
import socketserver
import subprocess
import sys
import threading

from workbench.limits import MEMORY, SECONDS
from workbench.page import MOST_BYTES, page, policy

ADDRESS = '127.0.0.1'
MOST_ANSWER = 64 << 20  # bytes
MOST_CONNECTIONS, MOST_RUNS = 32, 4  # at a time
SECONDS_TO_ASK = 10  # within which a request has to come, whole
ANSWER = pathlib.Path(__file__).resolve().parent / 'answer.py'
RUN = re.compile('[A-Za-z0-9]{8,40}')
PLAIN = 'text/plain; charset=utf-8'


class Gone(Exception):
    """The browser went away."""


class Runs:
    """The processes that answer scripts, each under the name that its page gave it."""

    def __init__(self, program, folder, limits):
        self.command = [sys.executable, '-IB', ANSWER, str(os.getpid()), *map(str, limits), program]
        self.folder, self.environment = folder, {'LANG': 'C.UTF-8', 'TMPDIR': folder}
        self.lock, self.processes, self.stopped, self.closed = threading.Lock(), {}, set(), False

    @contextlib.contextmanager
    def process(self, name):
        """A process that answers a script, or None where there are too many or one has the name. It is ended with all that it started."""
        with self.lock:
            started = None
            if not self.closed and name not in self.processes and len(self.processes) < MOST_RUNS:
                started = self.processes[name] = subprocess.Popen(
                    self.command, stdin=subprocess.PIPE, stdout=subprocess.PIPE, stderr=subprocess.DEVNULL, cwd=self.folder,
                    env=self.environment, start_new_session=True)
        try:
            yield started
        finally:
            if started:
                with self.lock:
                    end(started)
                    del self.processes[name]
                    self.stopped.discard(name)

    def stop(self, name):
        """Lets a process end its program, and tell what was replied. Is there one?"""
        with self.lock:
            found = self.processes.get(name)
            if found:
                self.stopped.add(name)
                os.kill(found.pid, signal.SIGTERM)
            return found is not None

    def close(self):
        """Ends all processes, and begins no other."""
        with self.lock:
            self.closed = True
            for process in self.processes.values():
                kill(process)


def kill(process):
    """Kills a process that leads a session, and what it started."""
    with contextlib.suppress(OSError):
        os.killpg(process.pid, signal.SIGKILL)


def end(process):
    """Kills a process, and waits for its end."""
    kill(process)
    for stream in (process.stdin, process.stdout):
        with contextlib.suppress(OSError):
            stream.close()
    process.wait()


def exchange(process, data, connection):
    """Gives a process its input, and returns what it writes. Nothing is written here while nothing is read there."""
    sent, came, chooser = 0, [], selectors.DefaultSelector()
    os.set_blocking(process.stdin.fileno(), False)
    chooser.register(process.stdin, selectors.EVENT_WRITE)
    chooser.register(process.stdout, selectors.EVENT_READ)
    chooser.register(connection, selectors.EVENT_READ)
    with chooser:
        while True:
            for key, _ in chooser.select():
                if key.fileobj is connection:
                    raise Gone  # a browser says nothing more while it waits
                if key.fileobj is process.stdin:
                    try:
                        sent += os.write(process.stdin.fileno(), data[sent:sent + 65536])
                    except BlockingIOError:
                        continue
                    except BrokenPipeError:
                        sent = len(data)
                    if sent == len(data):
                        chooser.unregister(process.stdin)
                        process.stdin.close()
                    continue
                part = os.read(process.stdout.fileno(), 65536)
                came.append(part)
                if not part or sum(map(len, came)) > MOST_ANSWER:
                    return b''.join(came)


def answer_of(written, is_stopped):
    """The answer that a process wrote. Where it ended before it was done, or was stopped before it began, that is said."""
    told = {}
    for line in written.split(b'\n'):
        with contextlib.suppress(ValueError):
            told.update(json.loads(line))
    if 'end' not in told and is_stopped:
        told = {'end': 'stopped', 'said': 'Stopped. There was no reply by then.'}
    elif 'end' not in told:
        told = {'end': 'failed', 'said': 'This script takes more memory or time to read than there is.'}
    elif told.get('replies') and 'page' not in told:
        told['said'] = (told['said'] + ' The answer is too large to be drawn.').strip()
    return told


class Handler(http.server.BaseHTTPRequestHandler):
    """Answers one request."""
    timeout = SECONDS_TO_ASK

    def setup(self):
        super().setup()
        self.late = threading.Timer(SECONDS_TO_ASK, self.give_up)
        self.late.daemon = True
        self.late.start()

    def give_up(self):
        with contextlib.suppress(OSError):
            self.connection.shutdown(socket.SHUT_RDWR)

    def finish(self):
        self.late.cancel()
        super().finish()

    def version_string(self):
        return 'planex'

    def log_message(self, *_):
        pass

    def reply(self, status, text, kind=PLAIN, rules="default-src 'none'; frame-ancestors 'none'"):
        data = text.encode()
        self.send_response(status)
        for name, value in (('Content-Type', kind), ('Content-Length', len(data)), ('Cache-Control', 'no-store'),
                            ('Content-Security-Policy', rules), ('X-Content-Type-Options', 'nosniff'), ('X-Frame-Options', 'DENY'),
                            ('Referrer-Policy', 'same-origin'), ('Cross-Origin-Opener-Policy', 'same-origin'),
                            ('Cross-Origin-Resource-Policy', 'same-origin'), ('Connection', 'close')):
            self.send_header(name, value)
        self.end_headers()
        self.wfile.write(data)
        self.close_connection = True

    def send_error(self, code, message=None, explain=None):
        """What the library refuses: no method that there is, or no request."""
        self.command = getattr(self, 'command', None) or 'GET'
        self.request_version = getattr(self, 'request_version', None) or 'HTTP/1.0'
        self.reply(code, 'this is no request that is answered here\n')

    def path_asked(self):
        """What is asked for, below the token, or None where the request is refused."""
        hosts, origins = self.headers.get_all('Host') or [], self.headers.get_all('Origin') or []
        token, _, rest = self.path[1:].partition('/')
        if len(hosts) != 1 or hosts[0] not in self.server.hosts:
            self.reply(421, 'this server has another name\n')
        elif any(origin != f'http://{hosts[0]}' for origin in origins) or len(origins) != 1 and self.command == 'POST':
            self.reply(403, 'other pages may not ask here\n')
        elif self.headers.get('Sec-Fetch-Site', 'none') not in ('none', 'same-origin') and self.headers.get('Sec-Fetch-Dest') != 'document':
            self.reply(403, 'other pages may not ask here\n')
        elif not hmac.compare_digest(token.encode(), self.server.token.encode()):
            self.reply(403, 'the address of the page has a token: take it from where the server was started\n')
        else:
            return rest
        return None

    def do_GET(self):
        path = self.path_asked()
        if path == '':
            self.reply(200, page(), 'text/html; charset=utf-8', policy())
        elif path is not None:
            self.reply(404, 'there is nothing here\n')

    def do_POST(self):
        path = self.path_asked()
        if path is None:
            return
        word, _, name = path.partition('/')
        if word not in ('run', 'stop') or not RUN.fullmatch(name):
            self.reply(404, 'there is nothing here\n')
        elif word == 'stop':
            found = self.server.runs.stop(name)
            self.reply(200 if found else 404, 'stopped\n' if found else 'nothing runs under this name\n')
        else:
            self.run(name)

    def run(self, name):
        lengths = self.headers.get_all('Content-Length') or []
        if len(lengths) != 1 or not re.fullmatch('[0-9]{1,15}', lengths[0]) or 'Transfer-Encoding' in self.headers:
            self.refuse_body(411, 'how long the script is has to be said\n')
        elif int(lengths[0]) > MOST_BYTES:
            self.refuse_body(413, 'this script has more than 1,048,576 bytes, and a script may not: divide it into smaller ones\n')
        else:
            data = self.rfile.read(int(lengths[0]))
            if len(data) == int(lengths[0]):
                self.late.cancel()
                self.answer(name, data)

    def refuse_body(self, status, text):
        """Refuses a request whose body isn't read. The browser hears of it only if what it sends is taken for a moment."""
        self.reply(status, text)
        with contextlib.suppress(OSError):
            self.connection.shutdown(socket.SHUT_WR)
            self.connection.settimeout(1)
            for _ in range(64):
                if not self.connection.recv(65536):
                    break

    def answer(self, name, data):
        with self.server.runs.process(name) as process:
            if not process:
                self.reply(503, 'as many scripts as can be are being answered: try again when one is done\n')
                return
            written = exchange(process, data, self.connection)
            is_stopped = name in self.server.runs.stopped
        self.connection.settimeout(SECONDS_TO_ASK)
        self.reply(200, json.dumps(answer_of(written, is_stopped)), 'application/json')


class Server(http.server.ThreadingHTTPServer):
    """The server. What is asked of it beyond as many connections as it has is refused at once."""
    daemon_threads = True
    request_queue_size = 128

    def __init__(self, port, program, folder, limits=(SECONDS, MEMORY)):
        super().__init__((ADDRESS, port), Handler)
        self.token = secrets.token_urlsafe(24)
        self.hosts = [f'{name}:{self.server_port}' for name in (ADDRESS, 'localhost')]
        self.runs, self.room = Runs(program, folder, limits), threading.Semaphore(MOST_CONNECTIONS)

    def server_bind(self):
        """Takes the address as it is: the library would look for its name in the network."""
        socketserver.TCPServer.server_bind(self)
        self.server_name, self.server_port = self.server_address[:2]

    @property
    def address(self):
        return f'http://{self.hosts[0]}/{self.token}/'

    def process_request(self, request, client_address):
        if self.room.acquire(blocking=False):
            super().process_request(request, client_address)
            return
        with contextlib.suppress(OSError):
            request.settimeout(1)
            request.sendall(b'HTTP/1.0 503 busy\r\nContent-Length: 0\r\nConnection: close\r\n\r\n')
        self.shutdown_request(request)

    def process_request_thread(self, request, client_address):
        try:
            super().process_request_thread(request, client_address)
        finally:
            self.room.release()

    def handle_error(self, request, client_address):
        """A browser that goes away is no error; anything else is told where the server was started."""
        if not isinstance(sys.exc_info()[1], (Gone, OSError)):
            super().handle_error(request, client_address)

    def end(self):
        self.runs.close()
        self.server_close()
