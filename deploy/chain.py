"""What deploy/measure and the tests share: nginx, HAProxy and offices of their own, after nginx.conf and haproxy.cfg of this folder."""

import os
import re
import resource
import shutil
import signal
import socket
import ssl
import subprocess
import sys
import tempfile
import time
from hashlib import sha256
from http.client import HTTPConnection, HTTPSConnection

DEPLOY = os.path.dirname(os.path.abspath(__file__))
TOP = os.path.dirname(DEPLOY)
NAME = os.path.basename(sys.argv[0])
# Debian has both outside of a user's PATH
os.environ["PATH"] += ":/usr/sbin:/sbin"


# Shows the use where it is asked for, or where the words aren't a program and numbers, at most this many with the script's name.
def use(text, most):
    if sys.argv[1:] in (["-h"], ["--help"]):
        print(text)
        sys.exit(0)
    if len(sys.argv) > most or sys.argv[1:2] and sys.argv[1].startswith("-") or not all(word.isdigit() for word in sys.argv[2:]):
        print(text, file=sys.stderr)
        sys.exit(2)


# Ends with 77 where a tool is missing.
def need(*tools):
    for tool in tools:
        if shutil.which(tool) is None:
            print(f"{NAME}: {tool} is missing", file=sys.stderr)
            sys.exit(77)


# The program that is named, the one that tools/install put beside this folder, or that of this checkout.
def program_of(words):
    installed = f"{DEPLOY}/../../../bin/office"
    program = installed if os.access(installed, os.X_OK) else f"{TOP}/crates/office_program/out/office_program"
    if words:
        program = words[0]
    if not os.access(program, os.X_OK):
        print(f"{NAME}: there is no program {program}: ./office prove builds it", file=sys.stderr)
        sys.exit(77)
    return os.path.abspath(program)


# Lets this and what it starts open as many files as this machine allows. Ends with 77 where those are fewer.
def need_files(least):
    most = resource.getrlimit(resource.RLIMIT_NOFILE)[1]
    if most < least:
        print(f"{NAME}: a process may open {most} files here, and has to open {least}", file=sys.stderr)
        sys.exit(77)
    resource.setrlimit(resource.RLIMIT_NOFILE, (most, most))


def free_ports(count):
    streams = [socket.socket() for _ in range(count)]
    for stream in streams:
        stream.bind(("127.0.0.1", 0))
    ports = [stream.getsockname()[1] for stream in streams]
    for stream in streams:
        stream.close()
    return ports


def digest_of(token):
    return sha256(token.encode()).hexdigest()


# Whether somebody listens at this port, waited for.
def await_port(port, process, what):
    end = time.monotonic() + 20
    while time.monotonic() < end and process.poll() is None:
        with socket.socket() as stream:
            if stream.connect_ex(("127.0.0.1", port)) == 0:
                return
        time.sleep(0.05)
    sys.exit(f"{NAME}: {what} doesn't listen")


# A text with a part replaced, which has to be there.
def replaced(text, pattern, by):
    changed, times = re.subn(pattern, lambda _: by, text, flags=re.M)
    if times == 0:
        sys.exit(f"{NAME}: the configuration has no {pattern}")
    return changed


class Chain:
    """A temporary folder, and the programs that were started in it. Used by `with`, which ends them all."""

    def __init__(self, program):
        self.program = program
        self.work = tempfile.mkdtemp()
        os.chmod(self.work, 0o755)
        self.started = []

    def __enter__(self):
        signal.signal(signal.SIGTERM, lambda *_: sys.exit(1))
        return self

    def __exit__(self, *_):
        for process in reversed(self.started):
            if process.poll() is None:
                process.terminate()
                try:
                    process.wait(15)
                except subprocess.TimeoutExpired:
                    process.kill()
                    process.wait()
        shutil.rmtree(self.work, ignore_errors=True)

    def start(self, words, out):
        with open(f"{self.work}/{out}", "w") as file:
            process = subprocess.Popen(words, stdout=file, stderr=subprocess.STDOUT)
        self.started.append(process)
        return process

    def read(self, name):
        with open(f"{self.work}/{name}") as file:
            return file.read()

    def write(self, name, text):
        with open(f"{self.work}/{name}", "w") as file:
            file.write(text)
        return f"{self.work}/{name}"

    # An office with a journal, whose first user is root of the team office, with the token abc, and CAP_SYS_ADMIN listed.
    def found(self, name):
        words = [self.program, "init", f"{self.work}/{name}.db", "root", "office", digest_of("abc"), "CAP_SYS_ADMIN"]
        words += ["--journal", f"{self.work}/{name}.journal"]
        subprocess.run(words, stdout=subprocess.DEVNULL, check=True)

    def serve(self, name, port, requests=1000000):
        words = [self.program, "serve", f"{self.work}/{name}.db", "--port", str(port), "--requests", str(requests)]
        words += ["--journal", f"{self.work}/{name}.journal"]
        process = self.start(words, f"{name}.out")
        while not self.read(f"{name}.out").startswith("listening"):
            if process.poll() is not None:
                sys.exit(f"{NAME}: the office isn't served: {self.read(f'{name}.out')}")
            time.sleep(0.02)
        return process

    # Whether the closed office of this name is the one that its journal tells; else what `verify` says.
    def verifies(self, name):
        ran = subprocess.run([self.program, "verify", f"{self.work}/{name}.db", f"{self.work}/{name}.journal"], capture_output=True, text=True)
        return ran.returncode == 0 or print(ran.stdout + ran.stderr)

    # HAProxy with a section of haproxy.cfg for each of these: the ports for people, for hosts, for deploy/keep, and of the office.
    def haproxy(self, sections):
        text = open(f"{DEPLOY}/haproxy.cfg").read()
        text = replaced(text, r"^    (user|group) haproxy$", "")
        # as many connections as it takes where the files are to be had: one that waits takes one file of its two
        text = replaced(text, r"fd-hard-limit \d+$", "maxconn 12000\n    no strict-limits")
        head, section = re.split(r"^# An office: .*\n(?:#.*\n)*", text, flags=re.M)
        section = section.split("\n#")[0]
        for number, (front, hosts, keep, office) in enumerate(sections, 1):
            part = replaced(section, r"\boffice_1\b", f"office_{number}")
            part = replaced(part, r"127\.0\.0\.1:7081", f"127.0.0.1:{front}")
            part = replaced(part, r"127\.0\.0\.1:5081", f"127.0.0.1:{hosts}")
            part = replaced(part, r"127\.0\.0\.1:6081", f"127.0.0.1:{keep}")
            head += replaced(part, r"127\.0\.0\.1:8081", f"127.0.0.1:{office}") + "\n"
        process = self.start(["haproxy", "-db", "-f", self.write("haproxy.cfg", head)], "haproxy.out")
        # a connection to these ports would wait for its turn, so what listens is only looked up
        end = time.monotonic() + 20
        while time.monotonic() < end and process.poll() is None:
            if any(f":{sections[-1][0]:04X} " in line and " 0A " in line for line in open("/proc/net/tcp")):
                return process
            time.sleep(0.05)
        sys.exit(f"{NAME}: HAProxy doesn't listen: {self.read('haproxy.out')}")

    # nginx after nginx.conf at this port, with upstreams for each of these pairs of ports, for people and for hosts; the teams of the map
    # are with these offices. With `authority` hosts show certificates of that file. `connections` are those of a worker, and
    # `kept` is how long one is kept that asks nothing.
    def nginx(self, port, upstreams, teams=None, unlimited=True, authority=None, connections=8000, kept="30s"):
        key, certificate = f"{self.work}/office.key", f"{self.work}/office.crt"
        words = ["openssl", "req", "-x509", "-newkey", "ec", "-pkeyopt", "ec_paramgen_curve:prime256v1", "-nodes", "-days", "2"]
        words += ["-subj", "/CN=localhost", "-addext", "subjectAltName=DNS:localhost", "-keyout", key, "-out", certificate]
        if not os.path.exists(key):
            subprocess.run(words, stderr=subprocess.DEVNULL, check=True)
        os.makedirs(f"{self.work}/web", exist_ok=True)
        text = open(f"{DEPLOY}/nginx.conf").read()
        text = replaced(text, r"listen 443 ssl http2", f"listen 127.0.0.1:{port} ssl http2")
        text = replaced(text, r"/etc/nginx/office\.", f"{self.work}/office.")
        text = replaced(text, r"/var/log/nginx/office\.", f"{self.work}/nginx-office.")
        text = replaced(text, r"root /.*/share/office/web;", f"root {self.work}/web;")
        text = replaced(text, r"    # green .*", "".join(f"    {team} office_{n};\n" for team, n in (teams or {}).items()))
        if authority:
            text = replaced(text, r"# (ssl_client_certificate) .*", f"ssl_client_certificate {authority};")
            text = replaced(text, r"# ssl_verify_client ", "ssl_verify_client ")
            text = replaced(text, r"# if \(\$ssl_client_verify", "if ($ssl_client_verify")
        servers = "".join(f"upstream office_{n} {{ server 127.0.0.1:{people}; }}\nupstream office_{n}_hosts {{ server 127.0.0.1:{hosts}; }}\n"
                          for n, (people, hosts) in enumerate(upstreams, 1))
        text = replaced(replaced(text, r"^upstream office_1 .*$", servers), r"^upstream office_1_hosts { server 127\.0\.0\.1:5081; }$", "")
        if len(upstreams) > 1:
            text = replaced(text, r"proxy_pass http://office_1;", "return 403;")
        text = replaced(text, r"keepalive_timeout +30s;", f"keepalive_timeout {kept};")
        if unlimited:
            text = replaced(text, r"rate=\d+r/[sm]", "rate=1000000r/s")
            text = replaced(text, r"burst=\d+", "burst=100000")
            text = replaced(text, r"limit_conn( +)office_callers \d+;", "limit_conn office_callers 60000;")
        self.write("office.conf", text)
        places = "".join(f"{kind}_temp_path {self.work}/{kind};\n" for kind in ("client_body", "proxy", "fastcgi", "uwsgi", "scgi"))
        user = "user root;\n" if os.geteuid() == 0 else ""
        main = f"{user}worker_processes 2;\nerror_log {self.work}/nginx.log;\npid {self.work}/nginx.pid;\ndaemon off;\n"
        main += f"worker_rlimit_nofile 32768;\nevents {{ worker_connections {connections}; }}\n"
        main += f"http {{\ninclude /etc/nginx/mime.types;\n{places}access_log off;\ninclude {self.work}/office.conf;\n}}\n"
        process = self.start(["nginx", "-e", f"{self.work}/nginx.log", "-c", self.write("nginx.conf", main)], "nginx.out")
        await_port(port, process, f"nginx ({self.read('nginx.out')})")
        return process


# Requests over a connection that is kept where it can be.
class Client:
    # `own` is a certificate to be shown, and its key.
    def __init__(self, port, certificate=None, timeout=100, own=None):
        if certificate is None:
            self.open = lambda: HTTPConnection("127.0.0.1", port, timeout=timeout)
        else:
            context = ssl.create_default_context(cafile=certificate)
            if own:
                context.load_cert_chain(*own)
            self.open = lambda: HTTPSConnection("localhost", port, timeout=timeout, context=context)
        self.connection = self.open()

    # The status and the body of the answer.
    def ask(self, method, target, token, body=None):
        fields = {"Authorization": f"Bearer {token}"} if token is not None else {}
        self.connection.request(method, target, body, fields)
        response = self.connection.getresponse()
        content = response.read()
        return response.status, content

    def close(self):
        self.connection.close()
