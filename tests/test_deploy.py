"""The files of `deploy/`, by the programs that read them where they are there: systemd, Prometheus, nginx, logrotate. NGINX_REQUESTS
is how many go through nginx, 1,000 by default."""
import base64
import getpass
import http.client
import json
import os
import socket
import ssl
import subprocess
import tempfile
import unittest

from control_service import Service
from program import PROGRAM, ROOT, SECONDS, found, free_port, needs, run, wait_until
from test_service import FLAGS, ServiceTest, context

DEPLOY = os.path.join(ROOT, "deploy")
REQUESTS = int(os.environ.get("NGINX_REQUESTS", "1000"))


def text_of(name):
    with open(os.path.join(DEPLOY, name), encoding="utf-8") as file:
        return file.read()


def ran(*words, **how):
    return subprocess.run(words, stdout=subprocess.PIPE, stderr=subprocess.STDOUT, encoding="utf-8", timeout=SECONDS, check=False, **how)


class Files(unittest.TestCase):
    @needs("systemd-analyze")
    def test_unit(self):
        with tempfile.TemporaryDirectory() as folder:
            path = os.path.join(folder, "flagops.service")
            with open(path, "w", encoding="utf-8") as file:
                file.write(text_of("flagops.service").replace("/usr/bin/flagops", PROGRAM))
            verified = ran("systemd-analyze", "verify", "--man=no", path)
            self.assertEqual((verified.returncode, verified.stdout), (0, ""))
            rated = ran("systemd-analyze", "security", "--offline=true", "--threshold=20", path)
            self.assertEqual(rated.returncode, 0, rated.stdout)

    @needs("promtool")
    def test_alerts(self):
        checked = ran("promtool", "check", "rules", os.path.join(DEPLOY, "prometheus-rules.yml"))
        self.assertEqual(checked.returncode, 0, checked.stdout)

    @needs("dpkg-deb", "dpkg")
    def test_package(self):
        """The package goes into a root of its own, runs there, and leaves nothing behind."""
        with tempfile.TemporaryDirectory() as folder:
            made = [ran(os.path.join(ROOT, "tools", "package.sh"), folder) for _ in range(2)]
            self.assertEqual([it.returncode for it in made], [0, 0], made)
            package = made[0].stdout.strip()
            with open(package, "rb") as file:
                self.assertEqual(file.read(8), b"!<arch>\n")
            root = os.path.join(folder, "root")
            for name in ("info", "updates"):
                os.makedirs(os.path.join(root, "var/lib/dpkg", name))
            for name in ("status", "available"):
                open(os.path.join(root, "var/lib/dpkg", name), "w", encoding="utf-8").close()
            dpkg = [found("dpkg"), f"--root={root}", "--force-not-root", "--force-bad-path", "--force-architecture"]
            put = ran(*dpkg, "--install", package)
            self.assertEqual(put.returncode, 0, put.stdout)
            told = ran(os.path.join(root, "usr/bin/flagops"), "--version")
            self.assertTrue(told.stdout.startswith("flagops "), told.stdout)
            self.assertTrue(os.path.exists(os.path.join(root, "usr/lib/systemd/system/flagops.service")))
            taken = ran(*dpkg, "--purge", "flagops")
            self.assertEqual(taken.returncode, 0, taken.stdout)
            self.assertFalse(os.path.exists(os.path.join(root, "usr/bin/flagops")))

    def test_words_of_the_containers(self):
        """The commands of the container files are commands of the program."""
        words = json.loads(next(line for line in text_of("Dockerfile").splitlines() if line.startswith("CMD "))[4:])
        told = run([*words[:-1], "missing"], {})
        self.assertEqual(told.status, 1, told)


class Running(ServiceTest):
    def begin_nginx(self, name, host, edits):
        """A client of nginx by this file of `deploy/` with these edits, with a certificate for this host."""
        key, pem = (os.path.join(self.folder, name) for name in ("key", "pem"))
        made = ran("openssl", "req", "-x509", "-newkey", "rsa:2048", "-nodes", "-subj", f"/CN={host}", "-days", "2", "-keyout", key, "-out", pem)
        self.assertEqual(made.returncode, 0, made.stdout)
        port = free_port(self)
        text = text_of(name)
        own = [("listen 443 ssl", f"listen 127.0.0.1:{port} ssl"), (f"/etc/ssl/{host}.pem", pem), (f"/etc/ssl/private/{host}.key", key)]
        for old, new in [*own, *edits]:
            self.assertIn(old, text)
            text = text.replace(old, new)
        here = {name: os.path.join(self.folder, name) for name in ("pid", "error", "access")}
        temporary = "\n".join(f"{name}_temp_path {os.path.join(self.folder, name)};" for name in ("client_body", "proxy", "fastcgi", "uwsgi", "scgi"))
        config = os.path.join(self.folder, "nginx.conf")
        with open(config, "w", encoding="utf-8") as file:
            file.write(f"daemon off;\nuser {getpass.getuser()};\npid {here['pid']};\nerror_log {here['error']};\nevents {{}}\nhttp {{\naccess_log {here['access']};\n{temporary}\n{text}\n}}\n")
        server = subprocess.Popen([found("nginx"), "-c", config], stdout=subprocess.DEVNULL, stderr=subprocess.DEVNULL)
        self.addCleanup(server.wait)
        self.addCleanup(server.terminate)
        wait_until(lambda: server.poll() is not None or listens(port), "nginx listens")
        trusted = ssl.create_default_context(cafile=pem)
        trusted.check_hostname = False
        client = http.client.HTTPSConnection("127.0.0.1", port, context=trusted, timeout=SECONDS)
        self.addCleanup(client.close)
        return client

    @needs("nginx", "openssl")
    def test_nginx(self):
        """Behind nginx with TLS the protocol is served, and nothing else."""
        self.start("--log", "log")
        client = self.begin_nginx("nginx.conf", "flags.example.com", [("127.0.0.1:8016", f"127.0.0.1:{self.port}")])
        for turn in range(REQUESTS):
            client.request("POST", f"{FLAGS}/color", context(f"user-{turn}"))
            told = client.getresponse()
            self.assertEqual((told.status, json.loads(told.read())["key"]), (200, "color"))
        self.assertEqual({json.loads(line)[3] for line in self.notes()}, {f"coloruser-{turn}" for turn in range(REQUESTS)})
        for path in ("/metrics", "/readyz", "/", "/ofrep/v1/configuration"):
            client.request("GET", path)
            told = client.getresponse()
            self.assertEqual((told.status, told.read() != b"ok"), (404, True), path)

    @needs("nginx", "openssl")
    def test_nginx_before_the_console(self):
        """Behind a login the console plans and applies, and pages of other origins reach nothing."""
        users, document, logs = (os.path.join(self.folder, name) for name in ("users", "flags.json", "logs"))
        os.mkdir(logs)
        rule = {"fractional": [["on", 5], ["off", 95]]}
        flag = {"state": "ENABLED", "variants": {"on": True, "off": False}, "defaultVariant": "off", "targeting": rule}
        for path, text in [(users, "ann:{PLAIN}secret\n"), (document, json.dumps({"flags": {"color": flag}})), (os.path.join(logs, "worker-1.log"), '["color",0,null,"colorbob"]\n')]:
            with open(path, "w", encoding="utf-8") as file:
                file.write(text)
        server = Service(self, document, logs, allow_apply=True)
        self.addCleanup(server.close)
        client = self.begin_nginx("nginx-console.conf", "console.example.com", [("127.0.0.1:8017", server.origin[7:]), ("/etc/nginx/flagops.users", users)])

        def ask(method, path, body=None, **headers):
            client.request(method, path, body, {"Host": "console.example.com", **headers})
            told = client.getresponse()
            return told.status, told.read()

        login = {"Authorization": "Basic " + base64.b64encode(b"ann:secret").decode()}
        own = {**login, "Origin": "https://console.example.com"}
        self.assertEqual(ask("GET", "/")[0], 401)
        self.assertIn(b"<title>flagops</title>", ask("GET", "/", **login)[1])
        self.assertEqual(ask("GET", "/flags", **login)[0], 200)
        self.assertEqual([ask("GET", path, **login)[0] for path in ("/stop", "/healthz", "/ofrep/v1/configuration")], [404] * 3)
        request = {"plan": 1, "flag": "color", "site": 0, "totals": {"on": 10, "off": 90}}
        self.assertEqual(ask("POST", "/plan", json.dumps(request), **{**login, "Origin": "https://evil.example.com"})[0], 403)
        self.assertEqual(ask("GET", "/flags", **{**login, "Host": "evil.example.com"})[0], 404)
        status, body = ask("POST", "/plan", json.dumps(request), **own)
        self.assertEqual(status, 200, body)
        self.assertEqual(ask("POST", "/apply", json.dumps(json.loads(body)["token"]), **own)[0], 200)
        self.assertEqual([row["who"] for row in json.loads(ask("GET", "/history", **own)[1])], ["ann"])

    @needs("logrotate")
    def test_logrotate(self):
        """What was noted before and after a rotation is in the files."""
        self.start("--log", "log", "--workers", "1")
        rule, state = (os.path.join(self.folder, name) for name in ("rule", "state"))
        with open(rule, "w", encoding="utf-8") as file:
            file.write(text_of("logrotate").replace("/var/lib/flagops/log", os.path.join(self.folder, "log")))
        os.chmod(rule, 0o644)
        # (of a rule that has a `size` too, logrotate says that it overrides the days)
        asked = ran(found("logrotate"), "--debug", "--state", state, rule)
        self.assertIn("after 1 days (30 rotations)", asked.stdout)
        for turn in range(3):
            self.assertEqual(self.flag("color", context(f"user-{turn}"))[0], 200)
            rotated = ran(found("logrotate"), "--force", "--state", state, rule)
            self.assertEqual(rotated.returncode, 0, rotated.stdout)
            wait_until(lambda: os.path.exists(os.path.join(self.folder, "log", "worker-1.log")), "the log is made again")
            # (two rotations within a second would have one name)
            for name in os.listdir(os.path.join(self.folder, "log")):
                if name != "worker-1.log" and not name.endswith(".kept"):
                    path = os.path.join(self.folder, "log", name)
                    os.rename(path, f"{path}-{turn}.kept")
        lines = []
        for name in os.listdir(os.path.join(self.folder, "log")):
            with open(os.path.join(self.folder, "log", name), encoding="utf-8") as file:
                lines += file.read().splitlines()
        self.assertLessEqual({f'["color",0,null,"coloruser-{turn}"]' for turn in range(3)}, set(lines))


def listens(port):
    with socket.socket() as client:
        return client.connect_ex(("127.0.0.1", port)) == 0


if __name__ == "__main__":
    unittest.main()
