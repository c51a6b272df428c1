"""The alerts of `deploy/` and the metrics that they stand on, by Debian's Prometheus: what fires when, and that it ends."""
import http.client
import json
import os
import re
import subprocess
import unittest

from program import ROOT, SECONDS, found, free_port, needs, wait_until
from test_service import FLAGS, Changing, ServiceTest, compact, context

RULES = os.path.join(ROOT, "deploy", "prometheus-rules.yml")

# What each alert stands on: a series, its values once in 15 seconds, and when the alert fires: not yet, then, and no more.
ALERTS = [
    ("FlagopsDown", 'up{job="flagops",instance="a"}', "1 1 0x10 1", "60s", "90s", "195s"),
    ("FlagopsLogFails", 'ofrep_log_failing{instance="a",reason="unwritten"}', "0 0 1x10 0", "45s", "60s", "195s"),
    ("FlagopsLogFails", 'ofrep_log_failing{instance="a",reason="lost"}', "0 0 1x10 0", "45s", "60s", "195s"),
    ("FlagopsErrors", 'ofrep_requests_total{instance="a",status="500"}', "0x4 1+1x40 41x60", "4m", "8m", "20m"),
    ("FlagopsDocumentRefused", 'flagops_documents_refused{instance="a",place="1"}', "0 0 1x10 0", "75s", "90s", "195s"),
    ("FlagopsLogReopened", 'ofrep_log_reopened_total{instance="a",reason="shorter"}', "0x4 1x500", "45s", "2m", "90m"),
    ("FlagopsLogReopened", 'ofrep_log_reopened_total{instance="a",reason="unseen"}', "0x4 1x500", "45s", "2m", "90m"),
    ("FlagopsLogReopened", 'ofrep_log_reopened_total{instance="a",reason="removed"}', "0x4 1x500", "45s", "2m", "90m"),
    ("FlagopsEvaluationErrors", 'ofrep_evaluations_total{instance="a",reason="ERROR"}', "0x4 1+1x80 81x100", "10m", "15m", "35m"),
]

# No alert comes of these.
QUIET = [
    ('up{job="other",instance="a"}', "0x400"),
    ('up{job="flagops",instance="a"}', "1x10 0 0 1x400"),
    ('ofrep_log_failing{instance="a",reason="unwritten"}', "0x10 1 0x400"),
    ('ofrep_requests_total{instance="a",status="404"}', "0+1x400"),
    ('ofrep_log_reopened_total{instance="a",reason="replaced"}', "0+1x400"),
    ('ofrep_log_reopened_total{instance="a",reason="missing"}', "0+1x400"),
    ('ofrep_evaluations_total{instance="a",reason="STATIC"}', "0+100x400"),
    ('ofrep_evaluations_total{instance="a",reason="ERROR"}', "0+1x400"),
    ('flagops_documents_refused{instance="a",place="1"}', "0x400"),
]


def firing(alert, when, is_so):
    """That an alert fires then, or that none of any name does."""
    name = f',alertname="{alert}"' if alert else ""
    return {"expr": f'count(ALERTS{{alertstate="firing"{name}}}) or vector(0)', "eval_time": when, "exp_samples": [{"labels": "{}", "value": int(is_so)}]}


@needs("promtool")
class Rules(ServiceTest):
    def checked(self, series, wanted):
        """Such series, once in 15 seconds, fire what is wanted."""
        test = {"interval": "15s", "input_series": [{"series": name, "values": values} for name, values in series], "promql_expr_test": wanted}
        path = os.path.join(self.folder, "test.yml")
        with open(path, "w", encoding="utf-8") as file:
            json.dump({"rule_files": [RULES], "evaluation_interval": "15s", "tests": [test]}, file)
        told = subprocess.run(["promtool", "test", "rules", path], capture_output=True, text=True, timeout=SECONDS, check=False)
        self.assertEqual(told.returncode, 0, told.stdout + told.stderr)

    def test_when_each_fires(self):
        for alert, series, values, early, fires, over in ALERTS:
            with self.subTest(alert, series=series):
                self.checked([(series, values)], [firing(alert, early, False), firing(alert, fires, True), firing(alert, over, False)])

    def test_what_fires_none(self):
        self.checked(QUIET, [firing("", f"{minute}m", False) for minute in range(0, 100, 5)])

    def test_each_alert_is_tried(self):
        with open(RULES, encoding="utf-8") as file:
            self.assertEqual(set(re.findall(r"- alert: (\w+)", file.read())), {row[0] for row in ALERTS})

    def test_metrics(self):
        """What a service counts, with its log, after answers and refusals, is as Prometheus wants it."""
        self.start("--log", "log")
        for method, path, body in (("POST", f"{FLAGS}/color", context("mallory")), ("POST", FLAGS, b"{"), ("GET", FLAGS, b""), ("POST", "/", b"")):
            self.ask(method, path, body)
        text = self.ask("GET", "/metrics")[2]
        told = subprocess.run(["promtool", "check", "metrics"], input=text, capture_output=True, timeout=SECONDS, check=False)
        self.assertEqual((told.returncode, told.stdout, told.stderr), (0, b"", b""))


@needs("prometheus")
class Alerts(Changing):
    """Prometheus over a service. It waits for no alert to last: the rules are those of `deploy/` with `for: 0s`."""

    def watched(self):
        """Starts Prometheus over the service, and waits until it has seen it."""
        with open(RULES, encoding="utf-8") as file:
            self.put("rules.yml", re.sub(r"for: \w+", "for: 0s", file.read()))
        watch = {"scrape_interval": "200ms", "evaluation_interval": "200ms", "scrape_timeout": "200ms"}
        targets = [{"job_name": "flagops", "static_configs": [{"targets": [f"127.0.0.1:{self.port}"]}]}]
        self.put("prometheus.yml", compact({"global": watch, "rule_files": ["rules.yml"], "scrape_configs": targets}))
        self.watcher = free_port(self)
        words = ["--config.file=prometheus.yml", "--storage.tsdb.path=data", f"--web.listen-address=127.0.0.1:{self.watcher}", "--log.level=error"]
        child = subprocess.Popen([found("prometheus"), *words], cwd=self.folder, stdout=subprocess.DEVNULL, stderr=subprocess.DEVNULL)
        self.addCleanup(child.wait)
        self.addCleanup(child.kill)
        wait_until(lambda: child.poll() is not None or self.seen('up{job="flagops"}') == ["1"], "Prometheus sees the service")
        self.assertIsNone(child.poll())

    def told_by_prometheus(self, path):
        """The data of an answer of Prometheus; nothing where it does not answer yet."""
        client = http.client.HTTPConnection("127.0.0.1", self.watcher, timeout=SECONDS)
        try:
            client.request("GET", path)
            answer = client.getresponse()
            text = answer.read()
            return json.loads(text)["data"] if answer.status == 200 else {}
        except OSError:
            return {}
        finally:
            client.close()

    def seen(self, series):
        """The values of a series."""
        query = "".join(f"%{byte:02X}" for byte in series.encode())
        return [found["value"][1] for found in self.told_by_prometheus(f"/api/v1/query?query={query}").get("result", [])]

    def firing(self):
        """The names of the alerts that fire, and what is told of each."""
        alerts = self.told_by_prometheus("/api/v1/alerts").get("alerts", [])
        return {alert["labels"]["alertname"]: alert["annotations"]["summary"] for alert in alerts if alert["state"] == "firing"}

    def fires(self, name):
        """Waits until this alert fires; it names the service."""
        wait_until(lambda: name in self.firing(), f"{name} fires")
        self.assertIn(f"127.0.0.1:{self.port}", self.firing()[name])

    def full(self):
        """A folder for logs on a full disk, where this may mount one, else a log that takes nothing; what makes room there."""
        log, filler = os.path.join(self.folder, "log"), os.path.join(self.folder, "log", "filler")
        os.mkdir(log)
        mounted = subprocess.run(["mount", "-t", "tmpfs", "-o", "size=64k,mode=700", "tmpfs", log], stderr=subprocess.DEVNULL, check=False)
        if mounted.returncode:
            if not os.path.exists("/dev/full"):
                self.skipTest("no /dev/full")
            os.symlink("/dev/full", os.path.join(log, "worker-1.log"))
            return lambda: os.remove(os.path.join(log, "worker-1.log"))
        self.addCleanup(subprocess.run, ["umount", "-l", log], check=True)
        with open(filler, "wb") as file:
            try:
                while True:
                    os.write(file.fileno(), bytes(4096))
            except OSError:
                pass
        return lambda: os.remove(filler)

    def test_a_full_disk(self):
        make_room = self.full()
        self.start("--log", "log", "--workers", "1")
        self.watched()
        self.assertEqual(self.firing(), {})
        self.assertEqual(self.flag("color", context("mallory"))[0], 500)
        self.fires("FlagopsLogFails")
        make_room()
        wait_until(lambda: "FlagopsLogFails" not in self.firing(), "the log takes lines again")
        self.assertEqual(self.flag("color", context("mallory"))[0], 200)

    def test_a_refused_document(self):
        self.start("--poll", "1")
        self.watched()
        self.assertEqual(self.firing(), {})
        self.put("d", '{"flags":')
        self.fires("FlagopsDocumentRefused")
        self.assertEqual(self.ask("GET", "/readyz")[0], 200)
        self.put("d", self.changed("one"))
        self.until(1)
        wait_until(lambda: "FlagopsDocumentRefused" not in self.firing(), "the document is accepted")

    def test_a_service_that_is_gone(self):
        child = self.start()
        self.watched()
        child.kill()
        self.fires("FlagopsDown")


if __name__ == "__main__":
    unittest.main()
