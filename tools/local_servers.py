"""Servers on this machine: what they are given, and what they hold."""
import contextlib
import json
import socket
import subprocess
import sys
import tempfile
import time
import urllib.error
import urllib.parse
import urllib.request
from http.server import BaseHTTPRequestHandler, ThreadingHTTPServer
from pathlib import Path
from threading import Thread

from page_samples import DIALECTS, key_of, samples_parsed

SECONDS = 30


def fail(status, why):
    print(f"tools/outlets: {why}", file=sys.stderr)
    sys.exit(status)


def free_port():
    with socket.socket() as it:
        it.bind(("127.0.0.1", 0))
        return it.getsockname()[1]


def asked(url, data=None, kind="application/octet-stream"):
    with urllib.request.urlopen(urllib.request.Request(url, data, {"Content-Type": kind}), timeout=SECONDS) as answer:
        return answer.read().decode()


def wait_for(what, told):
    """Waits until a call tells something, and gives it."""
    end = time.monotonic() + SECONDS
    while time.monotonic() < end:
        with contextlib.suppress(urllib.error.URLError, ConnectionError):
            if it := told():
                return it
        time.sleep(0.1)
    return fail(1, f"{what} did not answer within {SECONDS} seconds")


@contextlib.contextmanager
def serving(command, ready):
    """A server while it runs: by its command, and the address that answers once it is ready."""
    with subprocess.Popen(command, stdout=subprocess.DEVNULL, stderr=subprocess.DEVNULL) as server:
        try:
            wait_for(command[0], lambda: asked(ready))
            yield
        finally:
            server.terminate()


def samples_held(address):
    """What VictoriaMetrics holds: the value of each name, labels and millisecond."""
    match = urllib.parse.urlencode({"match[]": '{__name__!=""}', "start": 0})
    held = {}
    for line in asked(f"{address}/api/v1/export?{match}").splitlines():
        series = json.loads(line)
        name = series["metric"].pop("__name__")
        for at, value in zip(series["timestamps"], series["values"]):
            held[name, *sorted(series["metric"].items()), at] = float(value)
    return held


def held_after(request):
    """The samples that VictoriaMetrics holds after a request."""
    address = f"http://127.0.0.1:{free_port()}"
    with tempfile.TemporaryDirectory() as folder:
        words = [f"-storageDataPath={folder}", f"-httpListenAddr={address[7:]}", "-retentionPeriod=100y"]
        with serving(["victoria-metrics", *words], f"{address}/health"):
            asked(f"{address}/opentelemetry/v1/metrics", request, "application/x-protobuf")
            asked(f"{address}/internal/force_flush")
            return samples_held(address)


@contextlib.contextmanager
def scraped(page, kind):
    """Serves a page, and gives the address."""

    class Page(BaseHTTPRequestHandler):
        def do_GET(self):
            self.send_response(200)
            self.send_header("Content-Type", kind)
            self.end_headers()
            self.wfile.write(page.encode())

        def log_message(self, *_):
            pass

    with ThreadingHTTPServer(("127.0.0.1", 0), Page) as server:
        Thread(target=server.serve_forever, daemon=True).start()
        yield f"127.0.0.1:{server.server_port}"
        server.shutdown()


def answers_of(address, question):
    """What Prometheus answers: a list of labels and values."""
    words = urllib.parse.urlencode({"query": question})
    return json.loads(asked(f"{address}/api/v1/query?{words}"))["data"]["result"]


def series_of(answers):
    """The samples among answers: without what the server adds."""
    held = {}
    for answer in answers:
        labels = {name: text for name, text in answer["metric"].items() if name not in ("job", "instance")}
        name = labels.pop("__name__")
        if name != "up" and not name.startswith("scrape_"):
            held[key_of(name, labels)] = float(answer["value"][1])
    return held


@contextlib.contextmanager
def prometheus(targets):
    """Prometheus while it scrapes some targets each second, and its address."""
    address = f"http://127.0.0.1:{free_port()}"
    jobs = [{"job_name": "outlets", "static_configs": [{"targets": targets}]}]
    with tempfile.TemporaryDirectory() as folder:
        config = Path(folder) / "prometheus.yml"
        config.write_text(json.dumps({"global": {"scrape_interval": "1s"}, "scrape_configs": jobs}), encoding="utf-8")
        words = [f"--config.file={config}", f"--storage.tsdb.path={folder}/data", f"--web.listen-address={address[7:]}"]
        with serving(["prometheus", *words], f"{address}/-/ready"):
            wait_for("a scrape", lambda: len(answers_of(address, 'up{job="outlets"} == 1')) == len(targets))
            yield address


def held_of(page, dialect):
    """The samples that Prometheus holds of a page."""
    with scraped(page, DIALECTS[dialect]) as target, prometheus([target]) as address:
        return series_of(answers_of(address, '{job="outlets"}'))


def handed_on(page):
    """What node_exporter hands on of a textfile, without what it tells of itself but for errors with such files."""
    address = f"http://127.0.0.1:{free_port()}"
    with tempfile.TemporaryDirectory() as folder:
        (Path(folder) / "shop.prom").write_text(page, encoding="utf-8")
        words = ["--collector.disable-defaults", "--collector.textfile", f"--collector.textfile.directory={folder}"]
        with serving(["prometheus-node-exporter", *words, f"--web.listen-address={address[7:]}"], address):
            found = samples_parsed(asked(f"{address}/metrics"), "prometheus")
    own = ("node_", "process_", "go_", "promhttp_")
    errors = {key: value for key, value in found.items() if key[0] == "node_textfile_scrape_error"}
    return errors | {key: value for key, value in found.items() if not key[0].startswith(own)}


def sums_held(pages_served, names):
    """What Prometheus adds up over pages, for each name and labels."""
    held = {}
    with contextlib.ExitStack() as stack:
        targets = [stack.enter_context(scraped(page, DIALECTS["prometheus"])) for page in pages_served]
        address = stack.enter_context(prometheus(targets))
        for name in names:
            for answer in answers_of(address, f'sum without (job, instance) ({{job="outlets", __name__="{name}"}})'):
                held[key_of(name, answer["metric"])] = float(answer["value"][1])
    return held
