"""HTTP clients of several languages behind the nginx and HAProxy configurations of deploy/, before the service itself.

Each client sends HEAD and GET by turns over a pool of one connection, and puts with `Expect: 100-continue` if it can. The
service sends a body after HEAD and no interim response; the proxies mend both."""
import json
import shutil
import subprocess
import time

import proxies
from maps import Skipped
from world import TOP, Service, free_port, wait_for

PATH, TURNS = "/dss/v1/uss_availability/uss-b", 12
# Seconds within which a put is answered. Without an interim response curl waits for 1 s, aiohttp for 30 s, Node forever.
SOON = 0.9
BODY = '{"old_version":"","availability":"Normal"}'

# Each prints a list of [method, status, bytes of the body, seconds], given the address, the token, the turns and the body of
# the put.
REQUESTS = """
import sys, time, json, requests
url, token, turns, body = sys.argv[1:]
requests.packages.urllib3.disable_warnings()
session, got = requests.Session(), []
session.headers["Authorization"] = f"Bearer {token}"
for method in ["HEAD", "GET"] * int(turns):
    began, answer = time.time(), session.request(method, url, timeout=60, verify=False)
    got.append([method, answer.status_code, len(answer.content), time.time() - began])
print(json.dumps(got))
"""
HTTPX = """
import sys, time, json, httpx
url, token, turns, body = sys.argv[1:]
got = []
with httpx.Client(verify=False, headers={"Authorization": f"Bearer {token}"}, timeout=60, limits=httpx.Limits(max_connections=1)) as client:
    for method in ["HEAD", "GET"] * int(turns):
        began, answer = time.time(), client.request(method, url)
        got.append([method, answer.status_code, len(answer.content), time.time() - began])
print(json.dumps(got))
"""
AIOHTTP = """
import asyncio, sys, time, json, aiohttp
url, token, turns, body = sys.argv[1:]
async def main():
    got = []
    async with aiohttp.ClientSession(connector=aiohttp.TCPConnector(limit=1), headers={"Authorization": f"Bearer {token}"}) as session:
        for method in ["HEAD", "GET"] * int(turns) + ["PUT"]:
            began, more = time.time(), {"data": body, "expect100": True} if method == "PUT" else {}
            async with session.request(method, url, ssl=False, **more) as answer:
                got.append([method, answer.status, len(await answer.read()), time.time() - began])
    print(json.dumps(got))
asyncio.run(main())
"""
NODE = """
const https = require('https');
const [url, token, turns, body] = process.argv.slice(2);
const agent = new https.Agent({ keepAlive: true, maxSockets: 1, rejectUnauthorized: false });
function ask(method) {
  const began = Date.now(), headers = { Authorization: `Bearer ${token}` };
  if (method === 'PUT') Object.assign(headers, { Expect: '100-continue', 'Content-Length': body.length });
  return new Promise((done, fail) => {
    const request = https.request(url, { method, agent, headers, timeout: 60000 }, (answer) => {
      let size = 0;
      answer.on('data', (it) => { size += it.length; });
      answer.on('end', () => done([method, answer.statusCode, size, (Date.now() - began) / 1000]));
    });
    request.on('error', fail);
    if (method === 'PUT') {
      request.on('continue', () => request.end(body));
      request.flushHeaders();
    } else {
      request.end();
    }
  });
}
(async () => {
  const got = [];
  for (let k = 0; k < turns; k++) for (const method of ['HEAD', 'GET']) got.push(await ask(method));
  got.push(await ask('PUT'));
  console.log(JSON.stringify(got));
  agent.destroy();
})();
"""
CURL = """
import sys, json, subprocess
url, token, turns, body = sys.argv[1:]
words = ["curl", "-sk", "-H", f"Authorization: Bearer {token}", "-w", "%{method} %{http_code} %{size_download} %{time_total}\\n", "-o", "/dev/null"]
many = sum(([url, "-o", "/dev/null"] for _ in range(int(turns) - 1)), [])
said = subprocess.run([*words, "-I", url, "--next", *words[1:], url, "--next", *words[1:], "-X", "PUT", "-H", "Expect: 100-continue",
                       "--data-binary", body, url], capture_output=True, text=True, check=True).stdout
print(json.dumps([[it.split()[0], *map(float, it.split()[1:])] for it in said.splitlines()]))
"""
CLIENTS = {"requests": ("python3", REQUESTS), "httpx": ("python3", HTTPX), "aiohttp": ("python3", AIOHTTP), "node": ("node", NODE), "curl": ("python3", CURL)}


def is_here(name):
    if name in ("node", "curl"):
        return shutil.which(name) is not None
    return subprocess.run(["/usr/bin/python3", "-c", f"import {name}"], capture_output=True).returncode == 0


def asked_by(name, port, folder):
    """Returns what a client got."""
    program, text = CLIENTS[name]
    path = folder / f"client-{name}.{'js' if name == 'node' else 'py'}"
    path.write_text(text)
    program = "/usr/bin/python3" if program == "python3" else shutil.which(program)
    done = subprocess.run([program, path, f"https://127.0.0.1:{port}{PATH}", "tok-v", str(TURNS), BODY], capture_output=True, text=True, timeout=600)
    assert done.returncode == 0, (name, done.stderr[-2000:])
    return json.loads(done.stdout)


def over_the_service(files, behind):
    """Runs each client that is installed, and checks its responses."""
    tried = [it for it in CLIENTS if is_here(it)]
    with behind as (port, _):
        for name in tried:
            time.sleep(1)  # the limit of the proxies
            got = asked_by(name, port, files.folder)
            for _ in range(4):
                # A busy machine may need more tries. Without an interim response each put would take longer.
                if all(it[3] < SOON for it in got if it[0] == "PUT"):
                    break
                time.sleep(1)
                got = asked_by(name, port, files.folder)
            heads, reads, puts = ([it for it in got if it[0] == method] for method in ("HEAD", "GET", "PUT"))
            # HEAD is denied by the service, and what follows on the same connection is the response to the next request.
            assert heads and all(it[1] == 405 and it[2] == 0 for it in heads), (name, heads)
            assert reads and all(it[1] == 200 and it[2] > 50 for it in reads), (name, reads)
            assert bool(puts) == (name not in ("requests", "httpx")), (name, got)
            assert all(it[1] in (200, 409) and it[3] < SOON for it in puts), (name, puts)
    print(f"gateway: clients behind a proxy: {' '.join(tried)}")
    if len(tried) < len(CLIENTS):
        raise Skipped(f"not installed: {' '.join(it for it in CLIENTS if it not in tried)}")


def the_service(files):
    shutil.copy(TOP / "examples" / "tokens.toml", files.folder / "tokens.toml")
    return Service(files, admin=free_port())


def clients_behind_nginx(files, built):
    service = the_service(files)
    over_the_service(files, proxies.nginx(files, built, f"127.0.0.1:{service.port}"))


def clients_behind_haproxy(files, built):
    service = the_service(files)
    admin = int(service.options[-1])
    wait_for(admin)
    over_the_service(files, proxies.haproxy(files, service.port, admin))


# They take the directory with the programs.
ALL = [clients_behind_nginx, clients_behind_haproxy]
