"""The issuer's public keys, as PEM and as JWKS, which the gateway reads anew when their file changes."""
import base64
import json
import os
import subprocess

from cryptography.hazmat.primitives import serialization

from maps import until
from world import FRONT, STRATEGIC, Counted, Gateway, expect, free_port, key_pair

PATH = f"{FRONT}uss_availability/uss-b"


def number(value):
    return base64.urlsafe_b64encode(value.to_bytes((value.bit_length() + 7) // 8, "big")).rstrip(b"=").decode()


def entry(key, **more):
    """Returns the public key as an entry of a set."""
    numbers = key.public_key().public_numbers()
    return {"kty": "RSA", "use": "sig", "alg": "RS256", "kid": "1", "n": number(numbers.n), "e": number(numbers.e)} | more


OTHERS = [{"kty": "EC", "crv": "P-256", "x": "AA", "y": "AA", "use": "sig"}, {"kty": "oct", "k": "AA"}, "x", {}]


def write(path, data):
    """Replaces a file as an operator should: as a whole."""
    beside = path.with_name("new")
    beside.write_bytes(data if isinstance(data, bytes) else json.dumps(data).encode())
    os.replace(beside, path)


def status_by(gateway, files, key):
    return gateway.ask(files.token("uss-a", STRATEGIC, key=key), "GET", PATH).status


def keys_are_read_anew(files, program):
    """A token is accepted once its key is in the file, and no more once it is not. A file that cannot be used changes nothing."""
    service, path = Counted(), files.folder / "jwks.json"
    first, second = key_pair()[0], key_pair()[0]
    write(path, {"keys": [entry(key_pair()[0], use="enc"), *OTHERS, entry(first)]})
    gateway = Gateway(program, files, service.port, "--jwks", str(path), without=["keys"])
    has = lambda key, status: until(lambda: status_by(gateway, files, key), lambda it: it == status)
    assert (status_by(gateway, files, first), status_by(gateway, files, second)) == (200, 401)
    write(path, {"keys": [entry(first), entry(second)]})
    has(second, 200)
    assert status_by(gateway, files, first) == 200
    write(path, {"keys": [entry(second, use=None, alg=None, kid=None)]})
    has(first, 401)
    assert status_by(gateway, files, second) == 200
    for number_of, wrong in enumerate((b"", b"{", {"keys": []}, {"keys": [entry(key_pair(1024)[0])]}), 1):
        write(path, wrong)
        until(lambda: (status_by(gateway, files, second), gateway.lines()), lambda it: it[1].count("the keys stay as they were") == number_of)
        assert status_by(gateway, files, second) == 200
    path.unlink()
    until(lambda: (status_by(gateway, files, second), gateway.lines()), lambda it: "jwks.json: cannot be read" in it[1])
    write(path, {"keys": [entry(first)]})
    has(first, 200)
    assert status_by(gateway, files, second) == 401
    assert gateway.end(), gateway.lines()[-3000:]
    # The same with PEM.
    path = files.folder / "keys.pem"
    gateway = Gateway(program, files, service.port)
    assert (status_by(gateway, files, files.private), status_by(gateway, files, first)) == (200, 401)
    pem = first.public_key().public_bytes(serialization.Encoding.PEM, serialization.PublicFormat.SubjectPublicKeyInfo)
    write(path, pem)
    has(first, 200)
    assert status_by(gateway, files, files.private) == 401
    assert gateway.end(), gateway.lines()[-3000:]
    service.end()


def sets_that_are_refused(files, program):
    """A start with keys that cannot be used fails with a line that names the file."""
    key, path = key_pair()[0], files.folder / "jwks.json"
    words = ["serve", "--port", str(free_port()), "--service", "1", "--issuer", "i", "--audience", "a", "--tokens", files.folder / "tokens.toml",
             "--secret", files.folder / "secret", "--jwks", path]
    for wrong in (b"", b"x", [], {}, {"keys": {}}, {"keys": []}, {"keys": OTHERS}, {"keys": [entry(key, alg="RS512")]}, {"keys": [entry(key, use="enc")]},
                  {"keys": [entry(key_pair(1024)[0])]}, {"keys": [entry(key, e="AQ")]}, {"keys": [entry(key, n="!")]}, {"keys": [entry(key, n="")]},
                  {"keys": [entry(key, n=number(1 << 2047))]}, {"keys": [entry(key, e=None)]}, {"keys": [entry(key)] * 65}, b"[" * 100_000):
        write(path, wrong)
        done = subprocess.run([program, *words], capture_output=True, text=True, timeout=300)
        assert done.returncode == 1 and done.stderr.startswith(f"gateway: {path}: ") and done.stderr.count("\n") == 1, (wrong, done)


ALL = [keys_are_read_anew, sets_that_are_refused]
