"""openapi.py: compares docs/openapi.json with the proved program crates/hdl_web/out/hdl_web (`hdl proxy --writes`), before the proved program crates/handled/out/handled.

Each reference leads somewhere. Each example is asked, in order, and answered as it says: by a status, fields, a kind of body and a body that are described. tools/trials/proxy_answers.py and tools/trials/proxy_writes.py
look up here each answer that they get. And examples/change.py, in Python alone, does what its words say. Its last line is 'N passed, M failed'."""

import contextlib
import http.client
import json
import os
import re
import subprocess
import sys

# nothing is left beside the tools
sys.dont_write_bytecode = True
from lib import repository, servers, wire

PROGRAM = os.environ.get("PROXY", repository.program("hdl_web"))
API = json.loads(repository.text_of("docs", "openapi.json"))
# What is answered to a head that can't be read, whatever it asks for.
UNREAD = {400, 414, 431}
METHODS = ("get", "put", "delete", "options")


def resolved(it):
    """What a reference leads to."""
    for name in it["$ref"].split("/")[1:] if "$ref" in it else ():
        it = API[name] if it is None or "$ref" in it else it[name]
    return it


def operation_of(method, target):
    """What is described of requests for this path: at the path itself, or by the first template that it has the form of. None where nothing is."""
    path = target.partition("?")[0]
    for template, item in sorted(API["paths"].items(), key=lambda one: "{" in one[0]):
        pattern = re.escape(template).replace(r"\{prefix\}", "[^/]*").replace(r"/\{suffix\}", "(?:/.*)?")
        if re.fullmatch(pattern, path):
            return item.get({"HEAD": "GET"}.get(method, method).lower())
    return None


def described(method, target, status):
    """Whether an answer with this status is described. A method that isn't described is refused, and so is what stands at no address."""
    operation = operation_of(method, target)
    if operation is None:
        return status in (404, 405) or method == "OPTIONS" and status == 204
    return str(status) in operation["responses"]


def fits(value, schema):
    """Whether a value is one that this schema describes, as far as the schemas of the page go."""
    schema = resolved(schema)
    if value is None:
        return schema.get("nullable", False)
    if "oneOf" in schema:
        return sum(fits(value, one) for one in schema["oneOf"]) == 1
    if "enum" in schema and value not in schema["enum"]:
        return False
    kind = schema.get("type")
    if kind == "object":
        known = schema["properties"]
        return isinstance(value, dict) and set(schema["required"]) <= set(value) <= set(known) and all(fits(one, known[name]) for name, one in value.items())
    if kind == "array":
        return isinstance(value, list) and schema.get("minItems", 0) <= len(value) <= schema.get("maxItems", len(value)) and all(fits(one, schema["items"]) for one in value)
    if kind == "integer":
        return isinstance(value, int) and schema.get("minimum", value) <= value <= schema.get("maximum", value)
    return isinstance(value, str) and bool(re.search(schema.get("pattern", ""), value))


def references(it):
    """Each reference in a part of the description."""
    if isinstance(it, dict):
        yield from [it["$ref"]] if "$ref" in it else []
        it = it.values()
    if isinstance(it, (list, type({}.values()))):
        for one in it:
            yield from references(one)


def is_known(reference):
    it = API
    for name in reference.split("/")[1:]:
        it = it.get(name, {}) if isinstance(it, dict) else {}
    return bool(it)


def asked(port, example, key):
    """The answer to an example: status, fields and body."""
    method, target = example["request"].split(" ")
    fields = {"Content-Type": "application/json", **({"Authorization": key} if example.get("key") else {})}
    client = http.client.HTTPConnection("127.0.0.1", port, timeout=30 * servers.SLOWER)
    with contextlib.closing(client):
        client.request(method, target, json.dumps(example["body"]) if "body" in example else None, fields)
        answer = client.getresponse()
        return answer.status, {name.lower(): value for name, value in answer.getheaders()}, answer.read().decode()


def without_moments(answer):
    """An answer without the moments at which its values were written."""
    if isinstance(answer, dict):
        return {name: without_moments(one) for name, one in answer.items() if name != "timestamp"}
    return [without_moments(one) for one in answer] if isinstance(answer, list) else answer


def faults(example, status, fields, body):
    """What an answer has that its description lacks, or lacks that it has."""
    operation = operation_of(*example["request"].split(" "))
    described_as = resolved(operation["responses"][str(status)]) if str(status) in operation["responses"] else {}
    found = [] if described_as else ["status %d" % status]
    found += [name for name, field in described_as.get("headers", {}).items() if field["required"] and not re.search("|".join(field["schema"].get("enum", [""])).replace("*", r"\*"), fields.get(name.lower(), "\n"))]
    content = described_as.get("content", {})
    if content and fields.get("content-type") not in content:
        found.append("a body of %s" % fields.get("content-type"))
    elif content and "answer" in example and not fits(json.loads(body), content[fields["content-type"]]["schema"]):
        found.append("the body's form")
    if "body" in example and status < 300 and not fits(example["body"], operation["requestBody"]["content"]["application/json"]["schema"]):
        found.append("the form of what is sent")
    return found


def tenants(port):
    administrator = wire.value(100, b"HS_ADMIN", wire.administrator(b"0.NA/10", 300, b"\x0f\xff"), 0x0E, 86400)
    rows = [(b"0.NA/10", administrator), (b"0.NA/10", wire.value(300, b"HS_SECKEY", b"example-secret", 0x0C, 86400)), (b"10/kept", administrator)]
    return wire.tenants(["publisher acme 8 %d" % port, "prefix 10 acme"], rows)


# What examples/change.py prints, in order.
CHANGED = ["created 10/example", "read https://example.org/example", "changed https://example.org/moved", "deleted 10/example", "refused 401: The secret isn't that of the key."]


def cases():
    for reference in sorted(set(references(API))):
        yield "%s leads somewhere" % reference, is_known(reference)
    used = {operation["operationId"] for item in API["paths"].values() for method, operation in item.items() if method in METHODS}
    tried = {operation_of(*example["request"].split(" "))["operationId"] for example in API["x-examples"]}
    yield "each operation has an example", used == tried
    environment = {**os.environ, "HDL_SECRET": "example-secret", "HDL_KEY": "300:0.NA/10"}
    script = [sys.executable, repository.path("examples", "change.py")]
    with servers.serving(tenants, 1) as (behind,):
        (port,) = servers.free_ports(1)
        with servers.running([PROGRAM, "--listen", "127.0.0.1:%d" % port, "--server", "127.0.0.1:%d" % behind, "--writes"], 1):
            for example in API["x-examples"]:
                status, fields, body = asked(port, example, "Basic MzAwJTNBMC5OQS8xMDpleGFtcGxlLXNlY3JldA==")
                wrong = faults(example, status, fields, body)
                wrong += ["another status, %d" % status] if status != example["status"] else []
                wrong += ["another body, %s" % body] if "answer" in example and without_moments(json.loads(body)) != example["answer"] else []
                wrong += ["another place"] if "location" in example and fields.get("location") != example["location"] else []
                yield "%s, %d: %s" % (example["request"], example["status"], ", ".join(wrong)), not wrong
            done = subprocess.run([*script, "http://127.0.0.1:%d" % port, "10/example"], env=environment, capture_output=True, text=True, timeout=60 * servers.SLOWER, check=False)
            yield "examples/change.py: %s%s" % (done.stdout, done.stderr), (done.returncode, done.stdout.splitlines(), done.stderr) == (0, CHANGED, "")


if __name__ == "__main__":
    sys.exit(servers.tally(cases()))
