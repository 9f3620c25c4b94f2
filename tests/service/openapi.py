"""Real replies of both ports, held against docs/use/openapi.yaml."""
import json
import re

from operators import KEY, Watched
from participant import Participant
from service import LeftOut, check, equal, id_of

try:
    import jsonschema
    import yaml
except ImportError:
    jsonschema = yaml = None


class Description:
    """What docs/use/openapi.yaml says."""

    def __init__(self, setting):
        if yaml is None:
            raise LeftOut("there is no python3-yaml or no python3-jsonschema")
        with open(f"{setting.root}/docs/use/openapi.yaml", encoding="utf-8") as text:
            self.all = yaml.safe_load(text)
        # What was replied, by operation.
        self.codes = {}

    def found(self, part):
        """A part, or the one that it refers to."""
        while "$ref" in part:
            named = self.all
            for name in part["$ref"].removeprefix("#/").split("/"):
                named = named[name]
            part = named
        return part

    def operation(self, method, path):
        """The operation at a path: the first that fits, as a router would find it."""
        for template, item in self.all["paths"].items():
            if re.fullmatch(re.sub(r"\{\w+\}", "[^/]+", template), path.split("?")[0]) and method.lower() in item:
                return item[method.lower()]
        raise AssertionError(f"{method} {path} isn't described")

    def operations(self, are_operators):
        """The operations of one of the ports."""
        every = [it for item in self.all["paths"].values() for it in item.values() if isinstance(it, dict)]
        return {it["operationId"] for it in every if ("operators" in it["tags"]) == are_operators}

    def is_of(self, schema, value):
        """Fails where a value isn't of a schema."""
        whole = {"$ref": "#/whole", "whole": schema, "components": self.all["components"]}
        jsonschema.Draft202012Validator(whole).validate(value)

    def holds(self, method, path, code, fields, text):
        """Fails where a reply isn't described, or not so."""
        operation = self.operation(method, path)
        described = operation["responses"].get(str(code))
        check(f"{method} {path} answers {code}", described or code >= 400)
        described = self.found(described or operation["responses"]["default"])
        kind = fields["Content-Type"].split(";")[0]
        check(f"{method} {path} answers {code} by {kind}", kind in described["content"])
        if kind == "application/json":
            self.is_of(described["content"][kind]["schema"], json.loads(text))
        for name, header in described.get("headers", {}).items():
            self.is_of(self.found(header)["schema"], fields[name])
        self.codes.setdefault(operation["operationId"], []).append(code)


def test_the_services_port_answers_as_described(setting):
    told = Description(setting)
    with setting.serve() as service, service.client() as client, Participant(lambda request: (202, b"")) as member:

        def ask(method, path, **keys):
            reply = client.call(method, path, **keys)
            told.holds(method, path, reply.code, reply.fields, json.dumps(reply.body))
            return reply.body

        action = ask("POST", "/lra-coordinator", limit=600_000)["lra"]
        nested = ask("POST", "/lra-coordinator", parent=action)["lra"]
        path = "/lra-coordinator/" + id_of(action)
        first = ask("PUT", path, **member.addresses("complete", "compensate", "status"))["recovery"]
        second = ask("PUT", path, compensate=member.uri("other"))["recovery"]
        ask("PUT", path + "/remove", recovery=second)
        ask("PUT", path + "/remove", recovery=second)
        equal("a member that has left", ask("GET", "/lra-recovery/" + id_of(second)), {"status": "Left"})
        ask("PUT", path + "/renew", limit=600_000)
        ask("GET", path)
        ask("GET", "/lra-recovery/" + id_of(first))
        ask("PUT", f"/lra-coordinator/{id_of(nested)}/cancel")
        ask("PUT", path + "/close")
        ask("PUT", path, compensate=member.uri("late"))
        member.wait("complete")
        ask("PUT", "/lra-recovery/" + id_of(first), status="Completed")
        ask("PUT", "/lra-recovery/" + id_of(first), status="Ended")
        ask("POST", "/lra-coordinator", parent="nowhere")
        ask("POST", "/lra-coordinator", limit="soon")
        for method, other in (("GET", "/lra-coordinator/none"), ("PUT", "/lra-recovery/none")):
            ask(method, other, **({} if method == "GET" else {"status": "Completed"}))
    equal("what was asked", set(told.codes), told.operations(False))
    return f"{sum(map(len, told.codes.values()))} replies"


def test_the_operators_port_answers_as_described(setting):
    told = Description(setting)
    with Watched(setting) as service, service.client() as client, Participant(lambda request: (202, b"")) as member:

        def ask(path, method="GET", body=None, key=KEY):
            reply = service.ask(path, method, body, key)
            told.holds(method, path, reply.code, reply.fields, reply.body)

        action, other = client.start(), client.start()
        client.start(parent=action)
        recovery = client.join(action, **member.addresses("complete", "compensate", "status"))
        gone = client.join(action, **member.addresses("compensate"))
        client.call("PUT", f"/lra-coordinator/{id_of(action)}/remove", recovery=gone)
        for path in (
            "/health",
            "/health/live",
            "/health/ready",
            "/health/started",
            "/metrics",
            "/",
            "/actions",
            "/actions?limit=1",
            "/actions?limit=none",
        ):
            ask(path)
        for path in ("/actions/", "/page/actions/"):
            ask(path + id_of(action))
            ask(path + "none")
        ask(f"/actions/{id_of(other)}/cancel", "POST")
        ask(f"/actions/{id_of(other)}/close", "POST")
        ask(f"/actions/{id_of(action)}/close", "POST")
        ask(f"/actions/{id_of(action)}/close", "POST", key="another")
        member.wait("complete")
        ask(f"/members/{id_of(recovery)}/give-up", "POST", json.dumps({"status": "FailedToComplete"}))
        ask(f"/members/{id_of(recovery)}/give-up", "POST", json.dumps({"status": "Lost"}))
        ask(f"/members/{id_of(recovery)}/give-up", "POST", json.dumps({"status": "Ended"}))
        ask(f"/members/{id_of(gone)}/give-up", "POST", json.dumps({"status": "FailedToComplete"}))
        ask(f"/actions/{id_of(action)}")
    equal("what was asked", set(told.codes), told.operations(True))
    return f"{sum(map(len, told.codes.values()))} replies"


def test_the_description_is_one_of_openapi(setting):
    told = Description(setting)
    try:
        import openapi_spec_validator
    except ImportError as it:
        raise LeftOut("there is no python3-openapi-spec-validator") from it
    openapi_spec_validator.validate(told.all)
