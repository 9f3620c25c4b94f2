"""Every route, over connections that are kept and over one for each request."""
from participant import wait_until
from service import check, equal, id_of

UNREACHABLE = {"compensate": "http://127.0.0.1:1/u", "complete": "http://127.0.0.1:1/c"}


def expect(client, code, body, method, path, **keys):
    """Gives a request and compares its reply, which says that it closes the connection just where it was told to."""
    reply = client.call(method, path, **keys)
    equal(f"{method} {path} {keys}", (reply.code, reply.body), (code, body))
    equal("Content-Type", reply.fields["Content-Type"], "application/json")
    equal("Connection", reply.fields.get("Connection"), None if client.keep else "close")
    return reply


def started(client, base, number, **keys):
    """Starts the action of this number, and answers its path."""
    uri = f"{base}lra-coordinator/"
    reply = client.call("POST", "/lra-coordinator", **keys)
    equal("a start", reply.code, 201)
    uri = reply.body["lra"]
    check(f"{uri} begins with {base}", uri.startswith(base + "lra-coordinator/"))
    equal("the end of its UUID", uri[-17:], f"8000-{number:012x}")
    equal("its fields", (reply.fields["Location"], reply.fields["Long-Running-Action"]), (uri, uri))
    return uri, "/lra-coordinator/" + id_of(uri)


def joined(client, path, **addresses):
    """Joins, twice with the same reply, and answers the recovery URI and its path."""
    reply = client.call("PUT", path, **addresses)
    uri = reply.body["recovery"]
    equal("a join", (reply.code, reply.fields["Long-Running-Action-Recovery"]), (200, uri))
    expect(client, 200, {"recovery": uri}, "PUT", path, **addresses)
    return uri, "/lra-recovery/" + id_of(uri)


def every_route(service, keep):
    base = f"http://{service.address}/"
    with service.client(keep) as client:
        action, path = started(client, base, 1, limit=600000)
        expect(client, 200, {"lra": action, "status": "Active"}, "GET", path)
        first, first_path = joined(client, path, **UNREACHABLE)
        expect(client, 200, {"status": "Active"}, "GET", first_path)
        expect(client, 200, {"status": "Left"}, "PUT", path + "/remove", recovery=first)
        expect(client, 410, {"error": "HasLeft"}, "PUT", path + "/remove", recovery=first)
        expect(client, 200, {"status": "Active"}, "PUT", path + "/renew", limit=700000)
        _, second_path = joined(client, path, **UNREACHABLE)
        expect(client, 202, {"status": "Closing"}, "PUT", path + "/close")
        expect(client, 202, {"status": "Closing"}, "PUT", path + "/close")
        expect(client, 412, {"error": "NotActive", "status": "Closing"}, "PUT", path + "/cancel")
        report(client, second_path)
        expect(client, 200, {"lra": action, "status": "Closed"}, "GET", path)
        expect(client, 200, {"status": "Closed"}, "PUT", path + "/close")
        nested(client, base)
        refusals(client, started(client, base, 4)[1])


def report(client, path):
    """Tells that a member has completed: it is refused until it was asked to."""

    def is_taken():
        reply = client.call("PUT", path, status="Completed")
        if reply.code == 412:
            equal("a report before the ask", reply.body, {"error": "NotAsked"})
            return False
        equal("a report", (reply.code, reply.body), (200, {"status": "Completed"}))
        return True

    wait_until("the ask", is_taken)
    expect(client, 200, {"status": "Completed"}, "PUT", path, status="Completed")
    expect(client, 200, {"status": "Completed"}, "GET", path)


def nested(client, base):
    """An action in another one, which is cancelled."""
    parent, parent_path = started(client, base, 2)
    child, child_path = started(client, base, 3, parent=parent)
    expect(client, 200, {"status": "Cancelled"}, "PUT", parent_path + "/cancel")
    expect(client, 200, {"lra": child, "status": "Cancelled"}, "GET", child_path)


def refusals(client, path):
    unknown = path[:-12] + "0000000000ff"
    expect(client, 404, {"error": "NoSuchPath"}, "GET", "/lra")
    expect(client, 404, {"error": "NoSuchAction"}, "GET", unknown)
    expect(client, 404, {"error": "NoSuchMember"}, "GET", unknown.replace("coordinator", "recovery"))
    expect(client, 400, {"error": "BadBody"}, "POST", "/lra-coordinator", limits=1)
    expect(client, 400, {"error": "BadAddresses"}, "PUT", path, complete="http://127.0.0.1:1/c")
    reply = expect(client, 405, {"error": "BadMethod"}, "DELETE", path)
    equal("Allow", reply.fields["Allow"], "GET, PUT")
    equal("a reply to HEAD", client.call("HEAD", path)[0::3], (405, None))


def test_every_route_over_a_connection_that_is_kept(setting):
    with setting.serve() as service:
        every_route(service, keep=True)


def test_every_route_with_a_connection_for_each_request(setting):
    with setting.serve() as service:
        every_route(service, keep=False)


def test_a_connection_ends_with_its_thousandth_request(setting):
    with setting.serve() as service, service.connect() as stream:
        stream.sendall(b"GET /lra HTTP/1.1\r\nHost: h\r\n\r\n" * 1001)
        data = b"".join(iter(lambda: stream.recv(65536), b""))
        equal("replies", data.count(b"HTTP/1.1 404 Not Found\r\n"), 1000)
        equal("replies that close", data.count(b"Connection: close\r\n"), 1)


def test_requests_in_pieces_of_one_byte_and_many_in_one_piece(setting):
    request = b"POST /lra-coordinator HTTP/1.1\r\nHost: h\r\nContent-Length: 11\r\n\r\n{\"limit\":0}"
    with setting.serve() as service, service.connect() as stream:
        for place in range(len(request)):
            stream.sendall(request[place : place + 1])
        stream.sendall(request * 20 + request.replace(b"Host", b"Connection: close\r\nHost"))
        data = b"".join(iter(lambda: stream.recv(65536), b""))
        equal("replies", data.count(b"HTTP/1.1 201 Created\r\n"), 22)
