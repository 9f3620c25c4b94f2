"""A coordinator behind TLS, one at an IPv6 address, and certificates that nobody vouches for."""
import shutil
import socket
import ssl
import subprocess
import time

import raxunto
from exchanges import quick, raised
from service import HOST, LATE, LeftOut, check, equal
from standin import DROPPED, LAST, LOST, SILENT, Part, Slow, StandIn

WORDS = ("openssl", "req", "-x509", "-newkey", "ec", "-pkeyopt", "ec_paramgen_curve:P-256", "-nodes", "-days", "1")


def certificate(setting, name=f"IP:{HOST}"):
    """The contexts of a server that has a certificate for a name, and of a client that trusts it."""
    if not shutil.which("openssl"):
        raise LeftOut("there is no openssl")
    key, path = setting.folder + "/key", setting.folder + "/certificate"
    more = ("-subj", "/CN=raxunto", "-addext", f"subjectAltName={name}", "-keyout", key, "-out", path)
    subprocess.run([*WORDS, *more], check=True, stderr=subprocess.DEVNULL)
    server = ssl.SSLContext(ssl.PROTOCOL_TLS_SERVER)
    server.load_cert_chain(path, key)
    return server, ssl.create_default_context(cafile=path)


def test_calls_over_tls(setting):
    server, client = certificate(setting)
    with StandIn(tls=server) as place:
        coordinator = quick(place, context=client)
        check("its URL", coordinator.base_url.startswith("https://"))
        trip = coordinator.start()
        with trip.start() as inner:
            inner.join(compensate="http://p.test/u")
        equal("states", (trip.status(), inner.status()), ("Active", "Closing"))
        equal("connections", place.connections, 1)
        for fault in (LOST, DROPPED, LAST, Part(5), Part(-1)):
            place.faults = [fault]
            equal(f"after {fault}", trip.status(), "Active")
            time.sleep(0.05)
        place.faults = [LOST]
        check("it may be done", raised(raxunto.Unreachable, coordinator.start).maybe_done)


def test_slow_answers_over_tls(setting):
    server, client = certificate(setting)
    with StandIn(tls=server) as place:
        coordinator = quick(place, context=client, timeout=1.5, patience=0)
        trip = coordinator.action(quick(place, context=client).start().uri)
        for fault in (SILENT, Slow(0.02)):
            place.faults = [fault]
            begun = time.monotonic()
            raised(raxunto.Unreachable, trip.status)
            check("time", time.monotonic() - begun < 1.5 + LATE)


def test_a_certificate_that_nobody_vouches_for_is_told_at_once(setting):
    for name, is_trusted in ((f"IP:{HOST}", False), ("DNS:elsewhere.test", True)):
        server, client = certificate(setting, name)
        with StandIn(tls=server) as place:
            coordinator = quick(place, context=client if is_trusted else None, patience=20)
            begun = time.monotonic()
            check("nothing was sent", not raised(raxunto.Unreachable, coordinator.start).maybe_done)
            check("it takes no time", time.monotonic() - begun < LATE)
            equal("requests", place.requests, [])


def test_a_host_with_colons(_):
    try:
        socket.create_server(("::1", 0), family=socket.AF_INET6).close()
    except OSError:
        raise LeftOut("there is no IPv6") from None
    with StandIn(host="::1") as place:
        trip = quick(place).start()
        equal("a close", trip.close(), "Closed")
        equal("Host", place.requests[0].fields["Host"], f"[::1]:{place.port}")


def test_ports_that_arent_written(_):
    cases = {
        "http://[::1]/": ("::1", 80),
        "http://127.0.0.1": ("127.0.0.1", 80),
        "https://[::1]/x": ("::1", 443),
        "HTTPS://LRA.test:8443": ("lra.test", 8443),
    }
    for url, wanted in cases.items():
        # (Nobody is called: who listens at 80 here is no coordinator.)
        made = raxunto.Coordinator(url)._made()  # pylint: disable=protected-access
        equal(url, (made.host, made.port), wanted)
