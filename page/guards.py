"""What a request must have before anything is done for it."""

import json
import secrets

MOST_BODY_BYTES = 256 * 1024
MOST_DEPTH_OF_BODY = 8
CONTENT_POLICY = "; ".join(
    [
        "default-src 'none'",
        "script-src 'self'",
        "style-src 'self'",
        "img-src 'self'",
        "connect-src 'self'",
        "base-uri 'none'",
        "form-action 'none'",
        "frame-ancestors 'none'",
        "require-trusted-types-for 'script'",
        "trusted-types 'none'",
    ]
)
HEADERS = {
    "Content-Security-Policy": CONTENT_POLICY,
    "X-Content-Type-Options": "nosniff",
    "Referrer-Policy": "no-referrer",
    "Cross-Origin-Opener-Policy": "same-origin",
    "Cross-Origin-Resource-Policy": "same-origin",
    "Permissions-Policy": "camera=(), geolocation=(), microphone=()",
    "Cache-Control": "no-store",
}


class Refused(Exception):
    """A request that is not answered, with the status that it gets."""

    def __init__(self, status, why):
        super().__init__(why)
        self.status = status


def new_token():
    """What a page has to send with each request, so that no other page can."""
    return secrets.token_urlsafe(24)


def check_host(headers, port):
    """The request names this server by its address, so a name that was led here from outside is refused."""
    allowed = {f"127.0.0.1:{port}", f"localhost:{port}"}
    if headers.get_all("Host", []) not in [[host] for host in allowed]:
        raise Refused(403, "this server is not called so")
    origins = headers.get_all("Origin", [])
    if origins and origins not in [[f"http://{host}"] for host in allowed]:
        raise Refused(403, "the request comes from another page")
    if headers.get("Sec-Fetch-Site", "same-origin") not in ("same-origin", "none"):
        raise Refused(403, "the request comes from another page")


def check_question(headers, token):
    """A question comes from a page of this server and is JSON."""
    if not headers.get("Origin"):
        raise Refused(403, "the request says not where it comes from")
    if not secrets.compare_digest(headers.get("X-Page-Token", "").encode("utf-8", "replace"), token.encode()):
        raise Refused(403, "the page is of an earlier start of this server: load it again")
    if headers.get_content_type() != "application/json":
        raise Refused(400, "the body is not said to be JSON")


def body_length(headers):
    """The length of the body that a request says to have."""
    lengths = headers.get_all("Content-Length", [])
    if len(lengths) != 1 or not (lengths[0].isascii() and lengths[0].isdigit()) or headers.get("Transfer-Encoding"):
        raise Refused(400, "the length of the body is not said")
    if len(lengths[0]) > 9 or int(lengths[0]) > MOST_BODY_BYTES:
        raise Refused(413, "the body is too long")
    return int(lengths[0])


def read_body(body):
    """The fields of a body."""
    try:
        fields = json.loads(body.decode("utf-8"))
    except (ValueError, RecursionError) as fault:
        raise Refused(400, "the body is not JSON") from fault
    if not isinstance(fields, dict):
        raise Refused(400, "the body is no JSON object")
    return fields


class Fields:
    """The fields of a request, each read once as what it has to be."""

    def __init__(self, fields):
        self._fields = dict(fields)

    def _take(self, name, kind, is_right):
        value = self._fields.pop(name, None)
        if type(value) is not kind or not is_right(value):
            raise Refused(400, f"the field {name} is not right")
        return value

    def text(self, name, most=MOST_BODY_BYTES):
        """A text without line ends and NUL."""
        return self._take(name, str, lambda text: len(text) <= most and not set(text) & set("\r\n\0"))

    def one_of(self, name, values):
        return self._take(name, str, values.__contains__)

    def number(self, name, least, most):
        return self._take(name, int, lambda number: least <= number <= most)

    def list(self, name, most, read):
        """A list of at most so many values, each read by `read`."""
        return [read(value) for value in self._take(name, list, lambda values: len(values) <= most)]

    def done(self):
        """There is no field but those that were read."""
        if self._fields:
            raise Refused(400, "the request has a field that is not known")
