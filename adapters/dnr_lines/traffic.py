"""What a proxy sees of a request, as a question: its URL, type, initiator and method.

Browsers say in `Sec-Fetch-Dest` and `Sec-Fetch-Mode` what a request is for (Fetch Metadata Request Headers, W3C), but only
to hosts that they trust by `https`. Of other requests the type is told from what else they carry.
"""
import re

METHODS = {"connect", "delete", "get", "head", "options", "patch", "post", "put"}
BY_DESTINATION = {
    "document": "main_frame",
    "iframe": "sub_frame",
    "frame": "sub_frame",
    "fencedframe": "sub_frame",
    "style": "stylesheet",
    "xslt": "stylesheet",
    "script": "script",
    "worker": "script",
    "sharedworker": "script",
    "serviceworker": "script",
    "audioworklet": "script",
    "paintworklet": "script",
    "image": "image",
    "font": "font",
    "object": "object",
    "embed": "object",
    "audio": "media",
    "video": "media",
    "track": "media",
    "report": "csp_report",
    "json": "xmlhttprequest",
}
BY_ENDING = {
    "js": "script",
    "mjs": "script",
    "css": "stylesheet",
    **dict.fromkeys(("png", "jpg", "jpeg", "gif", "webp", "avif", "svg", "ico", "bmp"), "image"),
    **dict.fromkeys(("woff", "woff2", "ttf", "otf", "eot"), "font"),
    **dict.fromkeys(("mp4", "webm", "mp3", "ogg", "m4a", "m4v", "ts", "m3u8"), "media"),
}
# Beginnings of `Accept` as browsers send them where a destination is not told.
BY_ACCEPT = (
    ("text/html", "main_frame"),
    ("text/css", "stylesheet"),
    ("image/", "image"),
    ("text/event-stream", "xmlhttprequest"),
)


def method_of(method):
    """A method in the words of rules."""
    return method.lower() if method.lower() in METHODS else "other"


def by_destination(destination, method, header):
    """The type by the headers of Fetch Metadata."""
    mode = header("Sec-Fetch-Mode")
    if mode in ("websocket", "webtransport"):
        return mode
    if destination != "empty":
        return BY_DESTINATION.get(destination, "other")
    if (header("Sec-Purpose") or "").startswith("prefetch"):
        return "other"
    return "ping" if mode == "no-cors" and method == "POST" else "xmlhttprequest"


def guessed(url, header):
    """The type where nothing says it: by what the client accepts, or by the ending of the path."""
    if header("X-Requested-With") == "XMLHttpRequest":
        return "xmlhttprequest"
    accept = (header("Accept") or "").lower()
    for beginning, kind in BY_ACCEPT:
        if accept.startswith(beginning):
            return kind
    path = url.partition("?")[0].partition("#")[0]
    return BY_ENDING.get(path.rpartition("/")[2].rpartition(".")[2].lower(), "other")


def type_of(url, method, header):
    """The resource type of a request; `header` gives the value of a request header, or None."""
    if method == "CONNECT":
        return "other"
    if (header("Upgrade") or "").lower() == "websocket" or url.startswith(("ws:", "wss:")):
        return "websocket"
    if header("Ping-To"):
        return "ping"
    destination = header("Sec-Fetch-Dest")
    return by_destination(destination.lower(), method, header) if destination else guessed(url, header)


def url_of(url, method, kind):
    """The URL in the form that rules see: of a tunnel the site, of a WebSocket the scheme `ws` or `wss`.

    Bytes past ASCII are escaped, as the URL Standard escapes those of UTF-8.
    """
    url = re.sub("[\x80-\xff]", lambda byte: f"%{ord(byte[0]):02X}", url)
    if method == "CONNECT" and "://" not in url:
        return f"https://{url}/"
    if kind == "websocket" and url.startswith("http"):
        return "ws" + url[4:]
    return url


def initiator_of(url, header):
    """Who asks: `Origin` where it is sent, else `Referer`, as they stand; nobody where the origin is opaque.

    Where neither is sent, and the browser says that the site asks itself, it is the site.
    """
    origin = header("Origin")
    if origin:
        return None if origin == "null" else origin
    own = url if header("Sec-Fetch-Site") in ("same-origin", "same-site") else None
    return header("Referer") or own


def question(url, method, header):
    """The line that asks for a request. URL and header values are read as Latin-1: each byte is a character.

    The page that `Referer` names stands as a frame under one that nobody knows, so exceptions for whole pages hold on it;
    of a page itself no frames are said.
    """
    kind = type_of(url, method, header)
    asked = {"url": url_of(url, method, kind), "type": kind, "method": method_of(method)}
    initiator = initiator_of(asked["url"], header)
    if initiator:
        asked["initiator"] = initiator
    referer = header("Referer")
    if referer and kind != "main_frame":
        asked["frames"] = [{"url": None}, {"url": referer}]
    return asked
