"""Debian's mitmproxy and squid on the loopback, before the broker or without it. Every host leads to one server."""
import contextlib
import os
import re
import shutil
import subprocess

from support import ADAPTERS, free_port, listens, wait_for

# squid, started as root, gives that up for this user; the broker lets its group connect.
SQUID_USER = "proxy"
PATHS = f"{os.environ['PATH']}:/usr/sbin:/sbin"
HOME = """
def request(flow):
    if not flow.response:
        host = flow.request.host_header
        flow.request.host, flow.request.port, flow.request.host_header = "127.0.0.1", {server}, host
"""
SQUID = """
http_port 127.0.0.1:{port}
pid_filename none
access_log none
cache_log {folder}/squid.log
coredump_dir {folder}
cache_mem 8 MB
shutdown_lifetime 0 seconds
memory_pools off
netdb_filename none
cache deny all
cache_peer 127.0.0.1 parent {server} 0 no-query originserver default name=home
never_direct allow all
max_filedescriptors 1024
visible_hostname test.localhost
{adapter}
http_access allow all
"""
# What squid.conf has besides for each header that rules change.
SQUID_HEADERS = """
acl drop_cookie note dnr-request-drop cookie
request_header_access Cookie deny drop_cookie
acl drop_dnt note dnr-request-drop dnt
request_header_access DNT deny drop_dnt
acl set_dnt note dnr-request-dnt
request_header_add DNT "%{dnr-request-dnt}note" set_dnt
acl drop_set_cookie note dnr-response-drop set-cookie
reply_header_access Set-Cookie deny drop_set_cookie
"""


def group_of_squid():
    """The words of the broker that let squid connect."""
    return ["--group", SQUID_USER] if os.geteuid() == 0 else []


@contextlib.contextmanager
def running(words, port, log):
    """A process that listens at a port."""
    with open(log, "ab") as file:
        process = subprocess.Popen(words, stdout=file, stderr=file, env={**os.environ, "PYTHONDONTWRITEBYTECODE": "1"})
        try:
            wait_for(lambda: listens(port), what=str(words[0]))
            yield
        finally:
            process.kill()
            process.wait()


@contextlib.contextmanager
def mitmproxy(folder, server, socket=None):
    """The port of a running mitmdump, with the adapter where there is a broker's socket."""
    port, home = free_port(), folder / "home.py"
    home.write_text(HOME.format(server=server))
    options = [f"confdir={folder / 'conf'}", "connection_strategy=lazy"]
    scripts = [home]
    if socket:
        options.append(f"dnr_socket={socket}")
        scripts.insert(0, ADAPTERS / "mitmproxy/dnr.py")
    words = ["mitmdump", "-q", "-p", str(port)]
    words += [it for option in options for it in ("--set", option)] + [it for script in scripts for it in ("-s", script)]
    with running(words, port, folder / "mitmdump"):
        yield port


@contextlib.contextmanager
def squid(folder, server, socket=None):
    """The port of a running squid, with the adapter where there is a broker's socket."""
    port, adapter = free_port(), ""
    if socket:
        lines = (ADAPTERS / "squid/dnr.conf").read_text()
        adapter = re.sub(r"\S+/dnr-squid \S+", f"{ADAPTERS / 'squid/dnr-squid'} --seconds 3 {socket}", lines) + SQUID_HEADERS
    folder.chmod(0o755)
    (folder / "squid.log").touch()
    if os.geteuid() == 0:
        shutil.chown(folder / "squid.log", SQUID_USER)
    conf = folder / f"squid.{port}.conf"
    conf.write_text(SQUID.format(port=port, folder=folder, server=server, adapter=adapter))
    with running([shutil.which("squid", path=PATHS), "-N", "-f", conf], port, folder / "squid"):
        yield port
