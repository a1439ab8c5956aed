"""The socket at which tools/printer and tools/jmf listen: at loopback, unless it is asked otherwise, or systemd hands one over; then a line warns."""

import ipaddress
import os
import socket

from seen.printable import complain

from . import job

LOOPBACK = "127.0.0.1"
WAITING = 16            # connections that wait for their turn
FROM_SYSTEMD = 3        # the first descriptor that it hands over


def listener_of(asked, tool, harm):
    """The socket that systemd hands over, or one that is made. `harm` is what whoever reaches it does."""
    if os.environ.get("LISTEN_PID") == str(os.getpid()) and os.environ.get("LISTEN_FDS"):
        listener = socket.socket(fileno=FROM_SYSTEMD)
        if os.environ["LISTEN_FDS"] != "1" or listener.family not in (socket.AF_INET, socket.AF_INET6) or listener.type != socket.SOCK_STREAM:
            raise ValueError("systemd hands over no socket of TCP, or more than one (ListenStream=)")
        warn(listener.getsockname(), tool, harm)
    else:
        address = str(asked.listen)
        warn((address, asked.port), tool, harm)
        family = socket.AF_INET6 if ":" in address else socket.AF_INET
        listener = socket.create_server((address, asked.port), family=family, backlog=WAITING)
    listener.setblocking(False)
    return listener


def is_loopback(address):
    return ipaddress.ip_address(address[0].partition("%")[0]).is_loopback


def warn(address, tool, harm):
    if not is_loopback(address):
        complain(tool, f"whoever reaches {job.name_of(address)} {harm}: no name and no password is asked for")
