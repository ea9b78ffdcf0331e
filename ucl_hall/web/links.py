"""Links that people open: the addresses of this machine, and codes that a phone's camera reads."""

import contextlib
import io
import socket

# An address that no packet is sent to, by which the machine says which of its own it would use.
_ELSEWHERE = ("192.0.2.1", 9)


def hosts_of(host: str) -> list[str]:
    """Under which names a server that listens on this host is reached from elsewhere.

    Of a server on all addresses these are the addresses of this machine, that of the default route
    first.
    """
    if host not in ("0.0.0.0", "::", ""):
        return [host]
    found = _of_default_route()
    # The library may not be installed, and a service may not ask for the interfaces.
    with contextlib.suppress(ImportError, OSError):
        import ifaddr

        for adapter in ifaddr.get_adapters():
            found += [it.ip for it in adapter.ips if isinstance(it.ip, str)]
    others = [address for address in dict.fromkeys(found) if not address.startswith("127.")]
    return others or ["127.0.0.1"]


def is_of_this_machine(host: str) -> bool:
    """Whether a server on this host is reached from this machine alone."""
    return host in ("localhost", "::1") or host.startswith("127.")


def url_of(scheme: str, host: str, port: int) -> str:
    """The address of the page of screens."""
    named = f"[{host}]" if ":" in host else host
    usual = {"http": 80, "https": 443}[scheme] == port
    return f"{scheme}://{named}{'' if usual else f':{port}'}/"


def code_of(text: str) -> str:
    """A text as a code for a phone's camera, for a terminal with light letters on a dark ground.

    Empty where the library for it is not installed.
    """
    try:
        import qrcode
    except ImportError:
        return ""
    code = qrcode.QRCode(border=2, error_correction=qrcode.constants.ERROR_CORRECT_L)
    code.add_data(text)
    drawn = io.StringIO()
    code.print_ascii(drawn, invert=True)
    return drawn.getvalue()


def _of_default_route() -> list[str]:
    """The address by which this machine reaches others; none where it has no such route."""
    with socket.socket(socket.AF_INET, socket.SOCK_DGRAM) as probe, contextlib.suppress(OSError):
        probe.connect(_ELSEWHERE)
        return [str(probe.getsockname()[0])]
    return []
