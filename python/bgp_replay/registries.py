"""What registries say: names of ASes, and validated ROA payloads (VRPs), by which RFC 6811 judges origins."""

import collections
import csv
import ipaddress
import os
import re
import socket

from .longest import place

VALID, INVALID, NOT_FOUND = "valid", "invalid", "not found"  # RFC 6811, 2


def names_of(names):
    """Names of ASes by number: of a dict, or of a file whose lines are an AS number, a blank and a name."""
    if names is None:
        return {}
    if not isinstance(names, (str, os.PathLike)):
        return {int(asn): str(name) for asn, name in dict(names).items()}
    found = {}
    with open(names, encoding="utf-8", errors="replace") as file:
        for number, line in enumerate(file, 1):
            parts = re.fullmatch(r"(?:AS)?(\d{1,10})[ \t]+(\S.*?)\s*", line)
            if parts:
                found[int(parts[1])] = parts[2]
            elif line.strip() and not line.startswith("#"):
                raise ValueError(f"{os.fspath(names)}: line {number} isn't an AS number, a blank and a name")
    return found


class Vrps:
    """Of a file of VRPs those that cover some prefixes. The file is CSV as rpki-client and Routinator write it.

    Its first line names the columns, of which `ASN`, `IP Prefix` and `Max Length` are read. ValueError: it isn't such.
    """

    def __init__(self, path, prefixes):
        self.name, self.count = os.path.basename(os.fspath(path)), 0
        self.covering = collections.defaultdict(list)  # by prefix: (AS, longest length) of each VRP that covers it
        above = collections.defaultdict(list)  # by what contains them, the prefixes of the page
        for prefix in prefixes:
            net = ipaddress.ip_network(prefix)
            for length in range(net.prefixlen + 1):
                above[net.supernet(new_prefix=length).network_address.packed, length].append(prefix)
        with open(path, newline="", encoding="utf-8", errors="replace") as file:
            lines = csv.reader(file)
            head = next(lines, [])
            try:
                asn, prefix, longest = map(head.index, ("ASN", "IP Prefix", "Max Length"))
            except ValueError:
                raise ValueError(f"{path}: the first line doesn't name ASN, IP Prefix and Max Length") from None
            try:
                for row in lines:
                    self._add(row[asn], row[prefix], row[longest], above)
            except (ValueError, OSError, IndexError):
                raise ValueError(f"{path}: line {lines.line_num} isn't a VRP") from None

    def _add(self, asn, prefix, longest, above):
        address, _, length = prefix.partition("/")
        key = socket.inet_pton(socket.AF_INET6 if ":" in address else socket.AF_INET, address), int(length)
        vrp = int(asn.removeprefix("AS")), int(longest)
        self.count += 1
        for one in above.get(key, ()):
            self.covering[one].append(vrp)

    def validity(self, prefix, origin):
        """By RFC 6811 (2), of an origin as `AS64500`: valid, invalid or not found. AS 0 is no route's (RFC 6483, 4)."""
        covering = self.covering.get(prefix, ())
        asn, length = int(origin.removeprefix("AS")), place(prefix)[2]
        if any(asn == of and length <= longest for of, longest in covering if of):
            return VALID
        return INVALID if covering else NOT_FOUND
