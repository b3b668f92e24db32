#!/usr/bin/env python3
"""Compares `history`, `churn`, `peers`, `tables` and `faults` with a plain model on drawn dumps. It is written from
docs/FORMATS.md alone.

usage: tests/history.py PROGRAM [DUMPS] [ipv4|ipv6]

Each dump is of one family of routes, IPv4 or IPv6, by turns as its seed draws (of one alone where it is named), and is
replayed by `--family` of that one; family ipv4 mostly without the option. It is drawn as a list of units (RIB entries
of TABLE_DUMP_V2 and of TABLE_DUMP, UPDATEs with attributes 14 and 15, state changes, messages of other types, damaged
UPDATEs and entries) of a few peers, external and internal ones, and prefixes, with index tables, RIB records that are refused and RIB records of
the other family between them, and written as MRT records into one to three files. The model takes what was drawn and
not the bytes. Attributes 14 and 15 are of either family, and of others; next hops have 4, 16 and 32 bytes; attribute
14 of a RIB entry has both forms, is repeated and damaged; bits past a prefix's length are set. An UPDATE of family
ipv6 has anything in its own withdrawn and NLRI fields. Attributes are missing, repeated, malformed, several of one
message too, and cut off, with others behind them. State changes have the ends of their session as daemons write
them: as a collector does, the other way round, without an AS number or an address, without a local end. Options are
drawn too: --prefix in its forms, --peer, --peers, --since, --until, --states, --state-peers, --rib, --written-by with
some of these beside it, --table-dump, --errors, --same, --addresses. Of the lines of `peers` the place of the first unit isn't
compared. What `churn` counts by --prefix and --since is compared with the lines of `history --same`, by peer and by
what happened, and with the breaks, idle and damaged units that the model finds. The short texts of addresses are
compared with Python's. The last line is `N passed, M failed`. Needs Python 3 and nothing else.
"""
import ipaddress
import random
import struct
import subprocess
import sys
import tempfile

MARKER = b"\xff" * 16


# ---- addresses: how many bits they have, and their number


def address(text):
    read = ipaddress.ip_address(text)
    return read.max_prefixlen, int(read)


def address_bytes(of):
    return of[1].to_bytes(of[0] // 8, "big")


def short_text(number):
    """An IPv6 address by RFC 5952, 4: `::` is the longest run of two or more zero groups, the first of equal ones."""
    groups = [number >> shift & 0xFFFF for shift in range(112, -1, -16)]
    zeros, longest, behind = 0, 1, 0
    for place, group in enumerate(groups):
        zeros = 0 if group else zeros + 1
        if zeros > longest:
            longest, behind = zeros, place + 1
    words = [f"{group:x}" for group in groups]
    if longest == 1:
        return ":".join(words)
    return ":".join(words[:behind - longest]) + "::" + ":".join(words[behind:])


def full_text(number):
    return ":".join(f"{number >> shift & 0xFFFF:04x}" for shift in range(112, -1, -16))


def address_text(of, is_short):
    bits, number = of
    if bits == 32:
        return ".".join(str(number >> shift & 0xFF) for shift in (24, 16, 8, 0))
    return short_text(number) if is_short else full_text(number)


class Family:
    """What differs between the families of routes."""

    def __init__(self, name, afi, bits, rib, rib_add_path, has_own_fields, prefixes, others):
        self.name, self.afi, self.bits = name, afi, bits
        self.rib, self.rib_add_path = rib, rib_add_path  # subtypes of TABLE_DUMP_V2
        self.has_own_fields = has_own_fields  # an UPDATE's own withdrawn and NLRI fields have keys, and NEXT_HOP counts
        self.prefixes, self.others = prefixes, others  # those of routes, and those that options name beside them

    def key(self, prefix, identifier=0):
        """A key: address, length and path identifier, which is also its place in a table."""
        text, length = prefix.split("/")
        return address(text)[1], int(length), identifier

    def prefix_text(self, key):
        return f"{address_text((self.bits, key[0]), True)}/{key[1]}"

    def key_text(self, key):
        return self.prefix_text(key) + (f"#{key[2]}" if key[2] else "")

    def covers(self, outer, inner):
        return outer[1] <= inner[1] and (outer[0] ^ inner[0]) >> (self.bits - outer[1]) == 0

    def words(self, draw):
        """The option for this family. Without it, it is ipv4."""
        if self.name == "ipv4" and draw.random() < 0.7:
            return []
        return draw.choice([["--family", self.name], [f"--family={self.name}"]])

    def option_text(self, draw, prefix):
        """A prefix as --prefix reads it: in other forms too, and of full length also as an address alone."""
        key = self.key(prefix)
        text = prefix.split("/")[0]
        if self.bits == 128:
            text = draw.choice([text, short_text(key[0]), full_text(key[0]), full_text(key[0]).upper()])
        return text if key[1] == self.bits and draw.random() < 0.5 else f"{text}/{key[1]}"


IPV4 = Family("ipv4", 1, 32, 2, 8, True,
              ["0.0.0.0/0", "128.0.0.0/1", "10.0.0.0/8", "10.0.0.0/9", "10.64.0.0/10", "10.64.7.0/24", "10.128.0.0/9",
               "192.0.2.0/24", "192.0.2.128/25", "192.0.2.128/31", "192.0.2.129/32", "203.0.113.0/24"],
              ["10.64.0.0/16", "192.0.0.0/8"])
IPV6 = Family("ipv6", 2, 128, 4, 10, False,
              ["::/0", "8000::/1", "2000::/3", "2001:db8::/32", "2001:db8::/33", "2001:db8:8000::/33", "::/64",
               "2001:db8:0:7::/64", "2001:db8:0:7::/65", "2001:db8:0:7::/127", "2001:db8:0:7::1/128", "fe80::/10",
               "2001:db8:0:7:0:1:0:0/112", "::ffff:c000:200/120", "::1/128", "1:0:0:2:0:0:0:3/128",
               "1:0:2:3:4:5:6:0/112"],
              ["2001:db8::/56", "2001::/16", "::ffff:0:0/96"])
OTHER = {IPV4: IPV6, IPV6: IPV4}

PEERS = [(65001, address("192.0.2.1")), (65002, address("192.0.2.2")), (4200000003, address("192.0.2.3")),
         (65001, address("192.0.2.4")), (65001, address("::1")), (65001, address("9.0.0.1")),
         (65004, address("2001:db8::4:0:0:1"))]
HOPS = [[address(text) for text in texts.split()] for texts in
        ["192.0.2.9", "198.51.100.7", "2001:db8::9", "::ffff:c000:209", "2001:db8::9 fe80::9", "::",
         "fe80::9 1:2:3:0:5:6:7:8"]]


# ---- what is drawn


# What --errors rfc7606 does about a fault, whatever the rest of the message is.
ABSENT, ABSENT_IF_EXTERNAL, WITHDRAWN, SKIPPED = "absent", "absent if external", "withdrawn", "skipped"


class Written:
    """A path attribute: its type, its value, what it says, and what is wrong with it: a fault and what is done about
    it, or None."""

    def __init__(self, code, value, says=None, flaw=None):
        self.code, self.value, self.says, self.flaw = code, value, says, flaw


def path_bytes(path, form):
    return bytes([2, len(path)]) + b"".join(struct.pack(form, asn) for asn in path)


def number_attribute(code, number):
    return Written(code, struct.pack(">I", number), number)


def drawn_attributes(draw):
    """Attributes of types 1 to 7 as they should be. None says the same in another way, so that what is said of a route
    is what two are compared by."""
    path = tuple(draw.choice([64500, 64501, 4200000009]) for _ in range(draw.randrange(1, 3)))
    hop, aggregator = address(draw.choice(["192.0.2.9", "192.0.2.10"])), address("203.0.113.1")
    med, preference = draw.choice([0, 7]), draw.choice([100, 4294967295])
    return [one for one, chance in [
        (Written(1, b"\0", "IGP"), 0.97), (Written(2, path_bytes(path, ">I"), path), 0.97),
        (Written(3, address_bytes(hop), (hop,)), 0.9), (number_attribute(4, med), 0.5),
        (number_attribute(5, preference), 0.2), (Written(6, b"", "atomic"), 0.2),
        (Written(7, struct.pack(">I", 64500) + address_bytes(aggregator), "64500 203.0.113.1"), 0.2),
    ] if draw.random() < chance]


def malformed(draw):
    """An attribute of types 1 to 7 with a value that it can't have."""
    code, values, deed = draw.choice([
        (1, [b"", b"\3", b"\xff", b"\0\0"], WITHDRAWN),
        (2, [b"\5\1" + bytes(4), b"\0\1" + bytes(4), b"\2\0", b"\2", b"\2\xff\0\0\0\1"], WITHDRAWN),
        (3, [bytes(size) for size in (0, 3, 5, 16)], WITHDRAWN), (4, [bytes(size) for size in (0, 3, 5)], WITHDRAWN),
        *[(5, [bytes(size) for size in (0, 3, 5)], ABSENT_IF_EXTERNAL)] * 3, (6, [b"\0", bytes(4)], ABSENT),
        (7, [bytes(size) for size in (0, 5, 7, 9)], ABSENT)])
    fault = (15, "BadPath") if code == 2 else (14, f"BadAttribute({code})")
    return Written(code, draw.choice(values), None, (fault, deed))


def one_attribute(draw, code, value):
    if len(value) > 255 or draw.random() < 0.3:
        return bytes([0x90, code]) + struct.pack(">H", len(value)) + value
    return bytes([0x40, code, len(value)]) + value


def attribute_bytes(draw, attributes):
    return b"".join(one_attribute(draw, one.code, one.value) for one in attributes)


def cut_off(draw, attributes):
    """A last attribute that runs past the field, with others in its value or with no whole length, and its type if
    that is there."""
    code = draw.choice([1, 3, 5, 7, 8, 14, 15, 99])
    if draw.random() < 0.4:
        return draw.choice([(b"\x40", None), (bytes([0x40, code]), code), (bytes([0x90, code, 0]), code)])
    behind = attribute_bytes(draw, attributes)
    return bytes([0x90, code]) + struct.pack(">H", len(behind) + draw.choice([1, 2, 300])) + behind, code


def written_field(draw, attributes, is_cut):
    """The attributes in their order: those that can be read, the field's bytes, and what is wrong with the one that
    can't be read, if there is one."""
    if not is_cut:
        return attributes, attribute_bytes(draw, attributes), []
    place = draw.randrange(len(attributes) + 1)
    last, code = cut_off(draw, attributes[place:])
    flaw = (13, "ShortAttribute"), SKIPPED if code in (14, 15) else WITHDRAWN
    return attributes[:place], attribute_bytes(draw, attributes[:place]) + last, [flaw]


def read_attributes(attributes, is_message):
    """What the first attribute of each type says, and what is wrong with attributes, in order. A later one counts where
    it is a second 14 or 15 of a message."""
    first, flaws = {}, []
    for one in attributes:
        if one.code not in first:
            first[one.code] = one.says
            flaws += [one.flaw] if one.flaw else []
        elif is_message and one.code in (14, 15):
            flaws.append(((14, f"BadAttribute({one.code})"), SKIPPED))
    return first, flaws


def route_of(first, hop):
    """What two routes are compared by, with this next hop."""
    return (tuple(hop), *(first.get(code) for code in (2, 1, 4, 5, 6, 7)))


def hop_bytes(hop):
    return b"".join(map(address_bytes, hop))


def prefix_bytes(draw, family, key):
    """A prefix as it is written, now and then with bits set past its length."""
    number, length = key[:2]
    size = (length + 7) // 8
    past = size * 8 - length
    if past and draw.random() < 0.5:
        number |= draw.randrange(1 << past) << (family.bits - size * 8)
    return bytes([length]) + number.to_bytes(family.bits // 8, "big")[:size]


def key_bytes(draw, family, keys, add_path):
    return b"".join((struct.pack(">I", key[2]) if add_path else b"") + prefix_bytes(draw, family, key) for key in keys)


def bad_key(draw, family, add_path):
    """A key whose length is too great, or that is cut off."""
    if draw.random() < 0.5:
        key = bytes([draw.choice([family.bits + 1, 255])]) + bytes(40)
    else:
        key = bytes([draw.choice([family.bits, 9])]) + b"\1"
    return (bytes(4) if add_path else b"") + key


def loose(draw):
    """Bytes that nothing examines: keys of one of the families, damaged ones among them, or none."""
    family = draw.choice([IPV4, IPV6])
    kind = draw.random()
    if kind < 0.3:
        return b""
    if kind < 0.6:
        return key_bytes(draw, family, some_keys(draw, family, 4, False), False)
    return draw.choice([bad_key(draw, family, False), b"\xff", b"\x81" + bytes(17), draw.randbytes(draw.randrange(9))])


def foreign(draw, family):
    """The value of an attribute 14 or 15 of another family than this one's unicast routes."""
    other = OTHER[family].afi
    afi, safi = draw.choice([(other, 1), (other, 1), (family.afi, 2), (family.afi, 128), (25, 70)])
    return struct.pack(">HB", afi, safi) + loose(draw)


def reach(family, hop, keys, safi=1):
    """The value of attribute 14: family, next hop, a reserved byte, keys."""
    return struct.pack(">HBB", family.afi, safi, len(hop)) + hop + b"\0" + keys


def unreach(family, keys):
    return struct.pack(">HB", family.afi, 1) + keys


def record(draw, micros, subtype, body):
    """A record of BGP4MP, with microseconds where the time has some."""
    seconds, rest = divmod(micros, 1_000_000)
    if rest or draw.random() < 0.3:
        return struct.pack(">IHHII", seconds, 17, subtype, len(body) + 4, rest) + body
    return struct.pack(">IHHI", seconds, 16, subtype, len(body)) + body


def session_bytes(peer, local, width=4):
    """Both ends of a session, with AS numbers of so many bytes."""
    return (peer[0].to_bytes(width, "big") + local[0].to_bytes(width, "big")
            + struct.pack(">HH", 0, 1 if peer[1][0] == 32 else 2) + address_bytes(peer[1]) + address_bytes(local[1]))


def collector(bits):
    """The collector, at an address of so many bits."""
    return 65535, (bits, address("192.0.2.254")[1])


def session(peer):
    return session_bytes(peer, collector(peer[1][0]))


def message(kind, body):
    return MARKER + struct.pack(">HB", 19 + len(body), kind) + body


def some_keys(draw, family, most, add_path):
    return [family.key(draw.choice(family.prefixes), draw.choice([0, 1, 5]) if add_path else 0)
            for _ in range(draw.randrange(most))]


def malformed_multiprotocol(draw, family, add_path):
    """Attributes 14, or attributes 15, of an UPDATE with which something is wrong."""
    next_hop, keys = draw.choice(HOPS), some_keys(draw, family, 3, add_path)
    hop, good = hop_bytes(next_hop), key_bytes(draw, family, keys, add_path)
    kind = draw.randrange(6)
    if kind < 2:  # as they should be, but for being two
        code, own = draw.choice([(14, (reach(family, hop, good), (keys, next_hop))), (15, (unreach(family, good), keys))])
        return [Written(code, *draw.choice([own, (foreign(draw, family),)])) for _ in range(2)]
    if kind in (2, 3):
        bad = good + bad_key(draw, family, add_path)
        code, value = draw.choice([(14, reach(family, hop, bad)), (15, unreach(family, bad))])
        return [Written(code, value, None, ((9, "BadPrefix"), SKIPPED))]
    whole = struct.pack(">HB", family.afi, 1)
    code, values = (15, [b"", b"\0", whole[:2]]) if kind == 4 else (
        14, [b"", b"\0", whole[:2], whole, whole + b"\x10" + bytes(15), whole + b"\4" + bytes(4),
             *[reach(family, bytes(size), good) for size in (0, 5, 8, 24, 33, 48)]])
    return [Written(code, draw.choice(values), None, ((14, f"BadAttribute({code})"), SKIPPED))]


def spoil(draw, family, attributes, add_path):
    """Puts up to three attributes that have faults in the place of others or beside them."""
    for _ in range(draw.choice([0, 1, 1, 1, 2, 3])):
        put = [malformed(draw)] if draw.random() < 0.6 else malformed_multiprotocol(draw, family, add_path)
        if put[0].code in (14, 15) or draw.random() < 0.7:
            attributes[:] = [one for one in attributes if one.code != put[0].code]
        attributes += put


def drawn_update(draw, family, micros, peer):
    add_path, is_internal = draw.random() < 0.25, draw.random() < 0.4

    def sometimes(most, chance):
        return some_keys(draw, family, most, add_path) if draw.random() < chance else []

    if family.has_own_fields:
        withdrawn, announced = sometimes(3, 1), sometimes(4, 1)
        own = [key_bytes(draw, family, keys, add_path) for keys in (withdrawn, announced)]
    else:
        withdrawn, announced, own = [], [], [loose(draw), loose(draw)]
    chance = 0.4 if family.has_own_fields else 0.8
    reached, unreached, hop = sometimes(4, chance), sometimes(3, chance), draw.choice(HOPS)
    attributes = drawn_attributes(draw)
    if reached or draw.random() < 0.1:
        value = reach(family, hop_bytes(hop), key_bytes(draw, family, reached, add_path))
        attributes.append(Written(14, value, (reached, hop)))
    elif draw.random() < 0.3:
        attributes.append(Written(14, foreign(draw, family)))
    if unreached or draw.random() < 0.1:
        attributes.append(Written(15, unreach(family, key_bytes(draw, family, unreached, add_path)), unreached))
    elif draw.random() < 0.3:
        attributes.append(Written(15, foreign(draw, family)))
    if not announced and not reached and not unreached and draw.random() < 0.5:
        attributes = []
    is_spoiled = draw.random() < 0.25
    if is_spoiled:
        spoil(draw, family, attributes, add_path)
    draw.shuffle(attributes)
    whole, field, cut = written_field(draw, attributes, is_spoiled and draw.random() < 0.25)
    first, flaws = read_attributes(whole, True)
    flaws += cut
    if family.has_own_fields and draw.random() < 0.03:
        place = draw.randrange(2)
        own[place] += bad_key(draw, family, add_path)
        flaws.insert(0 if place == 0 else len(flaws), ((9, "BadPrefix"), SKIPPED))
    body = struct.pack(">H", len(own[0])) + own[0] + struct.pack(">H", len(field)) + field + own[1]
    reached, hop = first.get(14) or ([], ())
    routes = [(key, route_of(first, first.get(3) or ())) for key in announced]
    routes += [(key, route_of(first, hop)) for key in reached]
    unit = update_unit(peer, micros, withdrawn + (first.get(15) or []), routes, lacks(first, announced, reached), flaws, is_internal)
    local = (peer[0] if is_internal else 65535, collector(peer[1][0])[1])
    return ([unit], record(draw, micros, 9 if add_path else 4, session_bytes(peer, local) + message(2, body)),
            [(None, flaws[0][0])] if flaws else [])


def lacks(first, announced, reached):
    """Whether announcements lack what they must have. What is malformed says nothing."""
    return ((bool(announced or reached) and (first.get(1) is None or first.get(2) is None))
            or (bool(announced) and first.get(3) is None))


def update_unit(peer, micros, withdrawn, routes, is_lacking, flaws, is_internal):
    """The unit of an UPDATE: what it does, and whether --errors rfc7606 takes its announcements as withdrawals; of a
    damaged one what that does, if it does anything."""
    deeds = [WITHDRAWN if deed == ABSENT_IF_EXTERNAL and is_internal else deed for _, deed in flaws]
    update = ("update", peer, micros, withdrawn, routes, is_lacking or WITHDRAWN in deeds)
    if not flaws:
        return update
    return "damaged", peer, micros, None, None if SKIPPED in deeds else update


def drawn_ends(draw, peer):
    """The peer and the local end of a session, as a state change has them."""
    bits = peer[1][0]
    own, zero = collector(bits), (bits, 0)
    no_as = draw.choice([0, 23456])
    return draw.choice([
        (peer, own), (peer, own),  # as collectors write them
        (own, peer), (own, (draw.choice(PEERS)[0], peer[1])),  # OpenBGPD, of a neighbour
        (own, (no_as, peer[1])), (own, (no_as, peer[1])), (own, (no_as, zero)),  # without its AS number
        ((peer[0], zero), own), ((peer[0], zero), own), ((64999, zero), (65535, zero)),  # BIRD, without a connection
        (peer, (0, zero)), ((peer[0], zero), (0, zero)), (own, (0, zero)),  # a dump of tables
    ])


def drawn_state(draw, micros, peer):
    """A state change: its unit has both ends in place of a peer."""
    old, new = draw.choice([(6, 1), (5, 6), (6, 6), (3, 4), (1, 6), (3, 8), (6, 7), (65535, 6), (0, 0)])
    ends = drawn_ends(draw, peer)
    is_narrow = max(asn for asn, _ in ends) < 65536 and draw.random() < 0.5
    body = session_bytes(*ends, 2 if is_narrow else 4) + struct.pack(">HH", old, new)
    return [("state", ends, micros, old, new)], record(draw, micros, 0 if is_narrow else 5, body), []


def reach_of_entry(draw):
    """The value of an attribute 14 in a RIB entry, and the next hop that it gives to a route of family ipv6, or None
    where it is damaged."""
    hop = draw.choice(HOPS)
    written = hop_bytes(hop)
    kind = draw.random()
    if kind < 0.4:  # RFC 6396, 4.3.4
        return bytes([len(written)]) + written, hop
    if kind < 0.7:  # the whole attribute, of which nothing is read behind the next hop
        front = struct.pack(">HBB", 2, 1, len(written)) + written
        return front + draw.choice([b"", b"\0", b"\0" + loose(draw), b"\xff" + bad_key(draw, IPV6, False)]), hop
    if kind < 0.85:
        return foreign(draw, IPV6), []
    return draw.choice([b"", b"\0", b"\0\2", b"\0\2\1", b"\0\2\1\0", b"\0\2\1\x18" + bytes(24),
                        b"\0\2\1\x10" + bytes(15), b"\x10" + bytes(15), b"\x10" + bytes(17), b"\5" + bytes(5),
                        b"\x20" + bytes(16), b"\4" + bytes(3), b"\2\1\1", b"\1" + written,
                        b"\xff" + bytes(255)]), None


def narrowed(draw, attributes):
    """The same attributes with AS numbers of two bytes: 23456 stands for a greater one, and AS4_PATH has the path. One
    AGGREGATOR that is as it should be would have AS4_PATH ignored: there is none."""
    narrow = []
    for one in attributes:
        if one.code == 2 and one.says:
            numbers = [asn if asn < 65536 else 23456 for asn in one.says]
            narrow.append(Written(2, path_bytes(numbers, ">H"), one.says))
            if max(one.says) > 65535:
                narrow.insert(draw.randrange(len(narrow) + 1), Written(17, path_bytes(one.says, ">I")))
        elif one.code != 7 or one.flaw:
            narrow.append(one)
    return narrow


def drawn_entry(draw, family, width=4):
    """The attributes of a RIB entry with AS numbers of so many bytes, the fault or None, and the route that it has, or
    has by --errors rfc7606, or None."""
    attributes = drawn_attributes(draw)
    if is_spoiled := draw.random() < 0.1:
        for one in [malformed(draw) for _ in range(draw.choice([0, 1, 1, 2]))]:
            if one.code == 2 or draw.random() < 0.7:  # of two paths AS4_PATH would be that of one
                attributes = [other for other in attributes if other.code != one.code]
            attributes.append(one)
    draw.shuffle(attributes)
    values = []
    if draw.random() < (0.3 if family.has_own_fields else 0.85):
        values = [reach_of_entry(draw)]
        while draw.random() < 0.2:  # repeats, which aren't looked at
            values.append((draw.choice([b"", loose(draw), reach_of_entry(draw)[0]]), None))
    for place, (value, hop) in zip(sorted((draw.randrange(len(attributes) + 1) for _ in values), reverse=True), values[::-1]):
        is_bad = hop is None and not family.has_own_fields
        attributes.insert(place, Written(14, value, hop, ((14, "BadAttribute(14)"), SKIPPED) if is_bad else None))
    if draw.random() < 0.1:
        attributes.append(Written(15, loose(draw)))
    if width == 2:
        attributes = narrowed(draw, attributes)
    whole, field, cut = written_field(draw, attributes, is_spoiled and draw.random() < 0.25)
    first, flaws = read_attributes(whole, False)
    flaws += cut
    is_skipped = any(deed != ABSENT for _, deed in flaws)
    route = route_of(first, first.get(3 if family.has_own_fields else 14) or ())
    return field, flaws[0][0] if flaws else None, None if is_skipped else route


def entry_unit(peer, micros, key, fault, route):
    entry = ("entry", peer, micros, key, route)
    return ("damaged", peer, micros, key, entry if route else None) if fault else entry


def drawn_entries(draw, family, micros, is_indexed):
    """A RIB record: ("read", None, its time) and its entries, or nothing where it is refused, as all are without an
    index table. Its time has whole seconds."""
    add_path = draw.random() < 0.3
    prefix = family.key(draw.choice(family.prefixes))
    units, entries, faults, refusal = [("read", None, micros)], [], [], None if is_indexed else (7, "NoPeerIndex")
    for index in draw.sample(range(len(PEERS)), draw.randrange(len(PEERS) + 1)):
        identifier = draw.choice([0, 1, 5]) if add_path else 0
        attributes, fault, route = drawn_entry(draw, family)
        key = (prefix[0], prefix[1], identifier)
        units.append(entry_unit(PEERS[index], micros, key, fault, route))
        entries.append(struct.pack(">HI", index, 900) + (struct.pack(">I", identifier) if add_path else b"")
                       + struct.pack(">H", len(attributes)) + attributes)
        if fault:
            faults.append((len(entries), fault))
    written = prefix_bytes(draw, family, prefix)
    bad = draw.random()
    if bad < 0.05:
        written = bytes([draw.choice([family.bits + 1, 255])]) + bytes(32)
        refusal = refusal or (9, "BadPrefix")
    elif bad < 0.15:
        refusal = refusal or (8, "BadPeerIndex")
        identifier = struct.pack(">I", 0) if add_path else b""
        entries.append(struct.pack(">HI", len(PEERS), 900) + identifier + struct.pack(">H", 0))
    body = struct.pack(">I", 0) + written + struct.pack(">H", len(entries)) + b"".join(entries)
    subtype = family.rib_add_path if add_path else family.rib
    header = struct.pack(">IHHI", micros // 1_000_000, 13, subtype, len(body))
    return [] if refusal else units, header + body, [(None, refusal)] if refusal else faults


class Old(tuple):
    """A unit of a TABLE_DUMP record, or a fault of one, which is there by --table-dump read alone."""


def drawn_table_dump(draw, family, micros):
    """A TABLE_DUMP record: its entry, or nothing where it is refused. Its time has whole seconds."""
    key = family.key(draw.choice(family.prefixes))
    peer = draw.choice([(asn if asn < 65536 else 23456, of) for asn, of in PEERS if of[0] == family.bits])
    attributes, fault, route = drawn_entry(draw, family, 2)
    number, length, refusal, bad = *key[:2], None, draw.random()
    if draw.random() < 0.5:  # bits past the length
        number |= draw.randrange(1 << (family.bits - length))
    if bad < 0.05:
        length, refusal = draw.choice([family.bits + 1, 255]), (9, "BadPrefix")
    body = (draw.randbytes(4) + address_bytes((family.bits, number)) + bytes([length]) + draw.randbytes(5)
            + address_bytes(peer[1]) + struct.pack(">HH", peer[0], len(attributes)) + attributes)
    if 0.05 < bad < 0.1:
        body, refusal = body + draw.randbytes(draw.randrange(1, 4)), (5, "TrailingBytes")
    elif 0.1 < bad < 0.15:
        body, refusal = body[:draw.randrange(len(body))], (4, "ShortRecord")
    record_bytes = struct.pack(">IHHI", micros // 1_000_000, 12, family.afi, len(body)) + body
    units = [] if refusal else [Old(entry_unit(peer, micros, key, fault, route))]
    return units, record_bytes, [Old((None, refusal or fault))] if refusal or fault else []


def index_table(is_damaged):
    peers = b"".join((b"\x02" if of[0] == 32 else b"\x03") + bytes(4) + address_bytes(of) + struct.pack(">I", asn)
                     for asn, of in PEERS)
    collector = address_bytes(address("192.0.2.254"))
    body = collector + struct.pack(">HH", 0, len(PEERS)) + peers + b"\0" * is_damaged
    return struct.pack(">IHHI", 1000, 13, 1, len(body)) + body


def drawn_file(draw, family, count):
    """Its units, with ("index", None, None) where an index table stands, its bytes, and its faults: offset, entry or
    None, and the fault."""
    units, data, faults, is_indexed = [], b"", [], False
    for number in range(count):
        if draw.random() < (0.9 if number == 0 else 0.08):
            is_indexed = draw.random() < 0.95
            units += [("index", None, None)] * is_indexed
            faults += [] if is_indexed else [(len(data), None, (5, "TrailingBytes"))]
            data += index_table(not is_indexed)
        micros = draw.randrange(1000, 1060) * 1_000_000 + draw.choice([0, 0, 0, 250_000, 999_999])
        peer = draw.choice(PEERS)
        if draw.random() < 0.1:  # a RIB record of the other family, which is aside
            data += drawn_entries(draw, OTHER[family], micros, is_indexed)[1]
        if draw.random() < 0.05:
            data += drawn_table_dump(draw, OTHER[family], micros)[1]
        what = draw.random()
        if what < 0.3:
            more, written, found = drawn_entries(draw, family, micros - micros % 1_000_000, is_indexed)
        elif what < 0.4:
            more, written, found = drawn_table_dump(draw, family, micros - micros % 1_000_000)
        elif what < 0.8:
            more, written, found = drawn_update(draw, family, micros, peer)
        elif what < 0.95:
            more, written, found = drawn_state(draw, micros, peer)
        else:
            written = record(draw, micros, 4, session(peer) + message(4, b""))
            more, found = [("other", peer, micros)], []
        units += more
        faults += [type(one)((len(data), *one)) for one in found]
        data += written
    return units, data, faults


# ---- the model


def whose(rule, known, peer, local):
    """The peers whose state a state change is. Several stand by AS number and address, IPv4 first."""
    if local[0] == 0 and local[1][1] == 0:
        return [peer]
    if rule == "local":
        return sorted(one for one in known if one[1] == local[1]) if local[0] in (0, 23456) else [local]
    if rule == "by-as" and peer[1][1] == 0:
        return sorted(one for one in known if one[0] == peer[0])
    return [peer]


def told(units, rule):
    """The units, of which each state change has one peer. A peer is known once an index table has named it or a unit
    was its, whatever is selected."""
    known, found = set(), []
    for unit in units:
        peers = []
        if unit[0] == "state":
            peers = whose(rule, known, *unit[1])
            found += [("state", peer, *unit[2:]) for peer in peers]
        else:
            peers = PEERS if unit[0] == "index" else [unit[1]] if unit[1] is not None else []
            found.append(unit)
        known.update(peers)
    return found


def is_break(rule, old, new):
    """Whether a state change ends its peer's routes."""
    return (old == 6) != (new == 6) if rule == "established" else (old, new) != (6, 6)


def is_up_after(rule, new):
    """Whether units after a state change are taken."""
    return rule == "established" or new == 6


def announced(table, key, route):
    """What an announcement is, and the table after it."""
    what = "new" if key not in table else "same" if table[key] == route else "changed"
    table[key] = route
    return (what, key, route)


def taken(unit, options):
    """What a unit is taken as by the rule on damage: what is handled as what it does then, and an UPDATE all of whose
    keys are withdrawn as that."""
    if options.errors == "rfc7606":
        if unit[0] == "damaged":
            unit = unit[4] or unit
        if unit[0] == "update" and unit[5]:
            return (*unit[:3], unit[3] + [key for key, _ in unit[4]], [])
    return unit


def events_of(unit, table, up, rule):
    """What a unit does to the keys of its peer, in order."""
    kind = unit[0]
    if kind == "state" and is_break(rule, unit[3], unit[4]):
        lost = [("lost", key, table[key]) for key in sorted(table)]
        table.clear()
        return lost
    if not up:
        return []
    if kind == "entry":
        return [announced(table, unit[3], unit[4])]
    events = []
    if kind == "update":
        withdrawn, routes = unit[3:5]
        routed = {key for key, _ in routes}
        for key in withdrawn:
            if key not in routed:
                events.append(("gone", key, table.pop(key)) if key in table else ("void", key, None))
        events += [announced(table, key, route) for key, route in routes]
    return events


def history(units, options):
    """What happened: time, peer, what, by, key, route, in the order of the units. By --rib replace the first RIB record
    behind an index table that is read empties all tables, peers by number and IPv4 addresses first."""
    rule = options.rule
    tables, up, rows, is_first = {}, {}, [], False
    for unit in units:
        kind, peer, micros = unit[:3]
        if kind in ("index", "read"):
            if kind == "read" and is_first and options.ribs == "replace":
                for peer in sorted(tables):
                    rows += [(micros, peer, "lost", "rib", key, tables[peer][key]) for key in sorted(tables[peer])]
                    tables[peer].clear()
            is_first = kind == "index"
            continue
        done = taken(unit, options)
        by = {"entry": "rib", "state": "state"}.get(done[0], "update")
        events = events_of(done, tables.setdefault(peer, {}), up.get(peer, True), rule)
        rows += [(micros, peer, what, by, key, route) for what, key, route in events]
        if kind == "state":
            up[peer] = is_up_after(rule, unit[4])
    return rows


def concerns(unit, options):
    """Whether a unit concerns the chosen prefixes."""
    kind = unit[0]
    if options.choices is None or kind == "state" or (kind == "damaged" and unit[3] is None):
        return True
    if kind == "other":
        return False
    keys = [unit[3]] if kind in ("entry", "damaged") else unit[3] + [key for key, _ in unit[4]]
    return any(map(options.chooses, keys))


def churn(units, options):
    """The lines of `churn`: peers by their first unit that is selected, and what their units did from the second on."""
    def within(micros):
        return options.since is None or micros // 1_000_000 >= options.since

    rule = options.rule
    events = [row for row in history(units, options) if within(row[0]) and options.chooses(row[4])]
    up, found = {}, {}
    for unit in units:
        kind, peer, micros = unit[:3]
        if peer is None:
            continue
        was_up = up.get(peer, True)
        if kind == "state":
            up[peer] = is_up_after(rule, unit[4])
        if not options.takes_peer(peer) or not concerns(unit, options):
            continue
        resets, idle, refused, times = found.setdefault(peer, [0, 0, 0, []])
        if within(micros):
            resets += kind == "state" and is_break(rule, unit[3], unit[4])
            idle += kind in ("entry", "update") and not was_up
            refused += kind == "damaged"
            found[peer] = [resets, idle, refused, times + [micros]]
    lines = []
    for peer, (resets, idle, refused, times) in found.items():
        counts = [sum(row[1] == peer and row[2] == what for row in events)
                  for what in ("new", "changed", "same", "gone", "void")]
        ends = [time_text(times[at]) if times else "-" for at in (0, -1)]
        lines.append("|".join([options.peer_text(peer), *map(str, [*counts, resets, idle, refused]), *ends]) + "\n")
    return "".join(lines)


def time_text(micros):
    return f"{micros // 1_000_000}.{micros % 1_000_000:06}"


def left(units, options):
    """The tables of chosen keys in the end, of the peers that have a unit that is selected, by its place."""
    tables = {}
    for _, peer, what, _, key, route in history(units, options):
        table = tables.setdefault(peer, {})
        if what in ("gone", "lost"):
            del table[key]
        elif what != "void":
            table[key] = route
    found = {}
    for unit in units:
        peer = unit[1]
        if peer is not None and options.takes_peer(peer) and concerns(unit, options):
            table = tables.get(peer, {})
            found.setdefault(peer, {key: table[key] for key in sorted(table) if options.chooses(key)})
    return found


def table_lines(units, options):
    """The lines of `tables`."""
    return "".join(f"{options.peer_text(peer)}|{options.family.key_text(key)}|{options.route_text(route)}\n"
                   for peer, table in left(units, options).items() for key, route in table.items())


def peers(units, options):
    """The lines of `peers` up to the time of the last unit. By --states established the last break decides, and else
    the last state change."""
    found = {}
    for unit in units:
        kind, peer, micros = unit[:3]
        if peer is not None and options.takes_peer(peer) and concerns(unit, options):
            state, times = found.get(peer, ("up", []))
            if kind == "state" and (options.rule == "recorded" or is_break(options.rule, unit[3], unit[4])):
                state = "up" if unit[4] == 6 else "down"
            found[peer] = (state, times + [micros])
    tables = left(units, options)
    return "".join(f"{options.peer_text(peer)}|{state}|{len(tables[peer])}|{len(times)}|{time_text(times[0])}|"
                   f"{time_text(times[-1])}\n" for peer, (state, times) in found.items())


def share_of(peer, count):
    return ((peer[0] + peer[1][1]) * 2654435761 % 2**32) // 65536 % count


# By which rules the dumps of daemons are read: state changes, whose they are, RIB dumps.
DAEMONS = {"bird": ("established", "by-as", "add"), "frr": ("established", "recorded", "add"),
           "openbgpd": ("recorded", "local", "add"), "gobgp": ("recorded", "recorded", "replace")}


class Options:
    """Drawn options: their words, without --same and --since, and what they stand for."""

    def __init__(self, draw, family):
        self.family, self.words = family, family.words(draw)
        self.choices, self.since, self.until, self.times = None, None, None, []
        self.same = draw.random() < 0.5
        for _ in range(draw.choice([0, 0, 1, 1, 2, 3])):
            prefix, mark = draw.choice(family.prefixes + family.others), draw.choice(["", "+", "-"])
            self.words += ["--prefix", family.option_text(draw, prefix) + mark]
            self.choices = (self.choices or []) + [(family.key(prefix), mark)]
        self.is_short = draw.random() < 0.2
        if self.is_short or draw.random() < 0.1:
            self.words += ["--addresses", "short" if self.is_short else "full"]
        tests = []
        if draw.random() < 0.2:
            one = draw.choice(PEERS)
            self.words += ["--peer", f"{one[0]},{address_text(one[1], draw.random() < 0.5)}"]
            tests.append(lambda peer: peer == one)
        if draw.random() < 0.2:
            count = draw.randrange(1, 4)
            share = draw.randrange(count)
            self.words += ["--peers", f"{share + 1}/{count}"]
            tests.append(lambda peer: share_of(peer, count) == share)
        self.takes_peer = lambda peer: all(test(peer) for test in tests)
        self.draw_rules(draw)
        self.table_dump = draw.choice(["aside", "read"])
        if self.table_dump == "read" or draw.random() < 0.2:
            self.words += ["--table-dump", self.table_dump]
        self.errors = draw.choice(["skip", "skip", "rfc7606"])
        if self.errors != "skip" or draw.random() < 0.2:
            self.words += ["--errors", self.errors]
        since = draw.randrange(1000, 1060)
        if draw.random() < 0.3:
            self.times = ["--since", str(since)]
            self.since = since
        if draw.random() < 0.3:
            self.until = draw.randrange(since, 1061)
            self.words += ["--until", str(self.until)]

    def draw_rules(self, draw):
        """Draws the rules that depend on who wrote a dump: where --written-by names them, they are given now and then,
        before it or behind it."""
        daemon = draw.choice([None, None, None, *DAEMONS])
        fitting = DAEMONS.get(daemon, ("recorded", "recorded", "add"))
        self.rule = draw.choice(["recorded", "established", fitting[0]])
        self.state_peers = draw.choice(["recorded", "local", "by-as", fitting[1]])
        self.ribs = draw.choice(["add", "replace", fitting[2]])
        words = [["--written-by", daemon]] * (daemon is not None)
        rules = self.rule, self.state_peers, self.ribs
        for name, rule, fit in zip(("--states", "--state-peers", "--rib"), rules, fitting):
            if rule != fit or draw.random() < 0.2:
                words.append([name, rule])
        draw.shuffle(words)
        self.words += sum(words, [])

    def reads(self, unit):
        """Whether the record of a unit, or what stands between units, is read."""
        return not isinstance(unit, Old) or self.table_dump == "read"

    def has(self, unit):
        """Whether a unit, or what stands between units, isn't past the last second."""
        return self.until is None or unit[2] is None or unit[2] // 1_000_000 <= self.until

    def chooses(self, key):
        """Whether a key is one of the chosen prefixes, or none is named."""
        if self.choices is None:
            return True
        covers = self.family.covers
        return any(covers(one, key) if mark == "+" else covers(key, one) if mark == "-" else key[:2] == one[:2]
                   for one, mark in self.choices)

    def takes(self, row):
        """Whether `history` lists what happened."""
        return ((self.same or row[2] != "same") and self.chooses(row[4]) and self.takes_peer(row[1])
                and (self.since is None or row[0] // 1_000_000 >= self.since))

    def peer_text(self, peer):
        return f"{peer[0]} {address_text(peer[1], self.is_short)}"

    def route_text(self, route):
        """The columns of a route. IPv6 next hops of family ipv6 are always short."""
        if route is None:
            return "-|-|-|-|-|-|-"
        hop, path, *rest = route
        hops = " ".join(address_text(one, self.is_short or self.family is IPV6) for one in hop) or "-"
        return "|".join(["-" if path is None else " ".join(map(str, path)), hops,
                         *("-" if one is None else str(one) for one in rest)])

    def line(self, row):
        micros, peer, what, by, key, route = row
        return "|".join([time_text(micros), self.peer_text(peer), what, by, self.family.key_text(key),
                         self.route_text(route)]) + "\n"


def is_as_wanted(seed, words, names, wanted, columns=None):
    """Whether the program writes this report, in its first columns. What it writes in place of it is told."""
    run = subprocess.run([sys.argv[1], *words, *names], capture_output=True, text=True, check=False)
    written = "".join("|".join(line.split("|")[:columns]) + "\n" for line in run.stdout.splitlines())
    if run.returncode in (0, 1) and written == wanted:
        return True
    print(f"wrong: seed {seed}: {' '.join(words)}: status {run.returncode} {run.stderr.strip()}")
    for mine, other in zip(wanted.splitlines() + [""], written.splitlines() + [""]):
        if mine != other:
            print(f"  {other}\n  in place of {mine}")
            break
    return False


def texts_agree(draw):
    """Whether the short text of a drawn address, with many zeros, is Python's, which reads it as this number. Of
    addresses that are mapped from IPv4 some versions of Python write a dotted tail."""
    zeros = draw.random()
    groups = [0 if draw.random() < zeros else draw.choice([0, 1, 0xA, 0xDB8, 0xFFFF]) for _ in range(8)]
    read = ipaddress.IPv6Address(b"".join(struct.pack(">H", group) for group in groups))
    text = short_text(int(read))
    if ipaddress.IPv6Address(text) == read and (read.ipv4_mapped is not None or str(read) == text):
        return True
    print(f"wrong: {full_text(int(read))} is written as {text}, by Python as {read}")
    return False


def main():
    dumps = int(sys.argv[2]) if len(sys.argv) > 2 else 150
    families = [family for family in (IPV4, IPV6) if family.name in sys.argv[3:]] or [IPV4, IPV6]
    draw = random.Random(5952)
    results = [texts_agree(draw) for _ in range(1000)]
    with tempfile.TemporaryDirectory() as folder:
        for seed in range(dumps):
            draw = random.Random(seed)
            family = draw.choice(families)
            units, names, faults = [], [], []
            for i in range(draw.randrange(1, 4)):
                more, data, found = drawn_file(draw, family, draw.randrange(1, 60))
                units += more
                faults += [(isinstance(one, Old), f"{i + 1}|{one[0]}|{one[1] or '-'}|{one[2][0]}|{one[2][1]}\n")
                           for one in found]
                names.append(f"{folder}/{i}")
                with open(names[-1], "wb") as file:
                    file.write(data)
            for words, is_read in ([], False), (["--table-dump", "read"], True):
                wanted = "".join(line for is_old, line in faults if is_read or not is_old)
                words += draw.choice([[], ["--errors", "skip"], ["--errors", "rfc7606"]])  # which lists the same
                results.append(is_as_wanted(seed, ["faults", *words, *family.words(draw)], names, wanted))
            for _ in range(4):
                options = Options(draw, family)
                read = told([unit for unit in units if options.reads(unit)], options.state_peers)
                kept = [unit for unit in read if options.has(unit)]
                listed = "".join(options.line(row) for row in history(kept, options) if options.takes(row))
                for words, wanted, columns in [
                        (["history", *["--same"] * options.same, *options.times], listed, None),
                        (["churn", *options.times], churn(kept, options), None),
                        (["peers"], peers(kept, options), 6), (["tables"], table_lines(kept, options), None)]:
                    results.append(is_as_wanted(seed, words + options.words, names, wanted, columns))
    failed = results.count(False)
    print(f"{len(results) - failed} passed, {failed} failed")
    return 0 if failed == 0 and results else 1


if __name__ == "__main__":
    sys.exit(main())
