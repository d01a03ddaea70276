"""The exchanges of the pages' test, and the edits that it makes of each kind."""
import re

STAFF, MEMBER = "examplestaffkey01", "examplememberkey2"
ODD = "<script>document.title = 'run'</script> & \"two\" 'one'"
EXCHANGE = """site 7 0 TEST%2DIX
member 1 64496 connected AS64496:AS%2DHARBOUR Harbour%20Fibre
member 2 64497 connected AS64497 Northgate%20Hosting
member 3 64498 connected - {odd}
member 4 65536 connected AS%2DUNINET University%20Network
member 5 65538 noted - Meadow%20Telecom
contact 2 1 noc noc%40northgate.example Night%20desk
key 1 staff 1 {staff}
key 2 member 2 {member}
switch 1 sw1.test%2Dix.example
switch 2 sw2.test%2Dix.example
port 1 1 100000 1 Ethernet1
port 2 1 10000 2 Ethernet2
port 3 2 10000 3 Ethernet1
port 4 2 400000 4 Ethernet2
port 5 2 10000 0 Ethernet3
vlan 1 100 192.0.2.0/24 2001:db8:ffff::/64 Peering%20LAN
vlan 2 200 10.20.0.0/22 - Trials
interface 1 1 1 1
interface 2 2 2 1
interface 3 3 3 1
interface 4 4 4 1
interface 5 4 4 2
address 1 192.0.2.11 200 1 1 1 -
address 1 2001:db8:ffff::11 200 1 1 1 -
address 2 192.0.2.21 20 1 1 0 northgate.example
address 2 2001:db8:ffff::21 20 1 1 0 northgate.example
address 3 192.0.2.31 0 1 0 0 -
address 4 192.0.2.41 0 1 1 0 -
address 5 10.20.1.7 0 0 1 0 -
router rs1 1 4 192.0.2.241 64511 192.0.2.241 8 24 1 192.0.2.66 100
router rs1-v6 1 6 2001:db8:ffff::f1 64511 192.0.2.241 19 48 1 - 100
prefix 1 203.0.113.0/24
prefix 2 198.51.100.0/24
origin 1 4 64496
origin 2 4 64497
rule 2 1 advertise 64498 * prepend2
bogon 10.0.0.0/8{{8,32}}
bogon-as 0 0
bogon-as 23456 23456
transit 65551
roa 203.0.113.0/24 24 64496"""


def free_text(text):
    """A text as a dump has it."""
    return "".join(chr(c) if re.match("[A-Za-z0-9._:/]", chr(c)) else "%%%02X" % c for c in text.encode())


def dump(lines):
    return "\n".join(["ixp-registry 2", *lines, "end %d" % len(lines)]) + "\n"


def small_exchange():
    return dump(EXCHANGE.format(odd=free_text(ODD), staff=STAFF, member=MEMBER).splitlines())


def large_exchange(members=4000):
    """An exchange with so many members, each with a port and an address."""
    numbers = range(1, members + 1)
    lines = ["site 7 0 LARGE%2DIX"] + ["member %d %d connected - Member%%20number%%20%d" % (n, 100000 + n, n) for n in numbers]
    lines += ["key 1 staff 1 " + STAFF, "switch 1 sw1"] + ["port %d 1 %d %d p%d" % (n, 10000 if n % 3 else 100000, n, n) for n in numbers]
    lines += ["vlan 1 100 10.64.0.0/16 - lan"] + ["interface %d %d %d 1" % (n, n, n) for n in numbers]
    lines += ["address %d 10.64.%d.%d 0 1 0 0 -" % (n, n // 250 + 1, n % 250 + 1) for n in numbers]
    return dump(lines + ["router rs1 1 4 10.64.255.1 65500 10.64.255.1 8 24 0 - 0"])


SETTINGS = {"asn": "64520", "id": "198.18.0.1", "low": "8", "high": "24", "rpki": True, "blackhole": "198.18.0.66", "max_comms": "0"}
EACH = [
    ("add-switch", {"number": "20", "name": "sw20"}),
    ("add-port", {"number": "20", "switch": "20", "name": "Ethernet20", "speed": "10000"}),
    ("add-vlan", {"number": "20", "name": "Twenty", "tag": "20", "v4": "198.18.0.0/24", "v6": ""}),
    ("add-member", {"number": "20", "asn": "65020", "name": "Twenty"}),
    ("rename-member", {"member": "20", "name": "Twenty Networks"}),
    ("move-status", {"member": "20", "to": "connected"}),
    ("set-macro", {"member": "20", "macro": "AS-TWENTY"}),
    ("put-contact", {"member": "20", "place": "1", "name": "Desk", "mail": "desk@twenty.example", "role": "noc"}),
    ("set-rules", {"member": "20"}),
    ("add-key", {"number": "20", "secret": "exampletwentykey20", "kind": "member", "owner": "20"}),
    ("assign-port", {"port": "20", "member": "20"}),
    ("add-interface", {"number": "20", "member": "20", "port": "20", "vlan": "20"}),
    ("set-address", {"interface": "20", "family": "4", "address": "198.18.0.20", "secret": "pass.word", "max_prefix": "10", "rs": True, "irr": True, "more": True}),
    ("add-router", {"handle": "rs20", "vlan": "20", "family": "4", "address": "198.18.0.1", **SETTINGS}),
    ("set-router", {"handle": "rs20", **SETTINGS, "asn": "64521", "rpki": False, "blackhole": "", "max_comms": "10"}),
    ("put-irr", {"member": "20", "family": "4", "lines": "203.0.113.0/24\n"}),
    ("put-origins", {"member": "20", "family": "4", "lines": "AS65020\n64496\n"}),
    ("put-public", {"list": "bogons", "lines": "# private\n10.0.0.0/8{8,32}\n"}),
    ("put-public", {"list": "bogon_as", "lines": "0 0\n23456 23456\n"}),
    ("put-public", {"list": "transit", "lines": "65551\n"}),
    ("put-public", {"list": "roas", "lines": "ASN,IP Prefix,Max Length\nAS64496,203.0.113.0/24,24\n"}),
    ("drop-router", {"handle": "rs20"}),
    ("drop-interface", {"interface": "20"}),
    ("free-port", {"port": "20"}),
    ("drop-port", {"port": "20"}),
    ("drop-switch", {"switch": "20"}),
    ("drop-vlan", {"vlan": "20"}),
    ("drop-key", {"key": "20"}),
    ("drop-contact", {"member": "20", "place": "1"}),
]
