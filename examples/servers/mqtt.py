#!/usr/bin/env python3
"""The broker mosquitto as a child: one client of MQTT 3.1.1, with a name and a topic of its own after each reset.

A letter is a packet, with a ping behind it; its output are the packets that come before the ping's answer, and `closed` where
the broker closes the stream. A letter behind that goes over a new stream.
"""
import itertools
import os
import pwd

import kit
from server import HOST, Server

CONNACK, PUBLISH, PUBACK, PUBREC, PUBCOMP, SUBACK, PINGRESP = 2, 3, 4, 5, 7, 9, 13
CONNECT, PUBLISH_1, PUBLISH_2, PUBREL, SUBSCRIBE, DISCONNECT = 0x10, 0x32, 0x34, 0x62, 0x82, 0xE0
PING = b"\xc0\x00"
SETTINGS = """\
listener {port} {host}
user {user}
allow_anonymous true
log_type error
sys_interval 0
set_tcp_nodelay true
"""


def broker(folder, port):
    settings = os.path.join(folder, "mosquitto.conf")
    with open(settings, "w") as file:
        file.write(SETTINGS.format(port=port, host=HOST, user=pwd.getpwuid(os.getuid()).pw_name))
    path = os.pathsep.join([os.environ["PATH"], "/usr/sbin"])
    return ["env", f"PATH={path}", "mosquitto", "-c", settings]


def text(data):
    return len(data).to_bytes(2, "big") + data


def packet(head, body=b""):
    """A packet of at most 127 bytes behind its head."""
    return bytes([head, len(body)]) + body


def packets(data):
    """The packets that have come whole: the kind, the low bits of the head, and the body of each."""
    while len(data) >= 2 and len(data) >= 2 + data[1]:
        yield data[0] >> 4, data[0] & 15, data[2:2 + data[1]]
        data = data[2 + data[1]:]


def told(kind, flags, body):
    """What a packet says, without names and numbers of messages."""
    if kind == CONNACK:
        return ("refused", "accepted", "resumed")[body[0] + 1 if body[1] == 0 else 0]
    if kind == PUBLISH:
        return f"message-{body[-1:].decode()}-at-{flags >> 1 & 3}" + ("-again" if flags & 8 else "")
    return {PUBACK: "puback", PUBREC: "pubrec", PUBCOMP: "pubcomp", SUBACK: "suback"}.get(kind, f"packet-{kind}")


class Client:
    def __init__(self, server):
        self.server, self.stream = server, None
        self.names = (f"{kit.INSTANCE}-{number}".encode() for number in itertools.count())

    def reset(self):
        if self.stream:
            self.stream.close()
        self.name, self.stream = next(self.names), kit.Connection(self.server)

    def step(self, letter):
        if self.stream.closed:
            self.stream = kit.Connection(self.server)
        self.stream.send(self.sent(letter) + PING)
        come = list(packets(self.stream.read_until(lambda data: PINGRESP in (kind for kind, _, _ in packets(data)))))
        parts = [told(*one) for one in come if one[0] != PINGRESP]
        return kit.name(parts + ["closed"] * self.stream.closed)

    def sent(self, letter):
        one, two, three = (number.to_bytes(2, "big") for number in (1, 2, 3))
        return {
            "connect-clean": packet(CONNECT, text(b"MQTT") + b"\x04\x02\x00\x00" + text(self.name)),
            "connect-keep": packet(CONNECT, text(b"MQTT") + b"\x04\x00\x00\x00" + text(self.name)),
            "subscribe": packet(SUBSCRIBE, one + text(self.name) + b"\x00"),
            "publish-1": packet(PUBLISH_1, text(self.name) + two + b"1"),
            "publish-2": packet(PUBLISH_2, text(self.name) + three + b"2"),
            "release": packet(PUBREL, three),
            "disconnect": packet(DISCONNECT),
        }[letter]


with Server(broker) as server:
    kit.run(Client(server))
