#!/usr/bin/env python3
"""A TLS 1.2 server, `openssl s_server`, as a child program: each letter is a record of a client, made by hand.

The cipher suite TLS_RSA_WITH_NULL_SHA256 encrypts nothing, and ends each record behind a ChangeCipherSpec with a MAC. What a
letter needs and the server hasn't sent is taken as zeros. The server asks for a certificate, does without, and echoes data.
"""
import hashlib
import hmac
import secrets
import struct
import subprocess

import kit
from server import HOST, Server

MESSAGES = {2: "ServerHello", 11: "Certificate", 13: "CertificateRequest", 14: "ServerHelloDone", 20: "Finished"}
ALERTS = {0: "close_notify", 10: "unexpected_message", 20: "bad_record_mac", 40: "handshake_failure", 100: "no_renegotiation"}


def tls_server(folder, port):
    key = "openssl req -x509 -newkey rsa:2048 -nodes -keyout key -out cert -subj /CN=localhost"
    subprocess.run(key.split(), cwd=folder, check=True, capture_output=True)
    options = f"-accept {HOST}:{port} -tls1_2 -cipher NULL-SHA256:@SECLEVEL=0 -key key -cert cert -verify 1 -quiet"
    return ["sh", "-c", f"mkfifo echo && exec openssl s_server {options} <>echo >&0"]


def prf(secret, seed):
    """The pseudorandom function of TLS 1.2: 64 bytes, of which each use takes the front."""
    first = hmac.digest(secret, seed, "sha256")
    second = hmac.digest(secret, first, "sha256")
    return hmac.digest(secret, first + seed, "sha256") + hmac.digest(secret, second + seed, "sha256")


class Client:
    def __init__(self, server):
        self.server, self.stream = server, None
        self.letters = {
            "ClientHello": lambda: self.message(1, b"\3\3" + self.random + bytes.fromhex("00 0004003b00ff 0100")),
            "Certificate": lambda: self.message(11, bytes(3)),
            "ClientKeyExchange": lambda: self.message(16, b"\1\0" + self.encrypted_secret()),
            "ChangeCipherSpec": lambda: self.record(20, b"\1"),
            "Finished": lambda: self.message(20, prf(self.master, b"client finished" + hashlib.sha256(self.talk).digest())[:12]),
            "ApplicationData": lambda: self.record(23, b"hello\n"),
            "Warning": lambda: self.record(21, b"\1\x5a"),
            "CloseNotify": lambda: self.record(21, b"\1\0"),
        }

    def reset(self):
        if self.stream:
            self.stream.close()
        self.stream, self.key, self.count = kit.Connection(self.server), None, 0
        self.random, self.server_random, self.modulus = secrets.token_bytes(32), bytes(32), 1
        self.master, self.talk = bytes(48), b""

    def step(self, letter):
        said = b"" if self.stream.closed else self.stream.answer(self.letters[letter]())
        return kit.name([*self.names(said), *["closed"] * self.stream.closed])

    def message(self, kind, body):
        message = bytes([kind]) + len(body).to_bytes(3, "big") + body
        self.talk += message
        return self.record(22, message)

    def record(self, kind, content):
        if self.key is not None:
            content += hmac.digest(self.key, struct.pack(">QBHH", self.count, kind, 0x303, len(content)) + content, "sha256")
            self.count += 1
        if kind == 20:
            self.key, self.count = prf(self.master, b"key expansion" + self.server_random + self.random)[:32], 0
        return struct.pack(">BHH", kind, 0x303, len(content)) + content

    def encrypted_secret(self):
        secret = b"\3\3" + secrets.token_bytes(46)
        self.master = prf(secret, b"master secret" + self.random + self.server_random)[:48]
        padded = b"\0\2" + b"\1" * 205 + b"\0" + secret
        return pow(int.from_bytes(padded, "big"), 65537, self.modulus).to_bytes(256, "big")

    def names(self, said):
        """The names of the records that came, which have a message each; what they tell is taken over."""
        while said:
            kind, _, size = struct.unpack(">BHH", said[:5])
            content, said = said[5:5 + size], said[5 + size:]
            if kind == 22:
                yield self.take(content[:4 + int.from_bytes(content[1:4], "big")])
            elif kind == 21:
                yield ("Warning:" if content[0] == 1 else "Alert:") + ALERTS.get(content[1], str(content[1]))
            else:
                yield {20: "ChangeCipherSpec", 23: "ApplicationData"}[kind]

    def take(self, message):
        self.talk += message
        if message[0] == 2:
            self.server_random = message[6:38]
        if message[0] == 11:
            self.modulus = int.from_bytes(message.split(b"\x02\x82\x01\x01\x00", 1)[1][:256], "big")
        return MESSAGES.get(message[0], str(message[0]))


with Server(tls_server) as server:
    kit.run(Client(server))
