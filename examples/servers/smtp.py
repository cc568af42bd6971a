#!/usr/bin/env python3
"""The mail server exim as a child: one connection after each reset, behind the greeting. Nothing is delivered.

A letter is a line; its output are the numbers of the replies, `silence` where there is none, and `closed` where the server closes
the connection, behind which each letter is answered so.
"""
import grp
import os
import pwd
import shutil

import kit
from server import HOST, Server

LINES = {
    "helo": "HELO client.example",
    "mail": "MAIL FROM:<from@client.example>",
    "rcpt": "RCPT TO:<to@server.example>",
    "data": "DATA",
    "text": "a line of text",
    "end": ".",
    "rset": "RSET",
    "quit": "QUIT",
}
# Each recipient is taken, and each message is thrown away where it ends. No name is looked up, and nobody is asked who it is. A
# second error ends a connection, where it is the fourth by default, and commands that send no mail aren't counted: that takes fewer
# states. No certificate is made at the start.
SETTINGS = """\
primary_hostname = server.example
exim_user = {user}
exim_group = {group}
spool_directory = {folder}/spool
log_file_path = {folder}/exim.%slog
pid_file_path = {folder}/exim.pid
local_interfaces = {host}
daemon_smtp_ports = {port}
keep_environment =
host_lookup =
rfc1413_query_timeout = 0s
tls_advertise_hosts =
tls_certificate = $spool_directory/none
tls_verify_certificates =
queue_only = true
smtp_max_synprot_errors = 1
smtp_max_unknown_commands = 1
smtp_accept_max_nonmail_hosts =
acl_smtp_rcpt = take
acl_smtp_data = throw
begin acl
take:
  accept
throw:
  discard
"""


def mail_server(folder, port):
    settings = os.path.join(folder, "exim.conf")
    user, group = pwd.getpwuid(os.getuid()).pw_name, grp.getgrgid(os.getgid()).gr_name
    with open(settings, "w") as file:
        file.write(SETTINGS.format(user=user, group=group, folder=folder, host=HOST, port=port))
    # A copy runs as its caller, whose threads the kit may look at; the installed one would change to root.
    program = os.path.join(folder, "exim4")
    shutil.copyfile("/usr/sbin/exim4", program)
    os.chmod(program, 0o755)
    return [program, "-C", settings, "-bdf"]


def told(replies):
    """The number of each reply. Of the lines of one, the last has no hyphen behind it."""
    return [line[:3].decode() for line in replies.splitlines() if line[3:4] != b"-"]


class Client:
    def __init__(self, server):
        self.server, self.stream = server, None

    def reset(self):
        if self.stream:
            self.stream.close()
        self.stream, self.is_in_text = kit.Connection(self.server), False
        greeting = self.stream.answer()
        if told(greeting) != ["220"]:
            raise kit.Stop(f"another greeting: {greeting!r}")

    def step(self, letter):
        # exim holds its reply to QUIT for a fifth of a second, or until the client has ended its side.
        is_last = letter == "quit" and not self.is_in_text
        replies = told(self.stream.answer(LINES[letter].encode() + b"\r\n", is_last))
        self.is_in_text = replies == ["354"] or self.is_in_text and not replies
        return kit.name(replies + ["closed"] * self.stream.closed)


with Server(mail_server) as server:
    kit.run(Client(server))
