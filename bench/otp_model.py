#!/usr/bin/env python3
"""A client of another make and the model: Erlang/OTP's diameter (Debian: erlang-diameter) sends EVENT, INITIAL, UPDATE and
TERMINATION over TCP, and the model of examples/models answers as relay and front of examples/live. It is cut off and starts
again before the TERMINATION, with the book of before. OTP is to accept each answer, and the account to have 5965 left: 6020
less 20 for the 3200 octets of the EVENT, 20 for 4000 used and 15 for 3000. So what OTP writes and accepts is known without
the program; bench/otp does the same with the program. Status 1 where something is otherwise. Not part of the gate.
"""
import socket
import struct
import subprocess
import sys
import threading
from pathlib import Path

ROOT = Path(__file__).resolve().parent.parent
sys.path.insert(0, str(ROOT / "examples/models"))
from program import run  # noqa: E402
from site_file import site_of  # noqa: E402

PORT = 18681
SITE = site_of((ROOT / "examples/live/site.toml").read_bytes())
LEFT = "account 0 491700000001 balance 5965 reserved 0"


def avp(code, data, flags=0x40):
    count = 8 + len(data)
    return struct.pack(">IB", code, flags) + count.to_bytes(3, "big") + data + bytes(-count % 4)


IDENTITY = avp(268, struct.pack(">I", 2001)) + avp(264, b"r1.example") + avp(296, b"ocs.example")
CAPABILITIES = avp(257, b"\0\1\x7f\0\0\1") + avp(266, bytes(4)) + avp(269, b"model", 0) + avp(258, b"\xff\xff\xff\xff")


def answer(request, body):
    return b"\1" + (20 + len(body)).to_bytes(3, "big") + bytes([request[4] & 0x7F]) + request[5:20] + body


def charged(steps, request):
    """the answer that the client receives for a request, after the steps that were played before"""
    steps += [f"send c1.example r1.example {request.hex()}", "deliver c1.example r1.example 0", "deliver r1.example f1.example 0"]
    steps += ["pick f1.example 0", "charge f1.example 0 1000", "emit f1.example 0", "deliver f1.example r1.example 0"]
    steps += ["deliver r1.example c1.example 0"]
    printed, _, _ = run("\n".join(steps).encode(), SITE)
    return bytes.fromhex([line for line in printed.splitlines() if line.startswith("recv")][-1].split()[3])


def messages(stream):
    while head := stream.read(4):
        yield head + stream.read(int.from_bytes(head[1:4], "big") - 4)


def serve(steps, connection):
    steps += ["restart r1.example", "up c1.example r1.example", "up r1.example f1.example"]
    for message in messages(connection.makefile("rb")):
        code = int.from_bytes(message[5:8], "big")
        if not message[4] & 0x80:
            continue
        if code == 272:
            connection.sendall(charged(steps, message))
        else:
            connection.sendall(answer(message, IDENTITY + (CAPABILITIES if code == 257 else b"")))


def main():
    steps, now = [], []
    listener = socket.create_server(("127.0.0.1", PORT))

    def accept():
        while True:
            now.append(listener.accept()[0])
            try:
                serve(steps, now[-1])
            except OSError:
                pass  # the connection was cut

    threading.Thread(target=accept, daemon=True).start()
    client = subprocess.Popen(["escript", ROOT / "bench/otp.escript", str(PORT), ROOT / "bench/cc.dia", "model"], stdout=subprocess.PIPE, text=True)
    for line in client.stdout:
        print(line, end="")
        if line == "restart\n":
            now[-1].shutdown(socket.SHUT_RDWR)
    status = client.wait(timeout=60)
    printed, _, _ = run("\n".join(steps).encode(), SITE, report=True)
    print(printed, end="")
    return 0 if status == 0 and LEFT in printed.splitlines() else 1


if __name__ == "__main__":
    sys.exit(main())
