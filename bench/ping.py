"""Waits for a server that responds, for the scripts that measure times."""
import socket
import sys
import time


def wait_for(server, address):
    """Waits until the server at this address answers a ping, for five seconds at most."""
    with socket.socket(socket.AF_INET, socket.SOCK_DGRAM) as client:
        client.connect(address)
        client.settimeout(0.1)
        for _ in range(50):
            try:
                client.send(bytes.fromhex("40000001"))
                client.recv(2048)
                return
            except ConnectionRefusedError:
                time.sleep(0.1)
            except TimeoutError:
                continue
    sys.exit(f"{server.args} doesn't answer")
