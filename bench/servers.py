"""What bench/lookup.py and bench/library.py share: servers of `pir serve` on loopback."""
import socket
import subprocess
import sys


def free_ports(count):
    doors = [socket.create_server(("127.0.0.1", 0)) for _ in range(count)]
    ports = [door.getsockname()[1] for door in doors]
    for door in doors:
        door.close()
    return ports


def serve(program, folder, width, ports):
    """Starts a server of the database in the folder at each port, and returns them once each is ready."""
    servers = []
    for port in ports:
        words = ["serve", "--database", f"{folder}/database", "--width", width, "--conns", 65535, "--listen", f"127.0.0.1:{port}"]
        servers.append(subprocess.Popen([program, *map(str, words)], stdout=subprocess.PIPE))
    for server in servers:
        if server.stdout.readline() != b"ready\n":
            sys.exit("a server didn't start")
    return servers
