#!/usr/bin/env python3
"""Whether two sessions wait for each other without end, since neither receives while it sends.

  bench/waiting.py COUNT SEGMENT BUFFER

Two nodes of bench/peer_node.py with so many transactions each, the same ones, talk over TCP by the rule of docs/PROTOCOL.md, "A session over
a wire". They send no `sendtxrcncl`, so that each announces its whole pool behind the other's `verack`, as two nodes of the program
do in a round that falls back. The connection has segments of SEGMENT bytes (0: those of loopback) and buffers of BUFFER bytes (0:
the system's). It is told whether both ended, or how many bytes wait at each socket, unread and unsent.
"""
import fcntl, random, socket, struct, sys, termios, threading, time

sys.dont_write_bytecode = True
from peer_node import Node, is_done, pool_of

PATIENCE = 60  # seconds


def narrow(sock, segment, buffer):
    if segment:
        sock.setsockopt(socket.IPPROTO_TCP, socket.TCP_MAXSEG, segment)
    if buffer:
        sock.setsockopt(socket.SOL_SOCKET, socket.SO_RCVBUF, buffer)
        sock.setsockopt(socket.SOL_SOCKET, socket.SO_SNDBUF, buffer)
    return sock


def session(sock, node, rounds):
    while True:
        sock.sendall(node.out)
        node.out.clear()
        if is_done(node, rounds, False):
            return sock.shutdown(socket.SHUT_WR)
        piece = sock.recv(65536)
        if not piece:
            return
        node.take(piece)
        if node.role == "opener" and node.phase == "idle" and rounds:
            node.begin()
            rounds -= 1


def waiting(sock):
    return [struct.unpack("i", fcntl.ioctl(sock.fileno(), call, bytes(4)))[0] for call in (termios.FIONREAD, termios.TIOCOUTQ)]


def main():
    count, segment, buffer = map(int, sys.argv[1:])
    pool = pool_of(map(random.Random(1).randbytes, [20] * count))
    listener = narrow(socket.socket(), segment, buffer)
    listener.bind(("127.0.0.1", 0))
    listener.listen(1)
    opener = narrow(socket.socket(), segment, buffer)
    opener.connect(listener.getsockname())
    accepter = listener.accept()[0]
    threads = [threading.Thread(target=session, args=words, daemon=True)
               for words in ((opener, Node("opener", pool, None), 1), (accepter, Node("accepter", pool, None), 0))]
    for thread in threads:
        thread.start()
    until = time.monotonic() + PATIENCE
    for thread in threads:
        thread.join(max(0, until - time.monotonic()))
    before = [waiting(opener), waiting(accepter)]
    if not any(thread.is_alive() for thread in threads):
        return print(f"{count:,} ids each: both ended")
    time.sleep(5)
    stands = before == [waiting(opener), waiting(accepter)]
    print(f"{count:,} ids each: {'both wait' if stands else 'not over yet'}; unread and unsent at the opener {before[0]}, at the accepter {before[1]}")


main()
