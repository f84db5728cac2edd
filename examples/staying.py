#!/usr/bin/env python3
"""Two managers that stay open, each in one shell: beta attends, fetches, takes and commits, as docs/OPERATIONS.md has it; alpha only calls out, with an order, and for its answer."""
import os, subprocess, tempfile, threading, time
from client import Shell

ORDER = r"send,DIRECT=OS:beta\PRIVATE$\orders,-,-,d,-,-,order"
ANSWER = r"send,DIRECT=OS:alpha\PRIVATE$\answers,-,-,d,-,-,done"
ALPHA = ("0a0b0c0d-0e0f-1011-1213-141516171819", "255.255.255.255")  # where nobody listens: a fetch from it ends with 7, and the loop goes on
BETA = ("1a1b1c1d-1e1f-2021-2223-242526272829", "127.0.0.1")
handled = []


def handle(order):
    handled.append(bytes.fromhex(order.split()[-1]).decode())


def stay(shell):
    while True:
        shell.ask("attend", "1")
        shell.ask("fetch", "alpha", "1")
        while (order := shell.ask("peek", "orders"))[0] == 0:
            handle(order[1][0])
            shell.ask("commit", "take,orders", ANSWER)


def made(host, own, queue, peer, other):
    subprocess.run(["mqb", "init", f"{host}.store", host, *own], check=True)
    shell = Shell("mqb", f"{host}.store")
    shell.ask("peer", peer, *other)
    shell.ask("create", queue, "tx", "1000", "none")
    return shell


def main():
    os.environ.setdefault("MQB_PORT", "18147")  # another port than 1801, which may be taken
    beta = made("beta", BETA, "orders", "alpha", ALPHA)
    shell = made("alpha", ALPHA, "answers", "beta", BETA)
    threading.excepthook = lambda ended: None  # the loop ends when its shell is killed
    threading.Thread(target=stay, args=[beta]).start()
    print(*shell.ask("commit", ORDER)[1])
    while shell.ask("push", "beta")[0] == 7:  # until beta listens
        time.sleep(0.1)
    while (answer := shell.ask("take", "answers"))[0] == 11:
        time.sleep(1.5)  # beta attends until none comes for a second
        shell.ask("fetch", "beta", "1")
    beta.program.kill()
    print("handled", *handled)
    print(*answer[1], *shell.ask("list")[1], sep="\n")
    print("ended", shell.close())


if __name__ == "__main__":
    with tempfile.TemporaryDirectory() as folder:
        os.chdir(folder)
        main()
