import threading

from seryugo import Switchboard

board = Switchboard()
ann, ben = board.seat(), board.seat()
letters = ben.mailbox(str)
with ann, ben:
    threading.Thread(target=ann.send, args=(letters, "hello")).start()
    print("Ben received", ben.recv(letters, timeout=10))
