import seryugo

with seryugo.open("letters.journal") as board:
    with board.seat() as seat:
        letters = seat.mailbox_again(0, str)  # finds it, or makes it
        seat.send(letters, "Dear Ben")
        print(seat.recv(letters))
