"""What tools/pcsc, tools/profile and their tests stand on: a card that is runs of the program, the reader's messages,
the curve, and a terminal."""
