import signal
import time

BARS = ((4, 0, 20, 4), (0, 4, 4, 20), (24, 4, 4, 20), (4, 24, 20, 4), (0, 28, 4, 20), (24, 28, 4, 20), (4, 48, 20, 4))
DIGITS = (119, 36, 93, 109, 46, 107, 123, 37, 127, 111)
signal.signal(signal.SIGPIPE, signal.SIG_DFL)
print("screen 220 60")
while True:
    for place, digit in enumerate(time.strftime("%H%M%S")):
        for bar, (x, y, w, h) in enumerate(BARS):
            print("fill", 8 + 35 * place + x, 4 + y, w, h, "FF8000" if DIGITS[int(digit)] >> bar & 1 else "202020")
    print(end="", flush=True)
    time.sleep(1)
