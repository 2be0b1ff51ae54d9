"""A console for `rfb share`: each line of standard input comes up below the others, which scroll."""
import signal
import sys

# Three columns by five rows of each letter: a digit for each row, its highest bit on the left.
LETTERS = dict(pair.split("=") for pair in """
A=25755 B=65656 C=34443 D=65556 E=74647 F=74644 G=34553 H=55755 I=72227 J=11152 K=55655 L=44447
M=57755 N=75555 O=25552 P=65644 Q=25573 R=65655 S=34216 T=72222 U=55557 V=55552 W=55775 X=55255
Y=55222 Z=71247 0=75557 1=26227 2=71747 3=71717 4=55711 5=74717 6=74757 7=71244 8=75757 9=75717
.=00002 :=02020 -=00700 /=11244""".split())
COLUMNS, LINES, DOT = 40, 12, 2
WIDTH, HEIGHT, LINE = 4 * DOT * COLUMNS, 6 * DOT * LINES, 6 * DOT

signal.signal(signal.SIGPIPE, signal.SIG_DFL)
print("screen", WIDTH, HEIGHT)
for text in sys.stdin:
    print("scroll", 0, 0, WIDTH, HEIGHT, 0, -LINE)
    print("fill", 0, HEIGHT - LINE, WIDTH, LINE, "000000")
    for column, letter in enumerate(text.rstrip("\n").upper()[:COLUMNS]):
        for row, bits in enumerate(LETTERS.get(letter, "00000")):
            for place in range(3):
                if int(bits) & 4 >> place:
                    x, y = DOT * (4 * column + place), HEIGHT - LINE + DOT * row
                    print("fill", x, y, DOT, DOT, "20FF20")
    sys.stdout.flush()
