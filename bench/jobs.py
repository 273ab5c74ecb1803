"""The jobs that are timed, all of fixed seeds. Each is one input of `vcm` without words: part, `%%`, program."""
import random

CASES = {}


def case(f):
    CASES[f.__name__.replace("_", "-")] = f
    return f


def part(blocks):
    head = "low = [-500000, -500000, -500000]\nhigh = [500000, 500000, 500000]\nhome = [0, 0, 100000]\n"
    return head + "".join("[[block]]\nlow = [%d, %d, %d]\nhigh = [%d, %d, %d]\n" % (*lo, *hi) for lo, hi in blocks)


ONE = [((10000, 10000, 0), (30000, 30000, 20000))]


def scattered(n, seed):
    """Blocks all over the machine below z = 60 mm, so no move at z = 70 and above hits one. Many lie below every move."""
    r = random.Random(seed)
    out = []
    for _ in range(n):
        lo = (r.randint(-490000, 470000), r.randint(-490000, 470000), r.randint(-490000, 30000))
        out.append((lo, tuple(c + r.randint(500, 20000) for c in lo)))
    return out


def job(blocks, lines, newline=True):
    program = ["DMISMN/'BENCH'", "UNITS/MM,ANGDEC"] + lines + ["ENDFIL"]
    return (part(blocks) + "%%\n" + "\n".join(program) + "\n").encode("latin-1")


# Rounds of the two loops of `loop`.
LOOP = (100, 1125)


@case
def loop():
    """Nested DO with arithmetic and IF: about 900,000 steps."""
    return job(ONE, [
        "DECL/INTGR,I,J,A,B,C", "DECL/REAL,X", "A=ASSIGN/1",
        "DO/I,1,%d" % LOOP[0],
        "DO/J,1,%d" % LOOP[1],
        "A=ASSIGN/(A*31+J*7-I)-(A*31+J*7-I)/10007*10007",
        "IF/(A-A/2*2.EQ.0.AND.J.GT.I)",
        "B=ASSIGN/B+A",
        "ELSE",
        "C=ASSIGN/C+1",
        "ENDIF",
        "X=ASSIGN/X+A/3-0.125",
        "IF/(C.GE.1000)",
        "C=ASSIGN/0",
        "ENDIF",
        "ENDDO", "ENDDO",
        "IF/(B.GT.5000)", "TEXT/OPER,'large'", "ENDIF",
        "GOTO/(A-A/100*100),(B-B/100*100),90",
    ])


def travel(blocks, n):
    """A loop of moves at heights of 70 to 99 mm, about n steps of GOTO."""
    return job(blocks, [
        "DECL/INTGR,I", "DECL/REAL,X,Y",
        "DO/I,1,%d" % (n // 4),
        "GOTO/X,Y,70",
        "GOTO/X+200,Y,80.5",
        "GOTO/X+200,Y-300,99",
        "GOTO/X,Y-300.125,75",
        "X=ASSIGN/I-I/200*200",
        "Y=ASSIGN/I-I/150*150+0.125",
        "ENDDO"])


@case
def goto1():
    """Moves beside 1 block."""
    return travel(ONE, 560000)


@case
def goto4096():
    """Moves beside 4,096 scattered blocks that are not hit."""
    return travel(scattered(4096, 11), 20000)


@case
def text():
    """100,000 output lines."""
    return job(ONE, ["DECL/INTGR,I", "DO/I,1,50000", "TEXT/OPER,'point measured, next one'", "TEXT/OPER,'$$ ready'", "ENDDO"])


OPS = ["+", "-", "*", "+", "-"]


def expression(r, kind, tokens, ints, reals):
    """An expression of about so many tokens; small values, no fault."""
    if kind == "I":
        leaf = lambda: r.choice([str(r.randint(0, 99)), r.choice(ints), r.choice(ints)])
    else:
        leaf = lambda: r.choice(["%d.%d" % (r.randint(0, 50), r.randint(0, 999)), r.choice(reals), r.choice(reals), str(r.randint(0, 9))])
    out, n = leaf(), 1
    while n < tokens:
        k = r.randrange(6)
        if k == 0:
            out, n = "(%s)" % out, n + 2
        elif k == 1 and n + 6 < tokens:
            out, n = out + "+(%s-%s)/%d" % (leaf(), leaf(), r.randint(2, 9)), n + 8
        elif k == 2 and kind == "I":
            out, n = out + "-%s*%d" % (leaf(), r.randint(0, 9)), n + 4
        elif k == 3:
            out, n = out + "+-%s" % leaf(), n + 3
        else:
            out, n = out + r.choice("+-") + leaf(), n + 2
    return out


def straight_lines(seed, total, heavy=True):
    """DECLs, then a mix of ASSIGN, GOTO, TEXT and comments."""
    r = random.Random(seed)
    ints = ["I%d" % k for k in range(60)]
    reals = ["LENGTH_%d" % k for k in range(60)]
    lines = ["DECL/INTGR," + ",".join(ints), "DECL/REAL," + ",".join(reals)]
    while len(lines) < total:
        k = r.randrange(100)
        if k < 30:
            # Values stay small: the result is divided.
            lines.append("%s=ASSIGN/(%s)/%d" % (r.choice(ints), expression(r, "I", r.randint(6, 34), ints, reals), r.randint(500, 900)))
        elif k < 50:
            lines.append("%s=ASSIGN/(%s)/%d" % (r.choice(reals), expression(r, "R", r.randint(6, 34), ints, reals), r.randint(50, 90)))
        elif k < 75:
            lines.append("GOTO/%d.%d, %d, %d" % (r.randint(-400, 400), r.randint(0, 999), r.randint(-400, 400), r.randint(70, 400)))
        elif k < 85:
            lines.append("goto/cart, %s-%d, %s+%d.5, 100 $$ to the next side" % (r.choice(reals), r.randint(0, 99), r.choice(reals), r.randint(0, 99)))
        elif k < 92:
            lines.append("TEXT/OPER,'side %d is next, %s'" % (r.randint(1, 99), "x" * r.randint(0, 40)))
        elif k < 97:
            lines.append("$$ " + "a comment on what is measured here " * r.randint(1, 3))
        else:
            lines.append("")
    return lines


@case
def lines():
    """20,000 lines of straight program."""
    return straight(19997)


def straight(total):
    return job(ONE, straight_lines(5, total))


def gotos(total):
    r = random.Random(7)
    return job(ONE, ["GOTO/%d.%03d,%d,%d" % (r.randint(-400, 400), r.randint(0, 999), r.randint(-400, 400), r.randint(70, 400)) for _ in range(total)])


def texts(total):
    return job(ONE, ["TEXT/OPER,'side %d is next'" % k for k in range(total)])


@case
def gotos_20000():
    """20,000 GOTO, straight, beside 1 block."""
    return gotos(19990)


@case
def texts_20000():
    """20,000 TEXT, straight."""
    return texts(19990)


@case
def touch():
    """A loop of measurements among 1,000 blocks."""
    grid = []
    for k in range(1000):
        x, y = k % 40, k // 40
        lo = (-400000 + 20000 * x, -300000 + 20000 * y, -50000)
        grid.append((lo, (lo[0] + 15000, lo[1] + 15000, 20000 - (k * 7919) % 1500)))
    return job(grid, [
        "DECL/INTGR,I,J,K", "DECL/REAL,Z",
        "F(P1)=FEAT/POINT,CART,0,0,20,0,0,1",
        "SNSET/APPRCH,40", "SNSET/RETRCT,50", "SNSET/SEARCH,10",
        "DO/I,0,24", "DO/J,0,39", "DO/K,1,9",
        "MEAS/POINT,F(P1),1",
        "GOTO/-395+20*J,-295+20*I,70",
        "PTMEAS/CART,-395+20*J+K,-295+20*I,20",
        "ENDMES",
        "Z=OBTAIN/FA(P1),5",
        "ENDDO", "ENDDO", "ENDDO",
        "OUTPUT/FA(P1)"])


@case
def macro():
    """4,700 CALLs of a macro of three statements, with arguments that are expressions: text to code, hardly any steps of the machine."""
    return calls(4700)


def calls(total):
    r = random.Random(31)
    out = ["DECL/INTGR,A,B", "M(SIDE)=MACRO/P,Q,R", "TEXT/OPER,'side'", "A=ASSIGN/P*2+Q-(P-Q)*3+R", "R=ASSIGN/A-A/1000*1000", "ENDMAC"]
    for _ in range(total):
        a, b = r.sample(["A", "B"], 2)
        out.append("CALL/M(SIDE),%s+%d*(%s-%d),%d,%s" % (a, r.randint(0, 9), b, r.randint(0, 9), r.randint(0, 99), a))
    return job(ONE, out)


@case
def big_part():
    """A part of 4,096 blocks with a tiny program."""
    return blocks(4096)


def blocks(total):
    return job(scattered(total, 13), ["GOTO/100,100,90", "GOHOME"])


@case
def tiny():
    """Four lines: what starting costs."""
    return job(ONE, ["GOTO/20,20,50"])


# Jobs of a size, whose growth is told: the sizes, and the job of a size.
GROWTH = {
    "lines of text": ((5000, 10000, 19990), straight),
    "GOTO": ((5000, 10000, 19990), gotos),
    "TEXT": ((5000, 10000, 19990), texts),
    "CALL": ((1175, 2350, 4700), calls),
    "blocks": ((1024, 2048, 4096), blocks),
}
