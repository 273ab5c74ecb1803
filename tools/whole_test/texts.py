"""Random texts as producers write them, by a seed. Each leaves some kinds of statements out, so that the others meet more often."""
import random

from parts import TIP

AXIS_DIRECTIONS = ["0,0,1", "0,0,-1", "1,0,0", "-1,0,0", "0,1,0", "0,-1,0", "0.0,0.0,1.0"]
SLANTED = ["0.6,0,0.8", "0,-0.8,0.6", "-0.6,0.8,0", "0.57735,0.57735,0.57735"]
NOISE = ["FEDRAT/POSVEL,MMPS,300", "FINPOS/ON", "ACLRAT/MESACL,MMPSS,200", "TEXT/OPER,'on we go'", "GEOALG/PLANE,LSTSQR", "T(TA)=TOL/PROFP,-0.05,0.05", "RAPID/ON"]
SETTLED = ["MODE/PROG,MAN", "UNITS/MM,ANGDEC", "WKPLAN/XYPLAN", "SCNMOD/OFF", "PRCOMP/ON", "SNSET/CLRSRF,OFF", "SNSET/APPRCH,3", "SNSET/RETRCT,3", "SNSET/SEARCH,5"]

# Settings that come at the end of a loop, each with the kind of statements that it belongs to.
LATE = [
    ("units", "UNITS/INCH,ANGDEC"), ("units", "UNITS/CM,ANGDEC"), ("units", "UNITS/MM,ANGRAD"), ("polar", "WKPLAN/YZPLAN"), ("mode", "MODE/MAN"),
    ("settings", "SNSET/APPRCH,6.5"), ("scanning", "SCNMOD/ON"), ("sensor", "SNSLCT/S(T2)"), ("compensation", "PRCOMP/OFF"), ("shift", "D(MC)=TRANS/ZORIG,25"),
    ("table", "ROTAB/RT(RT1),INCR,CCW,90"), ("question", "TEXT/QUERY,(N),10,N,L,'How many?'"),
]


class Writer:
    """Writes one text."""

    def __init__(self, seed, without=(), tip=TIP):
        self.pick = random.Random(f"text {seed}")
        self.lines, self.depth, self.numbers, self.width, self.is_over = [], 0, {}, f"{2 * tip:g}", False
        self.wholes, self.reals, self.indices, self.declared = ["N", "J"], ["X", "R"], [], []
        self.frames, self.points, self.measured, self.planes, self.macros = [], [], [], [], []
        self.kinds = [name for name in CONSTRUCTS if name not in without and (name in ALWAYS or self.pick.random() < RARE.get(name, MOSTLY))]

    def put(self, *lines):
        """Writes lines, indented by their blocks."""
        self.lines += ["  " * self.depth + line for line in lines]

    def fresh(self, letter):
        """A new name."""
        self.numbers[letter] = self.numbers.get(letter, 0) + 1
        return f"{letter}{self.numbers[letter]}"

    def chance(self, share):
        """Whether something is to be, in this share of all cases."""
        return self.pick.random() < share

    # ---- numbers

    def literal(self, most=150):
        """A length that is written out."""
        it = self.pick.randint(-most, most)
        return self.pick.choice([str(it), str(it), f"{it}.5", f"{it}.0", f"{it}.125"])

    def length(self, most=150):
        """A length: mostly a literal, else an expression."""
        if self.chance(0.68):
            return self.literal(most)
        name = self.pick.choice(self.wholes + self.indices)
        real = self.pick.choice(self.reals)
        sums = [f"{name}+{self.pick.randint(1, 60)}", f"{real}+{self.pick.randint(1, 60)}"]
        if "function" in self.kinds and self.chance(0.2):
            return self.pick.choice(["SQRT(2000)", "60*COS(DTOR(30))", f"{name}*SIN(0.5)+20", f"{real}+SQRT(50)", "ABS(-12.5)", "NINT(12.7)*2", f"{name}*INT(7.9)", "-TAN(0.7)*20"])
        parts = [f"{real}/3", f"{real}*1.5", f"{real}*0.70710678", f"{name}*2.54", f"{real}/7*700", f"({real}-{name})/2.0"] if "quotient" in self.kinds else []
        return self.pick.choice([*sums, *parts, f"{name}*10", real, f"{real}*2", f"-{name}*5", f"{name}/2*10", f"({name}+1)*{real}"])

    def place(self, most=150):
        """Three lengths."""
        return ",".join(self.length(most) for _ in range(3))

    def whole(self):
        """An expression that is whole."""
        name = self.pick.choice(self.wholes + self.indices)
        return self.pick.choice([str(self.pick.randint(0, 9)), f"{name}+1", name, f"{name}*2", f"7-{name}", f"({name}+{self.pick.randint(1, 5)})/2"])

    def test(self):
        """A truth value."""
        name, real = self.pick.choice(self.wholes + self.indices), self.pick.choice(self.reals)
        sign = self.pick.choice(["GT", "LT", "EQ", "NE", "LE", "GE"])
        if "quotient" in self.kinds and self.chance(0.3):
            return self.pick.choice([f"{real}/3.{sign}.{self.literal(30)}", f"{real}*3.{sign}.{real}*3.0", f"{real}/2.{sign}.{real}*0.5", f"{real}*1.01.{sign}.{self.literal(30)}"])
        if "function" in self.kinds and self.chance(0.3):
            bound = self.pick.randint(0, 60)
            return self.pick.choice([f"ABS({real}).{sign}.{bound}", f"ABS({real}-{name}).{sign}.{bound}.AND.{name}.LT.4", f"ABS({name}-2).{sign}.1", f"ABS(R-X).{sign}.{real}", f"SQRT(16.0).{sign}.{name}", f".NOT.ABS({real}+1).{sign}.{bound}.OR.B"])
        return self.pick.choice([f"{name}.{sign}.{self.pick.randint(0, 5)}", f"{real}.{sign}.{self.literal(30)}", f"{name}.GT.1.AND.{name}.LT.4", "B", f".NOT.B.OR.{name}.EQ.2"])

    # ---- motions

    def goto(self):
        """GOTO, mostly to a place."""
        word = self.pick.choice(["", "", "", "CART,"])
        self.put(f"GOTO/{word}{self.place()}")

    def goto_polar(self):
        """GOTO in polar numbers, sometimes with the work plane."""
        if self.chance(0.4):
            self.put(f"WKPLAN/{self.pick.choice(['XYPLAN', 'YZPLAN', 'ZXPLAN'])}")
        angle = self.pick.choice(["0", "90", "30", "-45.5", "1.5707963", "180"])
        self.put(f"GOTO/POL,{self.pick.randint(10, 150)},{angle},{self.length()}")

    def goto_along(self):
        """GOTO by a length along a direction."""
        self.put(f"GOTO/INCR,{self.pick.randint(5, 80)},{self.pick.choice(AXIS_DIRECTIONS)}")

    def home(self):
        """GOHOME, sometimes behind FROM."""
        if self.chance(0.3):
            self.put(f"FROM/{self.place()}")
        self.put("GOHOME")

    def target(self):
        """Moves to a target."""
        self.put(f"GOTARG/{self.place()}")
        for _ in range(self.pick.randint(0, 2)):
            self.goto()
        self.put("ENDGO")

    # ---- frames

    def defined_frame(self, what):
        """A frame, with a new name or an old one."""
        name = self.pick.choice(self.frames) if self.frames and self.chance(0.25) else self.fresh("D")
        written = name.lower() if "case" in self.kinds and self.chance(0.15) and name in self.frames else name
        self.put(f"D({written})={what}")
        if name not in self.frames:
            self.frames.append(name)

    def shift(self):
        """TRANS by values."""
        axes = self.pick.sample(["XORIG", "YORIG", "ZORIG"], self.pick.randint(1, 2))
        self.defined_frame("TRANS/" + ",".join(f"{axis},{self.length(60)}" for axis in axes))

    def turn(self):
        """ROTATE by an angle."""
        angle = self.pick.choice(["90", "-90", "180", "270", "90.0", "30", "0.5", "90"])
        self.defined_frame(f"ROTATE/{self.pick.choice(['XAXIS', 'YAXIS', 'ZAXIS'])},{angle}")

    def machine_frame(self):
        """The machine's coordinates."""
        self.defined_frame("DATSET/MCS")

    def recall(self):
        """RECALL of a frame."""
        if self.frames:
            name = self.pick.choice(self.frames)
            self.put(f"RECALL/D({name.lower() if 'case' in self.kinds and self.chance(0.2) else name})")

    def recall_stored(self):
        """RECALL of a frame that a device holds."""
        if self.frames:
            self.put(f"RECALL/D({self.pick.choice(self.frames)}),DID(FILE1)")

    def save(self):
        """SAVE of a frame, and then another one under its name."""
        if self.frames:
            name = self.pick.choice(self.frames)
            self.put(f"SAVE/D({name})" + (",DID(FILE1)" if self.chance(0.3) else ""))
            if self.chance(0.5):
                self.put(f"D({name})=TRANS/ZORIG,{self.literal(60)}")

    def datum(self):
        """A frame by datums."""
        if not self.measured:
            self.measure_point()
        names = self.pick.sample(self.measured, min(len(self.measured), self.pick.randint(1, 2)))
        labels = []
        for name in names:
            labels.append(self.fresh("DA"))
            self.put(f"DATDEF/FA({name}),DAT({labels[-1]})")
        if self.chance(0.3):
            self.touches(names[0])
        words = self.pick.sample(["XORIG", "YORIG", "ZORIG"], len(labels))
        words[0] = self.pick.choice([words[0], words[0], "ZDIR"])
        self.defined_frame("DATSET/" + ",".join(f"DAT({label}),{word}" for label, word in zip(labels, words)))

    # ---- settings

    def mode(self):
        """A mode, and a few motions in it."""
        self.put(f"MODE/{self.pick.choice(['MAN', 'MAN', 'AUTO,PROG,MAN', 'PROG,MAN', 'PROG,MAN'])}")
        self.some(1, 2)
        if self.chance(0.8):
            self.put("MODE/PROG,MAN")

    def table(self):
        """ROTAB."""
        self.put(f"ROTAB/RT(RT1),{self.pick.choice(['INCR,CCW,90', 'ABSL,CW,90', 'INCR,CW,30', 'ABSL,CCW,0'])}")

    def scanning(self):
        """SCNMOD with something under it."""
        self.put("SCNMOD/ON")
        self.pick.choice([self.measure_plane, self.measure_point, self.one])()
        if self.chance(0.8):
            self.put("SCNMOD/OFF")

    def native(self):
        """Statements of the machine's own."""
        self.put("DMIS/OFF", f"GOTO/{self.place()}", "RUN SOMETHING", "DMIS/ON")

    def units(self):
        """Other units, for good or for a while."""
        self.put(f"UNITS/{self.pick.choice(['INCH', 'CM', 'MM', 'INCH'])},{self.pick.choice(['ANGDEC', 'ANGDEC', 'ANGRAD'])}")
        self.some(1, 2)
        if self.chance(0.6):
            self.put("UNITS/MM,ANGDEC")

    def settings(self):
        """SNSET of one word or several."""
        words = [f"APPRCH,{self.setting()}", f"RETRCT,{self.setting()}", f"SEARCH,{self.setting()}", "DEPTH,7", "FOCUSN,2"]
        self.put("SNSET/" + ",".join(self.pick.sample(words, self.pick.choice([1, 1, 2, 3]))))

    def setting(self):
        """A length of SNSET."""
        name = self.pick.choice(self.wholes)
        return self.pick.choice(["2", "3", "4.5", "6.25", "8", f"{name}+2" if self.chance(0.3) else "5"])

    def clearance(self):
        """A clearance plane, for good or for a while."""
        if not self.planes or self.chance(0.4):
            name = self.pick.choice(self.planes) if self.planes and self.chance(0.5) else self.fresh("CP")
            self.put(f"F({name})=FEAT/PLANE,CART,0,0,{self.pick.randint(100, 250)},0,0,1")
            self.planes = list(dict.fromkeys([*self.planes, name]))
        more = self.pick.choice(["", "", "APPRCH,4,", "FOCUSN,1,"])
        self.put(f"SNSET/{more}CLRSRF,F({self.pick.choice(self.planes)}),{self.pick.choice(['0', '20', '35.5'])}")
        self.is_over = True
        self.some(1, 2)
        if self.chance(0.7):
            self.put("SNSET/CLRSRF,OFF")
            self.is_over = False

    def sensor(self):
        """Another sensor."""
        self.put(f"SNSLCT/{self.pick.choice(['SA(T1)', 'S(T2)', 'SA(T1)', 'SA(T1),ANGLE,90'])}")

    def compensation(self):
        """PRCOMP, with a point without."""
        self.put("PRCOMP/OFF")
        self.measure_point()
        self.put("PRCOMP/ON")

    def settled(self):
        """Everything that a statement can say anew."""
        self.put(*SETTLED, "D(MC)=DATSET/MCS")

    # ---- features

    def feature(self):
        """A nominal point."""
        name = self.pick.choice(self.points) if self.points and self.chance(0.2) else self.fresh("P")
        if name not in self.points:
            self.points.append(name)
        place = f"POL,{self.pick.randint(10, 90)},30,{self.literal()}" if self.chance(0.15) else f"CART,{self.place()}"
        self.put(f"F({name})=FEAT/POINT,{place},{self.pick.choice(AXIS_DIRECTIONS)}")
        return name

    def touches(self, name, kind="POINT", count=1):
        """A measurement."""
        wanted = count + 1 if "wanted" in self.kinds and self.chance(0.2) else count
        self.put(f"MEAS/{kind},F({name}),{wanted}")
        self.depth += 1
        if self.chance(0.15):
            self.goto()
        for _ in range(count):
            direction = self.pick.choice(SLANTED) if self.chance(0.2) else self.pick.choice(AXIS_DIRECTIONS)
            direction = "0,0,1" if self.is_over and self.chance(0.8) else direction
            direction = "" if name in self.points and self.chance(0.2) else f",{direction}"
            word = f"POL,{self.pick.randint(20, 120)},30" if self.chance(0.1) else f"CART,{self.length()},{self.length()}"
            self.put(f"PTMEAS/{word},{self.length()}{direction}")
        if self.chance(0.1):
            self.goto()
        self.depth -= 1
        self.put("ENDMES")

    def measure_point(self):
        """A point: its FEAT and its measurement."""
        name = self.pick.choice(self.points) if self.points and self.chance(0.3) else self.feature()
        if self.chance(0.3):
            self.one()
        self.touches(name)
        if name not in self.measured:
            self.measured.append(name)

    def measure_plane(self):
        """A plane by three points, or a circle."""
        kind = self.pick.choice(["PLANE", "PLANE", "CIRCLE"])
        name = self.fresh("L")
        self.put(f"F({name})=FEAT/PLANE,CART,{self.place()},0,0,1" if kind == "PLANE" else f"F({name})=FEAT/CIRCLE,INNER,CART,{self.place()},0,0,1,20")
        self.touches(name, kind, 3)

    def obtain(self):
        """A number of a feature."""
        word, names = self.pick.choice([("FA", self.measured), ("FA", self.measured), ("F", self.points)])
        if names:
            if self.chance(0.4):
                self.one()
            name = self.pick.choice(self.reals)
            self.put(f"{name}=OBTAIN/{word}({self.pick.choice(names)}),{self.pick.randint(3, 5)}")
            self.put(f"GOTO/{name},{self.literal()},{self.literal()}")

    def output(self):
        """A report."""
        if self.measured:
            self.put(f"OUTPUT/FA({self.pick.choice(self.measured)})")

    def construct(self):
        """A measured feature is made anew."""
        if self.measured:
            self.put(f"F({self.pick.choice(self.measured)})=CONST/POINT,MIDPT,FA({self.measured[0]}),FA({self.measured[-1]})")

    def delete(self):
        """DELETE of a frame or a feature by its name."""
        kinds = [(word, names) for word, names in (("D", self.frames), ("F", self.points), ("FA", self.measured)) if names]
        word, names = self.pick.choice(kinds)
        self.put(f"DELETE/{word}({self.pick.choice(names)})")

    def made_below(self):
        """A loop whose second round comes to a name that its first round made below in writing."""
        index, name, kind = self.fresh("I"), self.fresh("Z"), self.pick.choice(["D", "F", "V"])
        self.declared.append(index)
        above = {
            "D": [f"RECALL/D({name})", f"D({name})=LOCATE/XYZAXI,FA(QQ)", f"DELETE/D({name})", f"SAVE/D({name})"],
            "F": [f"OUTPUT/FA({name})", f"R=OBTAIN/FA({name}),3", f"F({name})=CONST/POINT,MIDPT,FA({name}),FA({name})", f"DELETE/FA({name})"],
            "V": [f"X=ASSIGN/{name}+1", f"{name}=ASSIGN/{name}*2", f"TEXT/QUERY,({name}),10,N,L,'How many?'", f"{name}=VALUE/RTAB,ANGL"],
        }[kind]
        self.put(f"DO/{index},1,3", f"  IF/({index}.GT.1)")
        self.depth += 2
        self.put(*self.pick.sample(above, self.pick.choice([1, 1, 2])))
        if self.chance(0.6):
            self.goto()
        self.depth -= 2
        self.put("  ENDIF")
        self.depth += 1
        below = {"D": [f"D({name})=TRANS/ZORIG,{self.literal(40)}"], "V": [f"DECL/GLOBAL,REAL,{name}", f"{name}=ASSIGN/{self.literal(40)}"]}
        if kind == "F":
            self.put(f"F({name})=FEAT/POINT,CART,{self.place()},{self.pick.choice(AXIS_DIRECTIONS)}")
            self.touches(name)
        else:
            self.put(*below[kind])
        uses = {"D": f"RECALL/D({name})", "F": f"R=OBTAIN/FA({name}),4", "V": f"GOTO/{name},{self.literal()},{self.literal()}"}
        self.put(uses[kind])
        self.goto()
        self.depth -= 1
        self.put("ENDDO")

    def measure_in_branches(self):
        """A measurement that begins in one of two branches and ends behind both."""
        first, second = self.feature(), self.feature()
        self.put(f"IF/({self.test()})", f"  MEAS/POINT,F({first}),1", "ELSE", f"  MEAS/POINT,F({second}),1", "ENDIF")
        self.put(f"PTMEAS/CART,{self.place()},{self.pick.choice(AXIS_DIRECTIONS)}", "ENDMES")
        self.measured += [name for name in (first, second) if name not in self.measured]
        if self.chance(0.5):
            self.put(f"R=OBTAIN/FA({self.pick.choice([first, second])}),3")

    # ---- variables, people, other programs

    def assign(self):
        """A variable gets a value."""
        if self.chance(0.5):
            self.put(f"{self.pick.choice(self.wholes)}=ASSIGN/{self.whole()}")
        elif self.chance(0.2):
            self.put(f"B=ASSIGN/{self.pick.choice(['.TRUE.', '.FALSE.', 'N.GT.2'])}")
        else:
            name = self.pick.choice(self.reals)
            self.put(f"{name}=ASSIGN/" + self.pick.choice([self.literal(), self.literal(40), f"{name}+5", "N*2.5", f"ABS({name})", f"{name}*3", f"{name}*2-1"]))

    def quotient(self):
        """A quotient, or a factor that isn't whole."""
        name = self.pick.choice(self.reals)
        self.put(f"{name}=ASSIGN/" + self.pick.choice([f"{name}/3", f"{name}/7*700", f"{name}*1.01", "1.0/3.0", f"{name}/1000", f"{name}*1000", "N/4*2.5", "N*0.0254", f"{name}*0.5", f"{name}/2.0", f"{name}*1.00001", f"-{name}/3+1", f"({name}+1)/4"]))

    def function(self):
        """A value of a function."""
        name = self.pick.choice(self.reals)
        self.put(f"{name}=ASSIGN/" + self.pick.choice(["SQRT(200.0)", "10*SIN(DTOR(30))", f"{name}*COS(0.5)", f"{name}+RTOD(0.25)", f"ABS({name})", "SQRT(SQRT(81.0)+7)", f"{name}+NINT(4.5)"]))

    def question(self):
        """A question to the operator."""
        name = self.pick.choice([*self.wholes, *self.reals])
        self.put(self.pick.choice([f"TEXT/QUERY,({name}),10,N,L,'How many?'", f"OK=PROMPT/'Setup',EDIT,{name},3"]))
        if self.chance(0.5):
            self.put(f"GOTO/{name},{self.literal()},{self.literal()}")

    def read(self):
        """A variable from a file, or from the machine."""
        name = self.pick.choice([*self.wholes, *self.reals])
        self.put(self.pick.choice([f"READ/DID(FILE1),{name}", f"{name}=VALUE/RTAB,ANGL", f"{name}=VALUE/SNSET,APPRCH"]))
        if self.chance(0.5):
            self.put(f"GOTO/{name},{self.literal()},{self.literal()}")

    def halt(self):
        """The operator has something to do."""
        self.put("TEXT/MAN,'Turn the part'")

    def others(self):
        """Something that isn't in the text."""
        self.put(self.pick.choice(["CALL/EXTERN,DME,'PARK.BAT'", "CLEARCUBE/10", "INCLUD/DMIS,'MORE.DMI'", "DMESW/COMAND,'HOLD'"]))
        if self.chance(0.6):
            self.settled()

    def noise(self):
        """What moves nothing."""
        self.put(self.pick.choice(NOISE))

    # ---- blocks

    def block(self, low=1, high=4):
        """Statements inside of a block."""
        self.depth += 1
        self.some(low, high)
        self.depth -= 1

    def choice(self):
        """IF with or without ELSE."""
        self.put(f"IF/({self.test()})")
        self.block()
        if self.chance(0.4):
            self.put("ELSE")
            self.block()
        self.put("ENDIF")

    def loop(self):
        """DO, whose index is read later, too."""
        name = self.fresh("I")
        self.declared.append(name)
        limit = self.pick.choice(["3", "2", "4", "N", f"{self.pick.choice(self.wholes)}+1"])
        self.put(self.pick.choice([f"DO/{name},1,{limit}", f"DO/{name},1,{limit},1", f"DO/{name},3,1,-1", f"DO/{name},0,6,3"]))
        self.indices.append(name)
        self.block(2, 5)
        changed = self.chance(0.35) and self.late()
        self.put("ENDDO")
        if changed and self.chance(0.7):
            self.settled()

    def late(self):
        """What changes something for the next round of a loop, behind what it changes there. Gives whether there is anything."""
        changes = [line for kind, line in LATE if kind in self.kinds]
        if changes:
            self.depth += 1
            self.goto()
            self.put(self.pick.choice(changes))
            self.depth -= 1
        return bool(changes)

    def selection(self):
        """SELECT."""
        self.put(f"SELECT/{self.pick.choice(self.wholes + self.indices)}")
        for number in range(1, self.pick.randint(2, 4)):
            self.put(f"CASE/{number}" + (",7" if self.chance(0.15) else ""))
            self.block(1, 2)
            self.put("ENDCAS")
        if self.chance(0.6):
            self.put("DFTCAS")
            self.block(1, 2)
            self.put("ENDCAS")
        self.put("ENDSEL")

    def jump_back(self):
        """A loop by a jump."""
        label, name = self.fresh("AGAIN"), self.fresh("C")
        self.declared.append(name)
        self.put(f"{name}=ASSIGN/0", f"({label})")
        self.some(1, 3)
        self.put(f"{name}=ASSIGN/{name}+1", f"IF/({name}.LT.{self.pick.randint(2, 3)})", f"  JUMPTO/({label})", "ENDIF")

    def jump_on(self):
        """A jump past some statements, where a test says so."""
        label = self.fresh("PAST")
        self.put(f"IF/({self.test()})", f"  JUMPTO/({label})", "ENDIF")
        self.some(1, 3)
        self.put(f"({label})")

    def call(self):
        """A call of a macro, behind a line that marks it."""
        if self.macros:
            name, parameters = self.pick.choice(self.macros)
            arguments = [self.pick.choice(["N*10", "N", "X", "X+5", "R", "J*10+N", self.literal()]) for _ in parameters]
            point = self.pick.choice(self.points) if self.points and self.chance(0.8) else self.feature()
            self.put("TEXT/OPER,'call'", f"CALL/M({name}),'{point}'" + "".join(f",{it}" for it in arguments))

    def macro(self):
        """A macro that moves, measures and changes what its arguments are made of."""
        name, parameters, frames = self.fresh("MA"), ["A", "C"][: self.pick.randint(1, 2)], list(self.frames)
        self.put(f"M({name})=MACRO/'NAME'," + ",".join(parameters))
        self.depth += 1
        if self.chance(0.3):
            self.put("DECL/LOCAL,REAL,OWN", f"OWN=ASSIGN/{self.literal(40)}", "GOTO/OWN,A,200")
        for _ in range(self.pick.randint(2, 5)):
            self.macro_line(parameters)
        self.put(f"GOTO/{parameters[-1]},{self.literal()},{self.literal()}")
        self.depth -= 1
        self.put("ENDMAC")
        self.macros.append((name, parameters))
        self.frames = frames

    def macro_line(self, parameters):
        """One line of a macro's body, or one measurement."""
        name = self.pick.choice(parameters)
        kind = self.pick.randrange(7)
        if kind == 0:
            self.put(self.pick.choice(["N=ASSIGN/N+1", "X=ASSIGN/X+10", "J=ASSIGN/3", f"{name}=ASSIGN/{name}+5"]))
        elif kind == 1:
            direction = self.pick.choice(AXIS_DIRECTIONS)
            self.put("MEAS/POINT,F(NAME),1", f"  PTMEAS/CART,{name},{self.literal()},{self.literal()},{direction}", "ENDMES")
        elif kind == 2:
            self.put(f"IF/({name}.GT.10)", f"  GOTO/{self.literal()},{name}+2,{self.literal()}", "ENDIF")
        elif kind == 3:
            self.defined_frame(f"TRANS/XORIG,{name}")
        elif kind == 4 and self.macros:
            called, inner = self.pick.choice(self.macros)
            self.put("TEXT/OPER,'call'", f"CALL/M({called}),'NAME'" + "".join(f",{self.pick.choice([name, name + '+1', name + '*2'])}" for _ in inner))
        else:
            self.put(f"GOTO/{self.literal()},{name}*2,{self.literal()}")

    # ---- texts

    def one(self):
        """One construct; no block that is too deep."""
        weights = [CONSTRUCTS[name][0] if self.depth < 3 or name not in BLOCKS else 0 for name in self.kinds]
        CONSTRUCTS[self.pick.choices(self.kinds, weights)[0]][1](self)

    def some(self, low, high):
        """A few constructs, fewer where the text is long already."""
        for _ in range(self.pick.randint(low, high)):
            if len(self.lines) < 140:
                self.one()
        if not self.lines or len(self.lines) >= 140:
            self.goto()

    def text(self):
        """The whole text."""
        self.start()
        for _ in range(self.pick.choice([0, 1, 1, 2])):
            self.macro()
        self.some(8, 20)
        self.goto()
        self.put("ENDFIL")
        if self.declared:
            self.lines.insert(1, "DECL/INTGR," + ",".join(self.declared))
        return "\n".join(self.lines) + "\n"

    def start(self):
        """What stands above all that moves."""
        self.put("DMISMD/'RANDOM TEXT'" if "module" in self.kinds else "DMISMN/'RANDOM TEXT',05.2")
        self.put("DECL/GLOBAL,INTGR,N,J", "DECL/GLOBAL,REAL,X,R", "DECL/GLOBAL,BOOL,B,OK", "UNITS/MM,ANGDEC")
        if "others" in self.kinds and self.chance(0.2):
            self.put("DECL/COMMON,REAL,Z")
            self.reals.append("Z")
        self.put("MODE/PROG,MAN", "PRCOMP/ON", "WKPLAN/XYPLAN")
        for name, height in (("T1", 100), ("T2", 120)):
            self.put(f"S({name})=SNSDEF/PROBE,FIXED,CART,0,0,-{height},0,0,-1,{self.width}")
        if self.chance(0.9):
            self.put("SNSET/APPRCH,3,RETRCT,3,SEARCH,5" if self.chance(0.3) else "SNSET/APPRCH,3")
            if not self.lines[-1].endswith("SEARCH,5"):
                self.put("SNSET/RETRCT,4", "SNSET/SEARCH,5")
        if "sensor" in self.kinds and self.chance(0.5):
            self.put("SNSLCT/SA(T1)")
        self.put(f"N=ASSIGN/{self.pick.randint(0, 4)}", f"J=ASSIGN/{self.pick.randint(0, 4)}")
        self.put(f"X=ASSIGN/{self.literal()}", f"R=ASSIGN/{self.literal(50)}", "B=ASSIGN/.TRUE.", "D(MC)=DATSET/MCS")
        self.frames.append("MC")


# Each kind with how often it comes, beside the others that a text has. Those without a function are read where another kind is written.
CONSTRUCTS = {
    "goto": (14, Writer.goto), "polar": (3, Writer.goto_polar), "along": (3, Writer.goto_along), "home": (3, Writer.home), "target": (2, Writer.target),
    "shift": (5, Writer.shift), "turn": (3, Writer.turn), "machine": (2, Writer.machine_frame), "recall": (4, Writer.recall),
    "stored": (1, Writer.recall_stored), "save": (2, Writer.save), "datum": (3, Writer.datum), "mode": (2, Writer.mode), "table": (1, Writer.table),
    "scanning": (1, Writer.scanning), "native": (1, Writer.native), "units": (3, Writer.units), "settings": (4, Writer.settings),
    "clearance": (2, Writer.clearance), "sensor": (1, Writer.sensor), "compensation": (1, Writer.compensation), "settled": (2, Writer.settled),
    "feature": (2, Writer.feature), "point": (8, Writer.measure_point), "plane": (3, Writer.measure_plane), "obtain": (4, Writer.obtain),
    "output": (1, Writer.output), "construct": (1, Writer.construct), "delete": (1, Writer.delete), "below": (2, Writer.made_below),
    "branches": (1, Writer.measure_in_branches), "read": (1, Writer.read), "assign": (5, Writer.assign), "quotient": (2, Writer.quotient), "function": (2, Writer.function),
    "question": (1, Writer.question), "halt": (1, Writer.halt), "others": (1, Writer.others), "noise": (2, Writer.noise), "choice": (5, Writer.choice),
    "loop": (5, Writer.loop), "selection": (2, Writer.selection), "back": (2, Writer.jump_back), "on": (2, Writer.jump_on), "call": (4, Writer.call),
    "case": (0, None), "wanted": (0, None), "module": (0, None),
}
# In which share of the texts a kind may come at all, where it isn't that of most.
MOSTLY = 0.55
RARE = {
    "module": 0.05, "case": 0.2, "wanted": 0.2, "native": 0.3, "others": 0.3, "halt": 0.3, "table": 0.4, "stored": 0.3, "question": 0.4, "compensation": 0.4, "delete": 0.4,
    "below": 0.4, "branches": 0.3, "read": 0.3,
}
ALWAYS = {"goto", "shift", "point", "assign", "settled", "recall"}
# Kinds that hold others, and so aren't written where blocks are deep already.
BLOCKS = {"choice", "loop", "selection", "mode", "scanning", "units", "clearance", "back", "on", "point", "obtain"}
