"""Random tables and questions out of the grammar of the tables.

Grammar makes patterns, fields, control lines and tables, either good ones for
a question (they permit it, mostly) or loose ones, and can damage a table.
"""
from choices import Choices

G = ":global patterns=shell\n"
USERS = ("ann", "bo", "tmp", "tom", "root", "kim", "a.b-c", "x")
GROUPS = ("bench", "guest", "z", "b_1", "staff")
HOSTS = ("h", "van2", "dock", "van.dock", "H")
COMMANDS = ("c", "cc", "d", "cal/adc", "setclock", "a*b", "x/y/z", "a,b", "c]", "!c", "a\\", "{c}", "a=b")
ARGS = ("", "a", "b", "x", "-v", "a b", "f.txt", "12", "a,b", "{}", "ab", "[a]", "*")
DAYS = ("mon", "tue", "wed", "thu", "fri", "sat", "sun", "Monday", "TUES", "thurs", "*", "sunday", "weDnes")
TIMES = ("0", "8", "08", "17", "24", "0:00", "8:30", "17:30", "23:59", "24:00", "12", "9:05")
WORDS = ("a", "b", "x", "no", "$CALLER", "$HOST", "$IS_USERTAB", "ann", "h", "''", '"a b"', "$(CALLER)x")
DAMAGE = "\"'\\#$ \n\t{}[],!@~:=*?-<>/()%&;`0a_A"


def well(field):
    """Whether a condition is surely well formed (used for tables that shall permit)."""
    return not set("{}[]\\") & set(field)


class Grammar(Choices):
    # patterns

    def one(self, c):
        """A pattern for the byte c."""
        k = self.below(6)
        if k == 0:
            return "?"
        if k == 1 and c not in "]!":
            return "[" + c + "]" if self.odds(.5) else "[!" + ("Q" if c != "Q" else "R") + "]"
        if k == 2 and c.isalpha():
            return "[a-z]" if c.islower() else "[A-Z]"
        if k == 3:
            return "\\" + c
        if k == 4 and c not in ",{}[]*?\\":
            return "{" + self.pick(("", "q", "q*")) + "," + c + "}"
        return "\\" + c if c in "*?[]{}\\," else c

    def plain(self, name):
        """The name itself, its pattern bytes escaped."""
        return "".join("\\" + c if c in "*?[]{}\\," else c for c in name)

    def matching(self, name, others):
        """A pattern that matches the name."""
        k = self.below(10)
        if k < 4:
            return self.plain(name)
        if k == 4:
            return "*"
        if k == 5 and name:
            at = self.below(len(name))
            return self.plain(name[:at]) + self.one(name[at]) + self.plain(name[at + 1:])
        if k == 6:
            at = self.below(len(name) + 1)
            return self.plain(name[:at]) + "*" if self.odds(.5) else "*" + self.plain(name[at:])
        if k == 7:
            return "{" + self.plain(name) + "," + self.pick(others) + "}"
        if k == 8:
            at = self.below(len(name) + 1)
            return "{" + self.plain(name[:at]) + ",q{r,}}{" + self.plain(name[at:]) + ",[0-9]*}"
        return "{{" + self.pick(others) + "," + (self.pick(others) if self.odds(.9) else "") + "}," + self.plain(name) + "}"

    def anything(self, others):
        """Some pattern, perhaps a malformed one."""
        out = []
        for _ in range(1 + self.below(3)):
            k = self.below(14)
            if k < 5:
                out.append(self.pick(others))
            elif k < 7:
                out.append(self.pick(("*", "?", "a", "b*", "-")))
            elif k < 9:
                out.append(self.pick(("[a-c]", "[!a]", "[a-]", "[--a]", "[,}]", "[]", "[z-a]", "[\\]", "[a-c-e]")))
            elif k < 12:
                out.append("{" + self.pick(("a", "", "{b,c}")) + "," + self.anything(others) + "}")
            else:
                out.append(self.pick(("\\*", "\\,", "{", "}", "[", "{}", "\\", "^", "{a,b}{,c}")))
        return "".join(out)

    # the fields of an entry

    def who(self, q, good):
        """A user or group condition; a good one applies to the question."""
        bang = ""
        if not good and self.odds(.35):
            bang = "!"
        if good:
            if q["groups"] and self.odds(.3):
                text = "group~" + self.matching(self.pick(q["groups"]), GROUPS)
            else:
                text = self.pick(("", "", "user~")) + self.matching(q["user"], USERS)
            if self.odds(.25):
                text += "@" + self.matching(q["host"], HOSTS)
            if self.odds(.2):
                text += "," + self.pick(USERS)
            elif self.odds(.1) and "~" not in text:
                text = self.pick(USERS) + "," + text
        else:
            text = self.pick(("", "", "", "user~", "group~"))
            text += self.anything(USERS) if self.odds(.3) else self.pick(USERS + GROUPS)
            if self.odds(.3):
                text += "@" + (self.anything(HOSTS) if self.odds(.3) else self.pick(HOSTS))
            if self.odds(.2):
                text += "," + self.pick(USERS)
        return bang + text

    def item(self, minute=None):
        day = self.pick(DAYS)
        if minute is not None and self.odds(.8):
            day = "*" if self.odds(.4) else DAYS[minute // 1440]
        k = self.below(8)
        if k == 0:
            return day
        if minute is None:
            a, b = self.pick(TIMES), self.pick(TIMES)
        else:
            low, high = minute % 1440, minute % 1440
            low, high = low - self.below(low + 1), high + self.below(1441 - high)
            a, b = "%d:%02d" % divmod(low, 60), "%02d:%02d" % divmod(high, 60)
        text = a + "-" + b if k < 5 else self.pick(("<", ">", "<=", ">=")) + self.pick((a, b))
        return text + ("/" + day if self.odds(.5) else "")

    def when(self, q, good):
        minute = q["minute"] if good or self.odds(.5) else None
        items = [self.item(minute) for _ in range(1 + self.below(2))]
        text = ",".join(items)
        if self.odds(.4):
            text = "{" + text + "}"
        if self.odds(.05):
            text = "8-17/{mon,tues,sat}"
        return ("" if good or self.odds(.5) else "!") + "time~" + text

    def option(self, q, good, local=True):
        k = self.below(16)
        if k < 4:
            return self.pick(("uid", "euid", "gid", "egid")) + "=" + self.pick(("root", "0", "<owner>", "<caller>",
                                                                                "$CALLER", "a.b-c", "operator"))
        if k < 7:
            return "auth=" + self.pick("yyn")
        if k < 10:
            return "timeout=%s" % self.pick(("0", "5", "15", "00015", "-1", "-0", "32767", "-32768"))
        n = len(q["args"])
        if k < 12:
            if good:
                return "nargs=%d" % n if self.odds(.5) else "nargs=%d-%d" % (self.below(n + 1), n + self.below(3))
            return "nargs=" + self.pick(("0", "1", "0-2", "2-64", "00001", "2-1", "65"))
        if k < 15:
            if n and (good or self.odds(.5)):
                at = self.below(n)
                return '"arg%d=%s"' % (at + 1, self.matching(q["args"][at], ("a", "b", "12")))
            if not good or self.odds(.3):
                return self.pick(("arg%d=", "arg%d-64=", "arg1-%d=")) % (1 + self.below(3)) + (
                    "*" if good else self.anything(("a", "b", "-v", "12")))
        return self.pick(("auth=n", "timeout=7") if good or self.odds(.5)
                         else ("auth=x", "foo=1", "uid=", "timeout=99999", "arg0=a", "patterns=shell", "nargs=3-1"))

    def options(self, q, good, most):
        out, seen = [], set()
        for _ in range(self.below(most + 1)):
            text = self.option(q, good)
            name = text.split("=")[0].strip('"')
            if name.startswith("arg") or name not in seen or (not good and self.odds(.2)):
                seen.add(name)
                out.append(text)
        return out

    def dress(self, field, before):
        """Perhaps quotes round a part of the field, or a variable for it."""
        k = self.random()
        if k < .05 and not set("\"'$") & set(field):
            at = self.below(len(field) + 1)
            end = at + self.below(len(field) + 1 - at)
            mark = self.pick("\"'")
            return field[:at] + mark + field[at:end] + mark + field[end:]
        if k < .10 and before is not None and not set("\"'$") & set(field):
            at = self.below(len(field) + 1)
            name = self.pick(("A", "Users", "_v1", "B2"))
            before.append(":define %s '%s'\n" % (name, field[at:]))
            return field[:at] + self.pick(("$(%s)", '"$(%s)"')) % name
        if k < .13:
            places = [n for n in range(1, len(field)) if field[n - 1] in ",{}@*~=:/!"]
            at = self.pick(places) if places and self.odds(.9) else self.below(len(field) + 1)
            return field[:at] + self.pick(("\\\n ", "\\\n\t ", "\\\n \\\n ")) + field[at:]
        return field

    def spread(self, fields, before=None):
        """One control line of the fields, with its newline."""
        out, used = [], False
        for f in fields:
            if out:
                k = self.random()
                out.append(" " if k < .84 else self.pick(("\t", "  ", " \\\n ", " \\\n\t", " # it's\\\n  ", " #\\\n ")))
                if k > .97 and f[0] not in ",@":
                    out.append("\\\n ")
            dressed = f if used else self.dress(f, before)
            used = used or dressed != f
            out.append(dressed)
        k = self.random()
        return "".join(out) + ("\n" if k < .9 else self.pick((" # note\n", "\t\n", "#x\n", " #y\\\n  \n", " \\\n \n")))

    def entry(self, q, good):
        others = ("a", "b", "d*", "cal")
        hit = good or self.odds(.7)
        command = self.matching(q["command"], others) if hit else self.anything(others)
        path = self.pick(("/p", "/opt/*", "/x/*/y*", "/s/$HOST/r", "/a{b}[c", "/", "/p-$CALLER"))
        if self.odds(.2):
            lead = [self.pick(("q", "zz*", "[0-9]")) + "::" + self.pick(("/n", "/m/*"))] * self.below(2)
            lead.append(command + "::" + path)
            lead += ["*::/rest/*"] * self.below(2)
        else:
            lead = [command, path if good or self.odds(.96) else self.pick(("p", '"/a b"', "/p::q"))]
        rest = []
        if not good or self.odds(.25):
            rest += [self.who(q, False) for _ in range(self.pick((0, 1, 1, 1, 1, 2, 2, 2, 3)))]
        if good:
            rest = [w for w in rest if well(w)]
            rest.append(self.who(q, True))
        if self.odds(.3):
            rest.append(self.when(q, good))
        for text in self.options(q, good, 2):
            rest.insert(self.below(len(rest) + 1), text)
        return lead + rest

    def extra(self, q, good):
        """A line that is not the deciding entry."""
        k = self.below(10)
        if k < 2:
            return self.pick(("\n", " \n", "# it's a note\n", "#a\\\nb\n", "\t# x\n", "#\n", " \\\n \n"))
        if k < 5:
            text = self.pick(("ann,bo", "'a b'", "x", "/opt", '""', "$CALLER,tom", "{a,b}", "van*", "'$q'"))
            return self.spread([":define", self.pick(("A", "Crew", "_x9", "B2")), text])
        if k < 8:
            opts = [o for o in self.options(q, good, 2)] or ["auth=n"]
            return self.spread([self.pick((":global", ":global", ":global_options"))] + opts)
        if good:
            return self.spread(["other", "/o", self.pick(USERS)])
        return self.spread(self.entry(q, False))

    def guard(self, line, taken, most):
        """The line behind one or more `:if`."""
        for _ in range(1 + self.below(most)):
            a, b = self.pick(WORDS), self.pick(WORDS)
            line = ":if %s %s %s " % ((a, "==", a) if taken else (a, self.pick(("==", "!=")), b)) + line
        return line

    def question(self):
        q = {"command": self.pick(COMMANDS) if self.odds(.5) else "c", "user": self.pick(USERS), "host": self.pick(HOSTS),
             "groups": [self.pick(GROUPS) for _ in range(self.below(3))], "minute": self.below(10080),
             "age": "never" if self.odds(.3) else str(self.pick((0, 1, 5, 6, 15, 16, -1, -2147483648, 32767, 40000))),
             "args": [self.pick(ARGS) for _ in range(self.below(4))], "buffer": 2048}
        if self.odds(.1):
            q["buffer"] += self.below(3000)
        if self.odds(.2):
            q["minute"] = self.pick((0, 480, 510, 1020, 1439, 1440, 10079))
        return q

    def table(self, q, good):
        lines = [G if self.odds(.9) else ":global_options 'patterns'=shell auth=%s\n" % self.pick("yn")]
        for _ in range(self.pick((0, 0, 0, 1, 1, 2))):
            lines.append(self.extra(q, good))
        for _ in range(1 if good else 1 + self.below(2)):
            before = []
            line = self.spread(self.entry(q, good), before)
            if self.odds(.12):
                line = self.guard(line, good, 2 if self.odds(.9) else 4)
            lines += before + [line]
        if self.odds(.25):
            lines.append(self.extra(q, good))
        return "".join(lines)

    def damage(self, text):
        for _ in range(1 + self.below(3)):
            at = self.below(len(text) + 1)
            k = self.below(9)
            c = self.pick(DAMAGE) if self.odds(.9) else chr(self.below(256))
            if k < 3:
                text = text[:at] + c + text[at + 1:]
            elif k < 5:
                text = text[:at] + text[at + 1 + self.below(2):]
            elif k == 5:
                text = text[:at] + text[at:at + 1] + text[at:]
            elif k == 6:
                text = text[:at] + text[at:at + self.below(20)] + text[at:]
            elif k == 7:
                text = text[:at] + c + text[at:]
            elif self.odds(.4):
                text = text[:at]
        return text
