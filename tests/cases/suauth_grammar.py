"""Random su files and questions out of the grammar of su files.

SuGrammar makes sides, rules and files for a question, faulty lines, and damage to
a file. SuMaker makes cases of them.
"""
from choices import Choices, digits, pieces

USERS = ("root", "ann", "bo", "kim", "ops")
GROUPS = ("wheel", "ops", "dev", "ann")
RARE = ("an", "annn", "Ann", "all", "ALLE", "EXCEP", "GROUPS", "GROUPops", ".", "-", "_", "0", "a.b-C_9", "r" * 31, "r" * 32)
UNASKED = "nobody"
WORDS = ("ALL", "EXCEPT", "GROUP")
ACTIONS = ("DENY", "NOPASS", "OWNPASS")
COMMENTS = ("", " a note", "root:ann:DENY", " ALL:ALL:NOPASS", "x:y:z:u", "#", " 'a \"b $c {[~", " goes on \\", "\tx\t ")
LIMIT = 32768

BAD_NAMES = ("", "a" * 33, "a b", "a\t", " a", "a:b", "a,b", "#a", "a\0", "a\n", "a/b", "a@b", "a[", "`a", "a{", "\x7f", "\xe9")
UNKNOWN_ACTIONS = ("", "deny", "Nopass", "OWNPAS", "DENYX", "PASS", "ALL", "DENY,NOPASS", "DENY NOPASS", "DE NY", "DENY\\")
NO_RULES = ("root", "root:DENY", ":", "::", ":::", "DENY", "\\", "ALL EXCEPT root", "root:ann", "ann:DENY:", ",:,:DENY")
UNNAMED_FORMS = ("ann,GROUP g", "GROUP ops EXCEPT ann", "ann EXCEPT bo", "ALL GROUP ops", "ALL ann", "EXCEPT ann", "EXCEPT GROUP ops",
                 "ALL EXCEPT ann EXCEPT bo", "ALL EXCEPT EXCEPT ann", "GROUP ops GROUP dev", "GROUP GROUP ops", "ALL EXCEPT",
                 "ALL EXCEPT GROUP ops ann", "ALL EXCEPT ann,GROUP ops", "GROUP", "GROUP ", "ALL ALL", "ALL EXCEPT ALL EXCEPT ann")
NAMELESS_BYTES = "/*?\"'$!@;~[]`{}^+\\#()%&=<>|"
REFUSED_BYTES = "\0\x01\x08\x0b\x0c\r\x1b\x1f\x7f\x80\xa0\xff"
DAMAGE = "::::,, \t\n#\\ALEXCPTGROUDNYWSan./0"


class SuGrammar(Choices):
    def blank(self):
        return "\t" if self.odds(.25) else " "

    def blanks(self):
        return "".join([self.blank() for _ in range(1 + self.below(4))])

    def name(self, pool):
        return self.pick(RARE) if self.odds(.12) else self.pick(pool)

    def names(self, pool):
        return [self.name(pool) for _ in range(1 + self.below(4) if self.odds(.99) else 40 + self.below(60))]

    def question(self):
        """A good question; the words of the file are names in it."""
        def asked(pool):
            return self.pick(WORDS) if self.odds(.07) else self.name(pool)
        count = self.pick((0, 0, 1, 1, 2, 3)) if self.odds(.98) else 31 + self.below(2)
        return {"target": asked(USERS), "user": asked(USERS), "groups": [asked(GROUPS) for _ in range(count)]}

    # good lines

    def side(self, name, groups, applies):
        """A side that applies to the name or the groups, one that does not, or either (None); a to side has no groups (None)."""
        if applies is not False and self.odds(.2):
            return "ALL"
        excepted = self.odds(.45)
        by_group = groups is not None and self.odds(.4)
        asked = groups if by_group else [name]
        listed = self.names(GROUPS if by_group else USERS)
        if applies is not None:
            listed = [n for n in listed if n not in asked] or [UNASKED]
            known = [n for n in asked if n not in WORDS]
            if not known:
                excepted = applies
            elif applies != excepted:
                listed.insert(self.below(len(listed) + 1), self.pick(known))
        text = ("GROUP" + self.blank() if by_group else "") + ",".join(listed)
        return "ALL" + self.blank() + "EXCEPT" + self.blank() + text if excepted else text

    def sides(self, q, applies):
        both = self.pick(((True, False), (False, True), (False, False))) if applies is False else (applies, applies)
        return self.side(q["target"], None, both[0]), self.side(q["user"], q["groups"], both[1])

    def ends(self, text):
        """The line of a text, at times with blanks at its ends."""
        return (self.blanks() if self.odds(.12) else "") + text + (self.blanks() if self.odds(.12) else "") + "\n"

    def rule(self, q, applies):
        return self.ends("%s:%s:%s" % (*self.sides(q, applies), self.pick(ACTIONS)))

    def skipped(self):
        return self.ends("#" + self.pick(COMMENTS) if self.odds(.6) else "")

    def lines(self, q, applies, most=12):
        return [self.skipped() if self.odds(.25) else self.rule(q, applies) for _ in range(self.below(most + 1))]

    def among(self, lines, line):
        """The lines with one more at any place."""
        lines.insert(self.below(len(lines) + 1), line)
        return lines

    def decided(self, q):
        """The lines of a file with a rule that applies, at any place among rules that do not, or may."""
        return self.among(self.lines(q, self.pick((None, False, False)), 11), self.rule(q, True))

    # faulty lines

    def listing(self, wrong):
        """Two sides, one of them a list with a wrong part at any place, in any form; GROUP lists on the from side."""
        text = ",".join(self.among(self.names(USERS) if self.odds(.8) else [], wrong))
        if self.odds(.4):
            return self.pick(("", "ALL EXCEPT ")) + text, "ALL"
        return "ALL", self.pick(("", "ALL EXCEPT ", "GROUP ", "ALL EXCEPT GROUP ")) + text

    def inserted(self, text, places, more):
        """The text with more before one of the bytes at places, or behind it."""
        at = self.pick([n for n, c in enumerate(text) if c in places]) + self.below(2)
        return text[:at] + more + text[at:]

    def faulty(self, q):
        """A line that is mostly malformed."""
        to, origin = self.sides(q, None)
        action = self.pick(ACTIONS)
        k = self.below(12)
        if k == 0:
            to = self.pick(("GROUP", "ALL EXCEPT GROUP")) + self.blank() + ",".join(self.names(GROUPS))
        elif k == 1:
            words = self.pick(("ALL EXCEPT %s", "GROUP %s", "ALL EXCEPT GROUP %s")) % ",".join(self.names(USERS))
            origin = self.inserted(words, " ", self.blank()) if self.odds(.8) else words.replace(" ", "", 1)
        elif k == 2:
            return self.inserted("%s:%s:%s" % (to, origin, action), ":", self.pick(("::", ":", ":", self.blank()))) + "\n"
        elif k == 3:
            return self.ends(self.pick(NO_RULES) if self.odds(.5) else "%s:%s" % (to, origin) + self.pick((action, ":", "::" + action)))
        elif k == 4:
            action = self.pick(UNKNOWN_ACTIONS)
        elif k == 5:
            to, origin = self.listing(self.pick("anr") * 33)
        elif k == 6:
            to, origin = self.listing(self.pick(WORDS))
        elif k == 7:
            to, origin = self.listing("")
        elif k == 8:
            to, origin = self.listing(self.pick(("%sann", "a%sn", "ann%s")) % self.pick(NAMELESS_BYTES))
        elif k == 9:
            to, origin = self.listing(self.pick((self.blank() + "ann", "ann" + self.blank(), "ann bo")))
        elif k == 10:
            to, origin = (self.pick(UNNAMED_FORMS), origin) if self.odds(.3) else (to, self.pick(UNNAMED_FORMS))
        else:
            action += self.pick((" # note", "#", "\t#", ":", ":now", " root:bo:NOPASS"))
        return self.ends("%s:%s:%s" % (to, origin, action))

    # damage

    def damage(self, text):
        """Bytes dropped, doubled, replaced, put in or cut off at any place."""
        for _ in range(1 + self.below(2)):
            at = self.below(len(text) + 1)
            k = self.below(8)
            if k < 2:
                text = text[:at] + text[at + 1:]
            elif k == 2:
                text = text[:at] + text[at:at + 1] + text[at:]
            elif k < 5:
                text = text[:at] + self.pick(DAMAGE) + text[at + 1:]
            elif k == 5:
                text = text[:at] + self.pick(DAMAGE) + text[at:]
            elif k == 6:
                text = text[:at] + text[at + self.below(20):]
            else:
                text = text[:at]
        return text

    def refuse(self, text):
        """The text with a byte that no file may have, put in at any place or instead of a byte there."""
        at = self.below(len(text) + 1)
        return text[:at] + self.pick(REFUSED_BYTES) + text[at + self.below(2):]

    def spoil(self, q):
        """Make the question a bad one."""
        key = self.pick(("target", "user", "groups"))
        if key != "groups":
            q[key] = self.pick(BAD_NAMES)
        elif self.odds(.7):
            self.among(q[key], self.pick(BAD_NAMES))
        else:
            q[key] = [self.name(GROUPS) for _ in range(33 + self.below(3))]

    def filled(self, q, text, length):
        """The text with more lines, or longer ones, so that it has a length."""
        room = length - len(text)
        k = self.below(5)
        if k == 0:
            return text + "\n" * room
        if k == 1:
            return "#" + "x" * (room - 2) + "\n" + text
        if k == 2:
            return "root:" + ("u," * room)[:room - 12] + "u:DENY\n" + text
        if k == 3:
            return " " * room + text
        line = self.rule(q, False)
        return line * (room // len(line)) + "\n" * (room % len(line)) + text


# The deck of the cases; each card is a method of SuMaker.
DECK = (["decided"] * 400 + ["either"] * 90 + ["missed"] * 100 + ["malformed"] * 150 + ["damaged"] * 80 + ["cut"] * 70
        + ["question"] * 40 + ["byte"] * 35 + ["several"] * 25 + ["full"] * 4 + ["over"] * 6)


class SuMaker(SuGrammar):
    """A method for each card of the deck; it hands back a file and may change the question."""

    def do_decided(self, q):
        return "".join(self.decided(q))

    def do_either(self, q):
        return "".join(self.lines(q, None))

    def do_missed(self, q):
        return "".join(self.lines(q, False))

    def do_malformed(self, q):
        lines = self.among(self.decided(q), self.faulty(q))
        return "".join(lines if self.odds(.8) else self.among(lines, self.faulty(q)))

    def do_damaged(self, q):
        return self.damage("".join(self.decided(q)))

    def do_cut(self, q):
        text = "".join(self.decided(q))
        return text[:self.below(len(text))]

    def do_question(self, q):
        text = "".join(self.decided(q))
        self.spoil(q)
        return text

    def do_byte(self, q):
        return self.refuse("".join(self.decided(q)))

    def do_several(self, q):
        """Two faults or more, of which the first in the order of the refusals is told."""
        lines = self.decided(q)
        if self.odds(.6):
            self.among(lines, self.faulty(q))
        text = "".join(lines)
        if self.odds(.6):
            text = text[:-1 - self.below(3)]
        if self.odds(.4):
            text = self.refuse(text)
        if self.odds(.05):
            text = self.filled(q, text, LIMIT + 1)
        if self.odds(.3):
            self.spoil(q)
        return text

    def do_full(self, q):
        text = self.filled(q, "".join(self.decided(q)), LIMIT - self.below(2))
        return text if self.odds(.75) else text[:-1] + self.pick("#x ")

    def do_over(self, q):
        return self.filled(q, "".join(self.decided(q)), LIMIT + 1 + (0 if self.odds(.6) else self.below(100)))

    def cases(self, count):
        for card in self.dealt(DECK, count):
            q = self.question()
            file = getattr(self, "do_" + card)(q)
            yield "\t".join((digits(file), digits(q["target"]), digits(q["user"]), pieces(q["groups"]))) + "\n"
