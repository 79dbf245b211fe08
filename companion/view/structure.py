"""The form of a text as docs/HARDENING.md, parts 1 to 4, describes it: functions, blocks, heads, checks, and what a window waits for.
What is a window is what hardcc lists; here stands only which use comes next."""
import bisect

from view.image import MASTER, SHADOW, role

HEAD_WORDS = 7
CONDITIONAL = {"beq", "bne", "beqz", "bnez"}
STORE, BRANCH, RETURN, SERVICE, OTHER = "store address", "branch", "return", "service", "other"
USES = [STORE, BRANCH, RETURN, SERVICE, OTHER]


class Structure:
    """What stands where in the text of an image."""

    def __init__(self, image):
        self.image, self.at = image, image.at
        self.functions = sorted({word.target for word in image.words if word.name == "jal"} | {image.entry})
        self.starts = sorted(set(self.all_starts()) & set(self.at))
        self.heads = {start for start in self.starts if self.is_head(start)}
        self.head_words = {start + 4 * k for start in self.heads for k in range(HEAD_WORDS)}
        self.checks = {word.address for word in image.words if self.is_check(word)}
        self.check_words = {check + k for check in self.checks for k in (0, 4, 8)} - self.head_words
        self.uses = {(address, register): self.use(address, register) for address in image.windows for register in image.windows[address]}
        self.aliases = {}
        for start, other in image.aliases:
            self.aliases.setdefault(start, []).append(other)

    def all_starts(self):
        """The entry, targets of jumps and calls, what follows a call, and both ways of a branch that skips no break."""
        yield self.image.entry
        for word in self.image.words:
            if word.name in ("j", "jal"):
                yield word.target
            if word.name == "jal":
                yield word.address + 8
            if word.name in CONDITIONAL and not self.skips(word):
                yield word.target
                yield word.address + 8

    def skips(self, word):
        """Whether a branch skips a break: it is two words on, and its way leads behind it."""
        after = self.at.get(word.address + 8)
        return word.target == word.address + 12 and after is not None and after.name == "break"

    def reports(self, word):
        """Whether a branch skips a report, a break of code 1 or 2."""
        return self.skips(word) and self.at[word.address + 8].code in (1, 2)

    def is_check(self, word):
        """Whether a word compares a register of one stream with one of the other over a break 1."""
        return (word.name == "beq" and self.skips(word) and self.at[word.address + 8].code == 1
                and {role(register) for register in word.registers} == {MASTER, SHADOW})

    def is_head(self, start):
        """Whether the seven words at a start have the form of a head."""
        words = [self.at.get(start + 4 * k) for k in range(HEAD_WORDS)]
        if None in words:
            return False
        names = [word.name for word in words]
        return (names[0] == "xori" and names[1] in ("xor", "nop") and names[2:4] == ["ori", "ori"] and names[4] == "beq"
                and words[0].written == 24 and words[2].written == 1 and words[3].written == 28 and words[6].code == 2)

    def use(self, address, register):
        """What the register waits for: the first use from the address on, at most three words away."""
        if register == 2:
            return SERVICE
        for word in (self.at.get(address + 4 * k) for k in range(4)):
            if word is None:
                break
            if word.name == "sw" and word.base == register:
                return STORE
            if word.name in CONDITIONAL and not self.reports(word) and register in word.read:
                return BRANCH
            if word.name == "jr" and register in word.read:
                return RETURN
            if word.name == "syscall" and register == 4:
                return SERVICE
        return OTHER

    def function_of(self, address):
        """The start of the function that an address is in."""
        found = bisect.bisect_right(self.functions, address)
        return self.functions[found - 1] if found else None

    def block_of(self, address):
        """The number of the block that an address is in, from 1."""
        return bisect.bisect_right(self.starts, address)

    def calls(self):
        """Of each function, which functions it calls."""
        found = {function: set() for function in self.functions}
        for word in self.image.words:
            if word.name == "jal":
                found[self.function_of(word.address)].add(word.target)
        return found

    def kind(self, address):
        """What a word is for: head, check, or nothing special."""
        return "head" if address in self.head_words else "check" if address in self.check_words else ""
