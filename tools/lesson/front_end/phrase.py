"""A line of a lesson, read from left to right; the error names the file, the line and what was expected."""

import re

from .quoting import quoted

# A word may have colons inside, as an address has; a colon or comma behind a word stands alone.
WORD = re.compile(r"[^\s,:]+(?::[^\s,:]+)*|[,:]")
# No number of the language has more digits.
NUMBER = re.compile(r"[0-9]{1,10}")
ADDRESS = re.compile(r"[0-9A-Fa-f]{2}(:[0-9A-Fa-f]{2}){5}")


class LessonError(Exception):
    """A lesson that cannot be read: 'FILE:LINE: expected .., found ..'."""


class Phrase:
    def __init__(self, text, place, addresses):
        """`place` is 'FILE:LINE', `addresses` what the lesson has named so far."""
        self.text, self.place, self.addresses = text, place, addresses
        self.words = list(WORD.finditer(text))
        self.next = 0

    def word(self):
        """The next word, in small letters; '' at the end of the line."""
        return self.words[self.next].group().lower() if self.next < len(self.words) else ""

    def fails(self, expected):
        found = f"'{quoted(self.words[self.next].group())}'" if self.word() else "the end of the line"
        raise LessonError(f"{self.place}: expected {expected}, found {found}")

    def has(self, word):
        """Whether the next word is this one; then it is read."""
        if self.word() != word:
            return False
        self.next += 1
        return True

    def needs(self, *words):
        for word in words:
            if not self.has(word):
                self.fails(f"'{word}'")

    def needs_end(self):
        if self.word():
            self.fails("the end of the line")

    def choice(self, words, expected="one of"):
        """One of the words."""
        word = self.word()
        if word not in words:
            self.fails(f"{expected} {', '.join(words)}")
        self.next += 1
        return word

    def number(self, what, lowest, highest):
        word = self.word()
        if not NUMBER.fullmatch(word) or not lowest <= int(word) <= highest:
            self.fails(f"{what}, a number {lowest} to {highest}")
        self.next += 1
        return int(word)

    def has_number(self):
        """Whether the next word is a number; it is not read yet."""
        return bool(NUMBER.fullmatch(self.word()))

    def number_or_word(self, what, words, highest):
        """A number, or the place of a word in its row."""
        small = [word.lower() for word in words]
        if self.word() in small:
            return small.index(self.choice(small))
        if not self.has_number():
            self.fails(f"{what}: {', '.join(small)}, or a number 0 to {highest}")
        return self.number(what, 0, highest)

    def mask(self, what, highest):
        """One or more numbers, each once, as a mask of bits."""
        mask = 0
        while not mask or self.has_number():
            if self.has_number() and mask >> int(self.word()) & 1:
                self.fails(f"{what} only once")
            mask |= 1 << self.number(what, 0, highest)
        return mask

    def address(self):
        word = self.word()
        if word in self.addresses:
            self.next += 1
            return self.addresses[word]
        return self.spelled_address("an address such as 02:00:00:00:00:01, or the name of one")

    def spelled_address(self, expected):
        word = self.word()
        if not ADDRESS.fullmatch(word):
            self.fails(expected)
        self.next += 1
        return bytes.fromhex(word.replace(":", ""))

    def parts(self, readers):
        """Parts set apart by commas: each begins with its word, which names its reader, and is given at most once."""
        given = {}
        while True:
            if self.word() in given:
                self.fails(f"'{self.word()}' only once")
            word = self.choice(readers)
            given[word] = readers[word](self)
            if not self.has(","):
                return given

    def text_up_to_last(self, word):
        """The text before the last such word of the line, which is read too."""
        lasts = [place for place in range(self.next, len(self.words)) if self.words[place].group().lower() == word]
        start = self.start()
        self.next = lasts[-1] if lasts else len(self.words)
        text = self.text[start : self.start()].strip()
        self.needs(word)
        return text

    def rest(self):
        """All the text that is left, read as it stands."""
        text = self.text[self.start() :].strip()
        self.next = len(self.words)
        return text

    def start(self):
        """Where the next word starts in the text."""
        return self.words[self.next].start() if self.word() else len(self.text)
