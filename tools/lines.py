# One line of a text: its words, commas and quoted texts, and the names, numbers and letters among them.
# It knows no statement; statements.py, textform.py and checking/setform.py do.
import re
from string import ascii_lowercase, ascii_uppercase, digits
from typing import NamedTuple

from packing import LIMIT

NAME = re.compile(r"[^\W\d][\w-]*")
# Blanks, then a comment, a quoted text, a comma, or a word; a word ends at a blank, a comma, a quote or a comment.
TOKEN = re.compile(r'\s*(?:(#.*)|"((?:[^"\\]|\\.)*)"|(,|[^\s#,"]+))')


class Wrong(Exception):
    """What is wrong with a line, and what was expected."""

    def __init__(self, path, line, message, column=None):
        place = line if column is None else f"{line}:{column}"
        super().__init__(f"{path}:{place}: {message}")


class Token(NamedTuple):
    text: str
    quoted: bool
    column: int  # of its first character, or of its quote, from 1

    def __str__(self):
        return f'"{self.text}"' if self.quoted else f"'{self.text}'"


class Line:
    """The tokens of one line, taken from left to right. With columns, an error names the column too."""

    def __init__(self, path, number, text, columns=False):
        self.path, self.number, self.tokens, self.next, self.columns = path, number, [], 0, columns
        place, self.end_of_tokens, text = 0, 0, text.rstrip()
        while place < len(text):
            match = TOKEN.match(text, place)
            if not match:
                raise self.wrong("a quote is not closed: expected another \"", text.index('"', place) + 1)
            place = match.end()
            _, quoted, word = match.groups()
            if quoted is not None:
                self.tokens.append(Token(self.unescaped(quoted, match.start(2)), True, match.start(2)))
            elif word:
                self.tokens.append(Token(word, False, match.start(3) + 1))
            if quoted is not None or word:
                self.end_of_tokens = place

    def wrong(self, message, column=None):
        """An error at this column, or at the token that was taken last."""
        if column is None:
            column = self.tokens[self.next - 1].column if self.next else 1
        return Wrong(self.path, self.number, message, column if self.columns else None)

    def unexpected(self, expected):
        """An error at the token that comes next."""
        column = self.tokens[self.next].column if self.more() else self.end_of_tokens + 1
        return self.wrong(f"expected {expected}, found {self.seen()}", column)

    def unescaped(self, quoted, start):
        for escape in re.finditer(r"\\.", quoted):
            if escape[0][1] not in '"\\':
                raise self.wrong(f"{escape[0]} stands for nothing: expected \\\" or \\\\ in a quoted text", start + escape.start() + 1)
        return re.sub(r"\\(.)", r"\1", quoted)

    def more(self):
        return self.next < len(self.tokens)

    def seen(self):
        return str(self.tokens[self.next]) if self.more() else "the end of the line"

    def sees(self, word):
        return self.more() and self.tokens[self.next][:2] == (word, False)

    def took(self, word):
        """Takes this bare word, if it is the next token."""
        seen = self.sees(word)
        self.next += seen
        return seen

    def take(self, expected):
        if not self.more():
            raise self.unexpected(expected)
        self.next += 1
        return self.tokens[self.next - 1]

    def rest(self):
        """Takes all tokens that are left."""
        tokens, self.next = self.tokens[self.next :], len(self.tokens)
        return tokens

    def end(self):
        if self.more():
            raise self.unexpected("the end of the line")

    def name(self, what):
        token = self.take(f"the name of {what}")
        if token.quoted or not NAME.fullmatch(token.text):
            raise self.wrong(f"expected the name of {what}, found {token} (a name is letters, digits, - and _, and begins with a letter or _)")
        return token.text

    def numbers(self, what, least):
        """A set of numbers, as a word: `none`, or numbers and ranges parted by commas."""
        if self.took("none"):
            return 0
        word = 0
        while True:
            token = self.take(what)
            match = re.fullmatch(r"([0-9]{1,9})(?:\.\.([0-9]{1,9}))?", token.text)
            if token.quoted or not match:
                raise self.wrong(f"expected {what} or a range such as 2..4, found {token}")
            first, last = int(match[1]), int(match[2] or match[1])
            if first < least or last >= LIMIT:
                raise self.wrong(f"{token.text} is out of range: {what} is {least} to {LIMIT - 1}")
            if first > last:
                raise self.wrong(f"{token.text} is no range: expected the lower number first")
            word |= (1 << last + 1) - (1 << first)
            if not self.took(","):
                return word

    def letters(self):
        """Letters, ranges and quoted letters, up to a comma, `to`, `obeys` or the end, each with the column of its token."""
        letters = []
        while self.more() and not any(self.sees(word) for word in (",", "to", "obeys")):
            token = self.take("letters")
            letters += [(letter, token.column) for letter in (token.text if token.quoted or len(token.text) == 1 else self.range(token))]
        if not letters:
            raise self.unexpected("letters")
        return letters

    def range(self, token):
        first, last = token.text[0], token.text[-1]
        if len(token.text) != 4 or token.text[1:3] != "..":
            raise self.wrong(f"expected a letter, a range such as a..z, or letters in quotes, found {token}")
        for kind in (ascii_lowercase, ascii_uppercase, digits):
            if first in kind and last in kind[kind.index(first) :]:
                return kind[kind.index(first) : kind.index(last) + 1]
        raise self.wrong(f"{token.text} is no range: expected one within a..z, A..Z or 0..9")
