"""The lines of a text in TOML, which Python's reader does not tell."""

import re
import tomllib


class Lines(dict):
    """The line of each key and each element, by its path, in a text that tomllib has taken."""

    TOKEN = re.compile(r'''"""(?:\\.|[^\\])*?"{3,5} | \'\'\'.*?'{3,5} | "(?:\\.|[^"\\])*" | '[^']*' | \#[^\n]*
                       | \n | [][{}=,.] | [^][{}=,.\s#"']+''', re.S | re.X)

    def __init__(self, text):
        super().__init__({(): 1})
        self.tokens, self.arrays, line, base = [], {}, 1, ()
        for token in self.TOKEN.findall(text):
            if token[0] != "#":
                self.tokens.append((token, line))
            line += token.count("\n")
        self.tokens.reverse()
        while self.tokens:
            if self.next() == "[":
                base = self.header()
            elif self.next() == "\n":
                self.tokens.pop()
            else:
                self.pair(base)

    def next(self):
        return self.tokens[-1][0] if self.tokens else "\n"

    def key(self, path):
        """A key, dotted or not, behind a path."""
        while True:
            token, line = self.tokens.pop()
            path += (tomllib.loads(f"key = {token}")["key"] if token[0] in "\"'" else token,)
            self.setdefault(path, line)
            if self.next() != ".":
                return path
            self.tokens.pop()
            path += self.arrays.get(path, ())

    def header(self):
        """[a], or [[a]] for one more table of an array: the path of the keys below it."""
        line, brackets = self.tokens.pop()[1], 1
        if self.next() == "[":
            self.tokens.pop()
            brackets = 2
        path = self.key(())
        del self.tokens[-brackets:]
        if brackets == 2:
            self.arrays[path] = (self.arrays.get(path, (-1,))[0] + 1,)
            path += self.arrays[path]
            self[path] = line
        return path

    def pair(self, base):
        path = self.key(base)
        self.tokens.pop()
        self.value(path)

    def value(self, path):
        """Passes a value, and notes what stands in it."""
        opening, number = self.tokens.pop()[0], 0
        if opening in "[{":
            while self.next() not in "]}":
                if self.next() in ",\n":
                    self.tokens.pop()
                elif opening == "{":
                    self.pair(path)
                else:
                    self[path + (number,)] = self.tokens[-1][1]
                    self.value(path + (number,))
                    number += 1
            self.tokens.pop()
        while self.next() not in ",]}\n":
            self.tokens.pop()
