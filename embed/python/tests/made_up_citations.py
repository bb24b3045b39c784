"""Pages of Markdown with citations in pandoc's notation, made up by chance."""
import re

KEYS = ['doe99', 'roe2001a', 'Müller_2001', 'a:b', 'x.y-z', '_low', '2001odyssey', 'smith--jones',
        'c++', 'of#one', 'at/slash', 'p%20', 'q&a', 'ask?me', 'one~two', '{10.1000/a;b}',
        '{https://example.org/a?b=1&c=2}', '{a_{b}}', '{Foo_bar.baz.}', '{[x]}', '{ä,ö}', '{a@b}']
WORDS = ['so', 'rivers', 'flow', 'e.g.', 'Über', '1999', 'cf.', 'A', 'don’t', 'well-known', 'Nr.',
         'and', 'or;', '(so', 'there)', 'one,', 'two:', 'really?', 'i.e.', '3.5', '–', 'ad/hoc',
         "O'Brien", '“quoted”', '%', '#1', 'x=y', 'a+b', '5~6', '&amp;', '50 %']
LOCATORS = ['p. 3', 'pp. 3-5', 'pp. 33, 35-37', '3', '12-15', 'chap. 2', 'chapter 2', 'chaps. 2, 4',
            'sec. 4.2', '§ 3', '§§ 3-5', '¶ 7', 'vol. 2', 'fig. 3', 'p. iv', 'pp. iv-vi, 3',
            'no. 7', 'n. 4', 'v. 5', 'line 9', 'fol. 3r', 'bk. II', 'part 2', 'op. 3', 's.v. mill',
            '{p. A-3}', '{pp. iv, vi-xi, (xv)-(xvii)}', '{12}', '{}', '{§ A, b}', '3a', 'p.3',
            'p. 3 and', '3 & 5', 'pp. 3--5', 'A3', 'p. x', 'xx', 'chap. three', 'book', 'P. 3',
            'p. 3(a)', '(3)', '[3]', 'pp. 3, 5; see', 'vol. 2 p. 3', '3:4-5', 'p. 3 ff.']
OPAQUE = ['`@code`', '`` [@a] ` ``', '$x_{@a}$', '$[@a; b]$', '<me@example.org>', 'me@example.org',
          '<https://example.org/@a>', '[@a](https://example.org/@b)', '[text](x.html "@a")',
          '[text @doe99](x.html)', '![a picture @a](x.png)', r'\@doe99', r'\[@doe99\]',
          '[text][label]', '[label]', '[@label]', '[label][]', '<!-- [@a] -->', '{@a', '@', 'a@b',
          'x@doe99', '@ doe99', '1@a', '@{a b}', 'x - @', '`` @a ``', '$5 and 6$', r'\`@doe99\`',
          '@-', '@.', '@@']
TURNS = ['*so {}*', '**so {}**', '({})', '~~so {}~~', '<b>{}</b>', '[{}]', '[{}]{{.x}}',
         '***so {}***', '_so {}_']
QUOTES = ['“{}”', '"{}"', "'{}'", '‘{}’', '«{}»']
EXAMPLE = re.compile(r'^[ >]*@[\w-]+(?=\.\s)', re.MULTILINE)
"""A line that pandoc takes for an item of its numbered examples, where that is one of a list."""

SPACES = [' ', ' ', ' ', ' ', '\n']


class PageMaker:
    """Makes pages."""

    def __init__(self, random):
        self.random, self.notes = random, []

    def page(self):
        """A page of some blocks, with the definitions of its notes at the end."""
        self.notes = []
        parts = [self.block(0) for _ in range(self.random.randint(3, 6))]
        if self.random.random() < 0.3:
            parts.insert(0, '---\ntitle: Rivers @a\nauthor: "[@b]"\n---')
        parts += ['[label]: https://example.org/@label', *self.notes]
        return EXAMPLE.sub(r'\g<0> so', '\n\n'.join(parts)) + '\n'

    # Blocks

    def block(self, depth):
        """A block: a paragraph, or one that may have paragraphs in it."""
        kinds = [self._paragraph] * 6 + [self._heading, self._underlined, self._quote, self._list,
                                         self._numbered, self._code, self._indented, self._div,
                                         self._definition, self._comment, self._rule, self._table]
        return self.random.choice(kinds if depth < 2 else [self._paragraph])(depth)

    def _paragraph(self, depth):
        return self.text(2, 6)

    def _heading(self, depth):
        marks = '#' * self.random.randint(1, 4)
        text = in_line(self.text(1, 2))
        return f'{marks} {text}' + self.random.choice(['', ' {#x}', f' {marks}'])

    def _underlined(self, depth):
        return f'Head {in_line(self.text(1, 2))}\n' + self.random.choice('=-') * 5

    def _quote(self, depth):
        inside = '\n\n'.join(self.block(depth + 1) for _ in range(self.random.randint(1, 2)))
        return '\n'.join(f'> {line}'.rstrip() for line in inside.split('\n'))

    def _list(self, depth):
        return '\n'.join(self._item('-   ', depth) for _ in range(self.random.randint(1, 3)))

    def _numbered(self, depth):
        return '\n'.join(self._item(f'{number}.  ', depth)
                         for number in range(1, self.random.randint(2, 4)))

    def _item(self, mark, depth):
        inside = self.text(1, 3)
        if self.random.random() < 0.3:
            inside += '\n\n' + self.block(depth + 1) + '\n'
        return mark + indented(inside, 4)

    def _code(self, depth):
        fence = self.random.choice(['```', '~~~', '```` python'])
        return f'{fence}\n{self.citation()}\n\n[@a] @b\n{fence.split()[0]}'

    def _indented(self, depth):
        return '    see [@a]\n\n    and @b'

    def _div(self, depth):
        return f'::: {{.note}}\n{self.text(1, 3)}\n:::'

    def _definition(self, depth):
        return f'Term {self.word()}\n\n:   {indented(self.text(1, 3), 4)}'

    def _comment(self, depth):
        return f'<!-- {self.citation()}\n\n@a -->'

    def _rule(self, depth):
        return '* * *'

    def _table(self, depth):
        cells = [in_line(self.citation()) for _ in range(2)]
        rows = ''.join(f'| {cell} | {self.word()} |\n' for cell in cells)
        return f'| One | Two |\n|-----|-----|\n{rows}'.rstrip('\n')

    # Inlines

    def text(self, least, most):
        """A text that begins with a word, and has some citations."""
        parts = ['Text']
        for _ in range(self.random.randint(least, most)):
            parts += [self.space(), self.inline(0),
                      self.random.choice(['', '', ',', '.', ':', ';']), self.space(), self.word()]
        return ''.join(parts)

    def space(self):
        return self.random.choice(SPACES)

    def word(self):
        return self.random.choice(WORDS)

    def inline(self, depth):
        """A citation, or what may look like one, in some emphasis or in a note."""
        chance = self.random.random()
        if chance < 0.12 and depth < 2:
            return self.random.choice(TURNS).format(f'{self.inline(depth + 1)} thus')
        if chance < 0.17 and depth == 0:
            return self._note()
        if chance < 0.30:
            return self.random.choice(OPAQUE)
        if chance < 0.33:
            return self.random.choice(QUOTES).format(f'so @{self.key()} thus')
        return self.citation()

    def _note(self):
        """A word with a note, in the line or with a definition."""
        content = f'A note {self.inline(1)} here.'
        if self.random.random() < 0.4:
            return f'noted^[{content}]'
        label = f'n{len(self.notes)}'
        if self.random.random() < 0.3:
            content += f'\n\n    And more {self.inline(1)} there.'
        self.notes.append(f'[^{label}]: {content}')
        return f'noted[^{label}]'

    def citation(self):
        kind = self.random.random()
        if kind < 0.25:
            return f'@{self.key()}'
        if kind < 0.45:
            return f'@{self.key()} [{self._inside_of_named()}]'
        return f'[{self._cites()}]'

    def _inside_of_named(self):
        """What stands in the brackets behind a key: a locator, a suffix, and maybe more cites."""
        first = self.random.choice([self.locator(), f'{self.locator()}, {self.affix()}',
                                    self.affix()])
        more = f'; {self._cites()}' if self.random.random() < 0.3 else ''
        return first + more

    def _cites(self):
        return '; '.join(self._cite() for _ in range(self.random.choice([1, 1, 1, 2, 2, 3])))

    def _cite(self):
        prefix = f'{self.affix()} ' if self.random.random() < 0.35 else ''
        mark = '-@' if self.random.random() < 0.2 else '@'
        return f'{prefix}{mark}{self.key()}{self._suffix()}'

    def _suffix(self):
        chance = self.random.random()
        if chance < 0.3:
            return ''
        if chance < 0.6:
            return f'{self.random.choice([", ", " ", ","])}{self.locator()}'
        if chance < 0.85:
            return f', {self.locator()}{self.random.choice([", ", " "])}{self.affix()}'
        return f'{self.random.choice([", ", " "])}{self.affix()}'

    def affix(self):
        """Words around a cite."""
        kinds = ['see', 'see also', 'e.g.', '*emphasis*', '**strong *both***', '`code; @a`',
                 r'\[so\]', 'not [quite] so', '“so; there”', 'a *b; c* d', 'in part', 'passim',
                 'and (so on)', 'Über', '[a link](x.html)', '$a;b$', '1st', '“A title”,', r'\;',
                 '<b>bold</b>', 'me@example.org', 'x~2~', 'and elsewhere,', '"so"', 'http',
                 '[text][label]', 'a\nline', 'noted^[A note]', 'A--B', '—', '[; ]']
        return self.random.choice(kinds)

    def locator(self):
        return self.random.choice(LOCATORS)

    def key(self):
        return self.random.choice(KEYS)


def in_line(text):
    """A text without line feeds."""
    return text.replace('\n', ' ')


def indented(text, width):
    """A text whose lines but the first are indented."""
    return text.replace('\n', '\n' + ' ' * width).replace('\n' + ' ' * width + '\n', '\n\n')
