"""Documents that must be refused: each with the line, the column and the words of its fault.

`EXPAT` has those that expat refuses at the same place. `RULE` has those that expat refuses too, but
that name a place of their own: a fault's place is where something else must stand, and what has no
end is named where it begins. `BEYOND` has those that expat reads: no DOCTYPE, no other encoding and
no later XML is read, and there are limits."""

REFERENCE = "an entity that XML predefines, or a character's number"
OTHER_ATTRIBUTE = "an attribute that the tag hasn't already"
TARGET = 'the name of a processing instruction, other than `xml`'
NO_DECLARATION = 'no DOCTYPE or other declaration'
END = 'found the end of the text, wanted '

EXPAT = [
    # more or less than one element
    (b'', 1, 1, END + 'the element of the document'),
    (b'\n<!-- a -->\n', 3, 1, END + 'the element of the document'),
    (b'text', 1, 1, 'found `text`, wanted the element of the document'),
    (b'<![CDATA[a]]><b/>', 1, 1, 'found `<![CDATA[a]]><b/>`, wanted the element of the document'),
    (b'<a/>\n<b/>', 2, 1, 'found `<b/>`, wanted nothing behind the element of the document'),
    (b'<a></a>text', 1, 8, 'found `text`, wanted nothing behind the element of the document'),
    (b'<a>\n  <b></b>\n', 3, 1, END + 'the end tag of `a`'),
    # tags
    (b'<1a/>', 1, 2, 'found `1a/>`, wanted a name'),
    (b'< a/>', 1, 2, 'found ` a/>`, wanted a name'),
    (b'<a:b/>', 1, 1, 'found `<a:b/>`, wanted a prefix that is declared'),
    (b'<a b="1" b="2"/>', 1, 10, 'found `b="2"/>`, wanted ' + OTHER_ATTRIBUTE),
    (b'<a b="1"c="2"/>', 1, 9, 'found `c="2"/>`, wanted white space, `>` or `/>`'),
    (b'<a b "1"/>', 1, 6, 'found `"1"/>`, wanted `=`'),
    (b'<a b=1/>', 1, 6, 'found `1/>`, wanted a value in quotes'),
    (b'<a\n  b="x<y"/>', 2, 7, 'found `<y"/>`, wanted a value without `<`'),
    # references and characters
    (b'<a>&b;</a>', 1, 4, 'found `&b;</a>`, wanted ' + REFERENCE),
    (b'<a>&#0;</a>', 1, 4, 'found `&#0;</a>`, wanted ' + REFERENCE),
    (b'<a>&#xD800;</a>', 1, 4, 'found `&#xD800;</a>`, wanted ' + REFERENCE),
    (b'<a>\xc3\xa9\x01</a>', 1, 5, 'found `\\u{1}</a>`, wanted a character that XML allows'),
    (b'<a>\xef\xbf\xbf</a>', 1, 4, 'found `\\u{ffff}</a>`, wanted a character that XML allows'),
    (b'<a>\n\xe9</a>', 2, 1, 'found `\\xe9`, wanted UTF-8'),
    # comments, processing instructions, the declaration
    (b'<a><!-- b -- c --></a>', 1, 13, 'found ` c --></a>`, wanted `>` behind the `--` in a comment'),
    (b'<a><!-- b</a>', 1, 4, 'found `<!-- b</a>`, wanted a comment that ends with `-->`'),
    (b'<a><?b c></a>', 1, 4, 'found `<?b c></a>`, wanted a processing instruction that ends with `?>`'),
    (b' <?xml version="1.0"?><a/>', 1, 2, 'found `<?xml version="1.0"?><a/>`, wanted ' + TARGET),
    (b'<a><?xml version="1.0"?></a>', 1, 4, 'found `<?xml version="1.0"?></a>`, wanted ' + TARGET),
    (b'<?xml encoding="utf-8"?><a/>', 1, 7, 'found `encoding="utf-8"?><a/>`, wanted `version="1.0"`'),
]

RULE = [
    # the end tag, where expat names what stands behind its `</`
    (b'<a>\n  <b></c>\n</a>', 2, 6, 'found `</c>`, wanted the end tag of `b`'),
    (b'<a></a b>', 1, 4, 'found `</a b>`, wanted the end tag of `a`'),
    # a `]]>` from its beginning, where expat names its `>`
    (b'<a>b]]]>c</a>', 1, 6, 'found `]]>c</a>`, wanted text without `]]>`'),
    # the attribute or its reference, where expat names the tag
    (b'<a b="&c;"/>', 1, 7, 'found `&c;"/>`, wanted ' + REFERENCE),
    (b'<a b="&lt"/>', 1, 7, 'found `&lt"/>`, wanted ' + REFERENCE),
    (b'<a b:c="1"/>', 1, 4, 'found `b:c="1"/>`, wanted a prefix that is declared'),
    (b'<a xmlns:b=""/>', 1, 4, 'found `xmlns:b=""/>`, wanted a declaration that namespaces allow'),
    (b'<a xmlns:b="u" xmlns:c="u" b:d="1" c:d="2"/>', 1, 36, 'found `c:d="2"/>`, wanted ' + OTHER_ATTRIBUTE),
    # what has no end, from its beginning; and a tag at the end of the text
    (b'<a b="1>\n', 1, 6, 'found `"1>`, wanted a value that ends with its quote'),
    (b'<a><![CDATA[b</a>', 1, 4, 'found `<![CDATA[b</a>`, wanted a CDATA section that ends with `]]>`'),
    (b'<a b="1"', 1, 9, END + 'white space, `>` or `/>`'),
    # a whole name, and a whole field of the declaration
    (b'<a:b:c/>', 1, 2, 'found `a:b:c/>`, wanted a name'),
    (b'<?XML version="1.0"?><a/>', 1, 1, 'found `<?XML version="1.0"?><a/>`, wanted ' + TARGET),
    (b'<?xml version="1.0" standalone="maybe"?><a/>', 1, 21, 'found `standalone="maybe"?><a/>`, wanted `?>` at the end of the XML declaration'),
]

BEYOND = [
    (b'<!DOCTYPE a [<!ENTITY b "c">]>\n<a>&b;</a>', 1, 1, 'found `<!DOCTYPE a [<!ENTITY b "c">]>`, wanted ' + NO_DECLARATION),
    (b'<?xml version="1.0" encoding="ISO-8859-1"?><a/>', 1, 21, 'found `encoding="ISO-8859-1"?><a/>`, wanted the encoding UTF-8'),
    (b'<?xml version="2.0"?><a/>', 1, 7, 'found `version="2.0"?><a/>`, wanted `version="1.0"`'),
    (b'<a>' * 256 + b'\n<b/>' + b'</a>' * 256, 2, 1, 'found `' + ('<b/>' + '</a>' * 9) + '`, wanted at most 256 elements in one another'),
    (b'<a\n' + b''.join(b'b%d=""\n' % n for n in range(257)) + b'/>', 258, 1, 'found `b256=""`, wanted at most 256 attributes'),
    (b'<a\n' + b''.join(b'xmlns:b%d="u"\n' % n for n in range(65)) + b'/>', 66, 1, 'found `xmlns:b64="u"`, wanted at most 64 declared prefixes'),
]
